"""Where the items of a DTD stand in its file, also where parameter entities are put in place (docs/FORMATS.md).

An item that stands in an entity's text is told by the reference in the file that brings it. This is for showing a place
alone: what is at fault, and which item, the program tells.
"""
import re
from collections.abc import Iterator
from typing import NamedTuple

from .places import DECLARATION, Item, Span, front_mark

# What other tools may use; each has an example.
__all__ = ("dtd_items", "general_entities")

LITERAL = rb"""(?:"[^"]*"|'[^']*')"""
ITEM = re.compile(
    rb"""\s+|(?P<comment><!--.*?-->)|(?P<instruction><\?.*?\?>)|%(?P<reference>[^\s;%&<>"']+);"""
    rb"""|<!ENTITY\s+%\s+(?P<entity>[^\s;%&<>"']+)\s+(?P<value>""" + LITERAL + rb""")\s*>"""
    rb"""|(?P<external><!ENTITY\s+%\s+[^\s;%&<>"']+\s+(?:SYSTEM|PUBLIC))|(?P<conditional><!\[)"""
    rb"""|(?P<element><!ELEMENT\s(?P<model>(?:[^<>"']|""" + LITERAL + rb""")*)>)"""
    rb"""|(?P<skipped><!(?:ATTLIST|ENTITY|NOTATION)\s(?P<rest>(?:[^<>"']|""" + LITERAL + rb""")*)>)""",
    re.S,
)
REFERENCE = re.compile(LITERAL + rb"""|%(?P<name>[^\s;%&<>"']+);""")
IN_VALUE = re.compile(rb"""%([^\s;%&<>"']+);|&#([0-9]+);|&#x([0-9a-fA-F]+);""")
# Texts of more bytes, deeper in one another, and more references are left to the program.
MOST_BYTES, MOST_DEPTH, MOST_REFERENCES = 1 << 20, 100, 1 << 16
# So much of entities' texts is kept in all.
MOST_KEPT = 64 << 20


# A declaration of an entity that documents refer to: its text, or where it stands, and the notation of one that isn't parsed.
GENERAL = re.compile(
    rb"""<!ENTITY\s+(?P<name>[^\s;%&<>"']+)\s+(?:(?P<value>""" + LITERAL + rb""")|(?:SYSTEM\s+|PUBLIC\s+""" + LITERAL + rb"""\s+)"""
    rb"""(?P<file>""" + LITERAL + rb""")(?:\s+NDATA\s+(?P<notation>[^\s;%&<>"']+))?)\s*>""",
    re.S,
)


class Entity(NamedTuple):
    """An entity that documents refer to: its replacement text, none where it isn't known or stands in another file, as
    `is_external` says; `is_unparsed` where it is no text at all."""

    name: bytes
    text: bytes | None
    is_unparsed: bool = False
    is_external: bool = False


class Stop(Exception):
    """The reading stops here: the program's word for it, "" where it isn't known, and the bytes of the file."""

    def __init__(self, kind: str, span: Span) -> None:
        super().__init__(kind)
        self.kind, self.span = kind, span


class Reading:
    """What of a DTD was read: its entities by their names, and the references that are being read."""

    def __init__(self) -> None:
        self.entities: dict[bytes, bytes] = {}
        # Those that documents refer to.
        self.general: dict[bytes, Entity] = {}
        self.open: list[bytes] = []
        self.references = self.kept = 0

    def between(self, text: bytes, at: int, span: Span | None) -> Iterator[Item]:
        """The items of a text between declarations; `span` is that of the reference which brings it, if one does."""
        while at < len(text):
            found = ITEM.match(text, at)
            here = span or Span(at, found.end() if found else at)
            if found is None:
                raise Stop("syntax" if span else "", here)
            at = found.end()
            kind = found.lastgroup
            if found["reference"]:
                yield from self.referred(found["reference"], here)
            elif found["entity"]:
                text_of = self.value(found["value"][1:-1], here)
                self.keep(len(text_of), here)
                self.entities.setdefault(found["entity"], text_of)
            elif found["external"] or found["conditional"]:
                raise Stop(kind or "", here)
            elif kind is not None:
                inside = "model" if found["element"] else "rest" if found["skipped"] else None
                if inside:
                    self.inside(found[inside], span or here, found.start(inside) if span is None else None)
                if found["skipped"] and (entity := general(found["skipped"], self.entities)) is not None:
                    self.keep(len(entity.text or b""), here)
                    self.general.setdefault(entity.name, entity)
                yield Item("element" if found["element"] else "skipped" if found["skipped"] else kind, *here)

    def entity(self, name: bytes, span: Span) -> bytes:
        """The text of an entity that is referred to."""
        if name not in self.entities:
            raise Stop("undeclared", span)
        if name in self.open:
            raise Stop("recursive", span)
        self.references += 1
        if len(self.open) == MOST_DEPTH or self.references > MOST_REFERENCES:
            raise Stop("", span)
        return self.entities[name]

    def referred(self, name: bytes, span: Span) -> Iterator[Item]:
        text = self.entity(name, span)
        self.open.append(name)
        yield from self.between(text, 0, span)
        self.open.pop()

    def inside(self, text: bytes, span: Span, begin: int | None) -> None:
        """Looks for references in a declaration; `begin` is its offset in the file, none where an entity brings it."""
        for found in REFERENCE.finditer(text):
            if name := found["name"]:
                here = span if begin is None else Span(begin + found.start(), begin + found.end())
                below = self.entity(name, here)
                self.open.append(name)
                self.inside(below, here, None)
                self.open.pop()

    def value(self, text: bytes, span: Span) -> bytes:
        """The text that a value declares."""
        parts, at, size = [], 0, 0
        for found in IN_VALUE.finditer(text):
            parts.append(text[at:found.start()])
            begin, at = at, found.end()
            if found[1]:
                below = self.entity(found[1], span)
                self.open.append(found[1])
                parts.append(self.value(below, span))
                self.open.pop()
            else:
                parts.append(character_of(found[2], 10) if found[2] else character_of(found[3], 16))
            size += found.start() - begin + len(parts[-1])
            if size > MOST_BYTES:
                raise Stop("", span)
        made = b"".join([*parts, text[at:]])
        if len(made) > MOST_BYTES:
            raise Stop("", span)
        return made

    def keep(self, size: int, span: Span) -> None:
        """Counts what is kept of texts, and stops where that is too much."""
        self.kept += size
        if self.kept > MOST_KEPT:
            raise Stop("", span)


def character_of(digits: bytes, base: int) -> bytes:
    """The character of a reference's number, which may have thousands of digits."""
    digits = digits.lstrip(b"0")[:9]
    return chr(min(int(digits or b"0", base), 0x10FFFF)).encode(errors="replace")


def dtd_items(data: bytes) -> Iterator[Item]:
    """The items of a DTD from its start, up to the first place where none stands; then it raises `Stop`.

    >>> [item.kind for item in dtd_items(b"<!ENTITY % x 'ANY'><!ELEMENT a %x;>")]
    ['element']
    """
    at = front_mark(data)
    if found := DECLARATION.match(data, at):
        yield Item("declaration", at, found.end())
        at = found.end()
    yield from Reading().between(data, at, None)


def general(declaration: bytes, parameters: dict[bytes, bytes]) -> Entity | None:
    """The entity that a declaration declares for documents, if it does; `parameters` are the parameter entities by then."""
    found = GENERAL.fullmatch(declaration)
    if found is None:
        return None
    reading = Reading()
    # A value declares nothing.
    reading.entities = parameters
    try:
        text = reading.value(found["value"][1:-1], Span(0, 0)) if found["value"] else None
    except Stop:
        # A text with a parameter entity that isn't known.
        text = None
    return Entity(found["name"], text, found["notation"] is not None, found["file"] is not None)


def general_entities(data: bytes, is_partial: bool = False) -> dict[bytes, Entity]:
    """The entities that a DTD declares for documents. Where its reading stops it raises `Stop`, or tells those before.

    >>> general_entities(b"<!ENTITY me 'Anna'>")[b"me"].text
    b'Anna'
    """
    at = front_mark(data)
    if found := DECLARATION.match(data, at):
        at = found.end()
    reading = Reading()
    try:
        for _ in reading.between(data, at, None):
            pass
    except Stop:
        if not is_partial:
            raise
    return reading.general
