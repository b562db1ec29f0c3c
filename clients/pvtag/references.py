"""The references to entities in a text, and whether what they bring is of the form of XML where they stand.

The program is given stand-ins for references (`masks`), so it never reads what an entity brings. What XML 1.0 asks of an
entity that is referred to, in sections 3.1, 4.1 and 4.3.2, is looked at here, of each entity by itself and of those that
it refers to: its text is content, or in the value of an attribute text without `<`; it isn't referred to from inside
itself; it is no notation's, and in a value none of another file. Texts are read by expat.
"""
import re
from collections.abc import Iterator, Mapping
from typing import NamedTuple
from xml.parsers import expat

from .entities import Entity
from .places import Span, document_items

PREDEFINED = frozenset((b"lt", b"gt", b"amp", b"apos", b"quot"))
ENTITY = re.compile(rb"&(?!#|(?:lt|gt|amp|apos|quot);)[^\s&;<]+;")
REFERENCE = re.compile(rb"""&([^\s&;<#"'>/=]+);""")
# What no text may hold, and what expat reads by an older edition's tables of names.
NO_CHARACTER = re.compile(rb"\xef\xbf[\xbe\xbf]")
LETTERS = b"ABCDEFGHIJKLMNOPQRSTUVWXYZabcdefghijklmnopqrstuvwxyz0123456789_."
# Characters beyond ASCII as so many letters, others for each.
SPELLED = bytes(range(0x80)) + LETTERS + LETTERS
# What a reference in a text counts for, beside its bytes.
PER_REFERENCE = 16
# So that a reference to an entity that isn't declared there is no fault: it may be declared elsewhere.
DOCTYPE, IN_DOCTYPE = b'<!DOCTYPE a SYSTEM "a">', b'<!DOCTYPE a SYSTEM "a" '


def references_in(data: bytes) -> Iterator[tuple[Span, bytes, bool]]:
    """The references to entities in a document's texts and tags, as far as items can be read: each with its name, and
    whether it stands in a value of an attribute."""
    if ENTITY.search(data) is None:
        return
    for item in document_items(data):
        if item.kind in ("text", "start", "empty"):
            is_value = item.kind != "text"
            for found in REFERENCE.finditer(data, item.start, item.end):
                if found[1] not in PREDEFINED:
                    yield Span(*found.span()), found[1], is_value


class Key(NamedTuple):
    """A reference: the name of its entity, and whether it stands in a value of an attribute."""

    name: bytes
    is_value: bool


class Fault(NamedTuple):
    """What is wrong with an entity where it is referred to."""

    name: bytes
    what: str


class Texts:
    """The texts of entities, each looked at once where it stands in content, and once in values; of all at most `most`
    bytes."""

    def __init__(self, entities: Mapping[bytes, Entity], most: int) -> None:
        self.entities, self.left, self.known = entities, most, dict[Key, Fault | None]()

    def sentence(self, name: bytes, is_value: bool) -> str:
        """What is wrong with a reference to an entity; "" where nothing is found."""
        fault = self.fault(Key(name, is_value))
        if fault is None:
            return ""
        shown, other = (each.decode(errors="replace") for each in (name, fault.name))
        via = f" brings `&{other};`, which" if fault.name != name else ""
        return f"the document isn't well-formed: `&{shown};`{via} {fault.what}"

    def fault(self, key: Key) -> Fault | None:
        """What is wrong with an entity, or first with one that it brings."""
        # The entities that are being looked at, and what each refers to still.
        path = dict[Key, Iterator[Key]]()
        while True:
            if key in path:
                fault: Fault | None = Fault(key.name, "refers to itself")
            elif key in self.known:
                fault = self.known[key]
            else:
                fault, inner = self.own(key)
                path[key] = iter(inner)
            if fault is not None:
                self.known |= dict.fromkeys([*path, key], fault)
                return fault
            following = None
            while path and following is None:
                last = next(reversed(path))
                following = next(path[last], None)
                if following is None:
                    del path[last]
                    self.known[last] = None
            if following is None:
                return None
            key = following

    def own(self, key: Key) -> tuple[Fault | None, list[Key]]:
        """What is wrong with an entity's own text, and the references in it."""
        entity = self.entities.get(key.name)
        if entity is None:
            return None, []
        if entity.is_unparsed:
            return Fault(key.name, "is no text, since its declaration names a notation"), []
        if entity.is_external and key.is_value:
            return Fault(key.name, "stands in another file, which no value of an attribute may refer to"), []
        text = entity.text
        size = len(text) + PER_REFERENCE * text.count(b"&") if text is not None else 0
        if text is None or size > self.left:
            return None, []
        self.left -= size
        if key.is_value and b"<" in text:
            return Fault(key.name, "has a `<` in its text, which no value of an attribute may bring"), []
        what = fault_of_value(text) if key.is_value else fault_of_content(text)
        if what:
            return Fault(key.name, what), []
        if key.is_value:
            return None, [Key(name, True) for name in dict.fromkeys(it[1] for it in REFERENCE.finditer(text)) if name not in PREDEFINED]
        return None, [Key(*it) for it in dict.fromkeys((name, is_value) for _, name, is_value in references_in(text))]


def fault_of_content(text: bytes) -> str:
    """What is wrong with a text as content."""
    if b"<" not in text and b"&" not in text and b"]]>" not in text and text.isascii():
        return ""
    name = b"a"
    while b"/%b" % name in text:
        name += b"-"
    front = b"%b<%b>" % (DOCTYPE, name)
    found = fault_in(b"%b%b</%b>" % (front, text, name))
    if found is None:
        return ""
    at, why = found
    if b"]]>" in text[max(0, at - len(front) - 2):at - len(front) + 3]:
        return "has `]]>` in its text"
    return f"brings what can't stand in an element (expat: {why})"


def fault_of_value(text: bytes) -> str:
    """What is wrong with a text as a part of an attribute's value."""
    found = fault_in(b"%b<a b='%b'/>" % (DOCTYPE, text.replace(b"'", b"&#39;")))
    return f"brings what can't stand in a value of an attribute (expat: {found[1]})" if found is not None else ""


def fault_of_subset(text: bytes) -> tuple[int, str] | None:
    """Where the declarations of a subset, with its brackets, aren't of their form, and why; none where they are."""
    found = fault_in(b"%b%b><a/>" % (IN_DOCTYPE, text))
    return (min(max(0, found[0] - len(IN_DOCTYPE)), len(text) - 1), found[1]) if found is not None else None


def fault_in(document: bytes) -> tuple[int, str] | None:
    """Where a document isn't well-formed, by expat, and why. Of characters beyond ASCII a name may have more than expat
    takes: those are read as letters then."""
    if document.isascii():
        return asked(document)
    try:
        document.decode()
    except UnicodeDecodeError as wrong:
        return wrong.start, "no UTF-8"
    found = NO_CHARACTER.search(document)
    if found is not None:
        return found.start(), "no character of XML"
    return asked(document) and asked(document.translate(SPELLED))


def asked(document: bytes) -> tuple[int, str] | None:
    """What expat says."""
    parser = expat.ParserCreate("utf-8")
    try:
        parser.Parse(document, True)
    except expat.ExpatError as fault:
        return max(0, parser.ErrorByteIndex), expat.ErrorString(fault.code) or "not well-formed"
    return None
