"""A document with an internal subset or with entities, as the program reads it, and the way back.

The program reads no declarations in a document's type declaration and no references but those to characters and to the
five names of XML. So it is given the document with its internal subset as blanks, and with other references in stand-ins:

    an entity of text          a reference to a character, so that it is data, one unit of a text
    one of white space alone   an instruction: it fills no element, and is no data
    anything else              as an entity of text, with a remark: one that brings elements or stands in another file
                               (what is said of the document isn't all that there is), one that isn't declared

Nothing is put in place of a reference, so nothing grows by entities in entities; of the texts of an entity at most
`MOST_BYTES` are read. What the program prints has the stand-ins, and `restored` puts back what they stand for.

    masked = mask(data, dtd)
    masked.data                 what the program is given: `data` itself where there is nothing to mask
    masked.original(span)       the bytes of the document that bytes of `masked.data` stand for
    masked.restored(printed)    a document that the program printed, as its author writes it
    masked.remarks              what is to be said of the subset and of references, each with its place
"""
import bisect
import functools
import re
from collections.abc import Iterator, Mapping
from typing import NamedTuple

from .entities import ITEM as DECLARED_ITEM
from .entities import LITERAL, MOST_BYTES, MOST_DEPTH, Entity, Stop, character_of, general, general_entities
from .places import Place, Source, Span, Unit, front_mark
from .references import ENTITY, PER_REFERENCE, Texts, fault_of_subset, references_in

# What other tools may use; each has an example.
__all__ = ("Masked", "mask")

# The line that writes a document plain, with all that its entities bring.
PLAIN = "xmllint --nonet --noent --loaddtd --dropdtd FILE"
# A document type declaration with declarations in it, up to its `[`.
SUBSET = re.compile(rb"""<!DOCTYPE\s(?:[^>"'\[]++|"[^"]*"|'[^']*')*+\[""")
# What a stand-in looks like: a number with so many zeros before it, in a reference or an instruction.
FIRST = 0x10000
STAND_IN = re.compile(rb"&#0[0-9]*;|<\?pvtag-entity[-0-9]*\?>")
# So many bytes of entities' texts are put into values of attributes, for what looks at these.
MOST_SPELLED = 16 << 20
# The most that stand-ins may come to, which is what the program reads of a document.
MOST_STANDING = 64 << 20
WHITE = b" \t\r\n"
# Each byte as a blank, but line ends.
BLANK = bytes(byte if byte in b"\r\n" else 32 for byte in range(256))


class Remark(NamedTuple):
    """What is said of bytes of the document: `kind` is "entity" (it isn't declared), "brings" (elements, or what stands in
    another file, which isn't seen), "element" (a declaration of one in the subset) or "subset" (what isn't read of it).
    `is_fault` where the document isn't well-formed there: it is no document, whatever is said of the rest."""

    kind: str
    span: Span
    sentence: str
    is_fault: bool = False


class Part(NamedTuple):
    """A reference in the document, the bytes that stand for it, and whether it is in a value of an attribute."""

    of: Span
    by: Span
    is_value: bool


class Masked:
    """A document as the program reads it.

    >>> masked = mask(b"<!DOCTYPE p [<!ENTITY me 'Anna'>]><p>&me;</p>", b"")
    >>> masked.is_plain, masked.fault is None
    (False, True)
    >>> masked.restored(masked.data) == masked.source
    True
    """

    def __init__(self, source: bytes, data: bytes, parts: list[Part], stands: Mapping[bytes, bytes], subset: Span | None,
                 remarks: list[Remark], texts: "Mapping[bytes, Text]") -> None:
        self.source, self.data, self.parts, self.stands, self.subset = source, data, parts, stands, subset
        self.remarks, self.texts = remarks, texts

    @functools.cached_property
    def ofs(self) -> list[int]:
        """Where the references begin."""
        return [part.of.start for part in self.parts]

    @functools.cached_property
    def bys(self) -> list[int]:
        """Where what stands for them begins."""
        return [part.by.start for part in self.parts]

    @property
    def is_plain(self) -> bool:
        """Whether nothing is masked."""
        return self.data is self.source

    @property
    def declarations(self) -> bytes:
        """What stands in the document's internal subset."""
        return self.source[self.subset.start + 1:self.subset.end - 1] if self.subset is not None else b""

    @property
    def is_whole(self) -> bool:
        """Whether what the program says is of all of the document: no reference brings elements or another file."""
        return all(remark.kind != "brings" for remark in self.remarks)

    @functools.cached_property
    def unknown(self) -> list[Part]:
        """The references in values of attributes to entities whose texts aren't known."""
        known = {b"&%b;" % name for name, text in self.texts.items() if text.text is not None}
        return [part for part in self.parts if part.is_value and self.source[slice(*part.of)] not in known]

    @property
    def fault(self) -> Remark | None:
        """The first place at which the subset, or what a reference brings, isn't of the form of XML."""
        faults = [remark for remark in self.remarks if remark.is_fault]
        return min(faults, key=lambda remark: remark.span) if faults else None

    def offset(self, at: int, ends: bool = False) -> int:
        """The offset in the document of one in `data`; inside of a stand-in that of the reference's start or end."""
        return moved(at, self.parts, self.bys, False, ends)

    def masked_offset(self, at: int, ends: bool = False) -> int:
        """The offset in `data` of one in the document; inside of a reference that of its stand-in's start or end."""
        return moved(at, self.parts, self.ofs, True, ends)

    def original(self, span: Span) -> Span:
        """The bytes of the document that bytes of `data` stand for."""
        return Span(self.offset(span.start), self.offset(span.end, True))

    def masked(self, span: Span) -> Span:
        """The bytes of `data` that stand for bytes of the document."""
        return Span(self.masked_offset(span.start), self.masked_offset(span.end, True))

    def restored(self, printed: bytes) -> bytes:
        """What the program printed of this document, or of one that it made of it, with what the stand-ins stand for. The
        subset comes back where the document's front stands."""
        if self.subset is not None and printed.startswith(head := self.data[:self.subset.end]):
            printed = self.source[:self.subset.end] + printed[len(head):]
        return STAND_IN.sub(lambda found: self.stands.get(found[0], found[0]), printed) if self.stands else printed

    def like(self, other: "Masked") -> tuple["Masked", Mapping[bytes, bytes]]:
        """This document with the stand-ins of another one, so that an entity has the same one in both; and for each old
        stand-in its new one. An entity that the other doesn't refer to gets a stand-in that the other doesn't have."""
        theirs = {(name, form[:1]): form for form, name in other.stands.items()}
        forms, count = dict[bytes, bytes](), len(other.stands)
        for form, name in self.stands.items():
            count += 1
            fresh = b"&#0%d;" % (FIRST + count) if form.startswith(b"&") else b"<?pvtag-entity-0-%d?>" % count
            forms[form] = theirs.get((name, form[:1]), fresh)
        data = STAND_IN.sub(lambda found: forms.get(found[0], found[0]), self.data) if forms else self.data
        stands = {forms[form]: name for form, name in self.stands.items()}
        return Masked(self.source, data, [], stands, self.subset, [], {}), forms

    def restored_text(self, printed: str) -> str:
        """A text that the program printed, with what the stand-ins in it stand for."""
        return self.restored(printed.encode(errors="surrogateescape")).decode(errors="surrogateescape")

    def spelled(self) -> bytes:
        """`data` with the texts of entities in the values of attributes, for what looks at these. What isn't known stays,
        and so does what would be more than `MOST_SPELLED`."""
        out, at, left = list[bytes](), 0, MOST_SPELLED
        for part in self.parts:
            name = self.source[part.of.start + 1:part.of.end - 1]
            text = self.texts[name].text if part.is_value and name in self.texts else None
            if text is not None and len(text) <= left:
                left -= len(text)
                out += [self.data[at:part.by.start], escaped(text)]
                at = part.by.end
        return b"".join([*out, self.data[at:]]) if out else self.data


class MaskedSource(Source):
    """A masked document's file: its bytes are those that the program is given, lines and columns those of the document."""

    def __init__(self, name: str, masked: Masked) -> None:
        super().__init__(name, masked.data)
        self.masked, self.as_written = masked, Source(name, masked.source)

    def position(self, offset: int, unit: Unit) -> tuple[int, int]:
        return self.as_written.position(self.masked.offset(offset), unit)

    def place(self, offset: int) -> Place:
        return self.as_written.place(self.masked.offset(offset))

    def offset(self, line: int, column: int, unit: Unit) -> int:
        return self.masked.masked_offset(self.as_written.offset(line, column, unit))

    def line(self, number: int) -> bytes:
        return self.as_written.line(number)


def moved(at: int, parts: list[Part], starts: list[int], is_masked: bool, ends: bool) -> int:
    """An offset in the document as one in what the program is given, or the other way round."""
    number = bisect.bisect_right(starts, at) - 1
    if number < 0:
        return at
    of, by, _ = parts[number]
    mine, other = (of, by) if is_masked else (by, of)
    if at >= mine.end:
        return other.end + at - mine.end
    return other.end if ends and at > mine.start else other.start


def mask(data: bytes, dtd: bytes = b"") -> Masked:
    """The document as the program reads it; `dtd` is the DTD in force, whose entities it may refer to. What isn't of the
    form of XML is left as it is: the program tells it.

    >>> mask(b"<p>Anna</p>", b"").is_plain
    True
    """
    subset = subset_of(data)
    if subset is None and b"&" not in data:
        return Masked(data, data, [], {}, None, [], {})
    blank = data
    if subset is not None:
        blank = data[:subset.start] + data[slice(*subset)].translate(BLANK) + data[subset.end:]
    references = list(references_in(blank))
    if subset is None and not references:
        return Masked(data, data, [], {}, None, [], {})
    entities, remarks = read_subset(data, subset) if subset is not None else ({}, [])
    if subset is not None and not any(it.is_fault for it in remarks) and (fault := fault_of_subset(data[slice(*subset)])) is not None:
        at = subset.start + fault[0]
        remarks.append(Remark("subset", Span(at, at + 1), f"the document's own declarations aren't well-formed here (expat: {fault[1]})", is_fault=True))
    if references:
        entities = {**declared_by(dtd), **entities}
    standing = Standing(blank, entities)
    if standing.zeros * len(references) > MOST_STANDING:
        return Masked(data, data, [], {}, None, [], {})
    pieces, parts, at, size = list[bytes](), list[Part](), 0, 0
    forms, told = Texts(entities, MOST_SPELLED), set[tuple[bytes, bool]]()
    for span, name, is_value in references:
        form, kind, sentence = standing.of(name, is_value)
        wrong = forms.sentence(name, is_value) if (name, is_value) not in told else ""
        told.add((name, is_value))
        if wrong:
            remarks.append(Remark("brings", span, wrong, is_fault=True))
        elif sentence:
            remarks.append(Remark(kind, span, sentence))
        pieces += [blank[at:span.start], form]
        size += span.start - at
        parts.append(Part(span, Span(size, size + len(form)), is_value))
        size, at = size + len(form), span.end
    return Masked(data, b"".join([*pieces, blank[at:]]), parts, standing.stands, subset, remarks, standing.texts)


class Standing:
    """The stand-ins of a document: forms that it doesn't hold."""

    def __init__(self, data: bytes, entities: Mapping[bytes, Entity]) -> None:
        self.entities, self.stands = entities, dict[bytes, bytes]()
        self.zeros, self.target = unused(data)
        self.forms = dict[tuple[bytes, bool], bytes]()
        self.kinds, self.texts = dict[bytes, tuple[str, str]](), dict[bytes, Text]()
        self.left = MOST_SPELLED

    def of(self, name: bytes, is_value: bool) -> tuple[bytes, str, str]:
        """What stands for a reference, the kind of its remark, and the sentence where this is the first of its name."""
        is_first = name not in self.kinds
        if is_first:
            self.kinds[name] = self.kind_of(name)
        kind, sentence = self.kinds[name]
        is_space = kind == "white" and not is_value
        form = self.forms.get((name, is_space))
        if form is None:
            number = len(self.forms) + 1
            form = b"<?%s%d?>" % (self.target, number) if is_space else b"&#%s%d;" % (b"0" * self.zeros, FIRST + number)
            self.forms[name, is_space] = form
            self.stands[form] = b"&%s;" % name
        return form, kind, sentence if is_first else ""

    def kind_of(self, name: bytes) -> tuple[str, str]:
        """What a reference to an entity brings, "text", "white", "brings" or "entity", and what is to be said of it."""
        shown = name.decode(errors="replace")
        entity = self.entities.get(name)
        if entity is None:
            return "entity", f"`&{shown};` isn't declared, in the document or in the DTD; it is taken as text"
        if entity.is_unparsed:
            return "entity", f"`&{shown};` is no text: its declaration names a notation"
        how = f"`{PLAIN}` writes the document plain"
        if entity.text is None:
            return "brings", f"`&{shown};` stands for what isn't read here, as another file; it is taken as text. {how}"
        found = self.texts[name] = data_of(entity.text, self.entities, min(self.left, MOST_BYTES))
        self.left -= found.size
        if found.text is None:
            return "brings", f"`&{shown};` brings {found.why}, which isn't seen here; it is taken as text. {how}"
        return ("white", "") if found.is_white else ("text", "")


def unused(data: bytes) -> tuple[int, bytes]:
    """So many zeros, few, as no reference of the document begins with, and a target of instructions that it doesn't have."""
    taken = {len(found[1]) for found in re.finditer(rb"&#(0*)", data)}
    zeros = next(zeros for zeros in range(1, len(taken) + 2) if zeros not in taken)
    target = b"pvtag-entity"
    while target in data:
        target += b"-"
    return zeros, target


class Text(NamedTuple):
    """The characters that an entity brings, none where it brings other things, `why`; `is_white` where they are white space
    that isn't data: a reference to a character is. `size` is how much was read for it."""

    text: bytes | None
    size: int
    is_white: bool = False
    why: str = ""


def data_of(text: bytes, entities: Mapping[bytes, Entity], most: int = MOST_BYTES) -> Text:
    """What a replacement text brings, of which at most so much is read."""
    out, is_white, left = list[bytes](), True, most
    open_ = [(text, 0)]
    while open_:
        here, at = open_.pop()
        if at == 0 and b"<" in here:
            return Text(None, most - left, False, "elements or other markup")
        found = IN_TEXT.search(here, at)
        plain = here[at:found.start() if found is not None else len(here)]
        out.append(plain)
        is_white = is_white and not plain.strip(WHITE)
        left -= len(plain) + PER_REFERENCE
        if left < 0 or len(open_) > MOST_DEPTH:
            return Text(None, most - left, False, "more text than is read, or itself")
        if found is None:
            continue
        open_.append((here, found.end()))
        name = found[3]
        if name is None or name in NAMED:
            out.append(NAMED[name] if name is not None else character(found))
            is_white = False
        elif name in entities and (inner := entities[name].text) is not None:
            open_.append((inner, 0))
        else:
            return Text(None, most - left, False, f"`&{name.decode(errors='replace')};`")
    return Text(b"".join(out), most - left, is_white)


def character(found: re.Match[bytes]) -> bytes:
    """The character of a reference."""
    return character_of(found[2] or b"0", 10) if found[1] is None else character_of(found[1], 16)


IN_TEXT = re.compile(rb"""&(?:#x([0-9a-fA-F]+)|#([0-9]+)|([^\s&;<#"']+));""")
NAMED = {b"lt": b"<", b"gt": b">", b"amp": b"&", b"apos": b"'", b"quot": b'"'}
SPECIAL = {b"&": b"&amp;", b"<": b"&lt;", b'"': b"&quot;", b"'": b"&apos;", b"\t": b"&#9;", b"\n": b"&#10;", b"\r": b"&#13;"}


def escaped(text: bytes) -> bytes:
    return re.sub(rb"""[&<"'\t\n\r]""", lambda found: SPECIAL[found[0]], text)


# ---- where references and the subset stand ----

HIDDEN_OR_ENTITY = re.compile(
    rb"<!--(?:.*?-->|.*)|<!\[CDATA\[(?:.*?\]\]>|.*)|<\?(?:.*?\?>|.*)|&(?!#|(?:lt|gt|amp|apos|quot);)([^\s&;<#\"'>/=]+);", re.S)


def same_length(data: bytes) -> bytes:
    """The document with its subset and its entities masked by as many bytes, for who tells places and writes nothing of it
    back: letters for an entity of text, blanks for one that the subset declares as white space. Its nodes are the same."""
    subset = subset_of(data)
    if subset is None and ENTITY.search(data) is None:
        return data
    white = set[bytes]()
    if subset is not None:
        entities, _ = read_subset(data, subset)
        texts = {name: data_of(entity.text, entities, MOST_BYTES // 64) for name, entity in entities.items() if entity.text is not None}
        white = {name for name, found in texts.items() if found.text is not None and found.is_white}
        data = data[:subset.start] + data[slice(*subset)].translate(BLANK) + data[subset.end:]

    def stand_in(found: re.Match[bytes]) -> bytes:
        if found[1] is None:
            return found[0]
        return (b" " if found[1] in white else b"x") * len(found[0])

    return HIDDEN_OR_ENTITY.sub(stand_in, data)


def subset_of(data: bytes) -> Span | None:
    """The internal subset of a document, with its brackets; none where it has none, or one that doesn't end."""
    at = front_mark(data)
    while (found := IN_FRONT.match(data, at)) is not None:
        at = found.end()
    begin = SUBSET.match(data, at)
    if begin is None:
        return None
    start = begin.end() - 1
    end = begin.end()
    for item, _, stop in subset_items(data, end):
        end = stop
        if item == "end":
            return Span(start, end)
    return None


IN_FRONT = re.compile(rb"\s+|<\?.*?\?>|<!--.*?-->", re.S)
SUBSET_ITEM = re.compile(
    rb"""(?P<white>\s+)|(?P<end>\])|(?P<comment><!--.*?-->)|(?P<instruction><\?.*?\?>)|(?P<reference>%[^\s;%&<>"']+;)"""
    rb"""|(?P<declaration><!(?:ELEMENT|ATTLIST|ENTITY|NOTATION)\s(?:[^<>"']++|""" + LITERAL + rb""")*+>)|(?P<other>[^\]])""",
    re.S,
)


def subset_items(data: bytes, at: int) -> Iterator[tuple[str, int, int]]:
    """What a subset holds from there on, up to its `]`: kinds and offsets. After what is no item the next `]` ends it."""
    while (found := SUBSET_ITEM.match(data, at)) is not None:
        kind = found.lastgroup or ""
        yield kind, at, (at := found.end())
        if kind == "end":
            return
        if kind == "other":
            at = data.find(b"]", at)
            if at < 0:
                return


def read_subset(data: bytes, subset: Span) -> tuple[dict[bytes, Entity], list[Remark]]:
    """The entities that a subset declares, and what is to be said of it. The first declaration of a name counts; a
    parameter entity that isn't declared here ends what can be known."""
    parameters, entities, remarks = dict[bytes, bytes](), dict[bytes, Entity](), list[Remark]()
    elements, seen = list[Span](), set[bytes]()
    for kind, start, end in subset_items(data, subset.start + 1):
        text = data[start:end]
        if kind == "reference" and text not in seen:
            # A second one brings nothing that isn't declared.
            seen.add(text)
            read_reference(text[1:-1], Span(start, end), parameters, entities, remarks)
        elif kind == "other":
            remarks.append(Remark("subset", Span(start, end), "no declaration of a document's type declaration stands here", is_fault=True))
            break
        elif kind == "declaration" and text.startswith(b"<!ELEMENT"):
            elements.append(Span(start, end))
        elif kind == "declaration" and text.startswith(b"<!ENTITY"):
            found = DECLARED_ITEM.fullmatch(text)
            if found is not None and found["entity"]:
                parameters.setdefault(found["entity"], found["value"][1:-1])
            elif (entity := general(text, {})) is not None:
                # A parameter entity in its value isn't allowed here: the text isn't known then.
                entities.setdefault(entity.name, entity)
    if elements:
        count = f"{len(elements)} elements" if len(elements) > 1 else "an element"
        remarks.append(Remark("element", elements[0], f"the document declares {count} itself; the DTD in force is another one,"
                                                      " and what is said is by that alone"))
    return entities, remarks


def read_reference(name: bytes, span: Span, parameters: Mapping[bytes, bytes], entities: dict[bytes, Entity],
                   remarks: list[Remark]) -> None:
    """Reads what a reference in a subset brings."""
    shown = name.decode(errors="replace")
    if name not in parameters:
        remarks.append(Remark("subset", span, f"what `%{shown};` brings isn't read: it stands in another file or isn't declared"))
        return
    try:
        for entity in general_entities(parameters[name]).values():
            entities.setdefault(entity.name, entity)
    except Stop:
        remarks.append(Remark("subset", span, f"what `%{shown};` brings isn't read"))


@functools.lru_cache(maxsize=8)
def declared_by(dtd: bytes) -> dict[bytes, Entity]:
    """The entities that a DTD declares for documents, as far as they can be read."""
    return general_entities(dtd, is_partial=True)
