"""Where the faults of attributes are that libxml2 finds in a document, and what is said of them."""
import difflib
import re
from collections.abc import Iterator, Mapping, Sequence
from typing import Any, NamedTuple

from .attributes import Attribute, AttributeFault, Attributes, listed_in_words, same_behind_prefix
from .masks import Masked
from .places import Source, Span, document_items

# What libxml2 says of each kind: our kind, and where the names stand.
MESSAGES: tuple[tuple[str, str], ...] = (
    ("missing", r"Element (?P<element>\S+) does not carry attribute (?P<attribute>\S+)"),
    ("missing", r"Element (?P<element>\S+) required attribute (?P<attribute>\S+) has (?:no|different) prefix"),
    ("unknown", r"No declaration for attribute (?P<attribute>\S+) of element (?P<element>\S+)"),
    ("notation", r'Value "(?P<value>.*)" for attribute (?P<attribute>\S+) of (?P<element>\S+) is not (?:a declared Notation|among the enumerated notations)'),
    ("value", r'Value "(?P<value>.*)" for attribute (?P<attribute>\S+) of (?P<element>\S+) is not among the enumerated set'),
    ("value", r'Value for attribute (?P<attribute>\S+) of (?P<element>\S+) (?:is different from default|must be) ".*"'),
    ("type", r"Syntax of value for attribute (?P<attribute>\S+) of (?P<element>\S+) is not valid"),
    ("id", r"ID (?P<value>.*) already defined"),
    ("idref", r'IDREFS? attribute (?P<attribute>\S+) references an unknown ID "(?P<value>.*)"'),
    ("entity", r'ENTIT(?:Y|IES) attribute (?P<attribute>\S+) references? an (?:unknown )?entity "(?P<value>.*?)".*'),
    ("notation", r'NOTATION attribute (?P<attribute>\S+) references? an unknown notation "(?P<value>.*)"'),
    ("twice", r"Attribute (?P<attribute>\S+) redefined"),
)
COMPILED = tuple((kind, re.compile(text + r"\s*", re.S)) for kind, text in MESSAGES)
PAIR = re.compile(rb"""([^\s=<>"'/]+)\s*=\s*("[^"]*"|'[^']*')""")
TAG_NAME = re.compile(rb"<[^\s/>]+")


def stand_in_of(form: bytes) -> str:
    """The character that a stand-in is for libxml2."""
    return chr(int(form[2:-1])) if form.startswith(b"&#") else ""


class Tag(NamedTuple):
    """A start tag: its name, the bytes of the name, and its attributes with their bytes and values as they are written."""

    name: str
    span: Span
    pairs: list[tuple[str, Span, str]]


class Placing:
    """Puts what libxml2 says of a document into places and sentences."""

    def __init__(self, attributes: Attributes, masked: Masked) -> None:
        self.attributes, self.masked = attributes, masked
        self.source = Source("", masked.source)
        self.tags = [self.tag(item.start, item.end) for item in document_items(masked.data) if item.kind in ("start", "empty")]
        # Where each ID is given first.
        self.ids: dict[str, Span] | None = None
        # What stands for entities whose texts aren't known, as libxml2 reads it.
        self.unknown = {stand_in_of(masked.data[slice(*part.by)]) for part in masked.unknown}
        self.not_known = list(self.unseen())

    def tag(self, start: int, end: int) -> Tag:
        data, found = self.masked.data, TAG_NAME.match(self.masked.data, start)
        name = Span(start + 1, found.end() if found else start + 1)
        pairs = [(pair[1].decode(errors="replace"), Span(*pair.span()), self.masked.restored(pair[2][1:-1]).decode(errors="replace"))
                 for pair in PAIR.finditer(data, name.end, end)]
        return Tag(data[slice(*name)].decode(errors="replace"), name, pairs)

    def faults(self, rows: Sequence[tuple[int | None, str, str]]) -> list[AttributeFault]:
        """All of them, each once, in the order of their places."""
        found = dict[tuple[Any, ...], AttributeFault]()
        for fault in (*self.not_known, *(fault for row in rows for fault in self.faults_of(*row))):
            key = fault.kind, fault.number, fault.attribute, fault.value if fault.kind == "idref" else None
            found.setdefault(key, fault)
        return sorted(found.values(), key=lambda fault: fault.span or Span(0, 0))

    def faults_of(self, number: int | None, kind: str, message: str) -> Iterator[AttributeFault]:
        """What one of libxml2's messages comes to."""
        if kind in ("ERR_ATTRIBUTE_REDEFINED", "NS_ERR_ATTRIBUTE_REDEFINED"):
            yield from self.twice()
            return
        if kind == "NS_ERR_UNDEFINED_NAMESPACE":
            yield from self.unbound()
            return
        for ours, pattern in COMPILED:
            if (said := pattern.fullmatch(message)) is not None:
                yield from self.made(ours, number, said.groupdict())
                return
        tag = self.tags[number] if number is not None and number < len(self.tags) else None
        yield self.fault("type", number, tag, "", None, f"libxml2 says: {message.strip()}")

    def made(self, kind: str, number: int | None, said: Mapping[str, str]) -> Iterator[AttributeFault]:
        """The faults of a message: one, or where libxml2 doesn't tell the element, one of each that may be meant."""
        name, value = said.get("attribute", ""), said.get("value")
        numbers = list(self.holding(kind, name, value)) if number is None else [number] if number < len(self.tags) else []
        for each in numbers:
            yield from self.made_at(kind, each, name, value)
        if not numbers:
            yield self.fault(kind, None, None, name, value, f"{name or 'an attribute'}: {' '.join(said.values())}")

    def made_at(self, kind: str, number: int, name: str, value: str | None) -> Iterator[AttributeFault]:
        """The fault of an element, if it is one."""
        tag = self.tags[number]
        if tag.name not in self.attributes.declared and tag.name.rpartition(":")[2] not in self.attributes.declared:
            # Nothing is declared for an element that isn't; that it isn't is told elsewhere.
            return
        if value is not None and any(char in value for char in self.unknown):
            # What isn't known isn't wrong: it is told once, by `unseen`.
            return
        name = self.written_name(tag, name, value, kind)
        declared = self.attributes.one(tag.name, name)
        if kind in ("value", "notation", "entity") and any((it.number, it.attribute) == (number, name) for it in self.not_known):
            return
        if kind != "idref":
            value = next((each for other, _, each in tag.pairs if other == name), value)
        if kind in ("type", "value", "notation") and value is not None and value != " ".join(value.split()) and self.fits(declared, value):
            kind = "blanks"
        yield self.fault(kind, number, tag, name, value, self.sentence(kind, tag, name, value, declared))

    def fits(self, declared: Attribute | None, value: str) -> bool:
        """Whether a value would do without blanks at its ends, so far as this can be told."""
        short = " ".join(value.split())
        if declared is None or declared.type == "CDATA" or not short:
            return False
        if declared.values:
            return short in declared.values
        return declared.need == "fixed" and short == declared.value or declared.type.endswith("S") or " " not in short

    def written_name(self, tag: Tag, name: str, value: str | None, kind: str) -> str:
        """An attribute's name as the document writes it: libxml2 tells it without its prefix, and an ID by its value."""
        names = [each for each, _, _ in tag.pairs]
        if kind == "missing" or name in names and self.attributes.one(tag.name, name) is None or not name and value is None:
            return name
        if kind == "id":
            ids = [each.name for each in self.attributes.of(tag.name) if each.type == "ID"]
            return next((each for each in names if each in ids), ids[0] if ids else "")
        if name in names and kind != "unknown":
            return name
        behind = [each for each in names if each.rpartition(":")[2] == name and each != name]
        others = [each for each in behind if self.attributes.one(tag.name, each) is None]
        return next(iter(others if kind == "unknown" else behind), name)

    def holding(self, kind: str, name: str, value: str | None) -> Iterator[int]:
        """The elements that have this attribute, with this value in it. libxml2 tells the name without its prefix."""
        types = ("ENTIT",) if kind == "entity" else ("IDREF",) if kind == "idref" else ("",)
        for number, tag in enumerate(self.tags):
            for other, _, text in tag.pairs:
                declared = self.attributes.one(tag.name, other)
                is_named = name in (other, other.rpartition(":")[2]) and (declared is None or declared.type.startswith(types))
                if is_named and value is not None and (value == text or value in text.split()):
                    yield number

    def fault(self, kind: str, number: int | None, tag: Tag | None, name: str, value: str | None, sentence: str) -> AttributeFault:
        own = tag.span if tag is not None else None
        span = next((span for other, span, _ in tag.pairs if other == name), own) if tag is not None else None
        return AttributeFault(kind, number, tag.name if tag is not None else "", name, value,
                              self.masked.original(span) if span is not None else None, sentence)

    def unseen(self) -> Iterator[AttributeFault]:
        """The attributes, of other types than CDATA, whose values have a reference to an entity whose text isn't known."""
        parts = iter(self.masked.unknown)
        part = next(parts, None)
        for number, tag in enumerate(self.tags):
            for name, span, value in tag.pairs:
                while part is not None and part.by.start < span.start:
                    part = next(parts, None)
                declared = self.attributes.one(tag.name, name)
                if part is None or part.by.start >= span.end or declared is None or declared.type == "CDATA" and declared.need != "fixed":
                    continue
                shown = self.masked.source[slice(*part.of)].decode(errors="replace")
                said = f"the value of `{name}` of `{tag.name}` isn't known: it refers to `{shown}`" + self.must(declared, "; it must be ")
                yield AttributeFault("unseen", number, tag.name, name, value, self.masked.original(span), said)

    def twice(self) -> Iterator[AttributeFault]:
        """The attributes that stand in one tag a second time."""
        for number, tag in enumerate(self.tags):
            seen = set[str]()
            for name, span, value in tag.pairs:
                if name in seen:
                    said = f"`{name}` stands twice in this tag, which XML doesn't allow; what is said of elements reads over it"
                    yield AttributeFault("twice", number, tag.name, name, value, self.masked.original(span), said)
                seen.add(name)

    def unbound(self) -> Iterator[AttributeFault]:
        """The prefixes that no `xmlns` binds, where each is met first."""
        bound, seen = {"xml", "xmlns"}, set[str]()
        for number, tag in enumerate(self.tags):
            bound |= {name[len("xmlns:"):] for name, _, _ in tag.pairs if name.startswith("xmlns:")}
            for name, span in [(tag.name, tag.span), *((name, span) for name, span, _ in tag.pairs)]:
                prefix, colon, _ = name.partition(":")
                if colon and prefix not in bound and prefix not in seen:
                    seen.add(prefix)
                    said = f"the prefix `{prefix}` of `{name}` is bound to no namespace: `xmlns:{prefix}` is missing"
                    is_own = name == tag.name
                    yield AttributeFault("prefix", number, tag.name, "" if is_own else name, None, self.masked.original(span), said)

    # ---- sentences ----

    def sentence(self, kind: str, tag: Tag, name: str, value: str | None, declared: Attribute | None) -> str:
        match kind:
            case "missing":
                return f"`{tag.name}` lacks the attribute `{name}`, which the DTD requires" + self.must(declared)
            case "unknown":
                return f"the DTD declares no attribute `{name}` of `{tag.name}`" + self.instead(tag, name)
            case "id":
                return f"the ID `{value}` is given a second time{self.first(value)}"
            case "idref":
                return f"`{name}` refers to the ID `{value}`, which no element has"
            case "entity":
                return f"`{name}` is `{value}`, which is no unparsed entity of the DTD"
            case "blanks":
                return f"the value of `{name}` has blanks that XML reads over, but not every validator: write `{' '.join((value or '').split())}`"
        shown = value if value is None or len(value) <= 60 else value[:59] + "…"
        return f"`{name}` of `{tag.name}` is `{shown}`" + self.must(declared, "; it must be ") + self.most_like(declared, value)

    def must(self, declared: Attribute | None, link: str = ": ") -> str:
        return f"{link}{declared.meaning}" if declared is not None and (link != ": " or declared.type != "CDATA") else ""

    def most_like(self, declared: Attribute | None, value: str | None) -> str:
        found = difflib.get_close_matches(value, declared.values, 1) if declared is not None and value is not None else []
        return f". Most like it: `{found[0]}`" if found and declared is not None and len(declared.values) > 2 else ""

    def instead(self, tag: Tag, name: str) -> str:
        """The declared name that is meant, perhaps."""
        names = [each.name for each in self.attributes.of(tag.name)]
        other = same_behind_prefix(name, names)
        if name.startswith("xmlns:"):
            bound = [each for each in names if each.startswith("xmlns:")]
            return f": it binds the prefixes {listed_in_words(bound)}" if bound else ""
        if other is not None:
            return f": it writes it `{other}`"
        near = self.attributes.nearest(tag.name, name)
        return f". Most like it: `{near}`" if near is not None else "" if names else ", or any other"

    def first(self, value: str | None) -> str:
        """Where an ID was given before."""
        if self.ids is None:
            self.ids = {}
            for tag in self.tags:
                kinds = {each.name for each in self.attributes.of(tag.name) if each.type == "ID"}
                for name, span, text in tag.pairs:
                    if name in kinds:
                        self.ids.setdefault(text, span)
        found = self.ids.get(value or "")
        return f"; the first is in line {self.source.place(self.masked.original(found).start).line}" if found is not None else ""
