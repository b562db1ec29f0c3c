"""Attributes in an editor: what is wrong with them, which names and values may stand here, and what the DTD says of one.

What is said of them is libxml2's, by `pvtag.attributes`; the program judges elements and texts.
"""
import re
from typing import NamedTuple

from .documents import Asked, Document
from .grammar import Grammar
from .nodes import NAME
from pvtag.attributes import Attribute, AttributeFault, Attributes
from pvtag.masks import mask
from pvtag.program import Trouble
from .reading import HIDDEN
from .text import Json
from .work import Work

ERROR, WARNING, INFORMATION = 1, 2, 3
# At most so many are told of.
MOST = 200
# A tag of this length before a place is looked at.
LONGEST = 4096
VALUE = rb"(?:\"[^\"<]*\"|'[^'<]*')"
PAIRS = rb"(?:\s+[^\s=<>\"'/]+\s*=\s*" + VALUE + rb")*"
IN_TAG = re.compile(
    rb"<(?P<element>" + NAME + rb")(?P<pairs>" + PAIRS + rb")\s+(?:(?P<name>[^\s=<>\"'/]*)"
    rb"|(?P<of>[^\s=<>\"'/]+)\s*=\s*(?P<quote>[\"'])(?P<value>[^\"'<]*))\Z"
)
REST = re.compile(rb"(?:[^<>\"']|" + VALUE + rb")*")
PAIR = re.compile(rb"([^\s=<>\"'/]+)\s*=\s*(" + VALUE + rb")")
FIELD, ENUM_MEMBER, SNIPPET = 5, 20, 2
# What means something else in a snippet.
SPECIAL = re.compile(r"[\\$}]")


# ---- what is wrong ----

def diagnostics(document: Document, grammar: Grammar, work: Work) -> list[Json]:
    """What is wrong with attributes, and what is to be said of entities and of the subset."""
    masked = mask(document.text.data, grammar.dtd.data)
    told = [
        of(document, it.span.start, it.span.end, *((ERROR, "fault") if it.is_fault else (WARNING, it.kind)), it.sentence)
        for it in masked.remarks
    ]
    attributes = grammar.attributes
    with grammar.asking:
        if work.is_over:
            return []
        checked = attributes.check(masked)
    if checked.why_not:
        root = document.tree.root
        place = (root.start, root.inside) if root is not None else (0, 0)
        return [*told, of(document, place[0], place[1], INFORMATION, "attributes", checked.sentence[:1].upper() + checked.sentence[1:] + ".")]
    faults = checked.faults
    if not attributes.declares_any and not masked.declarations.strip():
        # One is enough to say it of all.
        said = "the DTD declares no attributes at all: a validator refuses each, and nothing is said of them here"
        faults = [faults[0]._replace(sentence=said)] if faults else []
    told += [of_fault(document, fault, attributes.declares_any) for fault in faults[:MOST]]
    if len(faults) > MOST:
        start, end = faults[MOST].span or (0, 0)
        told.append(of(document, start, end, INFORMATION, "more", f"{len(faults) - MOST} more attributes are missing or wrong."))
    return told


def of_fault(document: Document, fault: AttributeFault, is_declared: bool) -> Json:
    start, end = fault.span if fault.span is not None else (0, 0)
    severity = INFORMATION if not is_declared else WARNING if fault.kind in ("missing", "blanks", "unseen") else ERROR
    return of(document, start, end, severity, "attribute", fault.sentence)


def of(document: Document, start: int, end: int, severity: int, code: str, message: str) -> Json:
    return {
        "range": document.text.range(start, end),
        "severity": severity,
        "code": code,
        "source": "pvtag",
        "message": message,
    }


# ---- what may stand here ----

def known(grammar: Grammar, work: Work) -> Attributes:
    """The attributes, once what the DTD declares of them is known, or the work has ended."""
    if grammar.attributes.declares_any:
        work.wait_for(grammar.declared.read_attributes())
    return grammar.attributes


class Place(NamedTuple):
    """A place in a start tag: the element's name, the names of its other attributes; and the start of a name that is being
    typed, or the attribute whose value is, and where that begins."""

    element: str
    others: tuple[str, ...]
    start: int
    attribute: str | None


def place_of(document: Document, offset: int) -> Place | None:
    """The place in a start tag that an offset is, outside of the tag's name; none elsewhere."""
    data = document.data
    begin = data.rfind(b"<", max(0, offset - LONGEST), offset)
    found = IN_TAG.match(data[begin:offset]) if begin >= 0 else None
    if found is None:
        return None
    rest = REST.match(data, offset)
    after = data[offset : rest.end()] if rest is not None and found["name"] is not None else b""
    others = [pair[1].decode(errors="replace") for part in (found["pairs"], after) for pair in PAIR.finditer(part)]
    if found["name"] is not None:
        return Place(found["element"].decode(errors="replace"), tuple(others), begin + found.start("name"), None)
    name = found["of"].decode(errors="replace")
    return Place(found["element"].decode(errors="replace"), tuple(others), begin + found.start("value"), name)


def complete(asked: Asked, offset: int) -> list[Json]:
    """The names of attributes, required ones first, or values of one."""
    place = place_of(asked.document, offset)
    if place is None:
        return []
    try:
        attributes = known(asked.grammar, asked.work)
    except Trouble:
        # Where no DTD is found, that is told with the diagnostics.
        return []
    if place.attribute is not None:
        declared = attributes.one(place.element, place.attribute)
        return values(asked, declared, place, offset) if declared is not None else []
    snippets = bool(asked.client.can("textDocument", "completion", "completionItem", "snippetSupport"))
    left = [each for each in attributes.of(place.element) if each.name not in place.others]
    return [named(asked.document, each, place, offset, number, snippets) for number, each in enumerate(left)]


def named(document: Document, each: Attribute, place: Place, offset: int, number: int, snippets: bool) -> Json:
    """An item for an attribute: its name, with the value where there is one alone."""
    is_typed = document.data[offset : offset + 1] == b"="
    value = each.only if each.is_required or each.need == "fixed" else None
    given = escaped(value) if value is not None else ""
    shown = "$1" if snippets and value is None else SPECIAL.sub(r"\\\g<0>", given) if snippets else given
    name = SPECIAL.sub(r"\\\g<0>", each.name) if snippets else each.name
    item: Json = {
        "label": each.name,
        "kind": FIELD,
        "sortText": f"{number:04}",
        "filterText": each.name,
        "detail": each.declared,
        "documentation": ("Required: " if each.is_required else "") + each.meaning,
        "textEdit": document.put(place.start, offset, name if is_typed else f'{name}="{shown}"'),
    }
    return item | ({"insertTextFormat": SNIPPET} if snippets else {})


def values(asked: Asked, declared: Attribute, place: Place, offset: int) -> list[Json]:
    """Items for values: those that are listed, the default, or the IDs of the document."""
    known = list(declared.values) or ([declared.value] if declared.value is not None else [])
    start = place.start
    if declared.type in ("IDREF", "IDREFS"):
        known = ids_of(asked.document, asked.grammar)
        typed = asked.document.data[place.start : offset]
        start = place.start + (typed.rfind(b" ") + 1 if declared.type == "IDREFS" else 0)
    return [
        {
            "label": value,
            "kind": ENUM_MEMBER,
            "sortText": f"{number:04}",
            "filterText": value,
            "detail": declared.declared,
            "textEdit": asked.document.put(start, offset, escaped(value)),
        }
        for number, value in enumerate(dict.fromkeys(known))
    ]


def ids_of(document: Document, grammar: Grammar) -> list[str]:
    """The IDs that are given in a document, as far as its tags can be read."""
    ids = {name: {it.name for it in row if it.type == "ID"} for name, row in grammar.attributes.declared.items()}
    found: dict[str, None] = {}
    for tag in re.finditer(rb"<(" + NAME + rb")(" + PAIRS + rb")", HIDDEN.sub(b"", document.data)):
        names = ids.get(tag[1].decode(errors="replace"), set())
        for pair in PAIR.finditer(tag[2]) if names else ():
            if pair[1].decode(errors="replace") in names:
                found[pair[2][1:-1].decode(errors="replace")] = None
    return list(found)


def escaped(value: str) -> str:
    return value.replace("&", "&amp;").replace("<", "&lt;").replace('"', "&quot;")


# ---- what one is ----

def hover(asked: Asked, element: str, start: int, end: int) -> Json | None:
    """What the DTD says of the attribute in a start tag that the place is in."""
    document = asked.document
    for pair in PAIR.finditer(document.data, start, end):
        if pair.start() <= asked.offset <= pair.end():
            attributes = known(asked.grammar, asked.work)
            name = pair[1].decode(errors="replace")
            declared = attributes.one(element, name)
            if declared is None:
                near = attributes.nearest(element, name)
                said = f"The DTD declares no attribute `{name}` of `{element}`." + (f" Most like it: `{near}`." if near else "")
            else:
                said = f"`{name}` of `{element}`: `{declared.declared}`\n\n{'Required: ' if declared.is_required else ''}{declared.meaning}."
            said = attributes.why_not and f"Attributes weren't looked at: {attributes.why_not}." or said
            return {"value": said, "range": document.text.range(*pair.span())}
    return None


def listed(grammar: Grammar, work: Work, element: str) -> str:
    """The attributes of an element, in a line; "" where there are none."""
    row = known(grammar, work).of(element)
    if not row:
        return ""
    required = [f"`{each.name}`" for each in row if each.is_required]
    others = [f"`{each.name}`" for each in row if not each.is_required]
    more = f" and {len(others) - 12} more" if len(others) > 12 else ""
    parts = [f"required {', '.join(required)}"] * bool(required) + [f"also {', '.join(others[:12])}{more}" if required else ", ".join(others[:12]) + more] * bool(others)
    return f"Attributes: {'; '.join(parts)}."
