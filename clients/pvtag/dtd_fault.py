"""What the program says of a DTD's faults: where in the file, and in a sentence."""
import re

from . import entities
from .encodings import encoding_fault, not_utf_8
from .places import BOM, Remark, Source, Span

PARAMS = {
    "conditional": "a conditional section isn't read; tools/flatten makes a plain DTD of one in modules",
    "external": "a parameter entity in another file isn't read; tools/flatten makes a plain DTD of one in modules",
    "undeclared": "a parameter entity is referred to that isn't declared before",
    "recursive": "a parameter entity refers to itself",
    "syntax": "a parameter entity's text can't stand where it is referred to",
}
DTD_KINDS = {
    "syntax": "no declaration, comment or instruction of a DTD stands here, or one that isn't of its form",
    "twice": "an element type is declared a second time",
    "mixed-twice": "a mixed model names an element type twice",
    "parameter": "a parameter entity or a conditional section stands where none is read",
}
ELEMENT = re.compile(rb"<!ELEMENT\s+([^\s<>]+)")


def dtd_fault(kind: str, rest: list[str], source: Source | None) -> Remark:
    if kind == "param":
        stop = dtd_stop(source)
        return stop.span if stop is not None and stop.kind == rest[0] else None, PARAMS.get(rest[0], rest[0])
    number = int(rest[0])
    span = dtd_span(number, source)
    found = ELEMENT.match(source.data, span.start) if source is not None and span is not None else None
    if kind == "syntax" and source is not None and (what := encoded(source.data, span)) is not None:
        return what
    if kind == "twice" and found is not None:
        return span, f"`{found[1].decode(errors='replace')}` is declared a second time"
    if kind == "syntax" and found is not None:
        return span, "this element declaration isn't of its form"
    return span, DTD_KINDS.get(kind, kind)


def encoded(data: bytes, span: Span | None) -> Remark | None:
    """What is said where a declaration can't be read for its encoding: a byte within it, or how the file begins."""
    byte = not_utf_8(data, span) if span is not None else None
    what = encoding_fault(data, is_dtd=True)
    if byte is not None:
        return byte, what or "this is no character of XML, or isn't UTF-8"
    return (span, what) if what is not None and span is not None and span.start <= len(BOM) else None


def dtd_stop(source: Source | None) -> entities.Stop | None:
    """Where the reading of a DTD's parameter entities stops."""
    try:
        for _ in entities.dtd_items(source.data if source is not None else b""):
            pass
    except entities.Stop as stop:
        return stop
    return None


def dtd_span(number: int, source: Source | None) -> Span | None:
    """An item of a DTD, or the place where it should begin."""
    if source is None:
        return None
    count = 0
    try:
        for item in entities.dtd_items(source.data):
            if count == number:
                return Span(item.start, item.end)
            count += 1
    except entities.Stop as stop:
        return stop.span if count == number and stop.kind in ("", "syntax") else None
    return Span(len(source.data), len(source.data)) if count == number else None


