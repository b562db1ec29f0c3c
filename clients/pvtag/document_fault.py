"""What the program says of a document's faults: where in the file, and in a sentence."""
import re

from .encodings import DECLARED, WIDE, encoding_fault, not_utf_8
from .places import Item, Remark, Source, Span, document_items, front_mark

# A Char in UTF-8.
CHAR = (rb"[\t\n\r\x20-\x7f]|[\xc2-\xdf][\x80-\xbf]"
        rb"|(?!\xef\xbf[\xbe\xbf]|\xed[\xa0-\xbf]|\xe0[\x80-\x9f])[\xe0-\xef][\x80-\xbf]{2}"
        rb"|(?!\xf0[\x80-\x8f]|\xf4[\x90-\xbf])[\xf0-\xf4][\x80-\xbf]{3}")
REFERENCE = rb"""&(?:#[0-9]+|#x[0-9a-fA-F]+|[^\s&;<#"'0-9][^\s&;<"']*);"""
RUN = re.compile(rb"(?:(?![<&])(?!\]\]>)(?:" + CHAR + rb")|" + REFERENCE + rb")*")
ENTITY = re.compile(rb"&(?!#|(?:lt|gt|amp|apos|quot);)[^\s&;<]*;")
NAME = re.compile(rb"</?([^\s/<>]*)")


class Front:
    """The items before one, and the elements that are open there."""

    def __init__(self, source: Source, number: int) -> None:
        self.open: list[Item] = []
        self.has_root = False
        self.item: Item | None = None
        self.at = front_mark(source.data)
        for count, item in enumerate(document_items(source.data)):
            if count == number:
                self.item = item
                break
            self.at = item.end
            if item.kind == "start":
                self.open.append(item)
            elif item.kind == "end" and self.open:
                self.open.pop()
            self.has_root = self.has_root or item.kind in ("start", "empty")


def document_span(number: int, source: Source | None) -> Span | None:
    if source is None:
        return None
    front = Front(source, number)
    return Span(front.at, front.item.end if front.item is not None else front.at)


def document_fault(kind: str, rest: list[str], source: Source | None) -> Remark:
    if kind in ("subset", "doctype"):
        return doctype_fault(kind, source)
    if source is None:
        return None, {"syntax": "it isn't of the form of XML", "entity": "it refers to an entity that isn't read",
                      "mismatch": "an end tag has another name than the open element"}.get(kind, kind)
    front = Front(source, int(rest[0]))
    if kind == "entity":
        found = ENTITY.search(source.data, front.at)
        span = Span(*found.span()) if found is not None else Span(front.at, front.at)
        name = found[0].decode(errors="replace") if found is not None else "this reference"
        return span, f"`{name}` refers to an entity; `lt`, `gt`, `amp`, `apos` and `quot` alone are read"
    if kind == "mismatch":
        return mismatch(front, source)
    return syntax(front, source)


def doctype_fault(kind: str, source: Source | None) -> Remark:
    span, at = None, 0
    for item in document_items(source.data) if source is not None else ():
        at = item.end
        if item.kind == "doctype":
            span = Span(item.start, item.end)
    if kind == "subset":
        span = Span(at, at) if source is not None else None
        return span, "declarations in the document's type declaration aren't read"
    return span, "the document's type declaration names another root than ROOT"


def tag_name(item: Item | None, source: Source) -> str:
    found = NAME.match(source.data, item.start) if item is not None else None
    return found[1].decode(errors="replace") if found is not None else ""


def opened(front: Front, source: Source) -> str:
    """The innermost open element, and where it begins."""
    return f"`{tag_name(front.open[-1], source)}` (line {source.place(front.open[-1].start).line})"


def mismatch(front: Front, source: Source) -> Remark:
    name = tag_name(front.item, source)
    span = Span(front.at, front.item.end if front.item is not None else front.at)
    if not front.open:
        return span, f"`</{name}>` closes nothing"
    return span, f"`</{name}>` stands where {opened(front, source)} is still open"


# What a document's item begins with, and what is said where it can't be read. The first that fits is told.
BEGINS: tuple[tuple[bytes, str], ...] = (
    (b"<!--", "a comment ends with `-->`, and holds no `--` before"),
    (b"<![CDATA[", "a CDATA section ends with `]]>`, and stands in the root"),
    (b"<!DOCTYPE", "a document type declaration stands once, before the root, with a name and perhaps an identifier"),
    (b"<?xml", "an XML declaration stands at the very start, with a version, its encoding UTF-8 or US-ASCII"),
    (b"<?", "an instruction has a name and ends with `?>`"),
    (b"</", "an end tag is `</`, a name and `>`"),
)


def syntax(front: Front, source: Source) -> Remark:
    data, at = source.data, front.at
    here = Span(at, front.item.end if front.item is not None else min(at + 1, len(data)))
    is_wide = data.startswith(tuple(front for front, _ in WIDE))
    if (is_wide or DECLARED.match(data, at) is not None) and (what := encoding_fault(data)) is not None:
        return here, what
    if front.item is not None and (byte := not_utf_8(data, here)) is not None:
        return byte, character(data, byte.start)
    if at == len(data):
        ended = f"the file ends before {opened(front, source)} has ended" if front.open else "there is no root element"
        return Span(at, at), ended
    if not data.startswith(b"<", at):
        return in_text(front, source)
    if data.startswith(b"</", at) and not front.open:
        return here, f"`</{tag_name(Item('end', *here), source)}>` closes nothing"
    for begin, sentence in BEGINS:
        if data.startswith(begin, at):
            return here, sentence
    if front.has_root and not front.open:
        return here, "a second element stands after the root"
    if front.item is None:
        return here, "a tag is `<`, a name, attributes with values in quotes, and `>` or `/>`"
    return attribute(front.item, data)


def attribute(item: Item, data: bytes) -> Remark:
    """A tag whose fault is in its name or a value."""
    for found in re.finditer(rb"""["']([^"']*)["']""", data[item.start:item.end]):
        begin = item.start + found.start(1)
        run = RUN.match(data, begin, item.start + found.end(1))
        if run is not None and run.end() < item.start + found.end(1) and not data.startswith(b"]]>", run.end()):
            return Span(run.end(), run.end() + 1), character(data, run.end())
    return Span(item.start, item.end), "a tag is `<`, a name, attributes with values in quotes, and `>` or `/>`"


def in_text(front: Front, source: Source) -> Remark:
    data, at = source.data, front.at
    end = front.item.end if front.item is not None else len(data)
    if not front.open:
        words = re.compile(rb"[^ \t\r\n]").search(data, at, end)
        begin = words.start() if words is not None else at
        return Span(begin, end), "text stands outside of the root"
    run = RUN.match(data, at, end)
    stop = run.end() if run is not None else at
    return Span(stop, min(stop + 1, end)), character(data, stop)


def character(data: bytes, at: int) -> str:
    """What is wrong with the first bytes that are no text."""
    if data.startswith(b"]]>", at):
        return "`]]>` stands in a text"
    if data.startswith(b"&", at):
        return "`&` begins no reference"
    if at == len(data):
        return "the file ends here"
    return (encoding_fault(data) if data[at] >= 0x80 else None) or "this is no character of XML, or isn't UTF-8"


