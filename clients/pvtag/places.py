"""Where things stand in a file: bytes to lines and columns and back, and the items that faults are counted in.

Offsets are bytes from the file's start, a byte order mark counted. Numbers of items are those of docs/FORMATS.md. The
nodes of a document are in `layout`.
"""
import bisect
import enum
import re
from collections.abc import Iterator
from typing import NamedTuple

# What other tools may use; each has an example.
__all__ = ("Unit", "Place", "Span", "Source", "Item", "document_items")

BOM = b"\xef\xbb\xbf"
LINE_END = re.compile(rb"\r\n|\n|\r")


class Unit(enum.Enum):
    r"""What a column counts.

    >>> Source("", "\U0001f600a".encode()).position(4, Unit.UTF16)
    (0, 2)
    """

    BYTES = "utf-8"
    CHARS = "utf-32"
    UTF16 = "utf-16"


class Place(NamedTuple):
    """A place for a person: line and column, both from 1, the column in characters.

    >>> print(Place(2, 5))
    2:5
    """

    line: int
    column: int

    def __str__(self) -> str:
        return f"{self.line}:{self.column}"


class Span(NamedTuple):
    """From an offset up to, but not including, another.

    >>> Span(0, 3).end
    3
    """

    start: int
    end: int


# What is told of a file: the bytes in fault, where they are known, and a sentence.
Remark = tuple[Span | None, str]


class Source:
    r"""A file's name and bytes. Of bytes that aren't UTF-8 each counts as a character.

    >>> source = Source("letter.xml", b"<letter>\n<p>")
    >>> print(source.place(9))
    2:1
    >>> source.offset(1, 0, Unit.CHARS), source.line(1)
    (9, b'<p>')
    """

    def __init__(self, name: str, data: bytes) -> None:
        self.name, self.data = name, data
        self.starts = [0, *(found.end() for found in LINE_END.finditer(data))]

    def place(self, offset: int) -> Place:
        """Line and column of an offset, from 1; a byte order mark is no column."""
        line, column = self.position(offset, Unit.CHARS)
        has_mark = line == 0 and column > 0 and self.data.startswith(BOM)
        return Place(line + 1, column + (0 if has_mark else 1))

    def position(self, offset: int, unit: Unit) -> tuple[int, int]:
        """Line and column of an offset, from 0."""
        line = bisect.bisect_right(self.starts, offset) - 1
        return line, width(self.data[self.starts[line]:offset], unit)

    def offset(self, line: int, column: int, unit: Unit) -> int:
        """The offset of a line and a column, from 0: the line's end where the line is shorter, the file's end where
        there is no such line, and the start of a character where the column is inside it."""
        if line >= len(self.starts):
            return len(self.data)
        return self.starts[line] + front(self.line(line), column, unit)

    def line(self, number: int) -> bytes:
        """A line, from 0, without its end."""
        end = self.starts[number + 1] if number + 1 < len(self.starts) else len(self.data)
        return self.data[self.starts[number]:end].rstrip(b"\r\n")


def width(data: bytes, unit: Unit) -> int:
    """How wide bytes are in a unit."""
    if unit is Unit.BYTES or data.isascii():
        return len(data)
    text = data.decode(errors="surrogateescape")
    return len(text) if unit is Unit.CHARS else len(text) + sum(char > "\uffff" for char in text)


def front(data: bytes, column: int, unit: Unit) -> int:
    """How many bytes the first so many units take, whole characters alone."""
    if data.isascii():
        return min(column, len(data))
    taken = at = 0
    for char in data.decode(errors="surrogateescape"):
        size = len(char.encode(errors="surrogateescape"))
        taken += size if unit is Unit.BYTES else 2 if unit is Unit.UTF16 and char > "\uffff" else 1
        if taken > column:
            break
        at += size
    return at


class Item(NamedTuple):
    """An item of a document or a DTD: "declaration" (`<?xml ..?>`), "comment", "instruction"; in a document "doctype",
    "cdata", "start", "empty", "end" and "text"; in a DTD, by `entities`, "element" and "skipped".

    >>> next(document_items(b"<!-- a --><p/>"))
    Item(kind='comment', start=0, end=10)
    """

    kind: str
    start: int
    end: int


# A tag's name and attributes, up to its `>` or `/>`.
TAG = rb"""[^\s/>!?"'=<][^\s/>"'=<]*(?:\s+[^\s=<>"'/]+\s*=\s*(?:"[^"<]*"|'[^'<]*'))*\s*"""
DOCUMENT_ITEM = re.compile(
    rb"""(?P<text>[^<]+)|(?P<end></[^\s<>]+\s*>)|(?P<start><""" + TAG + rb"""(?P<empty>/)?>)"""
    rb"""|(?P<comment><!--.*?-->)|(?P<instruction><\?.*?\?>)|(?P<cdata><!\[CDATA\[.*?\]\]>)"""
    rb"""|(?P<doctype><!DOCTYPE(?:[^>"'\[]++|"[^"]*"|'[^']*')*+>)""",
    re.S,
)
DECLARATION = re.compile(rb"<\?xml\s.*?\?>", re.S)


def front_mark(data: bytes) -> int:
    """The offset after a byte order mark."""
    return len(BOM) if data.startswith(BOM) else 0


def document_items(data: bytes) -> Iterator[Item]:
    """The items of a document from its start, up to the first place where none stands.

    >>> [item.kind for item in document_items(b"<p>a<lb/></p>")]
    ['start', 'text', 'empty', 'end']
    """
    at = front_mark(data)
    if found := DECLARATION.match(data, at):
        yield Item("declaration", at, found.end())
        at = found.end()
    # No search from there on: each comment that doesn't end would be looked for again.
    while (found := DOCUMENT_ITEM.match(data, at)) is not None:
        yield Item("empty" if found["empty"] else found.lastgroup or "", at, found.end())
        at = found.end()
