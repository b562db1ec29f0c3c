"""The attributes of a completion's new elements: what the DTD requires of them, where only one value is possible.

The program inserts elements without attributes. To tell the new ones from those that are there, the document that is
completed has a mark in each of its tags, which is an attribute like any other to the program; what it prints is told
apart by it.

    mark = mark_of(data)
    completed = ..                              # of marked(data, mark)
    filled(completed, mark, attributes)         # the completion, without marks, and what is left to be given
"""
import re
from typing import NamedTuple

from .attributes import Attributes
from .masks import escaped
from .places import document_items

START = re.compile(rb"<[^\s/>]+")


class Lacking(NamedTuple):
    """A new element that lacks required attributes: its name, the offset of its tag in the completion, their names."""

    name: str
    offset: int
    attributes: tuple[str, ...]


class Filled(NamedTuple):
    """A completion, how many attributes were given to its new elements, and the elements that lack some still."""

    document: bytes
    given: int
    lacking: list[Lacking]


def given_to(attributes: Attributes, name: str) -> list[tuple[str, str]]:
    """The attributes that a new element takes: those that are required and have one possible value."""
    return [(each.name, each.only) for each in attributes.of(name) if each.is_required and each.only is not None]


def lacking_of(attributes: Attributes, name: str) -> tuple[str, ...]:
    """The attributes that a new element lacks, which somebody has to tell."""
    return tuple(each.name for each in attributes.of(name) if each.is_required and each.only is None)


def text_of(pairs: list[tuple[str, str]]) -> bytes:
    """Attributes as they stand in a tag."""
    return b"".join(b' %s="%s"' % (name.encode(), escaped(value.encode())) for name, value in pairs)


def has_required(attributes: Attributes) -> bool:
    """Whether some element has a required attribute, so that new elements are of interest."""
    return any(each.is_required for row in attributes.declared.values() for each in row)


def mark_of(data: bytes) -> bytes:
    """An attribute that the document doesn't have."""
    name = b"pvtag-there"
    while name in data:
        name += b"-"
    return b' %s=""' % name


def marked(data: bytes, mark: bytes) -> bytes:
    """The document with the mark after the name of each start tag."""
    out, at = list[bytes](), 0
    for item in document_items(data):
        if item.kind in ("start", "empty") and (found := START.match(data, item.start)) is not None:
            out += [data[at:found.end()], mark]
            at = found.end()
    return b"".join([*out, data[at:]])


def filled(printed: bytes, mark: bytes, attributes: Attributes) -> Filled:
    """A completion of a marked document, with attributes for its new elements."""
    out, lacking, at, size, given = list[bytes](), list[Lacking](), 0, 0, 0
    for item in document_items(printed):
        if item.kind not in ("start", "empty") or (found := START.match(printed, item.start)) is None:
            continue
        end = found.end()
        if printed.startswith(mark, end):
            out.append(printed[at:end])
            size, at = size + end - at, end + len(mark)
            continue
        name = found[0][1:].decode(errors="replace")
        if left := lacking_of(attributes, name):
            lacking.append(Lacking(name, size + item.start - at, left))
        pairs = given_to(attributes, name)
        text = text_of(pairs)
        out += [printed[at:end], text]
        size, at, given = size + end - at + len(text), end, given + len(pairs)
    return Filled(b"".join([*out, printed[at:]]), given, lacking)
