"""Documents beside the one that is marked up, by which a second session tells what is missing where.

What a list misses depends on its own kids alone, not on what stands in them. So the list of one element is asked of by
a document that holds no more. In such documents each element that is there has a blank more in its tag than it had; so
an element without one is new, when a session completes them.
"""
from collections.abc import Iterable, Iterator
from typing import NamedTuple

from pvtag.document import ELEMENT, TEXT, CDATA, Document, Node
from .runs import Spot

# What stands for a text: nobody asks what it says, but whether it is more than blanks.
WORD, BLANK = "x", " "


class Alone(NamedTuple):
    """A document of one list, the name of its root and the path of the list; `spots` are the places in it that were
    asked for, where each text is one unit for each piece that these places cut it into."""

    source: bytes
    root: str
    path: str
    spots: list[Spot]


def alone(owner: Node, root: str, spots: Iterable[Spot] = (), opened: Node | None = None) -> Alone:
    """The list of an element by itself. The kid `opened` has its own kids, all others have none."""
    wanted = list(spots)
    found: dict[Spot, Spot] = {}
    text = "".join(pieces(owner, wanted, found, opened))
    places = [found[spot] for spot in wanted]
    if owner.owner is None:
        return Alone(text.encode(), root, ".", places)
    return Alone(f"<{owner.name} >{text}</{owner.name}>".encode(), owner.name, "0", places)


def pieces(owner: Node, wanted: list[Spot], found: dict[Spot, Spot], opened: Node | None) -> Iterator[str]:
    """The kids of a list as they stand there, and where each place that is wanted is then."""
    item, size = 0, 0
    for at, kid in enumerate(owner.kids):
        if kid.kind != TEXT and size:
            item, size = item + 1, 0
        found[at, None] = item, size or None
        if kid.kind != TEXT:
            yield stub(kid, opened)
            item += 1
            continue
        cuts = sorted({unit for where, unit in wanted if where == at and unit is not None})
        for start, end in zip([0, *cuts], [*cuts, len(kid.units)]):
            if start:
                found[at, start] = item, size
            yield BLANK if all(unit in " \t\r\n" for unit in kid.units[start:end]) else WORD
            size += 1
    found[len(owner.kids), None] = item + (size > 0), None


def stub(kid: Node, opened: Node | None) -> str:
    """A kid without what stands in it."""
    if kid.kind == ELEMENT:
        inside = "".join(pieces(kid, [], {}, None)) if kid is opened else ""
        return f"<{kid.name} >{inside}</{kid.name}>" if inside else f"<{kid.name} />"
    return "<![CDATA[]]>" if kid.kind == CDATA else "<!---->"


def bare(owner: Node, root: str) -> Alone:
    """The list of an element by itself with its texts, so that places in it are those of the list; its kids hold
    nothing."""
    kids = "".join(written(kid) for kid in owner.kids)
    if owner.owner is None:
        return Alone(kids.encode(), root, ".", [])
    return Alone(f"<{owner.name} >{kids}</{owner.name}>".encode(), owner.name, "0", [])


def written(kid: Node) -> str:
    """A kid of a list with its text, but without what stands in an element."""
    if kid.kind == ELEMENT:
        return stub(kid, None)
    return "".join(kid.units) if kid.kind == TEXT else kid.source


def whole(document: Document) -> bytes:
    """A document in which each tag has its blank."""
    elements = (node for node in document.elements() if node.owner is not None)
    return document.written({node.id: node.attrs + " " for node in elements}).encode()


def completed(source: bytes) -> Document:
    """The tree of such a document after its completion: what is new is told apart, and the blanks are gone."""
    document = Document(source)
    for node in document.elements():
        if node.owner is not None:
            node.new = not node.attrs.endswith(" ")
            node.attrs = node.attrs[:-1]
    return document

