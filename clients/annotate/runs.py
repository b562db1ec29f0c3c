"""Places of the document, as the page tells them, and what a session is told for them.

The page tells a place as [kid, unit]: before that unit of the kid of a list, or after the whole kid; without a kid, at
the list's end. A run goes from one place of a list to another. A stretch is a part of the texts that stand side by side
in a list, by units counted through them.
"""
from collections.abc import Iterator
from typing import Any, NamedTuple

from pvtag.document import ELEMENT, TEXT, Document, Node, dotted


class Stale(Exception):
    """The page speaks of what isn't there any more."""


# A place in a list: the number of a kid, and a unit that its text is cut before, or none.
Spot = tuple[int, int | None]


class Run(NamedTuple):
    """The cuts that a run needs, its list's path, and from where to where it goes after them."""

    cuts: list[str]
    path: str
    start: int
    end: int


class Stretch(NamedTuple):
    """Units `start` up to `end` of the texts side by side in a list, the first of which has this number among its
    kids."""

    owner: int
    first: int
    start: int
    end: int


def node_of(document: Document, number: Any) -> tuple[Node, str]:
    """A node that is there, and its path."""
    node = document.nodes.get(number)
    if node is None:
        raise Stale
    try:
        return node, document.path_of(node)
    except ValueError:
        raise Stale from None


def element_of(document: Document, number: Any) -> tuple[Node, str]:
    node, path = node_of(document, number)
    if node.kind != ELEMENT:
        raise Stale
    return node, path


def below(path: str, at: int) -> str:
    """The path of a kid."""
    return dotted([at]) if path == "." else f"{path}.{at}"


def spot_of(document: Document, owner: Node, kid: Any, unit: int) -> Spot:
    if kid is None:
        return len(owner.kids), None
    node, _ = node_of(document, kid)
    if node.owner is not owner:
        raise Stale
    at, size = owner.kids.index(node), len(node.units) if node.kind == TEXT else 1
    if not 0 <= unit <= size:
        raise Stale
    return (at, None) if unit == 0 else (at + 1, None) if unit == size else (at, unit)


def spots_of(document: Document, place: Any) -> tuple[Node, str, Spot, Spot]:
    """The list of a place that the page tells, its path, and where the run begins and ends."""
    owner, path = element_of(document, place["list"])
    start = spot_of(document, owner, *place["from"])
    end = spot_of(document, owner, *place["to"])
    if (end[0], end[1] or 0) < (start[0], start[1] or 0):
        raise Stale
    return owner, path, start, end


def run_of(document: Document, place: Any) -> Run:
    _, path, start, end = spots_of(document, place)
    return run_between(path, start, end)


def run_between(path: str, start: Spot, end: Spot) -> Run:
    cuts: list[str] = []
    (first, cut), (last, last_cut) = start, end
    if last_cut is not None:
        cuts.append(f"split {below(path, last)} {last_cut}")
        last += 1
    if cut is not None:
        if start != end:
            cuts.append(f"split {below(path, first)} {cut}")
            last += 1
        first += 1
    return Run(cuts, path, first, last)


# Stretches.
def stretch_of(document: Document, place: Any) -> Stretch:
    """The stretch from one place to another, between which there are texts alone."""
    owner, _, start, end = spots_of(document, place)
    if any(kid.kind != TEXT for kid in owner.kids[start[0]:end[0]]):
        raise Stale
    first = start[0]
    while first > 0 and owner.kids[first - 1].kind == TEXT:
        first -= 1
    return Stretch(owner.id, first, units_before(owner, first, start), units_before(owner, first, end))


def units_before(owner: Node, first: int, spot: Spot) -> int:
    return sum(len(kid.units) for kid in owner.kids[first:spot[0]]) + (spot[1] or 0)


def spot_at(owner: Node, first: int, unit: int) -> Spot:
    """The place after so many units of the texts from this one on."""
    at = first
    while at < len(owner.kids) and owner.kids[at].kind == TEXT and unit >= len(owner.kids[at].units):
        unit -= len(owner.kids[at].units)
        at += 1
    return at, unit or None


def run_over(document: Document, stretch: Stretch) -> Run:
    owner, path = element_of(document, stretch.owner)
    start, end = (spot_at(owner, stretch.first, unit) for unit in stretch[2:])
    return run_between(path, start, end)


def texts_of(owner: Node) -> Iterator[tuple[int, list[Node]]]:
    """The texts of a list, those side by side together, with the number of the first of them."""
    at, kids = 0, owner.kids
    while at < len(kids):
        first = at
        while at < len(kids) and kids[at].kind == TEXT:
            at += 1
        if at > first:
            yield first, kids[first:at]
        else:
            at += 1

