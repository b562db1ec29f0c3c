"""What may be done in a list that nothing can mend.

A session counts impossible lists, and refuses an edit that makes more. In a list that is impossible already it refuses
little. So names are asked of the list without the kids that stand in the way; and a move of one of these is kept where
fewer lists are impossible after it, and the list itself isn't.
"""
import sys
import time
from collections.abc import Callable, Collection, Mapping, Sequence
from typing import NamedTuple

from .grammar import Grammar
from .lists import Alone, kids_of, names
from .nodes import Element
from .order import Named, Times, costs_of, times_of
from pvtag.session import Ended, Made, Refused, Session
from pvtag.tries import Kid
from .work import Work

# So many reasons of a list are looked for, one after another.
MOST_REASONS = 10
Part = tuple[int, int]


class Changes(NamedTuple):
    """Other names for an element with what they cost, whether its tags may be removed, and whether that mends a list."""

    names: list[Named]
    is_unwrapped: bool
    is_fix: bool


NOTHING = Changes([], False, False)


def impossible(session: Session) -> set[str]:
    """The paths of the lists that nothing can mend."""
    found = session.unsettled(sys.maxsize, 0)
    return set() if isinstance(found, Refused) else {*found.first_bad}


def in_the_way(work: Work, grammar: Grammar, owner: str, kids: Sequence[Kid]) -> list[set[int]] | None:
    """The numbers of kids without which this list can be mended, those together that stand in each other's way; none
    where the element itself can't be, or too many are in the way."""
    found = [{at} for at, kid in enumerate(kids) if kid.kind == "element" and not grammar.dtd.is_productive(kid.name)]
    for _ in range(MOST_REASONS):
        gone = set[int]().union(*found)
        left = [at for at in range(len(kids)) if at not in gone]
        if not owner and not left:
            # Without its root a document is anything.
            return found
        reason = work.reason(grammar, "0" if owner else ".", owner, [kids[at] for at in left])
        if reason is None:
            return found
        if not reason.kids:
            return None
        found.append({left[at] for at in reason.kids})
    return None


def others_in_the_way(found: list[set[int]], at: int) -> set[int]:
    """The kids that are in the way, but for a kid and those that it stands in the way of."""
    return set[int]().union(*(each for each in found if at not in each))


def reduced(kids: Sequence[Kid], gone: Collection[int]) -> tuple[list[Kid], list[int]]:
    """A list without some of its kids, and the number there of each kid, or of the next one, and of the end."""
    left, places = list[Kid](), list[int]()
    for at, kid in enumerate(kids):
        places.append(len(left))
        if at not in gone:
            left.append(kid)
    return left, [*places, len(left)]


def wraps(
    work: Work, grammar: Grammar, owner: str, kids: Sequence[Kid], runs: Sequence[Part], uses: Mapping[str, int]
) -> list[list[Named]]:
    """The names that each of these runs of kids may be wrapped in, with what they cost, each name with its first run;
    those that are used most are looked at first. A wrap is an insertion, so none mends a list that is impossible."""
    alone, begun = Alone(owner, kids), time.monotonic()
    try:
        with work.session(grammar, alone.root(grammar), alone.data) as session:
            if alone.path not in impossible(session):
                return wraps_in(session, grammar, alone, runs, runs, uses, times_of(begun))
        gone = in_the_way(work, grammar, owner, kids)
        if gone is None:
            return [[] for _ in runs]
        left, places = reduced(kids, set[int]().union(*gone))
        alone = Alone(owner, left)
        with work.session(grammar, alone.root(grammar), alone.data) as session:
            parts = [(places[start], places[end]) for start, end in runs]
            return wraps_in(session, grammar, alone, runs, parts, uses, times_of(begun))
    except Ended:
        return [[] for _ in runs]


def wraps_in(
    session: Session,
    grammar: Grammar,
    alone: Alone,
    runs: Sequence[Part],
    parts: Sequence[Part],
    uses: Mapping[str, int],
    times: Times,
) -> list[list[Named]]:
    """The names that may go round runs which are these parts of the list alone. A run that has only kids in the way is no
    place."""
    known, found = set[str](), list[list[Named]]()
    for (start, end), (first, last) in zip(runs, parts, strict=True):
        is_place = first < last or start == end
        names = [name for name in alone.wraps(session, first, last) if name not in known] if is_place else []
        names.sort(key=lambda name: -uses.get(name, 0))
        line = f"wrap {alone.path} {alone.places[first]} {alone.places[last]}"
        found.append(costs_of(grammar, session, alone.data, alone.path, line, names, times))
        known |= {*names}
    return found


def mending(session: Session, path: str, offered: Sequence[str], line: Callable[[str], str]) -> list[str]:
    """The names with which this move leaves the fewest lists impossible, fewer than there are and not the one at this
    path."""
    before = impossible(session)
    found = dict[str, int]()
    for name in offered:
        reply = session.edit(line(name))
        if isinstance(reply, Made):
            if reply.bad < len(before) and path not in impossible(session):
                found[name] = reply.bad
            session.undo()
    return [name for name, bad in found.items() if bad == min(found.values())]


def changes_of(work: Work, grammar: Grammar, element: Element, data: bytes, uses: Mapping[str, int]) -> Changes:
    """The other names that an element may have, of which those that are used most are looked at first, and whether its tags
    may be removed."""
    assert element.owner is not None
    owner, kids, below = element.owner.label, kids_of(element.owner, data), kids_of(element, data)
    alone, begun = Alone(owner, kids, element.at, below), time.monotonic()
    try:
        with work.session(grammar, alone.root(grammar), alone.data) as session:
            if not impossible(session) & {alone.path, alone.kid_path(element.at)}:
                return changes_in(session, grammar, alone, element, element.at, uses, times_of(begun))
        gone = in_the_way(work, grammar, owner, kids)
        if gone is None:
            return NOTHING
        left, places = reduced(kids, others_in_the_way(gone, element.at))
        alone, at = Alone(owner, left, places[element.at], below), places[element.at]
        with work.session(grammar, alone.root(grammar), alone.data) as session:
            path = alone.kid_path(at)
            if not impossible(session) & {alone.path, path}:
                return changes_in(session, grammar, alone, element, at, uses, times_of(begun))
            others = mending(session, alone.path, names(session.offer(path)), lambda name: f"rename {path} {name}")
            is_unwrapped = bool(mending(session, alone.path, [""], lambda _: f"unwrap {path}"))
            return Changes([Named(name, False, None) for name in others], is_unwrapped, True)
    except Ended:
        return NOTHING


def changes_in(
    session: Session, grammar: Grammar, alone: Alone, element: Element, at: int, uses: Mapping[str, int], times: Times
) -> Changes:
    """What may be done with an element if no list concerned is impossible."""
    path = alone.kid_path(at)
    others = [name for name in names(session.offer(path)) if name != element.label]
    others.sort(key=lambda name: -uses.get(name, 0))
    found = costs_of(grammar, session, alone.data, alone.path, f"rename {path}", others, times)
    return Changes(found, isinstance(session.unwrap(path), Made), False)


class Move(NamedTuple):
    """A kid that is moved before or after another one."""

    at: int
    other: int
    is_after: bool


def moves_of(work: Work, grammar: Grammar, element: Element, data: bytes) -> list[Move]:
    """The places beside kids that stand in its way, at which an element stands in nobody's."""
    assert element.owner is not None
    owner, kids = element.owner.label, kids_of(element.owner, data)
    found = in_the_way(work, grammar, owner, kids) or []
    together = next((each for each in found if element.at in each), set[int]())
    tried = [Move(element.at, other, other > element.at) for other in sorted(together) if other != element.at]
    gone = others_in_the_way(found, element.at)
    return [move for move in tried if is_possible(work, grammar, owner, moved(kids, move, gone))]


def moved(kids: Sequence[Kid], move: Move, gone: Collection[int]) -> list[Kid]:
    order = [at for at in range(len(kids)) if at != move.at]
    order.insert(order.index(move.other) + move.is_after, move.at)
    return [kids[at] for at in order if at not in gone]


def is_possible(work: Work, grammar: Grammar, owner: str, kids: Sequence[Kid]) -> bool:
    alone = Alone(owner, kids)
    try:
        with work.session(grammar, alone.root(grammar), alone.data) as session:
            return alone.path not in impossible(session)
    except Ended:
        return False
