"""The order of names that are offered: those with which the list is valid first, then those with which no more elements
are missing, then the others by how many are; within each by use below the same parent in the document."""
import contextlib
import hashlib
import time
from collections import Counter
from collections.abc import Mapping, Sequence
from typing import NamedTuple

from .documents import Document
from .grammar import Grammar
from .nodes import END, ITEM, SLASH, START
from pvtag.costs import Known, Task
from pvtag.session import Session
from .work import Work

# So long after a request, in seconds, names are looked at, and costs are counted; on a slow machine they are looked at for
# as long at least once the session is there.
LOOK, COUNT, LEAST = 0.1, 0.15, 0.05
# Of so many places what is known is kept, and for so many seconds what is used in a document.
KEPT, FRESH = 300, 10.0


class Named(NamedTuple):
    """A name that is offered: whether the list is valid with it, and how many more elements are missing then, where that
    is known."""

    name: str
    is_direct: bool
    cost: int | None


class Times(NamedTuple):
    """Until when, by the clock, the names of a request are looked at, and until when costs are counted."""

    looked: float
    counted: float


def times_of(begun: float) -> Times:
    """The times of a request that begun then and whose session is there now."""
    now = time.monotonic()
    return Times(max(begun + LOOK, now + LEAST), max(begun + COUNT, now + LEAST))


def costs_of(
    grammar: Grammar, session: Session, data: bytes, path: str, line: str, names: Sequence[str], times: Times
) -> list[Named]:
    """What is known of these names, after a look and a count in this session, which is on the data. Names of a renaming are
    counted alone: the element's own list changes too, which a look at what is open doesn't tell apart."""
    kept, lock = grammar.declared.costs, grammar.declared.lock
    key = hashlib.blake2b(data, digest_size=16).digest(), line
    with lock:
        known = kept.pop(key, None) or Known()
        kept[key] = known
        if len(kept) > KEPT:
            kept.pop(next(iter(kept)))
    task = Task(lambda: contextlib.nullcontext(session), path, [], line, [*names], known)
    if task.left:
        if not line.startswith("rename "):
            task.look(times.looked)
            task.left, task.new = known.lacking([*names]), []
        left = times.counted - time.monotonic()
        if task.left and left > 0:
            task.more([], True, left)
    return [Named(name, name in known.direct, 0 if name in known.whole else known.costs.get(name)) for name in names]


def used(document: Document, owner: str) -> Mapping[str, int]:
    """How often each name stands in elements of this name, in a text of the document that the program has read."""
    if document.accepted.used is None:
        refresh(document)
    return (document.accepted.used or {}).get(owner.encode(), {})


def refresh(document: Document) -> None:
    """Counts that anew in the last text that the program has read, where it is some time ago."""
    accepted, now = document.accepted, time.monotonic()
    if accepted.tree is not None and (accepted.used is None or now > accepted.used_at + FRESH):
        accepted.used, accepted.used_at = counted(accepted.tree.data), now


def counted(data: bytes) -> dict[bytes, Counter[str]]:
    found, opened = dict[bytes, Counter[str]](), [b""]
    for item in ITEM.finditer(data):
        if item.lastindex == START:
            found.setdefault(opened[-1], Counter())[item[1].decode(errors="replace")] += 1
            if data[item.end() - 2] != SLASH:
                opened.append(item[1])
        elif item.lastindex == END and len(opened) > 1:
            opened.pop()
    return found


def ordered(work: Work, grammar: Grammar, document: Document, owner: str, offered: Sequence[Named]) -> list[Named]:
    """These names in their order."""
    work.check()
    uses, order = used(document, owner), grammar.order()

    def key(each: Named) -> tuple[int, int, int, int, int]:
        cost = 1 << 20 if each.cost is None else each.cost
        # A name that is used there already comes before others of which as little is known.
        kind = 0 if each.is_direct else 1 if cost <= 0 or each.cost is None and uses.get(each.name) else 2
        return kind, max(cost, 0) if kind == 2 else 0, -uses.get(each.name, 0), cost, order.get(each.name, 0)

    return sorted(offered, key=key)
