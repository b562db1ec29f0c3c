"""What each name that is offered costs: how many more elements are missing with it, and which.

That is asked in a second session, of a document that holds the list in question and no more, so what can be undone and
made again stays as it is. Where that list stays valid with the name it takes a millisecond, and else some ten under a
large DTD, for each of some hundred names. So the former are told first, and of the others those that are wanted. Which
elements are missing takes as long again.
"""
import contextlib
import re
import threading
import time
from collections import Counter
from collections.abc import Callable, Iterator
from typing import Any

from .session import Ended, Made, Refused, Session

# So long one answer takes, in seconds.
TURN = 0.12
# A start tag that was there has a blank in it: what is new has none.
NEW_TAG = re.compile(r"<([^\s/>!?]+)>")
# So many names of missing elements are told.
NAMED = 4
# So many moves are asked about together, and so many bytes may be said of them: what isn't read yet fits into a pipe.
AT_ONCE, MOST_SAID = 32, 32 << 10
# Begins a session on the document of a list, which is there for as long as that is wanted.
Begin = Callable[[], "contextlib.AbstractContextManager[Session]"]


class Known:
    """What is known of one place, or of another that looks the same: how many more elements are missing after names,
    and which; the names with which nothing is missing in the lists that are changed, and those with which that isn't
    quickly told; and those with which the list itself is valid, whatever is missing in what is new."""

    def __init__(self) -> None:
        self.costs: dict[str, int | None] = {}
        self.names: dict[str, list[str]] = {}
        self.whole: set[str] = set()
        self.slow: set[str] = set()
        self.direct: set[str] = set()

    def lacking(self, names: list[str]) -> list[str]:
        return [name for name in names if name not in self.costs and name not in self.whole]


class Task:
    """The names for one place, and what is known of what they cost. The session is begun when that is asked for: `path`
    is the list there, `cuts` what the move needs, `line` the move without a name."""

    def __init__(self, begin: Begin, path: str, cuts: list[str], line: str, names: list[str], known: Known) -> None:
        self.begin, self.path, self.cuts, self.line, self.known = begin, path, cuts, line, known
        # The names that aren't counted yet, and of these the ones whose list wasn't looked at.
        self.left = known.lacking(names)
        self.new = [name for name in self.left if name not in known.slow]
        self.told = Known()
        self.lock, self.is_over = threading.Lock(), False
        self.opened: Session | None = None
        self.before: int | None = None
        self.before_by_name: Counter[str] | None = None

    @property
    def session(self) -> Session:
        if self.opened is None:
            with self.begin() as session:
                self.opened = session
                if self.is_over:
                    self.opened.process.kill()
                for cut in self.cuts:
                    self.opened.edit(cut)
                self.before = self.count()
        return self.opened

    @contextlib.contextmanager
    def moved(self, name: str) -> Iterator[bool]:
        """Makes the move with this name, and takes it back; whether it could be made."""
        is_made = isinstance(self.session.edit(f"{self.line} {name}"), Made)
        yield is_made
        if is_made and not isinstance(self.session.undo(), Made):
            raise Ended(None, "a move can't be taken back")

    def look(self, end: float) -> None:
        """Looks, until this time of the clock, with which names the list is valid, and with which nothing more is missing;
        some names are looked at in any case."""
        rows = self.session.verdict_lines()
        if isinstance(rows, Refused):
            return
        before, is_open = rows.count(b" possible "), not self.is_valid_in(rows)
        for at in range(0, len(self.left), AT_ONCE):
            if at and time.monotonic() > end:
                break
            names, others = self.left[at:at + AT_ONCE], list[str]()
            for name, (reply, _) in zip(names, self.tried(names)):
                if isinstance(reply, Made) and reply.open <= before - is_open:
                    self.known.whole.add(name)
                    self.known.direct.add(name)
                elif isinstance(reply, Made) and reply.open == before + 1:
                    others.append(name)
            few = max(1, MOST_SAID // (len(rows) + 100))
            for first in range(0, len(others), few):
                if time.monotonic() > end:
                    break
                some = others[first:first + few]
                self.known.direct.update(name for name, (_, now) in zip(some, self.tried(some, "verdicts")) if self.is_valid_in(now))

    def tried(self, names: list[str], then: str = "") -> list[tuple[Made | Refused, bytes]]:
        """What the move answers with each of these names, and what is said then."""
        return self.session.tried([f"{self.line} {name}" for name in names], then)

    def count(self) -> int | None:
        """How many elements are missing; none where that can't be told."""
        told = self.session.need()
        return None if isinstance(told, Refused) else told

    def missing(self) -> Counter[str] | None:
        """The names of the elements that are missing; none where that can't be told."""
        done = self.session.complete()
        return None if isinstance(done, Refused) else Counter(NEW_TAG.findall(done.document.decode()))

    def tell_cost(self, name: str, is_quick: bool = False) -> None:
        """Finds how many more elements are missing after the move with this name; quickly or not at all where that is
        asked for."""
        if is_quick:
            ((reply, rows),) = self.tried([name], "verdicts")
            if isinstance(reply, Made) and not self.is_valid_in(rows):
                self.known.slow.add(name)
                return
        ((reply, told),) = self.tried([name], "need")
        count = int(told) if isinstance(reply, Made) and told else None
        cost = None if count is None or self.before is None else count - self.before
        self.told.costs[name] = self.known.costs[name] = cost
        self.left.remove(name)

    def is_valid_in(self, rows: bytes) -> bool:
        """Whether these verdicts have the list in question as valid, by itself, or are refused. In a renaming that is the list
        that the element stands in."""
        row = b"%b valid " % self.path.encode()
        return not rows or rows.startswith(row) or b"\n" + row in rows

    def tell_names(self, name: str) -> None:
        """Finds which elements these are."""
        if name not in self.known.names:
            self.known.names[name] = self.names_of(name)
        self.told.names[name] = self.known.names[name]

    def names_of(self, name: str) -> list[str]:
        if self.before_by_name is None:
            self.before_by_name = self.missing()
        with self.moved(name) as is_made:
            found = self.missing() if is_made else None
        if found is None or self.before_by_name is None:
            return []
        # The element of the move has no blank either, but where it is renamed.
        if not self.line.startswith("rename "):
            found[name] -= 1
        more = found - self.before_by_name
        names = [f"{each} ×{count}" if count > 1 else each for each, count in more.items()]
        return names[:NAMED] + ["…"] * (len(names) > NAMED)

    def steps(self, wanted: list[str], of_all: bool) -> Iterator[None]:
        """Finds one thing a step: what is quickly told of each name, the costs of those that are wanted, the elements
        that are missing after these, and the costs of all others."""
        while self.new:
            self.tell_cost(self.new[0], is_quick=True)
            self.new.pop(0)
            yield
        for name in wanted:
            if name in self.left:
                self.tell_cost(name)
                yield
        for name in wanted:
            if self.known.costs.get(name):
                self.tell_names(name)
                yield
        while of_all and self.left:
            self.tell_cost(self.left[0])
            yield

    def more(self, wanted: list[str], of_all: bool, turn: float = TURN) -> dict[str, Any]:
        """What is found in a turn and wasn't told yet, and how many names aren't counted then. One step is made in any
        case."""
        with self.lock:
            end = time.monotonic() + turn
            for _ in self.steps(wanted, of_all):
                if time.monotonic() > end:
                    break
            told, self.told = self.told, Known()
            return {"costs": told.costs, "names": told.names, "left": len(self.left), "is_quick": not self.new}

    def stop(self) -> None:
        """Ends it, also in mid-answer."""
        self.is_over = True
        if self.opened is not None:
            self.opened.process.kill()
            with self.lock:
                self.opened.close()
