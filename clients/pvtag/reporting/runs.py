"""Documents judged side by side, with no more in hand than some for each job."""
import contextlib
import queue
import threading
import time
from collections.abc import Callable, Iterator, Sequence

from pvtag.program import Stopped

from .rows import Row


# So many documents a job takes at a time at most; fewer once few are left, so that all jobs end together.
MOST_TAKEN = 64
# So many seconds a thread waits for its turn at most.
PATIENCE = 0.02
# Rows, each with its document's place.
Found = list[tuple[int, Row]]


class Runs:
    """Judges documents by several threads, some at a time: `judge` gives their rows as they come, each with its document's place among them."""

    def __init__(self, judge: Callable[[Sequence[str]], Iterator[Found]], jobs: int) -> None:
        self.judge, self.jobs = judge, jobs
        self.rows: queue.SimpleQueue[Found | BaseException] = queue.SimpleQueue()
        self.lock, self.taken = threading.Lock(), 0
        self.threads: list[threading.Thread] = []

    def over(self, paths: Sequence[str]) -> Iterator[Found]:
        """The rows of these documents, in the order in which they are found, those that come together at once."""
        for _ in range(min(self.jobs, len(paths))):
            self.threads.append(threading.Thread(target=self.work, args=[paths], daemon=True))
            self.threads[-1].start()
        left = len(paths)
        while left:
            found = self.rows.get()
            if isinstance(found, BaseException):
                raise found
            left -= len(found)
            yield found

    def end(self) -> None:
        """Waits for what was stopped, but not for long: a device may not answer."""
        end = time.monotonic() + 1
        for thread in self.threads:
            thread.join(max(end - time.monotonic(), 0))

    def work(self, paths: Sequence[str]) -> None:
        """Judges some documents after others, until none is left."""
        try:
            while (some := self.some(len(paths))):
                for found in self.judge(paths[some.start:some.stop]):
                    self.rows.put([(some.start + at, row) for at, row in found])
        except Stopped:
            return
        except BaseException as fault:  # pylint: disable=broad-except
            self.rows.put(fault)

    def some(self, count: int) -> range:
        """The numbers of the documents that come next."""
        with self.lock:
            begin = self.taken
            self.taken += min(MOST_TAKEN, -(-(count - begin) // (4 * self.jobs)))
            return range(begin, self.taken)


class Turn:
    """Lets one thread after another do what Python does in one thread at a time anyway: those that try it side by side hand its lock from one to the
    other at each call of the system. None waits for long: a device may not answer."""

    def __init__(self) -> None:
        self.lock = threading.Lock()

    @contextlib.contextmanager
    def taken(self) -> Iterator[None]:
        """This thread's turn, or what comes without one."""
        is_taken = self.lock.acquire(timeout=PATIENCE)
        try:
            yield
        finally:
            if is_taken:
                self.lock.release()


class InOrder:
    """Rows put into the order of their numbers; those that come before their turn are kept for so long."""

    def __init__(self) -> None:
        self.ahead: dict[int, Row] = {}
        self.wanted = 0

    def add(self, found: Found) -> Iterator[Row]:
        """The rows whose turn it is by now."""
        self.ahead.update(found)
        while self.wanted in self.ahead:
            yield self.ahead.pop(self.wanted)
            self.wanted += 1

    def rest(self) -> list[Row]:
        """The rows that are kept still, where those before them won't come."""
        return [self.ahead.pop(number) for number in sorted(self.ahead)]
