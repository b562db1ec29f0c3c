"""Documents judged by few processes: `pvmany`, which reads a DTD once and answers one document after another."""
import contextlib
import functools
import os
import subprocess
import threading
import time
from collections.abc import Iterator, Sequence

from pvtag.program import RUNNING, Answer, Stopped, is_made, is_ready, is_utf_8

# So many processes wait for a document at most, under all DTDs.
MOST_IDLE = 64
# So many bytes of names are given to one at a time: less than a pipe holds.
MOST_GIVEN = 16_384
# Who waits for several lines takes together those that come within so many seconds of the first: each is written by itself.
MOMENT = 0.004
# The status with which `pvtag` prints a line, by how the line begins. Any other line is asked of `pvtag` itself.
STATUSES = {b"valid": 0, b"possible": 0, b"impossible": 1, b"document": 7, b"limit": 8, b"need": 0, b"no impossible": 0, b"no wide": 0, b"no heavy": 0}


def status_of(line: bytes) -> int | None:
    words = line.split()
    return next((STATUSES[begun] for begun in (b" ".join(words[:count]) for count in (1, 2)) if begun in STATUSES), None)


def find_many(program: list[str]) -> list[str] | None:
    """The words that begin `pvmany`, of the same build as this `pvtag`: the file beside it, if it has been made."""
    folder, name = os.path.split(os.path.realpath(program[-1]))
    if not name.startswith("pvtag"):
        return None
    file = os.path.join(folder, f"pvmany{name.removeprefix('pvtag')}")
    built = os.path.join(folder, "build", "pvmany")
    if not (os.path.isfile(file) and os.access(file, os.X_OK)):
        return None
    # The repository's script would build it, which takes too long for somebody who waits.
    is_script = os.path.isdir(os.path.join(folder, "crates"))
    return [file] if not is_script or os.access(built, os.X_OK) or is_made(built) else None


class Died(Exception):
    """A process ended before it answered."""


class Process:
    """One `pvmany`, with its words: a question, a DTD and a root."""

    def __init__(self, program: list[str], words: tuple[str, str, str]) -> None:
        self.words, self.held, self.since = words, b"", 0.0
        self.run = RUNNING.start([*program, *words], stderr=subprocess.DEVNULL)

    def give(self, names: Sequence[bytes]) -> None:
        """Gives it the names of documents: few enough that it takes them while nobody reads its lines."""
        assert self.run.stdin
        try:
            self.run.stdin.write(b"".join(name + b"\0" for name in names))
            self.run.stdin.flush()
        except OSError:
            raise Died from None
        self.since = time.monotonic()

    def lines(self, names: Sequence[bytes], most: float) -> list[bytes]:
        """The lines for the first of these documents, those that come together; none where none comes within so many seconds. Where the process ends it
        has died."""
        assert self.run.stdout
        end, found = time.monotonic() + most, self.whole_lines(names)
        while not found and is_ready(self.run.stdout, end - time.monotonic()):
            if len(names) > 1:
                # The others come as quickly as the first, about.
                time.sleep(min((time.monotonic() - self.since) * (len(names) - 1), MOMENT))
            more = os.read(self.run.stdout.fileno(), 65536)
            if not more:
                raise Died
            self.held += more
            found = self.whole_lines(names)
        self.since = time.monotonic()
        return found

    def whole_lines(self, names: Sequence[bytes]) -> list[bytes]:
        """The lines for the first of these documents that have come whole."""
        found, at = list[bytes](), 0
        for name in names:
            begin = at + len(name) + 1
            end = self.held.find(b"\n", begin) + 1
            if not end:
                break
            if not self.held.startswith(name + b"\0", at):
                raise Died
            found.append(self.held[begin:end])
            at = end
        self.held = self.held[at:]
        return found

    def end(self) -> None:
        """Ends it, whatever it does."""
        self.run.kill()
        with contextlib.suppress(OSError):
            self.run.communicate()
        with RUNNING.lock:
            RUNNING.runs.discard(self.run)


class Many:
    """The processes that wait for documents. Several threads may ask at once: each has one of its own meanwhile."""

    def __init__(self, program: list[str] | None) -> None:
        self.program, self.lock, self.idle = program, threading.Lock(), list[Process]()

    def taken(self, words: tuple[str, str, str]) -> Process | None:
        """A process with these words that waited."""
        with self.lock:
            found = next((it for it in self.idle if it.words == words), None)
            if found is not None:
                self.idle.remove(found)
            return found

    def put_back(self, process: Process) -> None:
        with self.lock:
            self.idle.append(process)
            over = self.idle.pop(0) if len(self.idle) > MOST_IDLE else None
        if over is not None:
            over.end()

    def takes(self, dtd: str, root: str, paths: Sequence[str]) -> list[bool]:
        """Which of these documents the program can be told of, if it is there."""
        is_asked = self.program is not None and is_utf_8(dtd) and is_utf_8(root)
        return [is_asked and is_utf_8(path) for path in paths]

    def answers(self, question: str, dtd: str, root: str, paths: Sequence[str], most: float) -> Iterator[list[Answer | None]]:
        """What `pvtag check`, or a session to `need`, answers for each of these documents within so many seconds: past them the status is -1. Those
        that come together are given together, in the order of the documents. None where there is no such answer here, and `pvtag` is to be asked
        itself: a process died at this document, or had no memory for it."""
        names, at = [os.fsencode(path) for path in paths], 0
        while at < len(names):
            for answers in self.from_one((question, dtd, root), names[at:at + fitting(names, at)], most):
                at += len(answers)
                yield answers

    def from_one(self, words: tuple[str, str, str], names: Sequence[bytes], most: float) -> Iterator[list[Answer | None]]:
        """What one process answers, up to the document at which it dies or takes too long."""
        assert self.program
        try:
            process = self.taken(words) or Process(self.program, words)
        except OSError:
            yield [None]
            return
        at, last = 0, None
        try:
            process.give(names)
            while at < len(names) and (lines := process.lines(names[at:], most)):
                at += len(lines)
                yield [answer_of(line) for line in lines]
            if at == len(names):
                return self.put_back(process)
            last = Answer(-1, b"")
        except Died:
            pass
        except BaseException:
            process.end()
            raise
        process.end()
        if RUNNING.stopped:
            raise Stopped
        yield [last]

    def end(self) -> None:
        """Ends all that wait."""
        with self.lock:
            idle, self.idle = self.idle, []
        for process in idle:
            process.end()


@functools.lru_cache(maxsize=256)
def answer_of(line: bytes) -> Answer | None:
    """The answer that a line is; none where `pvtag` has no such line."""
    status = status_of(line)
    return Answer(status, line) if status is not None else None


def fitting(names: Sequence[bytes], at: int) -> int:
    """How many of the names from there on are given together, one at least."""
    size = count = 0
    for name in names[at:]:
        size += len(name) + 1
        if count and size > MOST_GIVEN:
            break
        count += 1
    return count
