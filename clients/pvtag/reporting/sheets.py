"""Reports as files: rows that are written as they are found, and files that take their names once they are whole."""
import contextlib
import fcntl
import itertools
import os
import threading
import time
from collections.abc import Iterable, Iterator, Mapping
from typing import IO

from pvtag.program import Trouble, shown_name

from .rows import Head, Row, titles

# So many lines are written at once at most.
MOST_LINES = 256


class Sheet:
    """A report that is being written: a head, and lines, handed to the system at once as they come, and put on the disk once a second where the file
    is to outlast the machine. Several threads may write."""

    def __init__(self, file: IO[bytes], form: str, is_kept: bool = False) -> None:
        self.file, self.form, self.is_kept, self.lock = file, form, is_kept, threading.RLock()
        self.synced = time.monotonic()

    def begin(self, head: Head) -> None:
        self.put(line for line in (head.line(self.form), titles(self.form)) if line is not None)

    def add(self, rows: Iterable[Row]) -> None:
        self.put(row.text(self.form) for row in rows)

    def put(self, lines: Iterable[str]) -> None:
        left = iter(lines)
        while (some := list(itertools.islice(left, MOST_LINES))):
            self.write("".join(f"{line}\n" for line in some).encode())

    def write(self, data: bytes) -> None:
        with self.lock:
            self.file.write(data)
            self.file.flush()
            if self.is_kept and time.monotonic() - self.synced > 1:
                os.fdatasync(self.file.fileno())
                self.synced = time.monotonic()


class Spool(Sheet):
    """A report whose rows stand as they were found, and where each of them begins; `places` are those that the file has by now."""

    def __init__(self, file: IO[bytes], form: str, is_kept: bool, places: Mapping[str, int]) -> None:
        super().__init__(file, form, is_kept)
        self.places, self.size = dict(places), file.seek(0, os.SEEK_END)

    def add(self, rows: Iterable[Row]) -> None:
        found = [(row.path, f"{row.text(self.form)}\n".encode()) for row in rows]
        with self.lock:
            at = self.size
            for path, line in found:
                self.places[path] = at
                at += len(line)
            self.write(b"".join(line for _, line in found))

    def write(self, data: bytes) -> None:
        with self.lock:
            super().write(data)
            self.size += len(data)


@contextlib.contextmanager
def new_file(path: str) -> Iterator[IO[bytes]]:
    """A file that takes its name once it is whole, and on the disk."""
    folder, name = os.path.split(path)
    new = os.path.join(folder, f".{name}.{os.getpid()}")
    try:
        with open(new, "wb") as file:
            yield file
            file.flush()
            os.fsync(file.fileno())
        os.replace(new, path)
    finally:
        with contextlib.suppress(FileNotFoundError):
            os.unlink(new)


@contextlib.contextmanager
def part_of(path: str) -> Iterator[IO[bytes]]:
    """The file in which rows stand until all are there. One run at a time has it; one that has ended may have taken it away meanwhile."""
    while True:
        with open(path, "ab") as file:
            try:
                fcntl.flock(file, fcntl.LOCK_EX | fcntl.LOCK_NB)
            except BlockingIOError:
                raise Trouble(f"another run writes {shown_name(path)}") from None
            if os.path.exists(path) and os.path.samestat(os.fstat(file.fileno()), os.stat(path)):
                yield file
                os.unlink(path)
                return


def ends_line(path: str) -> bool:
    """Whether a file is empty or ends with a line's end: what was cut off in a row isn't one."""
    with open(path, "rb") as file:
        size = file.seek(0, os.SEEK_END)
        file.seek(max(size - 1, 0))
        return file.read() in (b"", b"\n")
