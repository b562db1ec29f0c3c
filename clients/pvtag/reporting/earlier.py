"""An earlier report, or what a run that was ended left of one, and which of its rows still hold."""
import hashlib
import os
from collections.abc import Iterable, Iterator
from typing import IO

from .rows import JUDGED, Head, Row, head_of, row_of, titles

# So many bytes of rows are read together.
MOST_BYTES = 16_384


class Earlier:
    """The rows of a report by the documents' paths. Only where each row stands is kept; a line that isn't whole is passed over. It is looked for where
    the rows stand, unless that is known."""

    def __init__(self, path: str, places: dict[str, int] | None = None) -> None:
        self.path = path
        self.head: Head | None = None
        self.form, self.places = "json", dict[str, int]()
        try:
            self.file: IO[bytes] | None = open(path, "rb")
        except FileNotFoundError:
            self.file = None
            return
        first = self.file.readline().decode(errors="replace")
        self.head = head_of(first)
        self.form = "tsv" if first.startswith("#") else "json"
        self.places = {row.path: place for place, row in self.rows()} if places is None else places

    def rows(self) -> Iterator[tuple[int, Row]]:
        """All whole rows, each with where it stands."""
        if self.file is None:
            return
        self.file.seek(0)
        place = 0
        for line in self.file:
            text = line.decode(errors="replace")
            row = row_of(text[:-1], self.form) if text.endswith("\n") and text[:-1] != titles(self.form) else None
            if row is not None:
                yield place, row
            place += len(line)

    def of(self, path: str) -> Row | None:
        """The row of this document, if there is one."""
        place = self.places.get(path)
        if place is None or self.file is None:
            return None
        line = self.line_at(place)
        row = row_of(line.decode(errors="replace"), self.form) if line is not None else None
        return row if row is not None and row.path == path else None

    def lines(self, paths: Iterable[str]) -> Iterator[bytes]:
        """The rows of these documents as they stand there. Most stand there one after another, so that some are read together."""
        block, begin = b"", 0
        for path in paths:
            place = self.places.get(path)
            if place is None or self.file is None:
                continue
            at = place - begin
            end = block.find(b"\n", at) if at >= 0 else -1
            if end < 0:
                line = self.line_at(place)
                if line is not None:
                    yield line + b"\n"
                block, begin = os.pread(self.file.fileno(), MOST_BYTES, place), place
            else:
                yield block[at:end + 1]

    def line_at(self, place: int) -> bytes | None:
        """The line that begins there, if it is whole. Several threads may read at once."""
        parts: list[bytes] = []
        while self.file is not None and (part := os.pread(self.file.fileno(), 1 << 11, place)):
            before, end, _ = part.partition(b"\n")
            parts.append(before)
            if end:
                return b"".join(parts)
            place += len(part)
        return None

    def holding(self, path: str) -> Row | None:
        """The row of this document, where it still holds: its size is as it was, and the time of its last change or else its sum. What had no
        verdict is judged again."""
        row = self.of(path)
        if row is None or row.verdict not in JUDGED:
            return None
        try:
            now = os.stat(path)
        except (OSError, ValueError):
            return None
        if now.st_size != row.size:
            return None
        if now.st_mtime_ns == row.time:
            return row
        return row._replace(time=now.st_mtime_ns) if row.sum is not None and sum_of(path) == row.sum else None


def sum_of(path: str) -> str | None:
    """The SHA-256 of a file's bytes, none where it can't be read."""
    try:
        with open(path, "rb") as file:
            return hashlib.file_digest(file, "sha256").hexdigest()
    except (OSError, ValueError):
        return None
