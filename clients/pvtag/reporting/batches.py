"""A list of documents cut into batches for several machines, and the rows of batches put together."""
import os
import resource
from collections.abc import Iterator, Sequence
from pathlib import Path

from .documents import names_in
from .earlier import Earlier
from .rows import Head, Row

# The whole list, in order; a batch; the rows of a batch.
ALL, BATCH, ROWS = "documents", "batch-{:05d}", "{}.rows"


def size_of(path: str) -> int:
    """How many bytes a document has; what can't be read has none."""
    try:
        return os.stat(path).st_size
    except (OSError, ValueError):
        return 0


def batches_of(paths: Sequence[str], count: int) -> list[list[str]]:
    """The documents in at most so many batches of about equal bytes, each document counted with a start of the program as 4,096 more."""
    weights = [size_of(path) + 4096 for path in paths]
    batches: list[list[str]] = [[]]
    share, filled = sum(weights) / count, 0
    for path, weight in zip(paths, weights):
        if filled + weight / 2 > share * len(batches) and batches[-1]:
            batches.append([])
        batches[-1].append(path)
        filled += weight
    return [batch for batch in batches if batch]


def plan(paths: Sequence[str], count: int, folder: Path) -> list[Path]:
    """Writes the batches into a folder that has none yet, each a list of names ended by the byte 0, and gives their files."""
    folder.mkdir(parents=True, exist_ok=True)
    if any(folder.iterdir()):
        raise FileExistsError(f"{folder} isn't empty")
    (folder / ALL).write_bytes(listed(paths))
    written = []
    for number, batch in enumerate(batches_of(paths, count), 1):
        file = folder / BATCH.format(number)
        file.write_bytes(listed(batch))
        written.append(file)
    return written


def listed(paths: Sequence[str]) -> bytes:
    return b"".join(os.fsencode(path) + b"\0" for path in paths)


class Joined:
    """The rows of the batches of a folder. A batch that was done twice counts once; heads that differ don't go together."""

    def __init__(self, folder: Path) -> None:
        self.paths = names_in((folder / ALL).read_bytes())
        files = sorted(folder.glob(ROWS.format("batch-*")))
        most, hard = resource.getrlimit(resource.RLIMIT_NOFILE)
        if len(files) + 64 > most:
            resource.setrlimit(resource.RLIMIT_NOFILE, (hard, hard))
        # Rows without a whole head may rest on anything.
        self.parts = [part for part in map(Earlier, map(str, files)) if part.head is not None]
        self.part_of = {path: part for part in reversed(self.parts) for path in part.places}
        heads = {part.head for part in self.parts}
        if len(heads) > 1:
            raise ValueError("the batches weren't judged alike: their DTDs, roots, programs or questions differ")
        self.head: Head | None = next(iter(heads), None)

    def rows(self) -> Iterator[tuple[str, Row | None]]:
        """Each document with its row, none where it is missing, in the order of the plan."""
        for path in self.paths:
            part = self.part_of.get(path)
            yield path, None if part is None else part.of(path)
