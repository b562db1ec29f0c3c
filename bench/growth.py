"""Runs the program on a shape of `shapes.py`, at its size and at ten times that size, and tells by which exponents time and memory grow."""
import math
import os
import re
import tempfile
from pathlib import Path
from typing import NamedTuple

from shapes import Shape
from timing import Ran, run, written

# So long may a run take before it is ended, in seconds.
MOST = 300
# What a run takes at least, below which no growth is told: the start of a process.
LEAST_SECONDS, LEAST_MEMORY = 0.002, 4_000


class Work(NamedTuple):
    """A command with its files, and its input."""
    words: list[str]
    given: bytes


class Took(NamedTuple):
    """What a shape took at a size: processor seconds, kilobytes at the peak, and the status."""
    seconds: float
    memory: int
    status: int

    def least(self, other: "Took") -> "Took":
        return Took(min(self.seconds, other.seconds), min(self.memory, other.memory), self.status)


def command_of(shape: Shape) -> str:
    """The program's command; a session where it is none."""
    found = re.fullmatch("`(?:pvlong )?(dtd|valid|check|why|deny|need|complete|verify|standoff|drill)`", shape.command)
    return found[1] if found and shape.script is None else "session"


def work_of(program: str, shape: Shape, size: int, folder: str) -> Work:
    """The work of a shape in a size, with its files in the folder."""
    command, doc = command_of(shape), shape.made(size)
    dtd = written(f"{folder}/a.dtd", doc.dtd)
    script = shape.script(size).encode() if shape.script else b""
    if command == "dtd":
        return Work([program, command, dtd], script)
    names = [written(f"{folder}/{at}", text) for at, text in enumerate(shape.files(size) if shape.files else [doc.text])]
    if shape.by:
        made = run([program, shape.by, dtd, doc.root, *names], keep=True, most=MOST).output
        pack = Path(folder) / "made"
        pack.write_bytes(shape.changed(made, size) if shape.changed else made)
        names.append(str(pack))
    limit = ["prlimit", f"--as={shape.addresses * 1_000_000}"] if shape.addresses else []
    within = ["env", f"PVLONG_SECONDS={shape.seconds}"] if shape.seconds is not None else []
    return Work([*limit, *within, program, command, dtd, doc.root, *names], script)


def took(work: Work) -> Took:
    ran: Ran = run(work.words, work.given, most=MOST)
    return Took(ran.seconds, ran.memory, ran.status)


def growth(small: float, large: float, least: float) -> float:
    """The exponent, of what is more than the start of a process."""
    return math.log10(max(large, least) / max(small, least))


class Measured(NamedTuple):
    """What a shape took at its size and at ten times as much."""
    shape: Shape
    small: Took
    large: Took

    @property
    def time_growth(self) -> float:
        return growth(self.small.seconds, self.large.seconds, LEAST_SECONDS)

    @property
    def memory_growth(self) -> float:
        return growth(self.small.memory, self.large.memory, LEAST_MEMORY)


def measured(program: str, shape: Shape, rounds: int = 1) -> Measured:
    """Measures a shape, the least of so many rounds."""
    with tempfile.TemporaryDirectory(prefix="pvtag-worst-") as folder:
        works = []
        for times in (1, 10):
            os.mkdir(f"{folder}/{times}")
            works.append(work_of(program, shape, times * shape.size, f"{folder}/{times}"))
        found = [took(work) for work in works]
        for _ in range(rounds - 1):
            found = [one.least(took(work)) for one, work in zip(found, works)]
        return Measured(shape, *found)
