"""Tries how many threads of `check`, of a session's opening and of an `offer` did work: several for what is large, where there are several
processors; one beside the first at most, where there is one; the first alone for what is small.

Word: the program. A run is looked at while it waits, for its input or for somebody who reads its answer: how many threads it had by then, and how
much processor time they took, those that have ended too. The last line tells how many passed.
"""
import contextlib
import os
import subprocess
import sys
import tempfile
import time
from collections.abc import Callable, Iterator
from pathlib import Path
from typing import NamedTuple

from lib.counting import Expecting
from lib.waiting import PATIENCE

TICK = os.sysconf("SC_CLK_TCK")
# Lists that take tables, of which the verdicts take most of a run.
DTD = "<!ELEMENT r (a*)><!ELEMENT a (b, c?)><!ELEMENT b (a?)><!ELEMENT c EMPTY>"
LARGE, SMALL = ("<r>" + ("<a>" + "<c/>" * 400 + "</a>") * count + "</r>" for count in (6000, 3))
# Names that are tried one by one, each in a long list.
NAMES = [f"n{number}" for number in range(99)]
GROUPS = ",".join(f"({name}?,({NAMES[at * 7 % 99]}|{NAMES[at * 5 % 99]}|{name}))*" for at, name in enumerate(NAMES))
OFFERED = f"<!ELEMENT r ({GROUPS})>" + "".join(f"<!ELEMENT {name} ({NAMES[at - 1]}?,{NAMES[at - 2]}?)>" for at, name in enumerate(NAMES))
TRIES = 10


class Seen(NamedTuple):
    """What was seen of a run: how many threads at most, the seconds of all, and those of the others than the first."""
    threads: int
    seconds: float
    others: float


def seconds_of(stat: str) -> float:
    """The processor time that a line of /proc tells."""
    fields = stat.rpartition(")")[2].split()
    return (int(fields[11]) + int(fields[12])) / TICK


def threads_of(pid: int) -> dict[str, str]:
    """The threads of a process, each with what /proc tells of it."""
    found = {}
    with contextlib.suppress(OSError):
        for name in os.listdir(f"/proc/{pid}/task"):
            with contextlib.suppress(OSError):
                found[name] = Path(f"/proc/{pid}/task/{name}/stat").read_text(encoding="ascii", errors="replace")
    return found


def watched(run: subprocess.Popen[bytes]) -> Seen:
    """Watches a run until it has waited for a while, all threads asleep and none of them working."""
    most, quiet, last, end = 0, 0, -1.0, time.monotonic() + PATIENCE
    while quiet < 40 and time.monotonic() < end:
        threads = threads_of(run.pid)
        most = max(most, len(threads))
        whole = seconds_of(Path(f"/proc/{run.pid}/stat").read_text(encoding="ascii", errors="replace"))
        sleeps = all(stat.rpartition(")")[2].split()[0] == "S" for stat in threads.values())
        quiet = quiet + 1 if sleeps and whole == last and threads else 0
        last = whole
        time.sleep(0.005)
    first = threads_of(run.pid).get(str(run.pid))
    return Seen(most, last, last - seconds_of(first) if first else 0)


@contextlib.contextmanager
def full_pipe() -> Iterator[int]:
    """A pipe that nobody reads, with no room in it."""
    reading, writing = os.pipe()
    try:
        os.set_blocking(writing, False)
        with contextlib.suppress(BlockingIOError):
            while True:
                os.write(writing, b"x" * 4096)
        os.set_blocking(writing, True)
        yield writing
    finally:
        os.close(reading)
        os.close(writing)


def waiting(words: list[str], given: bytes, processors: set[int]) -> Seen:
    """What is seen of a run that waits: for more input, or for somebody who reads."""
    with full_pipe() as out:
        run = subprocess.Popen(words, stdin=subprocess.PIPE, stdout=out, preexec_fn=lambda: os.sched_setaffinity(0, processors))
        try:
            if run.stdin:
                run.stdin.write(given)
                run.stdin.flush()
            return watched(run)
        finally:
            run.kill()
            run.wait()
            if run.stdin:
                run.stdin.close()


def seen_so(holds: Callable[[Seen], bool], words: list[str], given: bytes, processors: set[int]) -> tuple[bool, Seen]:
    """Whether it is once seen so: on a busy machine threads may come and go unseen."""
    for _ in range(TRIES):
        seen = waiting(words, given, processors)
        if holds(seen):
            return True, seen
    return False, seen


def several(seen: Seen) -> bool:
    """Whether several threads did a good part of the work."""
    return seen.threads > 2 and seen.others > seen.seconds / 10


def first_alone(seen: Seen) -> bool:
    return seen.threads == 1 and seen.others == 0


def main() -> int:
    trial, program, allowed = Expecting(), os.path.abspath(sys.argv[1]), os.sched_getaffinity(0)
    with tempfile.TemporaryDirectory(prefix="pvtag-threads-") as folder:
        files = {name: str(Path(folder) / name) for name in ("a.dtd", "large.xml", "small.xml", "names.dtd", "names.xml")}
        for name, text in zip(files, (DTD, LARGE, SMALL, OFFERED, f"<r>{'<n0/>' * 1000}</r>")):
            Path(files[name]).write_text(text, encoding="ascii")
        runs = [("check", ["check", files["a.dtd"], "r", files["large.xml"]], b""),
                ("a session's opening", ["session", files["a.dtd"], "r", files["large.xml"]], b""),
                ("an offer", ["session", files["names.dtd"], "r", files["names.xml"]], b"offer 0 500 501\n")]
        for what, words, given in runs:
            if len(allowed) > 1:
                holds, seen = seen_so(several, [program, *words], given, allowed)
                trial.expect(f"{what}, on {len(allowed)} processors: several threads", holds, seen)
            seen = waiting([program, *words], given, {min(allowed)})
            trial.expect(f"{what}, on one processor: no more than one beside the first", 0 < seen.threads <= 2, seen)
        for command in ("check", "session"):
            seen = waiting([program, command, files["a.dtd"], "r", files["small.xml"]], b"", allowed)
            trial.expect(f"{command} of a small document: the first thread alone", first_alone(seen), seen)
    if len(allowed) == 1:
        print("skipped: what several processors do (there is one)")
    return trial.ended()


if __name__ == "__main__":
    sys.exit(main())
