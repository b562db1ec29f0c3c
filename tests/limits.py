"""Tries commands on large documents under limits on addresses, as `./pvtag` runs them there. Word: the program.

A run under a limit answers as one without it does, or ends with status 5, for want of memory, and has then written nothing. It takes no more than a
few times the processor time of one without a limit. And what is answered under a limit is answered wherever there is half as much again. Threads share
the room that the C library would else set aside for each: `./pvtag` and the clients see to that where addresses are limited. The last line tells how
many passed.
"""
import os
import resource
import subprocess
import sys
import tempfile
import time
from pathlib import Path
from typing import NamedTuple

from lib.counting import Expecting

DTD = "<!ELEMENT r (a)*><!ELEMENT a (b, c)*><!ELEMENT b EMPTY><!ELEMENT c EMPTY>"
LIMITS = [int(100 * 1.26 ** step) << 20 for step in range(16)]
NO_MEMORY = 5
# Times the processor time without a limit, and seconds beside, up to which a run passes.
MOST, BESIDE = 4, 0.5


class Case(NamedTuple):
    """Words after the program's name, and what it reads."""
    title: str
    words: list[str]
    script: bytes = b""


class Ran(NamedTuple):
    status: int
    output: bytes
    seconds: float


def ran(program: str, case: Case, limit: int = 0) -> Ran:
    """What a run came to, under a limit on its addresses in bytes, or without one."""
    def take_limit() -> None:
        if limit:
            resource.setrlimit(resource.RLIMIT_AS, (limit, limit))

    before = resource.getrusage(resource.RUSAGE_CHILDREN)
    told = subprocess.run([program, *case.words], input=case.script, capture_output=True, preexec_fn=take_limit, check=False,
                          env={**os.environ, "MALLOC_ARENA_MAX": "1"} if limit else None)
    after = resource.getrusage(resource.RUSAGE_CHILDREN)
    return Ran(told.returncode, told.stdout, after.ru_utime + after.ru_stime - before.ru_utime - before.ru_stime)


def cases(folder: Path) -> list[Case]:
    """Documents of many short lists, and of long lists that take tables, the first tag of each missing."""
    short, long = "<a><b/><c/><b/><c/></a><a></a>\n", f"<a>{'<b/>' * 80}</a>\n"
    (folder / "r.dtd").write_text(DTD)
    for name, line in (("short", short), ("long", long)):
        (folder / f"{name}.xml").write_text(f"<r>{line * (8_000_000 // len(line))}</r>\n")
    files = {name: [str(folder / "r.dtd"), "r", str(folder / f"{name}.xml")] for name in ("short", "long")}
    return [Case("`check`, short lists", ["check", *files["short"]]), Case("`check`, long lists", ["check", *files["long"]]),
            Case("`valid`", ["valid", *files["short"]]), Case("a session's opening", ["session", *files["short"]], b"verdict\nquit\n"),
            Case("a session's opening, long lists", ["session", *files["long"]], b"verdict\nquit\n"), Case("`drill`", ["drill", "20000"])]


def try_case(trial: Expecting, program: str, case: Case) -> None:
    """The ladder of limits on one case."""
    free = min((ran(program, case) for _ in range(2)), key=lambda it: it.seconds)
    served = 0
    for limit in LIMITS:
        told, at = ran(program, case, limit), f"{case.title}, {limit >> 20} MB of addresses"
        trial.expect(f"{at}: the answer", told[:2] in (free[:2], (NO_MEMORY, b"")), (told.status, told.output[:80]))
        if told.seconds > MOST * free.seconds + BESIDE:
            # A machine that was busy is no fault.
            told = min(told, ran(program, case, limit), key=lambda it: it.seconds)
        trial.expect(f"{at}: its time", told.seconds <= MOST * free.seconds + BESIDE, f"{told.seconds:.2f} s, {free.seconds:.2f} s without a limit")
        if served and limit >= 1.5 * served:
            trial.expect(f"{at}: it is answered, as with {served >> 20} MB", told.status == free.status, told.status)
        if told.status == free.status and not served:
            served = limit
    trial.expect(f"{case.title}: answered under some limit", served > 0)


def main() -> int:
    trial, program = Expecting(), os.path.abspath(sys.argv[1])
    start = time.monotonic()
    with tempfile.TemporaryDirectory(prefix="pvtag-limits-") as folder:
        for case in cases(Path(folder)):
            try_case(trial, program, case)
    print(f"{time.monotonic() - start:.0f} s")
    return trial.ended()


if __name__ == "__main__":
    sys.exit(main())
