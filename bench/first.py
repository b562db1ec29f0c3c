"""Measures how long the first answer takes, as a new user would: from a clone of what is committed here, by README's first command, with nothing
that the kit kept; then, in that clone, how long the program takes to be proved and built, and its answer. Words: the repository's folder; how many
processors it may use, all where none is given; `--write`, which puts the figures into README and docs/SPEED.md; `--answer`, which measures the first
answer alone. Beside the time on the clock stand the processor time, and how much of the machine's others took: steal of its host, and other work. It
needs root's rights, since what the kit keeps is covered by an empty folder, in a name space of its own.
"""
import os
import re
import resource
import shutil
import subprocess
import sys
import tempfile
import time
from pathlib import Path
from typing import NamedTuple

from page import put

sys.path.append(str(Path(__file__).resolve().parent.parent / "tools"))
sys.dont_write_bytecode = True
from kit import kept_by_kit  # noqa: E402

COMMAND = re.compile(r"^- `(\./pvtag [^`]*)`", re.MULTILINE)
# What README tells of a build: measured on idle processors, or not.
TOLD = re.compile(r"in\s+\d+\s+minutes on four (?:idle processors|processors that did little else)")
NAME = "bench/run first"
# Covers the folder in which the kit and what it keeps stand by one with all else that is there, nothing kept, and a place for temporary files: in one mount,
# so that files can be linked from one to the other, as where both are on one disk.
COVER = """
set -e
cover=$1 top=$2 kept=$3
for it in "$top"/*; do
    [ "$it" != "$kept" ] || continue
    at=$cover/${it##*/}
    if [ -d "$it" ]; then mkdir -p "$at"; else : >"$at"; fi
    mount --bind "$it" "$at"
done
mkdir -p -m 700 "$cover/${kept##*/}"
mkdir -p -m 755 "$cover/pvtag-first"
mount --rbind "$cover" "$top"
export TMPDIR="$top/pvtag-first"
"""


TICKS = os.sysconf("SC_CLK_TCK")


class Taken(NamedTuple):
    """What something took: seconds on the clock and of processors, and of these processors' time the parts that the host stole and that other work had."""
    clock: float
    processor: float
    stolen: float
    others: float

    @property
    def on_clock(self) -> str:
        return in_words(self.clock)

    def told(self) -> str:
        used = in_words(self.processor)
        return f"{self.on_clock}, and {used} of processors, of whose time the host stole {self.stolen:.0%} and other work had {self.others:.0%}"


def in_words(seconds: float) -> str:
    return f"{seconds / 60:.0f} minutes" if seconds > 300 else f"{seconds:.0f} seconds"


def machine_time() -> tuple[int, int, int]:
    """The ticks of all processors so far: all, those that were stolen, and those in which something ran."""
    with open("/proc/stat", encoding="ascii") as lines:
        user, nice, system, idle, waits, hard, soft, steal = map(int, lines.readline().split()[1:9])
    return user + nice + system + idle + waits + hard + soft + steal, steal, user + nice + system + hard + soft


def taken_by(script: str, clone: Path, cover: Path) -> tuple[Taken, bytes]:
    """Runs a script in the clone, where the kit has kept nothing but what earlier ones under this cover made it keep, and gives what it took and wrote."""
    kept = kept_by_kit()
    if not kept:
        sys.exit("bench/run first: the kit doesn't tell where it is")
    whole, steal, ran = machine_time()
    used, start = resource.getrusage(resource.RUSAGE_CHILDREN), time.monotonic()
    words = ["unshare", "--mount", "sh", "-c", COVER + script, "first", str(cover), str(kept.parent), str(kept)]
    answer = subprocess.run(words, cwd=clone, stdout=subprocess.PIPE, check=True).stdout
    clock, now = time.monotonic() - start, resource.getrusage(resource.RUSAGE_CHILDREN)
    processor = now.ru_utime + now.ru_stime - used.ru_utime - used.ru_stime
    all_of, stolen, running = (one - other for one, other in zip(machine_time(), (whole, steal, ran)))
    return Taken(clock, processor, stolen / all_of, max(running / TICKS - processor, 0) / (all_of / TICKS)), answer


def expect_valid(answer: bytes) -> None:
    if answer != b"valid\n":
        sys.exit(f"bench/run first: the answer was {answer!r}")


def figures(first: Taken, proved: Taken | None, count: int, load: float) -> list[str]:
    where = f"on {count} processors of {os.cpu_count()}, that had a load of {load:.1f} when it began"
    told = [f"From a clone and nothing kept, the first answer, without proofs, came after {first.on_clock}, {where}."]
    return [*told, f"The program was then proved and built in {proved.told()}."] if proved else told


def main() -> None:
    top, words = Path(sys.argv[1]), sys.argv[2:]
    lacking = next((it for it in ("rt", "git", "unshare", "taskset") if not shutil.which(it)), None)
    if lacking or os.geteuid():
        sys.exit(f"skipped: {f'no {lacking}' if lacking else 'only root can cover what the kit keeps'}")
    os.chdir(top)
    count = next((int(it) for it in words if it.isdigit()), os.cpu_count() or 1)
    load = os.getloadavg()[0]
    with tempfile.TemporaryDirectory(prefix="pvtag-first-") as folder, tempfile.TemporaryDirectory(prefix="pvtag-kept-") as cover:
        os.chmod(cover, 0o755)
        clone = Path(folder) / "pvtag"
        subprocess.run(["git", "clone", "-q", str(top), str(clone)], check=True)
        command = COMMAND.search((clone / "README.md").read_text())
        if not command:
            sys.exit("bench/run first: README has no first command")
        alone = f"exec taskset -c 0-{count - 1} "
        first, answer = taken_by(alone + command[1], clone, Path(cover))
        expect_valid(answer)
        proved = None
        if "--answer" not in words:
            proved, _ = taken_by(f"{alone}tools/build", clone, Path(cover))
            expect_valid(subprocess.run(["sh", "-c", command[1]], cwd=clone, stdout=subprocess.PIPE, check=True).stdout)
    told = figures(first, proved, count, load)
    print(*told, sep="\n")
    if "--write" in words and proved:
        put(str(top), f"{NAME} on {count}", told)
        # README speaks of idle processors.
        if count == 4 and load < 0.5:
            readme = top / "README.md"
            readme.write_text(TOLD.sub(f"in {proved.clock / 60:.0f} minutes on four idle processors", readme.read_text()))


if __name__ == "__main__":
    main()
