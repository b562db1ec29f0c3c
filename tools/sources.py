"""What programs are made from: the crates that they stand on, the files of these that a build reads, and a sum of them."""
import hashlib
import os
import re
import shutil
from collections.abc import Iterator
from pathlib import Path

TOP = Path(__file__).resolve().parent.parent
# Crates by their names, each with those of the repository that it uses.
Crates = dict[str, list[str]]
# What of a crate the build reads: not its edits.
PARTS = ("src", "specs", "proofs", "data", "stdin", "stdout", "args", "status")
# Minutes of a processor that each crate takes to be proved: on the machine of the gate's table, and as the last builds here took.
MINUTES, MINUTES_HERE = TOP / "tools" / "minutes", TOP / "build" / "minutes"
# What a crate takes of which there are no minutes: so many at least, and so many for each line of its source.
LEAST, A_LINE = 0.3, 0.00125


def needs(*programs: str) -> Crates:
    """The crates that these programs stand on and they themselves, as crates.txt lists them."""
    lines = [line.split("#")[0].strip() for line in (TOP / "crates.txt").read_text().splitlines()]
    told = {line.split(":")[0].split()[0]: line.split(":")[1].split() for line in lines if line}
    found: Crates = {}
    left = list(programs)
    while left:
        name = left.pop()
        if name not in found:
            found[name] = [it for it in told[name] if it in told]
            left += found[name]
    return found


def files_of(crates: Crates, top: Path) -> Iterator[Path]:
    """The files of these crates that the build reads, and HANDLES, in order."""
    yield top / "HANDLES"
    for name in sorted(crates):
        for part in PARTS:
            at = top / "crates" / name / part
            yield from [at] if at.is_file() else sorted(it for it in at.rglob("*") if it.is_file())


def crate_lines(crates: Crates, top: Path) -> str:
    """The lines of crates.txt that tell of these crates."""
    lines = (top / "crates.txt").read_text().splitlines()
    return "".join(f"{line}\n" for line in lines if re.split(r"[\s:]", line)[0] in crates)


def sum_of(crates: Crates, top: Path = TOP) -> str:
    """The sum of the sources that a program is made from: those here, or in a copy."""
    total = hashlib.sha256(crate_lines(crates, top).encode())
    for file in files_of(crates, top):
        total.update(os.fsencode(file.relative_to(top)) + b"\0" + hashlib.sha256(file.read_bytes()).digest())
    return total.hexdigest()


def copy(crates: Crates, to: Path) -> None:
    """Copies what the build reads to a folder, which the kit takes for the top of a repository."""
    (to / ".git").mkdir(parents=True)
    (to / "crates.txt").write_text(crate_lines(crates, TOP))
    for file in files_of(crates, TOP):
        at = to / file.relative_to(TOP)
        at.parent.mkdir(parents=True, exist_ok=True)
        shutil.copyfile(file, at)


def read_minutes(file: Path) -> dict[str, float]:
    """The minutes that stand in a file, a line a crate; those after a `~` were reckoned."""
    lines = [line.partition("#")[0].split() for line in file.read_text().splitlines()] if file.is_file() else []
    return {line[0]: float(line[1].removeprefix("~")) for line in lines if line}


def by_lines(name: str) -> float:
    """About how many minutes a crate takes, by the lines of its source."""
    return LEAST + A_LINE * sum(it.read_bytes().count(b"\n") for it in (TOP / "crates" / name / "src").rglob("*.rt"))


def minutes_of(crates: Crates) -> dict[str, float]:
    """The minutes of a processor that each crate takes: as it was here, if it was built here; else as in the table, or by its lines, where what was
    built here tells how fast this machine is."""
    here, table = read_minutes(MINUTES_HERE), read_minutes(MINUTES)
    told = {name: table.get(name) or by_lines(name) for name in crates}
    both = [name for name in here if name in table]
    pace = sum(here[name] for name in both) / max(sum(table[name] for name in both), 0.1) if both else 1.0
    return {name: max(here.get(name, pace * told[name]), 0.1) for name in crates}


def keep_minutes(taken: dict[str, float]) -> None:
    """Notes the minutes that crates took here, beside those of earlier builds."""
    if taken:
        told = {**read_minutes(MINUTES_HERE), **taken}
        MINUTES_HERE.parent.mkdir(exist_ok=True)
        MINUTES_HERE.write_text("".join(f"{name} {minutes:.2f}\n" for name, minutes in sorted(told.items())))


def write_table(crates: Crates) -> None:
    """Writes the table anew: the minutes of each crate that was built here, by the pace of the table's machine, those that stood there, and by lines."""
    here, table = read_minutes(MINUTES_HERE), read_minutes(MINUTES)
    told = minutes_of(crates)
    both = [name for name in here if name in table]
    pace = sum(here[name] for name in both) / max(sum(table[name] for name in both), 0.1) if both else 1.0
    lines = MINUTES.read_text().splitlines(True) if MINUTES.is_file() else []
    measured = here.keys() | {line.split()[0] for line in lines if "~" not in line}
    rows = [f"{name} {'' if name in measured else '~'}{told[name] / pace:.2f}\n" for name in crates]
    head = "".join(line for line in lines if line.startswith("#"))
    MINUTES.write_text(head + "".join(sorted(rows)))


def chains_behind(crates: Crates, minutes: dict[str, float]) -> dict[str, float]:
    """For each crate the minutes of the dearest chain of crates that stand on one another and begin with it."""
    found: dict[str, float] = {}

    def behind(name: str) -> float:
        if name not in found:
            found[name] = minutes.get(name, 0) + max((behind(it) for it, below in crates.items() if name in below), default=0)
        return found[name]

    return {name: behind(name) for name in crates}
