"""Tries `./pvtag`, `./pvlong`, tools/look and tools/build with a stand-in for the kit's `rt`, in a copy of what they read. The last line tells how many
passed."""
import contextlib
import json
import os
import pty
import re
import signal
import shutil
import subprocess
import sys
import tempfile
from pathlib import Path
from typing import IO, NamedTuple

from lib.counting import Expecting
from lib.waiting import PATIENCE, runs_still, until

sys.path.append(str(Path(__file__).resolve().parent.parent / "tools"))
sys.dont_write_bytecode = True
from machine import processors  # noqa: E402
from processes import session_of  # noqa: E402
from progress import Progress  # noqa: E402
from scratch import scratch  # noqa: E402
from sources import MINUTES, chains_behind, needs, read_minutes  # noqa: E402

TOP = Path(__file__).resolve().parent.parent
TOOLS = ("asked.sh", "build", "kit.py", "look", "machine.py", "minutes", "processes.py", "progress.py", "proving.py", "scratch.py", "sources.py", "unproved.py")
# What an answer without proofs says beside it.
UNPROVED = re.compile(r"^pvtag: not proved yet; tools/build proves and builds it, in about \d+ minutes\n\Z", re.MULTILINE)
# It is tools/build on a machine with so many processors, and memory for several runs of the kit or for one, which waits less for the kit.
BUILD = """#!/usr/bin/env python3
import os, runpy, sys
sys.dont_write_bytecode = True
import machine
machine.processors = lambda: int(os.environ.get("PROCESSORS", "4"))
machine.has_room = lambda: "NO_ROOM" not in os.environ
import proving
proving.GOES_ON, proving.SURELY = 0.4, float(os.environ.get("SURELY", "0.4"))
runpy.run_path(os.path.join(os.path.dirname(os.path.realpath(__file__)), "build-here"), run_name="__main__")
"""


class Note(NamedTuple):
    """What the stand-in did: when, in the run of which crate (of none in the run over all), at which priority, what, with which crate, and how many
    processors it was told to use."""
    at: float
    run: str
    nice: int
    what: str
    crate: str
    CI: str | None
    jobs: str | None


class Trial(Expecting):
    """A copy of what a build reads, and a stand-in on the path."""

    def __init__(self, folder: Path) -> None:
        super().__init__()
        self.top = folder / "pvtag"
        shutil.copytree(TOP / "crates", self.top / "crates", ignore=shutil.ignore_patterns("out", "proofs", "specs"))
        (self.top / "tools").mkdir()
        for name in ("crates.txt", "HANDLES", "pvtag", "pvlong", *(f"tools/{it}" for it in TOOLS)):
            shutil.copy(TOP / name, self.top / name)
        (self.top / "tools/build").rename(self.top / "tools/build-here")
        (self.top / "tools/build").write_text(BUILD)
        (self.top / "tools/build").chmod(0o755)
        self.bin, self.kept, self.noted, self.never, self.temporary = (folder / it for it in ("bin", "rattle-kept", "notes", "never", "temporary"))
        self.bin.mkdir()
        self.temporary.mkdir()
        shutil.copy(TOP / "tests/lib/kit.py", self.bin / "rt")
        (self.bin / "rt").chmod(0o755)
        self.forget()

    def forget(self) -> None:
        """Has the stand-in begin anew, and nothing built."""
        shutil.rmtree(self.kept, ignore_errors=True)
        self.kept.mkdir()
        self.noted.write_text("")
        self.wake()
        shutil.rmtree(self.top / "build", ignore_errors=True)

    def wake(self) -> None:
        """Forgets what slept in earlier runs."""
        for it in self.noted.parent.glob("asleep-*"):
            it.unlink()

    def start(self, *words: str, errors: int | IO[str] = subprocess.PIPE, **more: str) -> subprocess.Popen[str]:
        variables = {name: value for name, value in os.environ.items() if name not in ("CI", "RT_JOBS")}
        variables |= {"PATH": f"{self.bin}:{os.environ['PATH']}", "PAGE": str(self.kept.with_name("kit") / "page"), "STORE": str(self.kept),
                      "NOTES": str(self.noted), "HELD": str(self.never), "TMPDIR": str(self.temporary), "PVTAG_PROVED": "1", **more}
        return subprocess.Popen([words[0] if words[0] == "sh" else str(self.top / words[0]), *words[1:]], env=variables, text=True, stdin=subprocess.PIPE,
                                stdout=subprocess.PIPE, stderr=errors, start_new_session=True, cwd=self.top)

    def run(self, *words: str, given: str = "", **more: str) -> tuple[int, str, str]:
        run = self.start(*words, **more)
        said, errors = run.communicate(given, timeout=PATIENCE)
        return run.returncode, said, errors

    def look(self, *words: str, given: str = "", **more: str) -> tuple[int, str, str]:
        """A call where nothing need be proved."""
        return self.run("pvtag", *words, given=given, PVTAG_PROVED="", **more)

    def tries(self) -> int:
        """How many programs were made without proofs."""
        return sum(note.what == "tries" for note in self.notes())

    def left(self) -> list[str]:
        """What lies among the temporary files."""
        return sorted(it.name for it in self.temporary.iterdir())

    def asleep(self, crate: str) -> int:
        """The process that a stand-in has begun at this crate, once it has."""
        def told() -> Path | None:
            return next((it for it in self.noted.parent.glob(f"asleep-{crate}-*") if it.read_text().endswith("\n")), None)

        file = until(told)
        if not file:
            raise TimeoutError("no stand-in has begun")
        number = int(file.read_text())
        file.unlink()
        return number

    def has_ended(self, number: int) -> bool:
        return until(lambda: not runs_still(number))

    def notes(self) -> list[Note]:
        return [Note(**json.loads(line)) for line in self.noted.read_text().splitlines()]

    def count(self) -> int:
        """How many programs were built."""
        return sum(note.what == "builds" for note in self.notes())

    def runs(self) -> list[str]:
        """The crates that had a run of their own which proved something."""
        return [note.crate for note in self.notes() if note.what == "begins" and note.run == note.crate]


def try_failures(trial: Trial) -> None:
    """A build that fails, is ended, or finds no kit: it says so, and leaves no program."""
    told = trial.run("pvtag", "a", WRONG="pv_model")
    trial.expect("a failed build", told[0] == 10 and told[1] == "" and "pv_model couldn't be built:\n== pv_model\nan open goal" in told[2], told)
    for number in (signal.SIGINT, signal.SIGTERM, signal.SIGHUP):
        trial.wake()
        run = trial.start("pvtag", "a", HOLDS="pv_model")
        asleep = trial.asleep("pv_model")
        os.killpg(run.pid, number)
        run.communicate(timeout=PATIENCE)
        trial.expect("an interrupted build ends", run.returncode != 0 and trial.has_ended(asleep), (number, run.returncode))
    trial.wake()
    told = trial.run("pvtag", "a", DIES="pv_model")
    trial.expect("a killed run of the kit", told[0] == 10 and "ended by signal 9" in told[2] and trial.has_ended(trial.asleep("pv_model")), told)
    told = trial.run("sh", "-c", f"ulimit -f 8; {trial.top}/pvtag a")
    trial.expect("no room to write", told[0] == 10 and len(told[2].splitlines()) == 3 and "couldn't be built: [Errno" in told[2], told)
    told = trial.run("sh", "-c", f"{trial.top}/pvtag a 2>&-", WRONG="pv_model")
    trial.expect("no standard error", told == (10, "", ""), told)
    # The folders of the system alone, in which the kit isn't.
    told = trial.run("pvtag", "a", PATH=str(Path(sys.executable).parent) + ":/usr/bin:/bin")
    if not shutil.which("rt", path=f"{Path(sys.executable).parent}:/usr/bin:/bin"):
        trial.expect("no kit", told[0] == 10 and "no `rt` on the path" in told[2], told)
    trial.expect("no program is left", not (trial.top / "build" / "pvtag").exists())


def try_builds(trial: Trial) -> None:
    """Builds: one for two calls at once, none while nothing changes or is asked for, one by a word of its own."""
    before = trial.count()
    go, errors = trial.top / "go", [trial.top / f"errors-{at}" for at in range(2)]
    both = []
    for file in errors:
        with file.open("w") as to:
            both.append(trial.start("pvtag", "a", "b c", errors=to, HOLDS="pv_model", HELD=str(go)))
    until(lambda: any("waiting for a build" in file.read_text() for file in errors))
    go.touch()
    told = [(run.communicate(timeout=PATIENCE)[0], file.read_text(), run.returncode) for run, file in zip(both, errors)]
    trial.expect("two calls at once", all(status == 0 and said.startswith("built of ") and said.endswith(", a b c\n") for said, _, status in told), told)
    trial.expect("one build for both", trial.count() == before + 1, trial.count())
    trial.expect("one waits", sum("waiting for a build" in errors for _, errors, _ in told) == 1, told)
    trial.expect("it is of its sources", trial.run("tools/build", "--check")[0] == 0)
    first = told[0][0]
    with (trial.top / "crates/pv_steps/src/lib.rt").open("a") as source:
        source.write("// changed\n")
    trial.expect("it is older than its sources", trial.run("tools/build", "--check")[0] == 1)
    trial.expect("a call takes what is built", trial.run("pvtag", "a", "b c")[1] == first and trial.count() == before + 1)
    trial.expect("a build by its word", trial.run("tools/build")[0] == 0 and trial.run("pvtag", "a", "b c")[1] != first)
    trial.expect("nothing is built twice", trial.run("tools/build")[0] == 0 and trial.count() == before + 2, trial.count())


def try_changes(trial: Trial) -> None:
    """The sum beside the program is that of what it was built of, whatever changes meanwhile."""
    source = trial.top / "crates/pv_steps/src/lib.rt"
    before = source.read_bytes()
    source.write_bytes(before + b"// for a while\n")
    go = trial.top / "go on"
    trial.wake()
    run = trial.start("tools/build", HOLDS="pv_steps", HELD=str(go))
    trial.asleep("pv_steps")
    source.write_bytes(before)
    go.touch()
    run.communicate(timeout=PATIENCE)
    trial.expect("sources that change during a build", run.returncode == 0 and trial.run("tools/build", "--check")[0] == 1)
    told = trial.run("tools/build", "--sum")[1].strip()
    source.write_bytes(before + b"// later\n")
    trial.run("tools/build", "--put", str(trial.top / "build/pvtag"), told)
    trial.expect("a sum that is told", trial.run("tools/build", "--check")[0] == 1)
    source.write_bytes(before)
    trial.expect("the sum of those sources", trial.run("tools/build", "--check")[0] == 0)
    told = trial.run("tools/build", "--put", str(trial.top / "nothing"))
    trial.expect("nothing to put", told[0] == 1 and len(told[2].splitlines()) == 1 and trial.run("tools/build", "--check")[0] == 0, told)


def try_placing(trial: Trial) -> None:
    """A program that a run over these sources made is put in place; a link to the script works; other words are refused."""
    other = trial.top / "other"
    other.write_text("#!/bin/sh\necho other\n")
    other.chmod(0o755)
    told = trial.run("tools/build", "--put", str(other))
    trial.expect("what was built elsewhere", told[0] == 0 and trial.run("pvtag")[1] == "other\n", told)
    trial.expect("it counts as built of the sources", trial.run("tools/build", "--check")[0] == 0)
    (trial.top / "link").symlink_to("pvtag")
    trial.expect("by a link", trial.run("link")[1] == "other\n")
    odd = trial.top / "-a folder"
    odd.mkdir()
    (odd / "link").symlink_to("../pvtag")
    for command in ("sh pvtag", "sh ./pvtag", "sh -- '-a folder/link'", "cd '-a folder' 2>/dev/null || cd './-a folder'; ./link"):
        told = trial.run("sh", "-c", f"cd '{trial.top}' && {command}")
        trial.expect(f"by {command}", told == (0, "other\n", ""), told)
    trial.expect("other words", trial.run("tools/build", "now")[0] == 2)
    left = sorted(it.name for it in (trial.top / "build").iterdir())
    trial.expect("nothing else is left", left == ["lock", "minutes", "pvtag", "pvtag.from", "pvtag.sum"], left)
    record = trial.top / "build/pvtag.from"
    told = record.read_text()
    trial.expect("it is recorded that it was put there", re.match("[0-9a-f]{64} a file of the name other, put in place by hand\n", told) is not None, told)
    by_kit = trial.top / "crates/pvtag/out/pvtag"
    by_kit.parent.mkdir(exist_ok=True)
    shutil.copy(other, by_kit)
    trial.run("tools/build", "--put", str(by_kit))
    told = record.read_text()
    trial.expect("and that the kit made it", told.endswith(" the kit, which proved and built it here\n"), told)


def try_remains(trial: Trial) -> None:
    """Folders that a killed build left are removed by the next one, once nothing works in them; files that it left, too."""
    trial.forget()
    run = trial.start("tools/build", HOLDS="pv_steps")
    asleep = trial.asleep("pv_steps")
    os.kill(run.pid, signal.SIGKILL)
    run.communicate(timeout=PATIENCE)
    left = trial.left()
    trial.expect("a killed build leaves its folder", len(left) == 1 and left[0].startswith("pvtag-held-"), left)
    with scratch(trial.temporary):
        trial.expect("as long as a run works in it, it stays", left[0] in trial.left(), trial.left())
    leader = os.getsid(asleep)
    os.killpg(leader, signal.SIGKILL)
    until(lambda: not session_of(leader))
    (trial.top / "build/pvtag.new").touch()
    told = trial.run("tools/build")
    trial.expect("the next one removes it", told[0] == 0 and trial.left() == [], (told, trial.left()))
    trial.expect("and what was half put in place", not list((trial.top / "build").glob("*.new")))
    told = (trial.top / "build/pvtag.from").read_text()
    trial.expect("it is recorded that it was built", told.endswith(" tools/build, which proved and built it here\n"), told)
    trial.forget()


def try_other(trial: Trial) -> None:
    """The other program: built where it is called, or by its name; each has sources of its own."""
    before = trial.count()
    told = trial.run("pvlong", "a", "b c")
    trial.expect("a call builds it", told[0] == 0 and told[1].startswith("built of ") and told[1].endswith(", a b c\n"), told)
    trial.expect("it alone", trial.count() == before + 1 and trial.run("pvtag")[1] == "other\n")
    trial.expect("both are of their sources", trial.run("tools/build", "pvtag", "pvlong", "--check")[0] == 0)
    with (trial.top / "crates/pvlong/src/main.rt").open("a") as source:
        source.write("// changed\n")
    states = [trial.run("tools/build", *names, "--check")[0] for names in (["pvtag"], ["pvlong"], ["pvtag", "pvlong"], ["all"])]
    trial.expect("one is older than its sources", states == [0, 1, 1, 1], states)
    told = trial.run("tools/build", "pvtag", "pvlong")
    trial.expect("what is older is built", told[0] == 0 and trial.count() == before + 2 and trial.run("tools/build", "pvlong", "--check")[0] == 0, told)
    told = trial.run("tools/build", "all")
    trial.expect("and what wasn't there", told[0] == 0 and trial.count() == before + 3 and trial.run("tools/build", "all", "--check")[0] == 0, told)
    sums = trial.run("tools/build", "pvtag", "pvlong", "--sum")[1].split()
    trial.expect("a sum of each", len(set(sums)) == 2 and sums[1] == (trial.top / "build/pvlong.sum").read_text().strip(), sums)
    told = trial.run("tools/build", "pvlong", "--put", str(trial.top / "other"))
    trial.expect("what was built elsewhere, of it", told[0] == 0 and trial.run("pvlong")[1] == "other\n", told)
    trial.expect("one is put at a time", trial.run("tools/build", "pvtag", "pvlong", "--put", str(trial.top / "other"))[0] == 2)
    (trial.top / "build/pvlong").unlink()
    shutil.rmtree(trial.kept)
    trial.kept.mkdir()
    told = trial.run("pvlong", "a", WRONG="pv_model")
    trial.expect("a failed build of it", told[0] == 10 and told[1] == "" and "pvlong: pv_model couldn't be built:" in told[2], told)


TELLING = """#!/bin/sh
echo "$$ $STATUS"
exit "$STATUS"
"""


def try_telling(trial: Trial) -> None:
    """The scripts put a sentence beside `usage` and beside a file that can't be read. What the program writes and its status stay, and words that it takes
    cost no other process: the shell becomes the program."""
    other, there = trial.top / "telling", str(trial.top / "crates.txt")
    other.write_text(TELLING)
    other.chmod(0o755)
    for name in ("pvtag", "pvlong"):
        trial.run("tools/build", name, "--put", str(other))
    commands = "valid, check, session, complete, why, verify, deny, standoff, dtd, drill"
    for words, status, wanted in (
        ("pvtag", 2, f"a command is expected first: one of {commands}"),
        ("pvtag --help", 2, f"`--help` is no command: they are {commands}"),
        ("pvtag need d r d", 2, f"`need` is no command: they are {commands}"),
        ("pvtag check d r", 2, "check takes 3 arguments, DTD ROOT DOC, and has 2"),
        ("pvtag dtd", 2, "dtd takes 1 argument, DTD, and has 0"),
        ("pvtag check HERE -a HERE", 2, "ROOT is to be a name, and `-a` is none"),
        ("pvtag standoff HERE a|b HERE HERE", 2, "ROOT is to be a name, and `a|b` is none"),
        ("pvtag drill 007", 2, "N is to be a number from 1 to 20000, and `007` is none"),
        ("pvtag check none r HERE", 3, "none: there is no such file"),
        ("pvtag verify HERE r HERE tools", 3, "tools is a folder"),
        ("pvtag check HERE r HERE", 3, ""),
        ("pvtag why HERE \xe9\u4e00.-_:9 HERE", 2, ""),
        ("pvtag drill 20000", 0, ""),
        ("pvtag no words", 0, ""),
        ("pvlong", 2, "a command is expected first: one of check, need, complete"),
        ("pvlong need HERE r none", 3, "none: there is no such file"),
        ("pvlong need HERE r HERE", 0, ""),
        ("pvlong check HERE r HERE", 0, ""),
        ("pvlong valid HERE r HERE", 2, "`valid` is no command: they are check, need, complete"),
    ):
        name, *rest = words.replace("HERE", there).split()
        run = trial.start(name, *rest, STATUS=str(status), PATH="/nowhere")
        said, errors = run.communicate(timeout=PATIENCE)
        is_same = int((said.split() or ["0"])[0]) == run.pid
        trial.expect(f"the answer to {words}", said.endswith(f" {status}\n") and run.returncode == status, (said, run.returncode))
        trial.expect(f"what is said of {words}", errors == (f"{name}: {wanted}\n" if wanted else ""), errors)
        trial.expect(f"one process for {words}", is_same == (not wanted and words != "pvtag no words"), said)
    no_seconds = "PVLONG_SECONDS is to be a whole number from 0 to 4294967295, and `x` is none"
    for seconds, root, wanted in (("x", "r", no_seconds), ("4294967295", "-a", "ROOT is to be a name, and `-a` is none")):
        _, _, errors = trial.run("pvlong", "need", there, root, there, STATUS="2", PATH="/nowhere", PVLONG_SECONDS=seconds)
        trial.expect(f"what is said of {seconds} seconds", errors == f"pvlong: {wanted}\n", errors)
    (trial.top / "build/pvtag").unlink()
    (trial.top / "build/pvtag").mkdir()
    told = trial.run("pvtag", "a")
    trial.expect("a folder in its place", told[0] == 10 and told[1] == "" and told[2].endswith("/build/pvtag is a folder, where the program is to be\n"), told)
    before = len(trial.notes())
    for words in ((), ("all",), ("--put", str(other))):
        told = trial.run("tools/build", *words)
        is_told = told[2].startswith("pvtag: ") and told[2].endswith("/build/pvtag is a folder, where the program is to be\n") and told[2].count("\n") == 1
        trial.expect("no build for a folder in its place", told[:2] == (1, "") and is_told and len(trial.notes()) == before, (words, told))
    trial.forget()


def by_name(trial: Trial, what: str) -> dict[str, Note]:
    return {note.crate: note for note in trial.notes() if note.what == what}


def try_order(trial: Trial) -> None:
    """From nothing: a run a crate, side by side, none before those below it are proved."""
    trial.forget()
    told = trial.run("tools/build", TAKES="2", CI="true")
    trial.expect("from nothing", told[0] == 0 and trial.count() == 1, told)
    first = re.match(r"pvtag: (\d+) crates are proved and built first, in about [1-9]\d* minutes if none is kept\n", told[2])
    trial.expect("it says about how long it takes", first is not None and int(first[1]) == len(needs("pvtag")), told)
    begins, ends = by_name(trial, "begins"), by_name(trial, "ends")
    crates, notes, runs = needs("pvtag"), trial.notes(), trial.runs()
    proved = sorted(note.crate for note in notes if note.what == "ends")
    trial.expect("each crate is proved once", proved == sorted(crates), proved)
    early = [(name, it) for name, below in crates.items() for it in below if begins[name].at < ends[it].at]
    trial.expect("none before those below it", not early, early)
    trial.expect("by runs of their own, but the last", len(runs) > len(crates) / 2 and begins["pvtag"].run == "", runs)
    beside = [sum(begins[one].at <= begins[other].at < ends[one].at for one in runs) for other in runs]
    # Three that were begun at once, beside others that had waited, or have a dearer chain behind them.
    trial.expect("several side by side, at most eight", 3 <= max(beside) <= 8 and len(runs) - beside.count(1) > 5, beside)
    trial.expect("runs that begin ahead of time wait", any(note.what == "waits" for note in notes))
    trial.expect("not as a gate", {note.CI for note in notes} == {None})
    jobs = {note.crate: note.jobs for note in notes if note.what == "begins"}
    trial.expect("two processors for the dearest chain alone", jobs["pv_chars"] is None and "1" in jobs.values(), jobs)
    here = read_minutes(trial.top / "build/minutes")
    trial.expect("what crates took is noted", here.keys() <= crates.keys() and len(here) > len(runs) / 2, (here, runs))


def try_minutes(trial: Trial) -> None:
    """The minutes of each crate: the table has all, one that isn't there is reckoned by its lines, and what is built here goes into it. The minutes that
    are left are told as they turn out, also where the machine is slow or shared."""
    crates = needs("pvtag", "pvlong")
    trial.expect("the table has each crate; `tools/build --minutes` writes it", crates.keys() <= read_minutes(MINUTES).keys(),
                 crates.keys() - read_minutes(MINUTES).keys())
    table, here = trial.top / "tools/minutes", trial.top / "build/minutes"
    was = read_minutes(table)
    table.write_text("".join(f"{name} {minutes}\n" for name, minutes in was.items() if name != "pv_reach"))
    here.parent.mkdir(exist_ok=True)
    # A machine that takes twice the time, and a crate that has become dearer.
    here.write_text(f"pv_span {2 * was['pv_span']}\npv_edit {2 * was['pv_edit'] + 2}\n")
    told = trial.run("tools/build", "--minutes")
    now = read_minutes(table)
    trial.expect("the table is written anew", told[0] == 0 and now.keys() == was.keys(), told)
    trial.expect("one by its lines", f"pv_reach ~{now['pv_reach']:.2f}\n" in table.read_text() and now["pv_reach"] > 1, now)
    trial.expect("one by what it took", was["pv_edit"] < now["pv_edit"] < was["pv_edit"] + 1 and now["pv_chars"] == was["pv_chars"], now)
    for pace, shared in ((1.0, 1.0), (2.0, 1.0), (0.5, 1.0), (2.0, 0.6)):
        progress = Progress("all", crates)
        whole = sum(progress.minutes.values())
        # Five minutes in, with what was proved by then, lowest first.
        got, spent = 5 * processors() * shared, 0.0
        for name in sorted(crates, key=lambda it: -chains_behind(crates, progress.minutes)[it]):
            if spent + pace * progress.minutes[name] < got:
                progress.done.add(name)
                progress.taken[name] = pace * progress.minutes[name]
                spent += progress.taken[name]
        progress.spent = {next(iter(progress.left())): got - spent}
        progress.start -= 5 * 60
        left, told_left = (pace * whole - got) / processors() / shared, progress.minutes_left()
        trial.expect("the minutes that are left", left / 1.34 < told_left < left * 1.34, (pace, shared, left, told_left))
    trial.forget()


def try_priorities(trial: Trial) -> None:
    """Several runs that are under way: the one with the most behind it goes first; whatever ends the build ends them all."""
    held = ["pv_productive", "pv_edit", "pv_read"]
    for number in (signal.SIGINT, signal.SIGTERM):
        trial.forget()
        run = trial.start("tools/build", HOLDS=" ".join(held), SURELY="1000")
        asleep = [trial.asleep(crate) for crate in held]
        steps = [os.getpriority(os.PRIO_PROCESS, pid) for pid in asleep]
        trial.expect("by what is behind", steps == sorted(steps) and steps[0] < steps[2], steps)
        os.killpg(run.pid, number)
        run.communicate(timeout=PATIENCE)
        trial.expect("all are ended", run.returncode == 128 + number and all(map(trial.has_ended, asleep)), (number, run.returncode))
    trial.wake()
    run = trial.start("tools/build", HOLDS="pv_edit", WRONG="pv_missing", TAKES="3", SURELY="1000")
    asleep = [trial.asleep("pv_edit")]
    told = run.communicate(timeout=PATIENCE)[1]
    trial.expect("a crate in the middle fails", run.returncode == 1 and "pvtag: pv_missing couldn't be built:\n== pv_missing\nan open goal\n" in told, told)
    trial.expect("and all others end", all(map(trial.has_ended, asleep)) and not (trial.top / "build/pvtag").exists())


def try_progress(trial: Trial) -> None:
    """On a terminal, one line tells in place how far a build has come."""
    trial.forget()
    reads, writes = pty.openpty()
    with os.fdopen(writes, "w") as errors:
        run = trial.start("tools/build", errors=errors, HOLDS="pv_model")
    said = b""
    with contextlib.suppress(OSError):
        while b" left" not in said:
            said += os.read(reads, 1000)
    os.killpg(run.pid, signal.SIGINT)
    run.communicate(timeout=PATIENCE)
    os.close(reads)
    told = re.search(rb"\r\x1b\[Kpvtag: \d+ of (\d+) crates proved, 0 minutes so far, about \d+ left", said)
    trial.expect("one line tells how far it has come", told is not None and int(told[1]) == len(needs("pvtag")), said)


def try_kept(trial: Trial) -> None:
    """What was proved is taken over; where nothing is kept, one run proves all."""
    before = [note.crate for note in trial.notes() if note.what == "ends" and note.crate != "pv_missing"]
    told = trial.run("tools/build")
    ended = [note.crate for note in trial.notes() if note.what == "ends" and note.crate != "pv_missing"]
    trial.expect("a build goes on where it was", told[0] == 0 and len(before) > 5 and len(ended) == len(set(ended)), (told, sorted(ended)))
    with (trial.top / "crates/pv_cli/src/lib.rt").open("a") as source:
        source.write("// changed\n")
    before = len(trial.runs())
    told = trial.run("tools/build", TAKES="1")
    trial.expect("a chain that changed has one run", told[0] == 0 and len(trial.runs()) == before and trial.count() == 2, told)
    for words in ("and says so", "silently"):
        trial.forget()
        told = trial.run("tools/build", TAKES="0.1", LOSES=words)
        trial.expect(f"a kit that keeps nothing, {words}", told[0] == 0 and trial.count() == 1 and len(trial.runs()) < 12, (told, trial.runs()))
    for name, value in (("PROCESSORS", "3"), ("RT_JOBS", "4"), ("PAGE", "/proc/kit/page")):
        trial.forget()
        told = trial.run("tools/build", TAKES="0.1", **{name: value})
        trial.expect(f"one run, {name}", told[0] == 0 and trial.runs() == [], (told, trial.runs()))
    trial.forget()


def try_both(trial: Trial) -> None:
    """Both programs at once, with memory for one run at a time."""
    told = trial.run("tools/build", "pvtag", "pvlong", TAKES="0.1", NO_ROOM="1")
    trial.expect("both at once", told[0] == 0 and trial.run("tools/build", "pvtag", "pvlong", "--check")[0] == 0, told)
    begins, ends = by_name(trial, "begins"), by_name(trial, "ends")
    trial.expect("each crate once", sum(note.what == "ends" for note in trial.notes()) == len(needs("pvtag", "pvlong")))
    runs = trial.runs()
    trial.expect("one after another", all(ends[one].at <= begins[other].at for one, other in zip(runs, runs[1:])), runs)


def try_look(trial: Trial) -> None:
    """Where nothing is built, a program without proofs is made once, answers as it does by itself, and says that it isn't proved."""
    for folder in ("a", "b"):
        (trial.top / folder).mkdir()
        (trial.top / folder / "same").write_text(f"line of {folder}\n")
    told = trial.look("line", "a/same", "b/same")
    lines = told[2].splitlines(keepends=True)
    trial.expect("a first call", told[:2] == (0, "a/same:line of a\nb/same:line of b\n"), told)
    trial.expect("it tells of both", len(lines) == 2 and "is made first" in lines[0] and UNPROVED.match(lines[1]) is not None, told)
    trial.expect("it is made once, in a folder that goes", trial.tries() == 1 and trial.left() == [], (trial.tries(), trial.left()))
    told = trial.look("two", given="one\ntwo\n")
    trial.expect("a second call, on its input", told[:2] == (0, "two\n") and UNPROVED.match(told[2]) is not None, told)
    statuses = [trial.look(*words)[0] for words in (["line", "a/same"], ["none", "a/same"], [], ["line", "/nowhere"])]
    trial.expect("statuses", statuses == [0, 1, 2, 2], statuses)
    trial.expect("it isn't made again", trial.tries() == 1, trial.tries())
    trial.expect("it has been said", trial.look("line", "a/same", PVTAG_TOLD="1") == (0, "line of a\n", ""))
    (trial.top / "a/link").symlink_to("../pvtag")
    trial.expect("by a link", trial.run("a/link", "line", str(trial.top / "a/same"), PVTAG_PROVED="")[1] == "line of a\n")
    trial.expect("it counts as no build", trial.run("tools/build", "--check")[0] == 1)
    source = trial.top / "crates/pv_steps/src/lib.rt"
    source.touch()
    trial.expect("sources that are touched", trial.look("line", "a/same")[0] == 0 and trial.tries() == 1, trial.tries())
    source.write_text(source.read_text() + "// changed\n")
    told = trial.look("line", "a/same")
    trial.expect("sources that change", told[:2] == (0, "line of a\n") and trial.tries() == 2, (told, trial.tries()))
    told = trial.run("pvlong", "line", "a/same", PVTAG_PROVED="")
    trial.expect("the other program", told[0] == 0 and "pvlong: not proved yet" in told[2] and trial.tries() == 3, told)
    told = trial.run("pvtag", "a")
    trial.expect("the proved one, by a variable", told[0] == 0 and told[1].startswith("built of ") and trial.count() == 1, told)
    trial.expect("it is taken from then on", trial.look("a")[1] == told[1])
    left = sorted(it.name for it in (trial.top / "build").iterdir())
    trial.expect("the one without proofs goes", "pvtag.unproved" not in left and "pvlong.unproved" in left, left)
    trial.forget()
    told = trial.run("sh", "-c", f"ulimit -v 4000000; {trial.top}/pvtag a", PVTAG_PROVED="")
    trial.expect("where addresses are limited", told[0] == 0 and told[1].startswith("built of ") and trial.tries() == 0, told)
    trial.forget()


def try_looks_that_end(trial: Trial) -> None:
    """A program without proofs that can't be made, or isn't to the end: it says so, and leaves nothing. Of two at once one makes it."""
    for number in (signal.SIGINT, signal.SIGTERM, signal.SIGHUP):
        trial.wake()
        run = trial.start("pvtag", "a", PVTAG_PROVED="", HOLDS="try")
        asleep = trial.asleep("try")
        os.killpg(run.pid, number)
        run.communicate(timeout=PATIENCE)
        trial.expect("an interrupted call ends", run.returncode != 0 and trial.has_ended(asleep) and trial.left() == [], (run.returncode, trial.left()))
    trial.wake()
    run = trial.start("pvtag", "a", PVTAG_PROVED="", HOLDS="try")
    asleep = trial.asleep("try")
    os.killpg(run.pid, signal.SIGKILL)
    run.communicate(timeout=PATIENCE)
    trial.expect("what is killed leaves a folder", len(trial.left()) == 1, trial.left())
    os.killpg(os.getsid(asleep), signal.SIGKILL)
    trial.has_ended(asleep)
    trial.expect("no program is left", not list((trial.top / "build").glob("*.unproved*")))
    told = trial.look("line", "a/same")
    trial.expect("the next makes it, and removes the folder", told[:2] == (0, "line of a\n") and trial.left() == [], (told, trial.left()))
    trial.forget()
    go, errors = trial.top / "go look", [trial.top / f"look-{at}" for at in range(2)]
    both = []
    for file in errors:
        with file.open("w") as to:
            both.append(trial.start("pvtag", "line", "a/same", errors=to, PVTAG_PROVED="", HOLDS="try", HELD=str(go)))
    until(lambda: any("waiting for a program" in file.read_text() for file in errors))
    go.touch()
    answers = [(run.communicate(timeout=PATIENCE)[0], run.returncode) for run in both]
    trial.expect("two calls at once", answers == [("line of a\n", 0)] * 2 and trial.tries() == 1, (answers, trial.tries()))
    trial.forget()
    told = trial.look("a", WRONG="try")
    trial.expect("sources that are refused", told[0] == 10 and told[1] == "" and "src/main.rt:1: a refusal" in told[2], told)
    told = trial.look("a", PATH=str(Path(sys.executable).parent) + ":/usr/bin:/bin")
    if not shutil.which("rt", path=f"{Path(sys.executable).parent}:/usr/bin:/bin"):
        trial.expect("a look without a kit", told[0] == 10 and "no `rt` on the path" in told[2], told)
    for variable, last in (("HIDES", "line of b\n"), ("CLINGS", "")):
        trial.forget()
        told = trial.look("line", "a/same", str(trial.top / "b/same"), **{variable: "1"})
        trial.expect(f"each call by the kit, {variable}", told[0] == 0 and told[1].endswith(last) and trial.tries() == 2, (told, trial.tries()))
        trial.look("line", "a/same", **{variable: "1"})
        trial.expect("the program isn't looked for again", trial.tries() == 3 and not (trial.top / "build/pvtag.unproved").exists(), trial.tries())
    trial.forget()


def main() -> int:
    with tempfile.TemporaryDirectory(prefix="pvtag-trial-") as folder:
        trial = Trial(Path(folder))
        for part in (try_look, try_looks_that_end, try_failures, try_builds, try_changes, try_placing, try_other, try_telling, try_progress, try_order, try_priorities, try_kept, try_both,
                     try_remains, try_minutes):
            part(trial)
    return trial.ended()


if __name__ == "__main__":
    sys.exit(main())
