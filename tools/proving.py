"""Proves the crates of a room, which is a copy of what programs are made from, by a run of the kit for each crate, side by side.

A run of `rt ci` over all crates would do, but gives a crate few processors: its tests count as another piece of work that is ready, also where it
has none. A run with the name of a crate works on a copy, takes what earlier runs have kept, waits for what another one proves, and keeps what passed.
"""
import os
import re
import subprocess
import time
from collections.abc import Callable
from dataclasses import dataclass, field
from pathlib import Path

from machine import has_room, processors, runs_at_once
from processes import Held, end_all, give_way, spent_by
from progress import Progress
from sources import chains_behind, keep_minutes

TOLD = re.compile(rb"^rt: (\w+) (proved$|is kept:)", re.MULTILINE)
FAILED = re.compile(r"^rt: (\w+) NOT PROVED")
KEEPS = b" passed, and that is kept."
# So many steps of `nice` a run stands back behind one that matters more.
STEP = 6
# So many seconds a run over all may take until it tells of a first crate, and from one crate that is kept to the next.
BEGINS, GOES_ON = 30, 4
# So many seconds after its start a run surely proves its crate, so that another one waits for that.
SURELY = 20
# A crate gets two processors where the chain behind it takes so many times what each processor has left, else one: two take up to a quarter more of
# their time.
DEAR = 1.2


class Failed(Exception):
    """A program couldn't be built; the words say why."""


@dataclass
class Run:
    """A run of `rt ci`, with the name of a crate or over all, the crate that it is to prove, if one, and what it has told."""
    crate: str
    is_over_all: bool
    process: subprocess.Popen[bytes]
    log: Path
    # The crates that were proved when it began.
    known: frozenset[str]
    # How many processors it uses.
    jobs: int
    start: float = field(default_factory=time.monotonic)
    last: float = field(default_factory=time.monotonic)
    read: int = 0
    proved: set[str] = field(default_factory=set)
    kept: set[str] = field(default_factory=set)
    keeps: bool = False

    def listen(self) -> None:
        """Takes in the whole lines that it has told since."""
        with self.log.open("rb") as lines:
            lines.seek(self.read)
            said = lines.read()
        said = said[:said.rfind(b"\n") + 1]
        for name, how in TOLD.findall(said):
            (self.proved if how == b"proved" else self.kept).add(name.decode())
        self.keeps = self.keeps or KEEPS in said
        if said:
            self.read, self.last = self.read + len(said), time.monotonic()

    def is_vain(self) -> bool:
        """Whether it proves what an earlier run has proved, or has ended and keeps nothing for a later one."""
        return not self.is_over_all and (bool(self.proved & self.known) or self.process.returncode == 0 and not self.keeps)

    def takes_over(self) -> bool:
        """Whether it is one of the first, and its crate is kept from an earlier build."""
        return self.crate in self.kept and not self.known

    def why(self, name: str) -> str:
        """What it said of the first crate that failed: its name and the last lines; or its last lines, and by which signal it was ended."""
        lines = self.log.read_text(errors="replace").splitlines()
        for at, line in enumerate(lines):
            failed = FAILED.match(line)
            if failed:
                start = max((number for number in range(at) if lines[number].startswith("== ")), default=max(0, at - 20))
                return "\n".join([f"{name}: {failed[1]} couldn't be built:", *lines[max(start, at - 20):at + 1]])
        status = self.process.returncode
        ended = f" (`rt ci` was ended by signal {-status})" if status < 0 else ""
        return "\n".join([f"{name}: the program couldn't be built{ended}:", *lines[-20:]])


class Runs:
    """The runs of a room that are under way. However the block of these ends, so do they, with all that they started."""

    def __init__(self, room: Path, progress: Progress, held: Held, lock: int) -> None:
        self.room, self.progress, self.held, self.lock = room, progress, held, lock
        self.under_way: list[Run] = []
        self.behind = chains_behind(progress.crates, progress.minutes)
        # This is no gate, which alone `CI` asks for: there, the kit refuses a run of one crate. What an ended run leaves is removed with the room.
        self.variables = {name: value for name, value in os.environ.items() if name != "CI"} | {"TMPDIR": str(room.with_name("copies"))}
        room.with_name("copies").mkdir()

    def __enter__(self) -> "Runs":
        return self

    def __exit__(self, *_: object) -> None:
        with self.held.hold():
            self.end(self.under_way)
            self.progress.end()
            keep_minutes(self.progress.taken)

    def start(self, crate: str = "") -> Run:
        """Starts a run that is to prove a crate, or all. That of the last crate goes over all too, and so builds the programs here."""
        is_over_all = not crate or self.unbegun() == {crate}
        words = ["rt", "ci"] if is_over_all else ["rt", "ci", crate]
        log, jobs = self.room.with_name(f"log-{crate}"), self.jobs_for(crate)
        # The kit uses two where it isn't told how many.
        variables = self.variables | ({"RT_JOBS": "1"} if jobs == 1 and not is_over_all else {})
        with self.held.hold(), log.open("wb") as said:
            process = subprocess.Popen(words, cwd=self.room, env=variables, stdin=subprocess.DEVNULL, stdout=said, stderr=said, start_new_session=True,
                                       pass_fds=[self.lock])
            run = Run(crate, is_over_all, process, log, frozenset(self.progress.done), jobs)
            self.under_way.append(run)
        self.rank()
        return run

    def jobs_for(self, crate: str) -> int:
        """How many processors a crate is to have."""
        left = self.progress.left()
        ready = [name for name in left if not left.intersection(self.progress.crates[name])]
        share = sum(self.progress.minutes[name] for name in left) / processors()
        return 2 if len(ready) < processors() or self.behind.get(crate, share) > DEAR * share else 1

    def unbegun(self) -> set[str]:
        """The crates that no run has proved, or is to prove."""
        return self.progress.left() - {run.crate for run in self.under_way}

    def at_work(self) -> list[Run]:
        """The runs that prove their crates by now, since those below are proved; the others wait."""
        left = self.progress.left()
        return [run for run in self.under_way if run.crate in left and not left.intersection(self.progress.crates[run.crate])]

    def rank(self) -> None:
        """Has the run at work with the dearest chain of crates behind it go first, and so on."""
        back = 0
        for run in sorted(self.at_work(), key=lambda it: -self.behind[it.crate]):
            back = give_way(run.process, back) + STEP

    def end(self, runs: list[Run]) -> None:
        """Ends these runs, and what they have left."""
        with self.held.hold():
            end_all(*(run.process for run in runs))
            self.under_way = [run for run in self.under_way if run not in runs]

    def look(self) -> list[Run]:
        """Takes in what all have told meanwhile, and gives those that have ended by themselves. Where one has failed, so does the build."""
        time.sleep(0.2)
        ended = [run for run in self.under_way if self.has_ended(run)]
        for run in self.under_way:
            run.listen()
            self.progress.done |= (run.proved | run.kept) & self.progress.crates.keys()
        if self.progress.is_due():
            self.progress.spent = {run.crate: spent_by(run.process) / 60 for run in self.under_way if run.process.returncode is None}
            self.progress.tell()
        failed = next((run for run in ended if run.process.returncode), None)
        if failed:
            raise Failed(failed.why(self.progress.name))
        self.progress.done |= {run.crate for run in ended} & self.progress.crates.keys()
        if ended:
            self.end(ended)
            self.rank()
        return ended

    def has_ended(self, run: Run) -> bool:
        """Whether a run has ended. One that proved its crate alone tells what that takes."""
        if run.process.returncode is not None:
            return True
        number, state, used = os.wait4(run.process.pid, os.WNOHANG)
        if number:
            run.process.returncode = os.waitstatus_to_exitcode(state)
            run.listen()
            if run.proved == {run.crate}:
                self.progress.taken[run.crate] = (used.ru_utime + used.ru_stime) / 60
        return number != 0

    def next(self) -> str | None:
        """The crate that is to be begun now, if there is one: of those that stand on proved ones that with the dearest chain behind it, though enough are
        at work where theirs are all cheaper; or, ahead of time, since the kit takes a while to begin, one that stands also on crates that other runs are
        proving."""
        at_work, left = self.at_work(), self.progress.left()
        surely = {run.crate for run in at_work if time.monotonic() - run.start > SURELY}
        waiting = len(left.intersection(run.crate for run in self.under_way)) - len(at_work)
        if at_work and not has_room() or len(self.under_way) >= 2 * processors():
            return None
        is_full = sum(run.jobs for run in at_work) > processors()
        lacking = {name: left.intersection(self.progress.crates[name]) for name in self.unbegun()}
        dearest = max((self.behind[run.crate] for run in at_work), default=0.0) if is_full else 0.0
        ready = [name for name, lacks in lacking.items() if not lacks and self.behind[name] > dearest]
        soon = [name for name, lacks in lacking.items() if lacks and lacks <= surely] if waiting + 1 < runs_at_once() else []
        found = ready or soon
        return max(found, key=lambda name: (self.behind[name], name)) if found else None


def over_all(runs: Runs, is_enough: Callable[[Run], bool] = lambda _: False) -> bool:
    """A run over all crates, until it ends or has told enough: whether it has ended."""
    run = runs.start()
    while not runs.look():
        if is_enough(run):
            runs.end([run])
            return False
    return True


def one_by_one(runs: Runs, is_enough: Callable[[Run], bool]) -> Run | None:
    """A run for each crate, once those below it are proved, until all are, or until one has told enough: which one, if so."""
    while runs.progress.left() or runs.under_way:
        while (crate := runs.next()) is not None:
            runs.start(crate)
        enough = next((run for run in [*runs.look(), *runs.under_way] if is_enough(run)), None)
        if enough:
            runs.end(runs.under_way)
            return enough
    return None


def prove(room: Path, progress: Progress, held: Held, lock: int, is_beside: bool) -> None:
    """Proves all crates of the room, whose folder has this lock, and builds its programs. Unless the room is beside what the kit keeps, one run does it all."""
    def has_told_kept(run: Run) -> bool:
        """Whether the run over all has told what is kept, and more is left than it proves as fast: than crates that stand on one another."""
        left = progress.left()
        is_chain = max(chains_behind(progress.crates, dict.fromkeys(left, 1.0)).values()) == len(left)
        quiet = time.monotonic() - run.last
        return quiet > (GOES_ON if run.proved or run.kept else BEGINS) and not is_chain

    with Runs(room, progress, held, lock) as runs:
        if is_beside and runs_at_once() > 1:
            ended_by = one_by_one(runs, lambda run: run.is_vain() or run.takes_over())
            if ended_by and not ended_by.is_vain():
                # Of what an earlier build has kept, the run over all tells quickest.
                if over_all(runs, has_told_kept):
                    return
                ended_by = one_by_one(runs, Run.is_vain)
            if not ended_by:
                return
            progress.done.clear()
        over_all(runs)
