"""Runs that lead sessions of their own: how one is started, given way to others, and ended with all that it has started, also with what has a
session of its own; and the signals that end who started them."""
import contextlib
import os
import signal
import subprocess
import sys
import time
from collections.abc import Iterator
from pathlib import Path


class Held:
    """Signals that end a build, each as an exception; while something is being started or ended they wait."""

    def __init__(self) -> None:
        self.number, self.holds = 0, False
        for number in (signal.SIGINT, signal.SIGTERM, signal.SIGHUP):
            # What is ignored from the start, as by `nohup`, stays so.
            if signal.getsignal(number) is not signal.SIG_IGN:
                signal.signal(number, self.take)

    def take(self, number: int, _: object) -> None:
        # The first one alone counts: what it has begun to end is ended whole.
        if self.number:
            return
        self.number = number
        if not self.holds:
            sys.exit(128 + number)

    @contextlib.contextmanager
    def hold(self) -> Iterator[None]:
        """Within its block they wait."""
        was_held, self.holds = self.holds, True
        try:
            yield
        finally:
            self.holds = was_held
            if self.number and not was_held:
                sys.exit(128 + self.number)


def give_way(run: subprocess.Popen[bytes], by: int) -> int:
    """Has a run and all of its session stand back by so many steps of `nice` from where this process stands, and gives by how many it does: who may not
    lets no run forward again. Where the system shares processors among sessions first, the session's own number is what counts."""
    here = os.nice(0)
    number = str(min(here + by, 19))
    with contextlib.suppress(OSError):
        Path(f"/proc/{run.pid}/autogroup").write_text(number)
    for pid in session_of(run.pid):
        with contextlib.suppress(OSError):
            os.setpriority(os.PRIO_PGRP, os.getpgid(pid), int(number))
    return os.getpriority(os.PRIO_PROCESS, run.pid) - here


def end_all(*runs: subprocess.Popen[bytes], first: int = signal.SIGTERM) -> None:
    """Ends runs that lead a session each: each process of these sessions, and each that stands below one of them. What doesn't end by the first signal
    within two seconds is killed."""
    for number in (first, signal.SIGKILL):
        for pid in stopped(*runs):
            with contextlib.suppress(ProcessLookupError):
                os.kill(pid, number)
                os.kill(pid, signal.SIGCONT)
        end = time.monotonic() + 2
        while any(run.poll() is None or session_of(run.pid) for run in runs):
            if time.monotonic() > end:
                break
            time.sleep(0.05)


def stopped(*runs: subprocess.Popen[bytes]) -> set[int]:
    """The processes of these runs, which go on no more: so none of them starts another one, which would be lost with the one that ends."""
    found: set[int] = set()
    while new := {pid for run in runs for pid in session_of(run.pid)} - found:
        for pid in new:
            with contextlib.suppress(ProcessLookupError):
                os.kill(pid, signal.SIGSTOP)
        found |= new
    return found


def spent_by(run: subprocess.Popen[bytes]) -> float:
    """The seconds of a processor that a run has taken so far, with all that it has started."""
    ticks = 0
    for pid in session_of(run.pid):
        with contextlib.suppress(OSError):
            ticks += sum(map(int, Path(f"/proc/{pid}/stat").read_bytes().rpartition(b")")[2].split()[11:15]))
    return ticks / os.sysconf("SC_CLK_TCK")


def session_of(leader: int) -> list[int]:
    """The processes of the session that this one leads, and those that stand below them."""
    parents, found = {}, {leader}
    for name in os.listdir("/proc"):
        if name.isdigit():
            try:
                fields = Path(f"/proc/{name}/stat").read_bytes().rpartition(b")")[2].split()
            except OSError:
                continue
            if fields[0] != b"Z":
                parents[int(name)] = (int(fields[1]), int(fields[3]))
    grown = True
    while grown:
        new = {pid for pid, (parent, session) in parents.items() if parent in found or session == leader} - found
        found |= new
        grown = bool(new)
    return [pid for pid in found if pid in parents]
