"""How far a run is, in one line on a terminal."""
import os
import sys
import time

from .runs import Found


class Progress:
    """Tells how many documents are done and left, at what rate, and how many are impossible so far; nothing where nobody looks."""

    def __init__(self, whole: int, quiet: bool) -> None:
        self.whole, self.done, self.impossible = whole, 0, 0
        self.shows = not quiet and sys.stderr.isatty()
        self.start = time.monotonic()
        self.shown = 0.0

    def add(self, found: Found) -> None:
        if not self.shows:
            return
        self.done += len(found)
        self.impossible += sum(row.verdict == "impossible" for _, row in found)
        now = time.monotonic()
        if now - self.shown > 0.1:
            self.shown = now
            print(f"\r\033[K{self.line(now)[:columns() - 1]}", end="", file=sys.stderr, flush=True)

    def line(self, now: float) -> str:
        rate = self.done / max(now - self.start, 1e-3)
        left = self.whole - self.done
        filled = 20 * self.done // max(self.whole, 1)
        bar = "#" * filled + "." * (20 - filled)
        return f"[{bar}] {self.done} done, {left} left, {rate:.0f} a second, {left / rate:.0f} s to go, {self.impossible} impossible"

    def end(self) -> None:
        if self.shows:
            print("\r\033[K", end="", file=sys.stderr, flush=True)


def columns() -> int:
    """How wide the terminal is."""
    try:
        return os.get_terminal_size(sys.stderr.fileno()).columns or 80
    except OSError:
        return 80
