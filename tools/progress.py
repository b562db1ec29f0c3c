"""How far a build has come, in one line: crates done of all, minutes so far, and about how many are left."""
import contextlib
import sys
import time

from machine import processors
from sources import Crates, chains_behind, minutes_of


# So many minutes of crates that were proved tell how fast a machine is, and after so many on the clock it shows how many processors there are to have.
ENOUGH, LONG_ENOUGH = 1.0, 4.0
# Two processors take this part of the time of one for a proof.
OF_TWO = 0.65


class Progress:
    """How many crates are proved, told in place on a terminal, and else once a minute."""

    def __init__(self, name: str, crates: Crates) -> None:
        self.name, self.crates, self.minutes = name, crates, minutes_of(crates)
        self.done: set[str] = set()
        # The minutes of a processor that crates have taken, and those that are being proved so far.
        self.taken: dict[str, float] = {}
        self.spent: dict[str, float] = {}
        self.start = self.told = time.monotonic()
        self.in_place = sys.stderr.isatty()

    def left(self) -> set[str]:
        """The crates that aren't proved yet."""
        return self.crates.keys() - self.done

    def pace(self) -> float:
        """How many minutes a processor takes here for one that was told: by the crates that were proved here so far, once they tell enough."""
        told = sum(self.minutes[name] for name in self.taken)
        return sum(self.taken.values()) / told if told > ENOUGH else 1.0

    def minutes_left(self) -> float:
        """About how many minutes are left: those of all crates on all processors, or of the dearest chain of them, of which each has two."""
        pace = self.pace()
        left = {name: pace * self.minutes[name] for name in self.left()}
        for name, spent in self.spent.items():
            if name in left:
                left[name] = max(left[name] - spent, left[name] / 10)
        return max(sum(left.values()) / self.got(), max(chains_behind(self.crates, left).values()) * OF_TWO, 0.5)

    def got(self) -> float:
        """How many processors the build has, by what it got so far; others may use them too."""
        clock = (time.monotonic() - self.start) / 60
        got = sum(self.taken.values()) + sum(self.spent.values())
        return max(min(got / clock, processors()), 1) if clock > LONG_ENOUGH else processors()

    def is_due(self) -> bool:
        return time.monotonic() - self.told >= (1 if self.in_place else 60)

    def tell(self) -> None:
        self.told = at = time.monotonic()
        line = (f"{self.name}: {len(self.done)} of {len(self.crates)} crates proved, {(at - self.start) / 60:.0f} minutes so far, "
                f"about {self.minutes_left():.0f} left")
        self.put(f"\r\033[K{line}" if self.in_place else f"{line}\n")

    def end(self) -> None:
        if self.in_place:
            self.put("\r\033[K")

    @staticmethod
    def put(words: str) -> None:
        """Nobody may read it any more: the terminal may be closed."""
        with contextlib.suppress(OSError):
            print(words, end="", file=sys.stderr, flush=True)
