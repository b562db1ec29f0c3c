"""Measures each command on the shapes that a hostile author would try, at a size and at ten times that size. Words: the repository's folder, and how
many runs of each. Those of `pvlong` are left out where it isn't built.

Told are the least processor time and the memory at the peak of each, with the exponent by which they grow: the logarithm to base 10 of how many
times as much the larger one takes, 1 where it is linear. What the larger one takes is meant to stay within ten seconds and 2 GiB. With `--write` the
table is put into docs/SPEED.md. `tests/worst.py` holds the same shapes against bounds.
"""
import os
import sys

from growth import Measured, measured
from page import put
from shapes import catalogue
from timing import program_of, told_time


def line_of(one: Measured) -> str:
    """A line of the table."""
    shape, sizes = one.shape, f"{one.shape.size:,}, {10 * one.shape.size:,} {one.shape.unit}"
    ended = {-9: "ended"}.get(one.large.status, f"status {one.large.status}") if one.large.status not in (0, 1) else ""
    cells = [shape.command, shape.title, sizes, f"{told_time(one.small.seconds)}, {told_time(one.large.seconds)}", f"{one.time_growth:.2f}",
             f"{one.large.memory / 1000:.0f} MB", f"{one.memory_growth:.2f}", ended]
    return f"| {' | '.join(cells)} |"


def main() -> None:
    words = [it for it in sys.argv[1:] if not it.startswith("--")]
    top, rounds = words[0], int(words[1])
    load, lines = os.getloadavg()[0], []
    os.environ.pop("PVLONG_SECONDS", None)
    for shape in catalogue():
        program = program_of(top, shape.program)
        if (len(words) < 3 or words[2] in shape.name) and os.access(program, os.X_OK):
            one = measured(program, shape, rounds)
            lines.append(line_of(one))
            print(lines[-1], flush=True)
    heads = ["| Run | On | N, 10 N | Took | Exponent | Memory | Its exponent | Ended |", "|---|---|---|---|---|---|---|---|"]
    machine = f"The best of {rounds} rounds, on {os.cpu_count()} processors under a load of {load:.0f} to {os.getloadavg()[0]:.0f}."
    if "--write" in sys.argv:
        put(top, "bench/run worst", [machine, "", *heads, *lines])


if __name__ == "__main__":
    main()
