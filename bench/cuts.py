"""Times the cuts of one text by a session, on texts of N and of 10 N units. Words: the repository's folder, how many runs of each, and N, 100,000
where none is given.

One text is of ASCII alone, the other has characters of one to four bytes and references. A cut and its undo are timed at the text's first
place, in its middle and at its last, each ten times; then a cut after each 100 units from front to back, and from back to front. The time of a
session without them, which opens the document, is taken off. The runs are interleaved; the least processor time is told for one change, with the
bytes that it copies in a nanosecond, the exponent of each by which it grows, and what is aimed at for a cut at 10 N, if that is 1,000,000. Ends with
1 where an aim is missed.
"""
import math
import sys
import tempfile
from typing import NamedTuple

from timing import program_of, run, told_time, written

DTD = "<!ELEMENT doc (#PCDATA|em)*><!ELEMENT em (#PCDATA)>"
TEXTS = {"ASCII": "Some plain text, as it is. ", "mixed": "W\u00f6rter, \u20ac 5 &amp; \U00010348 in &#233;inem Text, und mehr davon, "}
REFERENCES = ("&amp;", "&#233;")
AIMS = {"ASCII": 0.2e-3, "mixed": 1.5e-3}
ROUNDS, PIECE = 10, 100


def units_of(text):
    """The units of a text that holds these references and no other."""
    units, at = [], 0
    while at < len(text):
        unit = next((it for it in REFERENCES if text.startswith(it, at)), text[at])
        units.append(unit)
        at += len(unit)
    return units


class Script(NamedTuple):
    """What is timed: the lines, how many changes they make, and the bytes that these copy."""
    lines: str
    changes: int
    copied: int


def scripts(units):
    """The scripts for a text of these units, by what they do."""
    size, count = len("".join(units).encode()), len(units)
    places = {"first": 1, "middle": count // 2, "last": count - 1}
    found = {f"{name} place": Script(f"split 0.0 {at}\nundo\n" * ROUNDS, 2 * ROUNDS, 2 * ROUNDS * size) for name, at in places.items()}
    cuts = count // PIECE - 1
    copied = sum(size - size * cut // (cuts + 1) for cut in range(cuts))
    found["front to back"] = Script("".join(f"split 0.{cut} {PIECE}\n" for cut in range(cuts)), cuts, copied)
    found["back to front"] = Script("".join(f"split 0.0 {count - PIECE * (cut + 1)}\n" for cut in range(cuts)), cuts, copied)
    return found


def measured(program, folder, name, count, runs):
    """The seconds of each script for a text of so many units, and the script."""
    pattern = units_of(TEXTS[name])
    units = (pattern * (count // len(pattern) + 1))[:count]
    document = written(f"{folder}/{name}-{count}.xml", f"<doc>{''.join(units)}</doc>")
    words = [program, "session", written(f"{folder}/d.dtd", DTD), "doc", document]
    tried = {"nothing": Script("", 0, 0), **scripts(units)}
    best = dict.fromkeys(tried, math.inf)
    for _ in range(runs):
        for what, script in tried.items():
            ran = run(words, script.lines.encode(), keep=True, weigh=False)
            if ran.status != 0 or ran.output.count(b"ok ") != script.changes:
                sys.exit(f"{name}, {what}: status {ran.status}, {ran.output[:200]!r}")
            best[what] = min(best[what], ran.seconds)
    return {what: (max(best[what] - best["nothing"], 1e-9), script) for what, script in tried.items() if script.changes}


def main():
    top, runs, small = sys.argv[1], int(sys.argv[2]), int(sys.argv[3]) if len(sys.argv) > 3 else 100_000
    missed = 0
    with tempfile.TemporaryDirectory() as folder:
        for name, aim in AIMS.items():
            less, more = (measured(program_of(top), folder, name, count, runs) for count in (small, 10 * small))
            for what, (seconds, script) in more.items():
                before, fewer = less[what]
                each = seconds / script.changes
                grows = math.log10(each / (before / fewer.changes))
                late = 10 * small == 1_000_000 and what.endswith("place") and each > aim
                missed += late
                print(f"{name:5} {what:14} {told_time(before / fewer.changes):>8} {told_time(each):>8} a change, exponent {grows:4.2f}, "
                      f"{script.copied / seconds * 1e-9:6.2f} bytes/ns{' MISSED' if late else ''}")
    return 1 if missed else 0


if __name__ == "__main__":
    sys.exit(main())
