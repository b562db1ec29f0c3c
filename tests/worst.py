"""Holds what the programs take for what a hostile author would try (`bench/shapes.py`) against bounds: how it grows with the size, and how much it is.

Words: PVTAG PVLONG, and a part of the names of shapes where not all are wanted; those of `pvlong` are skipped where it isn't built. At ten times the
size a run may take ten times as much processor time and memory, with some room: exponents of 1.2 and 1.1; and ten seconds of the machine for which
they are counted, and 2 GiB. Shapes that are known to take more stand in KNOWN with their bound and why. Where a measure is past its bound it is taken again, since a busy machine makes it stray. Prints what is
past its bound and which of the known ones no longer are, and how many passed; ends with 1 where one failed.
"""
import os
import sys
from pathlib import Path
from typing import NamedTuple

TOP = Path(__file__).resolve().parent.parent
sys.path.append(str(TOP / "bench"))
sys.dont_write_bytecode = True

from growth import Measured, measured  # noqa: E402
from lib.counting import Expecting  # noqa: E402
from shapes import Shape, catalogue  # noqa: E402
from timing import run  # noqa: E402

TIME, MEMORY = 1.2, 1.1
SECONDS, KILOBYTES = 10, 2 << 20
# What a `drill 20000` takes on the machine for which the seconds are counted: one that is slower has more of them.
DRILL = 0.1
TRIES = 4


class Bound(NamedTuple):
    """The exponents of time and of memory up to which a shape passes, and why it takes so much; and the seconds of the larger one."""
    why: str
    time: float = TIME
    memory: float = MEMORY
    seconds: float = SECONDS


SPANS = "a table has a row for each span of the list, and goes over its cuts: cubic in the kids"
CUTS = "a pack's entries are held against each rule over each cut: cubic in the kids"
PLACES = "a model of m parts that isn't deterministic, over a word of n tokens, costs n * m / 64"
LIST = "an edit costs the list in which it is made"
CACHE = "the nodes no longer fit the processor's nearer memory"
THREADS = "behind 65,536 tokens of long lists that aren't valid the document is opened for threads: a step in time and memory, and linear beyond"
FRONTS = "what leads on from the places of a list is tested in more than linear time, and all of it is made where windows don't close"
BEGUN = "a step of a list that was begun is finished, whatever the clock says"
# The most seconds where `pvlong` has one to look for bounds, or none.
SOON = 5
KNOWN: dict[str, Bound] = {
    "`pvlong need`, recursion in the middle": Bound(FRONTS, 2.2),
    "`pvlong need`, left recursion": Bound(FRONTS, 3.1, 2.2),
    "`pvlong need`, left recursion, in a second": Bound(FRONTS, 3.1, 2.2, SOON),
    "`pvlong need`, left recursion, in no time": Bound(FRONTS, 3.1, 2.2, SOON),
    "`pvlong need`, two names in turn": Bound(FRONTS, 3.4, 2.2),
    "`pvlong need`, two names in turn, in a second": Bound(BEGUN, 3.4, 2.2, 40),
    "`pvlong need`, a nest of optional groups": Bound(FRONTS, 2.2, 2.2),
    "`check`, every other kid missing, (b, c)*": Bound(THREADS, 1.8, 1.9),
    "`check`, left recursion": Bound(THREADS, 1.8, 1.9),
    "`check`, right recursion": Bound(THREADS, 1.8, 1.9),
    "`check`, recursion in the middle": Bound(THREADS, 1.8, 1.9),
    "`check`, names that aren't declared": Bound(THREADS, 1.8, 1.9),
    "a session's `need`, one list": Bound(SPANS, 3.1, 2.1),
    "`complete`, one list": Bound(SPANS, 3.1, 2.1),
    "`verify`, one list": Bound(CUTS, 3.1, 2.1),
    "`verify`, kids under 30 names with content ANY": Bound(CUTS, 3.1),
    "`complete`, kids under 30 names with content ANY": Bound(SPANS, 3.1),
    "`verify`, sites over all spans, ANY": Bound(CUTS, 3.1, 2.1),
    "`verify`, 30 kids under names with content ANY": Bound("each name's rule goes over all names, each in each cut", 2.2),
    "`valid`, one optional name again and again": Bound(PLACES, 2.2),
    "`check`, one optional name again and again": Bound(PLACES, 2.2),
    "`valid`, a name, and many of two after it": Bound(PLACES, 2.2),
    "`check`, a name, and many of two after it": Bound(PLACES, 2.2),
    "`offer`, names with six optional others": Bound("each name's edit is judged from nothing", 1.6),
    "a session's `need`, a list of each of many names": Bound("columns are told apart for each owner, names times lists", 2.2),
    "`check`, a possible list of each name of a ring": Bound("each list's table goes over the rules of all names that its owner leads to", 2.2),
    "a session, insertions at a list's end": Bound(LIST, 2.2),
    "a session, cuts of a text from its front": Bound(LIST, 2.2),
    "a session, cuts of a text from its back": Bound(LIST, 2.2),
    "an opening, towers of 511 elements": Bound(CACHE, 1.4),
    "`check`, towers of 511 elements": Bound(CACHE, 1.4),
}


def bound_of(shape: Shape) -> Bound:
    return KNOWN.get(shape.name, Bound(""))


def faults_of(one: Measured, pace: float) -> list[str]:
    """What of a measure is past its bounds."""
    bound, faults = bound_of(one.shape), []
    if one.time_growth > bound.time:
        faults.append(f"time by {one.time_growth:.2f}, and not {bound.time}: {one.small.seconds:.3f} s, {one.large.seconds:.3f} s")
    if one.memory_growth > bound.memory:
        faults.append(f"memory by {one.memory_growth:.2f}, and not {bound.memory}: {one.small.memory:,} kB, {one.large.memory:,} kB")
    if one.large.seconds > bound.seconds * pace:
        faults.append(f"{one.large.seconds:.1f} s")
    if one.large.memory > KILOBYTES:
        faults.append(f"{one.large.memory:,} kB")
    if one.large.status not in (0, 1, 6, 7, 8, 9):
        faults.append(f"status {one.large.status}")
    return faults


def judged(program: str, shape: Shape, pace: float) -> tuple[Measured, list[str]]:
    """The measure with the fewest faults; one that has none is enough."""
    one = measured(program, shape)
    for _ in range(TRIES):
        if not faults_of(one, pace):
            break
        again = measured(program, shape)
        one = Measured(shape, one.small.least(again.small), one.large.least(again.large))
        # A size at which the other strayed is no reason.
        one = min((one, again), key=lambda it: len(faults_of(it, pace)))
    return one, faults_of(one, pace)


def main() -> int:
    trial, part = Expecting(), "".join(sys.argv[3:4])
    programs = {name: os.path.abspath(word) for name, word in zip(("pvtag", "pvlong"), sys.argv[1:3])}
    os.environ.pop("PVLONG_SECONDS", None)
    pace = max(1.0, min(run([programs["pvtag"], "drill", "20000"]).seconds for _ in range(3)) / DRILL)
    shapes = [it for it in catalogue() if part in it.name]
    unknown = [] if part else [name for name in KNOWN if name not in {it.name for it in shapes}]
    trial.expect("shapes that are known", unknown == [], unknown)
    spent = 0.0
    if not os.access(programs["pvlong"], os.X_OK):
        print("skipped: the shapes of pvlong (it isn't built)")
        shapes = [it for it in shapes if it.program != "pvlong"]
    for shape in shapes:
        one, faults = judged(programs[shape.program], shape, pace)
        spent += one.small.seconds + one.large.seconds
        trial.expect(f"{shape.name}, {shape.size:,} and {10 * shape.size:,} {shape.unit}", faults == [], "; ".join(faults))
        if shape.name in KNOWN and one.time_growth <= TIME and one.memory_growth <= MEMORY:
            print(f"{shape.name}: no longer past the bounds of all, by {one.time_growth:.2f} and {one.memory_growth:.2f}")
    print(f"{len(shapes)} shapes, {spent:.0f} s of processor time, at a pace of {pace:.1f}")
    return trial.ended()


if __name__ == "__main__":
    sys.exit(main())
