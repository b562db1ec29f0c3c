"""Times what a session takes to offer names, under DTDs of 10 to 1,000 names, in lists of 20 to 20,000 kids. Words: PROGRAM RUNS.

Each DTD has a root whose list may hold all other names in any order, and elements with text and some of the names; in a second form no
content is free: each list is a sequence of groups. A script asks for the names that may go round the middle kid of the list, and for those
that the kid may have, so many times that it takes a while; the time of a session without these lines, which opens the document, is taken
off. The least of the runs is told, in milliseconds for each line, as it passed on the machine's processors and as their time. Ends with 1
where a line under 100 names, in a list of 1,000 kids, takes more than 50 ms.
"""
import os
import resource
import subprocess
import sys
import tempfile
import time

NAMES = (10, 100, 1000)
KIDS = (20, 1000, 20000)
MOST = 50


def free_dtd(count):
    """Lists of any of the names, in any order."""
    names = [f"n{at}" for at in range(count - 1)]
    kids = "|".join(names)
    small = "|".join(names[:8])
    return f"<!ELEMENT root (#PCDATA|{kids})*>" + "".join(f"<!ELEMENT {name} (#PCDATA|{small})*>" for name in names)


def ordered_dtd(count):
    """A list of groups, each a name that may be left out and then one of three."""
    names = [f"n{at}" for at in range(count - 1)]
    groups = ",".join(f"({name}?,({names[at * 7 % len(names)]}|{names[at * 5 % len(names)]}|{name}))*" for at, name in enumerate(names))
    inner = ",".join(f"{name}?" for name in names[:8])
    return f"<!ELEMENT root ({groups})>" + "".join(f"<!ELEMENT {name} ({inner})>" for name in names)


class Refused(Exception):
    """The session didn't begin: what it wrote."""


def seconds(words, script):
    """How long a run took, and how long the processors worked on it."""
    before, started = resource.getrusage(resource.RUSAGE_CHILDREN), time.monotonic()
    done = subprocess.run(words, input=script, stdout=subprocess.PIPE, timeout=600)
    passed, after = time.monotonic() - started, resource.getrusage(resource.RUSAGE_CHILDREN)
    if done.returncode != 0:
        raise Refused(done.stdout.decode(errors="replace").strip())
    return passed, after.ru_utime + after.ru_stime - before.ru_utime - before.ru_stime, done.stdout


def measure(program, runs, lines):
    """The milliseconds that a line takes, and those of the processors; and the first line's reply."""
    words = [program, "session", "a.dtd", "root", "d.xml"]
    once = seconds(words, lines.encode())
    rounds = max(1, min(200, int(0.5 / max(once[0], 0.001))))
    script = (lines * rounds).encode()
    asked = [seconds(words, script) for _ in range(runs)]
    opened = [seconds(words, b"") for _ in range(runs)]
    count = rounds * lines.count("\n")
    return [1000 * (min(run[of] for run in asked) - min(run[of] for run in opened)) / count for of in (0, 1)], once[2].split(b"\n")[0].decode()


def of_list(program, runs, form, names, kids):
    """Times both questions on a list of so many kids; the milliseconds that count for the aim."""
    with open("d.xml", "w") as file:
        file.write(f"<root>{'<n0/>' * kids}</root>")
    middle, worst = kids // 2, 0
    for kind, line in (("wrap", f"offer 0 {middle} {middle + 1}\n"), ("rename", f"offer 0.{middle}\n")):
        try:
            (passed, worked), first = measure(program, runs, line)
        except Refused as answer:
            print(f"{form}, {names:4} names, {kids:5} kids: {answer}")
            return 0
        print(f"{form}, {names:4} names, {kids:5} kids, a {kind}: {passed:8.2f} ms, {worked:8.2f} ms of processors, {first}", flush=True)
        worst = max(worst, passed)
    return worst if (names, kids) == (100, 1000) else 0


def main():
    program, runs, worst = os.path.abspath(sys.argv[1]), int(sys.argv[2]), 0
    with tempfile.TemporaryDirectory() as folder:
        os.chdir(folder)
        for form, make in (("any order", free_dtd), ("sequences", ordered_dtd)):
            for names in NAMES:
                with open("a.dtd", "w") as file:
                    file.write(make(names))
                for kids in KIDS:
                    worst = max(worst, of_list(program, runs, form, names, kids))
        os.chdir("/")
    print(f"under 100 names, in a list of 1,000 kids: {worst:.1f} ms at most, {MOST} aimed at")
    return 1 if worst > MOST else 0


if __name__ == "__main__":
    sys.exit(main())
