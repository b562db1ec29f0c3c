"""Measures the gate, crate by crate. Words: the repository's folder, and words for `rt ci`; without these it proves all from nothing. With
`--write` in their place it does so too, and puts the table into docs/DEVELOPING.md; with `--costs` it measures nothing, and tells there anew
what a change of each crate costs, by the minutes in the table and what stands on what.

It runs `rt ci`, with `--anew` where the kit keeps what passed, looks at its processes four times a second, and tells how many minutes of
processor time each crate took: its proof, its tests' proofs, and its must-fail edits; then what the tests and the program took to be built
and run, the whole, the time on the clock, and the longest chain of crates that stand on one another. What a process does between the last look
at it and its end isn't counted.
"""
import os
import subprocess
import sys
import time

from page import put

NAME = "bench/run gate"
PHASES = ("proof", "tests", "edits", "run")
TICKS = os.sysconf("SC_CLK_TCK")


def crates_of(top):
    """The crates of the repository, each with those of it that it stands on."""
    lines = [line.split("#")[0].strip() for line in open(f"{top}/crates.txt")]
    named = dict(line.split(":") for line in lines if line)
    needs = {name.split()[0]: needs.split() for name, needs in named.items()}
    return {name: [it for it in below if it in needs] for name, below in needs.items()}


def longest_chain(needs):
    """The longest chain of crates, lowest first."""
    chains = {}

    def chain_to(name):
        if name not in chains:
            chains[name] = max((chain_to(it) for it in needs[name]), key=len, default=[]) + [name]
        return chains[name]

    return max((chain_to(name) for name in needs), key=len)


def standing_on(needs):
    """Of each crate those that stand on it, itself among them: what a change of it has proved again."""
    found = {name: {name} for name in needs}
    for name in reversed(needs):
        for below in needs[name]:
            found[below] |= found[name]
    return found


def read(path):
    try:
        with open(path, "rb") as file:
            return file.read()
    except OSError:
        return b""


class Process:
    """A process as one look shows it: its parent, its start, its words, and in seconds its processor time and that of its ended children."""

    def __init__(self, pid):
        fields = read(f"/proc/{pid}/stat").rpartition(b")")[2].split()
        self.is_there = bool(fields)
        self.pid = pid
        if self.is_there:
            self.parent, self.start = int(fields[1]), int(fields[19])
            self.own, self.ended = sum(map(int, fields[11:13])) / TICKS, sum(map(int, fields[13:15])) / TICKS
            self.words = read(f"/proc/{pid}/cmdline").decode(errors="replace").split("\0")

    def is_prover(self):
        """It proves or builds one crate, with helpers of its own."""
        return os.path.basename(self.words[0]) == "rattle" and "--crate-name" in self.words

    def place(self, needs):
        """The crate and the phase that its time belongs to."""
        name = self.words[self.words.index("--crate-name") + 1]
        try:
            folder = os.readlink(f"/proc/{self.pid}/cwd")
        except OSError:
            folder = ""
        is_edit = any(part.startswith("rt-edit") for part in folder.split("/"))
        phase = "edits" if is_edit else "tests" if "--test" in self.words else "proof"
        return (name if name in needs else ""), phase


class Watch:
    """The processor time of all processes below one, by crate and phase."""

    def __init__(self, needs):
        self.needs, self.places, self.seconds = needs, {}, {}

    def look(self, tops):
        """Notes what the processes below these have taken so far. A prover's time is that of its helpers too."""
        found = {int(it): Process(int(it)) for it in os.listdir("/proc") if it.isdigit()}
        found = {pid: it for pid, it in found.items() if it.is_there}
        taken = {}
        for pid in found:
            above, prover, own = pid, None, found[pid]
            while above in found and above not in tops:
                if found[above].is_prover():
                    prover = found[above]
                above = found[above].parent
            if above in tops and above != pid:
                of = prover or own
                key = of.pid, of.start
                if prover:
                    # It may have been seen before it was one.
                    self.places[key] = of.place(self.needs)
                self.places.setdefault(key, ("", "run"))
                taken[key] = taken.get(key, 0) + own.own + (own.ended if prover else 0)
        for key, seconds in taken.items():
            self.seconds[key] = max(self.seconds.get(key, 0), seconds)

    def minutes(self):
        """Minutes by crate and phase."""
        told = {}
        for key, seconds in self.seconds.items():
            told[self.places[key]] = told.get(self.places[key], 0) + seconds / 60
        return told


class Told:
    """Minutes by crate, the dearest first: of its proof, its tests' proofs, its edits, and all; then those of all crates, and of all else."""

    def __init__(self, watch, needs):
        told = watch.minutes()
        rows = {name: [told.get((name, phase), 0) for phase in PHASES[:3]] for name in needs}
        self.rows = [(name, [*row, sum(row)]) for name, row in sorted(rows.items(), key=lambda it: -sum(it[1]))]
        self.sums = [sum(row[at] for _, row in self.rows) for at in range(4)]
        self.rest = sum(minutes for (name, phase), minutes in told.items() if not name or phase == "run")

    def print(self, needs):
        print(f"{'crate':20}{'proof':>8}{'tests':>8}{'edits':>8}{'all':>8}")
        for name, row in [*self.rows, ("together", self.sums)]:
            print(f"{name:20}" + "".join(f"{minutes:8.1f}" for minutes in row))
        print(f"the tests and the program, built and run, and all else: {self.rest:.1f}")
        print(f"the longest chain, of {len(longest_chain(needs))}: {' '.join(longest_chain(needs))}")

    def lines(self, needs, load, clock):
        """The lines of a page."""
        where = f"{os.cpu_count()} processors that had a load of {load:.1f} when it began"
        return [
            f"{self.sums[3] + self.rest:.0f} processor minutes, and {clock:.0f} minutes on the clock, on {where}. "
            f"What isn't in the table, as the runs of the tests and of the program, took {self.rest:.1f} of them.",
            "",
            *table(self.rows, self.sums, needs),
        ]


def table(rows, sums, needs):
    """The table of a page: what each crate takes, and what a change of it costs, with all crates that stand on it."""
    taken, above = {name: row[3] for name, row in rows}, standing_on(needs)
    costs = {name: sum(taken.get(it, 0) for it in above[name]) for name, _ in rows if name in needs}
    whole = " | ".join(f"{minutes:.1f}" for minutes in sums)
    return [
        "| Crate | Proof | Tests' proofs | Edits | All | A change of it | Crates above it |",
        "|---|---|---|---|---|---|---|",
        f"| all crates | {whole} | | |",
        *(
            f"| `{name}` | " + " | ".join(f"{minutes:.1f}" for minutes in row) + f" | {costs[name]:.0f} | {len(above[name]) - 1} |"
            for name, row in rows if name in needs
        ),
    ]


def told_anew(top):
    """The lines of the page with what each change costs, by the minutes that stand there."""
    needs, page = crates_of(top), read(f"{top}/docs/DEVELOPING.md").decode()
    lines = page.partition(f"<!-- {NAME} -->\n")[2].partition(f"<!-- end of {NAME} -->\n")[0].splitlines()
    head = " ".join(line for line in lines if line and not line.startswith("|"))
    cells = [[cell.strip(" `") for cell in line.split("|")[1:-1]] for line in lines if line.startswith("|")]
    rows = [(name, [float(minutes) for minutes in row[:4]]) for name, *row in cells[2:]]
    return [head, "", *table(rows[1:], rows[0][1], needs)]


def from_nothing():
    """The words by which `rt ci` proves all from nothing: a kit that keeps nothing has none."""
    told = subprocess.run(["rt", "help"], capture_output=True, text=True, errors="replace")
    return ["--anew"] if "--anew" in told.stdout + told.stderr else []


def main():
    top, words = sys.argv[1], sys.argv[2:]
    is_written = words == ["--write"]
    if {"--write", "--costs"} & {*words} and len(words) > 1:
        sys.exit("--write and --costs stand alone, since the page has the whole gate")
    if words == ["--costs"]:
        put(top, NAME, told_anew(top), "DEVELOPING.md")
        return
    needs = crates_of(top)
    watch, began, load = Watch(needs), time.time(), os.getloadavg()[0]
    gate = subprocess.Popen(["rt", "ci", *(from_nothing() if is_written or not words else words)], cwd=top)
    while gate.poll() is None:
        watch.look({gate.pid})
        time.sleep(0.25)
    told, clock = Told(watch, needs), (time.time() - began) / 60
    told.print(needs)
    print(f"on the clock: {clock:.1f}")
    if is_written and not gate.returncode:
        put(top, NAME, told.lines(needs, load, clock), "DEVELOPING.md")
    sys.exit(gate.returncode)


if __name__ == "__main__":
    main()
