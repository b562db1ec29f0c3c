"""Tries `why` on random documents, and `deny` on what it prints and on hostile denials, beside the judge of `check_denial.py`.

Words: PROGRAM COUNT SEED and, optionally, the most seconds. So many denials are taken of random small documents, made as in
`completions.py`. What `why` prints must be a denial of the first impossible list that a search finds, with the rows that the rules
lead to, or `possible` where the search finds none. From each denial hostile ones are made: each value changed by one, each row dropped or
doubled, numbers, causes and lines changed, the path of each other list; and it is tried on other documents. On each, `deny` must tell what
the judge tells, with the status of that answer, and where it tells `denied` the search must find no insertions that mend the list, nor the
document. Then large ones: as many values as a denial may have and one more, a file of one byte too many, lists at the limit of width.
Prints each difference, how often each answer came, and how many denials passed; ends with 1 where one failed.
"""
import os
import random
import re
import sys
import tempfile
import time

sys.dont_write_bytecode = True

from check_denial import CAUSES, MOST_BYTES, MOST_VALUES, Denial, dotted, holds, judge, live_word_of, rules_of, sites_of
from check_pack import Document, Dtd, Fault
from lib.counting import Counting, need, output
from lib.editing import document_of
from lib.grammar import declaration
from lib.kept import productive_grammar
from lib.search import MOST, write
from lib.trees import is_live, items_of, lists_below

STATUSES = {"denied": 0, "rejected": 1, "limit": 8, "table": 9}
# How many changed values of one denial are tried at most.
MOST_CHANGES = 60


def furthest(dtd, word):
    """The rows of all sites that derive something: the values rise until no rule leads further."""
    sites, places, values = sites_of(dtd), range(len(word) + 1), {}

    def at(site, place):
        return values.get((site, place)) if place is not None else None

    rules = {site: list(rules_of(dtd, word, at, site)) for site in sites}
    rises = True
    while rises:
        rises = False
        for site in sites:
            for place in places:
                ends = [end for end in (rule(place) for rule in rules[site]) if end is not None]
                if ends and max(ends) > values.get((site, place), -1):
                    values[site, place] = max(ends)
                    rises = True
    return [(site, [values[site, place] for place in places]) for site in sites if (site, 0) in values]


def written(path, cause, rows):
    lines = [b"pvdeny 1", b"list " + dotted(path).encode(), b"cause " + cause, *map(row_line, rows), b"end"]
    return b"".join(line + b"\n" for line in lines)


def row_line(row):
    (kind, number), values = row
    return " ".join([kind, str(number), *map(str, values)]).encode()


class Case:
    """A document under a DTD, and what the program tells of it: its denial, or none."""

    def __init__(self, program, dtd, root, text):
        self.program, self.root, self.text, self.grammar = program, root, text, dtd
        self.dtd, self.document = Dtd(dtd), Document(text.encode(), root)
        self.lists = {path: (owner, kids) for path, owner, kids in self.document.lists()}
        write("a.dtd", dtd)
        write("d.xml", text)
        status, told = output(program, "why", "a.dtd", root, "d.xml")
        self.denial = told if status == 0 else None
        need(status == 0 or (status, told) == (1, b"possible\n"), f"status {status}, the output is {told[:200]!r}")

    def first_cause(self, path):
        owner, kids = self.lists[path]
        x = self.dtd.token(self.root if owner is None else owner)
        return next(cause for cause in CAUSES if cause == b"word" or holds(self.dtd, cause, owner, x, kids))

    def wanted(self, path):
        """The denial of an impossible list."""
        cause = self.first_cause(path)
        rows = furthest(self.dtd, live_word_of(self.dtd, self.lists[path][1])) if cause == b"word" else []
        return written(path, cause, rows)

    def told(self, denial):
        """What `deny` answers, with a status that goes with it."""
        write("a.dtd", self.grammar)
        write("d.xml", self.text)
        with open("t.den", "wb") as file:
            file.write(denial)
        status, answer = output(self.program, "deny", "a.dtd", self.root, "d.xml", "t.den")
        answer = answer.decode()
        good = STATUSES.get(answer.split(" ")[0].strip())
        need(answer.endswith("\n") and status == good, f"status {status}: {answer[:200]!r}")
        return answer[:-1]

    def answer(self, denial):
        """What `deny` tells, which must be what the judge tells."""
        try:
            wanted = judge(self.dtd, self.root, self.document, Denial(denial))
        except Fault as fault:
            wanted = str(fault)
        answer = self.told(denial)
        need(answer == wanted, f"the program tells {answer}, the judge {wanted}, of the denial\n{denial[:2000].decode(errors='replace')}")
        return answer


class Searched(Case):
    """A random document, whose lists a search knows."""

    def __init__(self, program, dtd, root, text, search, tree):
        super().__init__(program, dtd, root, text)
        self.search, self.tree = search, tree
        self.kids = {(): (None, [tree]), **{path: (owner, kids) for path, owner, kids in lists_below(tree, (0,))}}
        self.is_least = None

    def is_mended(self, path):
        return is_live(self.search, *self.kids[path], self.root)

    def first_impossible(self):
        return next((path for path in sorted(self.kids) if not self.is_mended(path)), None)

    def check_own(self):
        first = self.first_impossible()
        wanted = None if first is None else self.wanted(first)
        need(self.denial == wanted, f"why tells\n{self.denial}, and not\n{wanted}")
        if wanted:
            need(self.judged(wanted) == f"denied {dotted(first)}", "its own denial is rejected")

    def judged(self, denial):
        """What is told of a denial; what is denied must be impossible."""
        answer = self.answer(denial)
        if answer.startswith("denied"):
            path = Denial(denial).path
            need(not self.is_mended(path), f"{answer}, and the list can be mended, by the denial\n{denial.decode()}")
            if self.is_least is None:
                self.is_least = self.search.least((*items_of(self.tree),), ("children", ("name", self.root)), MOST)
            need(self.is_least > MOST, f"{answer}, and {self.is_least} insertions make the document valid, by\n{denial.decode()}")
        return answer


# Hostile denials.
def values_changed(lines):
    """Each value, and each number of a row, changed by one."""
    found = [(at, word_at) for at in range(3, len(lines) - 1) for word_at in range(1, len(lines[at].split(b" ")))]
    for at, word_at in random.sample(found, min(len(found), MOST_CHANGES)):
        words = lines[at].split(b" ")
        old = int(words[word_at])
        for number in {old + 1, max(0, old - 1)} - {old}:
            words[word_at] = b"%d" % number
            yield [*lines[:at], b" ".join(words), *lines[at + 1:]]


def rows_changed(lines):
    """Each row dropped, doubled, with a value more and with one less, and changed places with the next."""
    for at in range(3, len(lines) - 1):
        front, row, rest = lines[:at], lines[at], lines[at + 1:]
        yield [*front, *rest]
        yield [*front, row, row, *rest]
        yield [*front, row + b" " + row.rsplit(b" ", 1)[1], *rest]
        yield [*front, row.rsplit(b" ", 1)[0], *rest]
        yield [*front, *rest[:1], row, *rest[1:]]


def all_raised(lines):
    """Each value is the last place, which is a barrier that lets all through."""
    rows = [line.split(b" ") for line in lines[3:-1]]
    yield [*lines[:3], *(b" ".join([*row[:2], *row[-1:] * (len(row) - 2)]) for row in rows), *lines[-1:]]


def heads_changed(lines, paths):
    for path in paths:
        yield [lines[0], b"list " + dotted(path).encode(), *lines[2:]]
    for cause in CAUSES:
        yield [*lines[:2], b"cause " + cause, *lines[3:]]
        yield [*lines[:2], b"cause " + cause, lines[-1]]


def texts_changed(denial):
    """Bytes that are no denial, or nearly one."""
    at = random.randrange(len(denial))
    yield from (denial[:-1], denial[:at], denial + b"\n", denial + b"end\n")
    yield from (denial.replace(b" ", b"  ", 1), denial.replace(b"\n", b"\r\n", 1))
    yield denial[:at] + random.choice([b"0", b" ", b"\n", b"-", b"9"]) + denial[at:]
    yield denial.replace(b"pvdeny 1", b"pvdeny 2")
    for digits in b"4294967295", b"4294967296", b"00":
        yield re.sub(rb"^([cnps] [0-9]+) [0-9]+", rb"\1 " + digits, denial, count=1, flags=re.M)
        yield re.sub(rb"^([cnps]) [0-9]+", rb"\1 " + digits, denial, count=1, flags=re.M)


def hostile(case):
    lines = case.denial.splitlines()
    paths = [*case.lists, (5,), (0, 4294967295), (4294967296,)]
    for changed in values_changed(lines), rows_changed(lines), all_raised(lines), heads_changed(lines, paths):
        yield from (b"".join(line + b"\n" for line in each) for each in changed)
    yield from texts_changed(case.denial)


# Rows that stand here, with their answers.
TWO = "<!ELEMENT r (a, b)><!ELEMENT a EMPTY><!ELEMENT b EMPTY>"
SWAPPED = "<r><b/><a/></r>"
TWO_ROWS = (b"c 0 1 2 2\nc 1 0 1 2\nc 2 0 1 2\nn 0 1 2 2\nn 1 0 2 2\nn 2 1 1 2\n"
            b"p 0 1 2 2\np 1 0 2 2\np 2 1 1 2\ns 1 1 2 2\ns 2 1 1 2\n")
DENIAL = b"pvdeny 1\nlist 0\ncause word\n" + TWO_ROWS + b"end\n"


def rows(program):
    """Each a case, a denial and its answer."""
    swapped = Case(program, TWO, "r", SWAPPED)
    need(swapped.denial == DENIAL, f"why tells {swapped.denial}")
    yield swapped, DENIAL, "denied 0"
    yield swapped, re.sub(rb"^([cnps] [0-9]) .*", rb"\1 2 2 2", DENIAL, flags=re.M), "rejected reached"
    for old, new, answer in [
            (b"c 0 1 2 2\n", b"", "rejected table"), (b"cause word", b"cause empty", "rejected cause"),
            (b"list 0", b"list 5", "rejected list"), (b"list 0", b"list 0.0", "rejected table"), (b"list 0", b"list .", "rejected table"),
            (b"end\n", b"", "table line 14"), (b"pvdeny 1", b"pvdeny 2", "table line 0"), (b"list 0", b"list 00", "table line 1"),
            (b"cause word", b"cause none", "table line 2"), (b"p 0 1 2 2", b"p 0", "table line 9"),
            (b"p 0 1 2 2", b"p 0 1 2", "rejected table"), (b"p 0 1 2 2", b"p 0 1 2 2 2", "rejected table"),
            (b"p 0 1 2 2", b"p 0 1 2 3", "rejected table"), (b"p 0 1 2 2", b"p 0 1 2 1", "rejected table"),
            (b"p 0 1 2 2", b"p 0 2 1 2", "rejected table"), (b"s 2 1 1 2", b"s 2 1 1 2\ns 3 1 1 2", "rejected table"),
            (b"c 0 1 2 2", b"c 0 1 2 2\nc 0 1 2 2", "table line 4"), (b"end\n", b"end\n\n", "table line 15"),
            (b"end\n", b"end", "table line 14")]:
        need(old in DENIAL, f"{old!r} isn't in the denial")
        yield swapped, DENIAL.replace(old, new), answer
    for dtd, root, text, answer in [
            ("<!ELEMENT a (a)>", "a", "<a><a/></a>", b"list .\ncause unproductive\n"),
            (TWO, "x", SWAPPED, b"list .\ncause undeclared\n"),
            (TWO, "r", "<r><a><!----></a><b/></r>", b"list 0.0\ncause empty\n"),
            (TWO, "r", "<r><a><x/></a><b/></r>", b"list 0.0\ncause empty\n")]:
        case = Case(program, dtd, root, text)
        wanted = b"pvdeny 1\n" + answer + b"end\n"
        need(case.denial == wanted, f"why tells {case.denial}, and not {wanted}")
        yield case, wanted, "denied " + answer.split(b"\n")[0].decode().removeprefix("list ")
    undone = Case(program, TWO, "r", "<r><a/></r>")
    need(undone.denial is None, "why denies what is possible")
    yield undone, DENIAL, "rejected table"


# The DTD of the large ones: 211 sites, each of which can be empty.
MANY = TWO + "".join(f"<!ELEMENT e{number} EMPTY>" for number in range(100))
MOST_KIDS = MOST_VALUES // 211 - 1


def repeated(count):
    return f"<r>{'<a/>' * count}</r>"


class Trial(Counting):
    def case(self, name, case, others):
        """What `why` tells of a document, and hostile denials of it; true where it has a denial."""
        self.tell(name, case.check_own)
        if not case.denial:
            return False
        for denial in {*hostile(case)} - {case.denial}:
            self.count(name, lambda: case.judged(denial))
        for other in others:
            self.count(f"the denial of another, {name}", lambda: case.judged(other.denial))
        return True

    def large(self, program):
        """Denials and files at the limits and one past them."""
        small = Case(program, TWO, "r", SWAPPED)
        head, row = b"pvdeny 1\nlist 0\ncause word\n", b"c 0" + b" 0" * MOST_VALUES
        for denial, wanted in [
                (head + row + b"\nend\n", "rejected table"), (head + row + b" 0\nend\n", "limit table"),
                (head + row + b" 0\nno row", "limit table"), (head + row + b" 0", "table line 3"),
                (head + row + b"\nc 0 0\nend\n", "table line 4"), (head + row + b"\nc 1 0\n", "limit table"),
                (head + b"\n" * (MOST_BYTES + 1 - len(head)), "limit table-file"),
                (head + b"\n" * (MOST_BYTES - len(head)), "table line 3")]:
            self.tell(f"{wanted}, of {len(denial)} bytes", lambda: need(small.told(denial) == wanted, small.told(denial)))
        self.tell("the most values", lambda: self.most(program))
        self.tell("a list that is just narrow enough", lambda: self.narrow(program))
        self.tell("a list too wide", lambda: self.wide(program))

    def most(self, program):
        case = Case(program, MANY, "r", repeated(MOST_KIDS))
        need(case.denial is not None and case.told(case.denial) == "denied 0", "the denial of the most values is rejected")
        write("d.xml", repeated(MOST_KIDS + 1))
        told = output(program, "why", "a.dtd", "r", "d.xml")
        need(told == (8, b"limit tables\n"), f"{told[0]}: {told[1][:200]!r}")

    def narrow(self, program):
        """The widest list that isn't too wide: the table of `why` has more columns than the limit counts."""
        write("a.dtd", "<!ELEMENT r (#PCDATA" + "".join(f"|a{number}" for number in range(4000)) + ")*><!ELEMENT z EMPTY>")
        write("d.xml", f"<r>{'x<!---->' * 8384}<z/></r>")
        status, told = output(program, "why", "a.dtd", "r", "d.xml")
        need((status, told[:8], told[-5:]) == (0, b"pvdeny 1", b"\nend\n"), f"{status}: {told[:200]!r}")

    def wide(self, program):
        write("a.dtd", "<!ELEMENT r (#PCDATA" + "".join(f"|a{number}" for number in range(4000)) + ")*>")
        write("d.xml", f"<r>{'x<!---->' * 8387}</r>")
        told = output(program, "why", "a.dtd", "r", "d.xml")
        need(told == (8, b"limit width 0\n"), f"{told[0]}: {told[1][:200]!r}")
        for path, cause, wanted in ("0", "word", "limit width 0"), ("0", "empty", "rejected cause"), (".", "word", "rejected table"):
            write("t.den", f"pvdeny 1\nlist {path}\ncause {cause}\nend\n")
            told = output(program, "deny", "a.dtd", "r", "d.xml", "t.den")[1].decode()
            need(told == wanted + "\n", f"{told}, and not {wanted}")


def rounds(program, trial, count, end):
    """So many denials of random documents, and hostile ones."""
    made = 0
    while made < count and time.monotonic() < end:
        models, search = productive_grammar()
        dtd = "".join(declaration(x, models[x]) for x in models)
        denied = {}
        for _ in range(12):
            document, named = document_of(models, list(models))
            root = named or random.choice([document.root.name] * 6 + list(models) * 2)
            name = f"root {root}\n{dtd}{document.written()}"
            case = trial.tell(name, lambda: Searched(program, dtd, root, document.written(), search, document.root))
            others = denied.setdefault(root, [])
            if case and trial.case(name, case, others[-2:]):
                others.append(case)
                made += 1
            elif case and others:
                trial.count(f"the denial of another, {name}", lambda: case.judged(others[-1].denial))
    return made


def main():
    program, count, seed = os.path.abspath(sys.argv[1]), int(sys.argv[2]), int(sys.argv[3])
    end = time.monotonic() + int(sys.argv[4]) if len(sys.argv) > 4 else float("inf")
    random.seed(seed)
    trial = Trial(program)
    with tempfile.TemporaryDirectory() as folder:
        os.chdir(folder)
        for case, denial, answer in rows(program):
            trial.row(case, denial, answer)
        trial.large(program)
        made = rounds(program, trial, count, end)
        os.chdir("/")
    print(f"{made} denials; hostile ones: " + ", ".join(f"{answer} {number}" for answer, number in sorted(trial.answers.items())))
    print(f"hostile denials: {trial.passed} passed, {trial.failed} failed")
    sys.exit(1 if trial.failed else 0)


if __name__ == "__main__":
    main()
