"""Tries `verify` on packs that `complete` prints, and on hostile ones, beside the checker of `check_pack.py`.

Words: PROGRAM COUNT SEED. So many packs are taken of random small documents, made and changed as for `packs.py`: a number changed, lines
swapped, dropped or doubled, entries dropped or doubled, a byte of the body changed, the pack of another document. On each the program must
tell what the checker tells, with the status of that answer; and what it accepts must be least, as a search with insertions tells it and as
`need` does. Then large packs: bodies of deep elements, numbers at 2^32 - 1, a total that no sum reaches, as many entries as a pack may have
and one more, an empty file, a table with no entries for a valid list and one that is closed. Prints each difference, how often each answer
came, and how many packs passed; ends with 1 where one failed.
"""
import os
import random
import sys
import tempfile

sys.dont_write_bytecode = True

from lib import pack_cases
from lib.counting import need, output
from lib.editing import document_of
from lib.grammar import declaration
from lib.kept import kind_of, productive_grammar
from lib.pack_cases import written
from lib.pack_trial import PACK, SMALL, PackTrial, examples, rows
from lib.search import write

MOST_ENTRIES = 8388608
STATUSES = {"accepted": 0, "rejected": 1, "limit": 8, "pack": 9}


def told(program, dtd, root, text, pack):
    """What `verify` answers, with a status that goes with it."""
    write("a.dtd", dtd)
    write("d.xml", text)
    with open("p.pack", "wb") as file:
        file.write(pack)
    status, answer = output(program, "verify", "a.dtd", root, "d.xml", "p.pack")
    answer = answer.decode()
    need(answer.endswith("\n") and status == STATUSES.get(answer.split(" ")[0].strip()), f"status {status}: {answer[:200]!r}")
    return answer[:-1]


class Case(pack_cases.Case):
    """A document whose packs are tried by the program and by the checker."""

    def answer(self, pack):
        wanted = super().answer(pack)
        answer = told(self.program, self.grammar, self.root, self.text, pack)
        need(answer == wanted, f"the program tells {answer}, the checker {wanted}, of the pack\n{pack.decode(errors='replace')}")
        return answer


def entries_of(count):
    """The lines of a table of a part over so many spans."""
    return b"".join(b"p 0 0 %d 0\n" % number for number in range(count))


def large(program):
    """Each what it is, a DTD, a root, a document, a pack and its answer."""
    small, deep = SMALL, "<!ELEMENT a (a?)>"
    nested = b"<a>" * 100000 + b"</a>" * 100000
    yield "a deep body", deep, "a", "<a/>", written(99999, range(1, 100000), nested, []), "rejected totals"
    yield "a deep body that is no document", deep, "a", "<a/>", written(99999, range(1, 100000), nested[:-4], []), "rejected body"
    yield "a deep body without marks", deep, "a", "<a/>", written(0, [], nested, []), "rejected kept"
    yield "an empty file", small, "a", "<a/>", b"", "pack line 0"
    top = 2**32 - 1
    yield "a mark at the last number", small, "a", "<a/>", PACK.replace(b"mark 1", b"mark %d" % top), "rejected marks"
    for entry in b"n %d 0 0 1" % top, b"n 1 0 %d 1" % top, b"n 1 %d %d 1" % (top, top), b"s %d 0 0 1" % top:
        old = b"s 1 0 0 1" if entry.startswith(b"s") else b"p 0 0 0 1"
        new = entry if entry.startswith(b"s") else entry + b"\np 0 0 0 1"
        yield f"{entry.decode()}", small, "a", "<a/>", PACK.replace(old, new), "rejected closure"
    yield "a total past the sum", small, "a", "<a/>", PACK.replace(b"total 1", b"total 1000000"), "rejected totals"
    head = b"pvpack 1\ntotal 0\nbody 11\n<a><b/></a>\n"
    yield "a table without entries", small, "a", "<a><b/></a>", head + b"list 0\nend\n", "rejected closure"
    yield "no table", small, "a", "<a><b/></a>", head + b"end\n", "accepted 0"
    most = head + b"list 0\n" + entries_of(MOST_ENTRIES)
    yield "as many entries as there may be", small, "a", "<a><b/></a>", most + b"end\n", "rejected closure"
    yield "one entry too many", small, "a", "<a><b/></a>", most + b"p 1 0 0 0\nend\n", "limit pack"
    yield "one line too many that is no entry", small, "a", "<a><b/></a>", most + b"p 0 0 0\nend\n", f"pack line {5 + MOST_ENTRIES - 1}"


class Trial(PackTrial):
    def large(self, name, dtd, root, text, pack, wanted):
        def judged():
            answer = told(self.program, dtd, root, text, pack)
            need(answer == wanted, f"{answer}, and not {wanted}")

        self.tell(name, judged)


def main():
    program, count, seed = os.path.abspath(sys.argv[1]), int(sys.argv[2]), int(sys.argv[3])
    random.seed(seed)
    trial = Trial(program, Case)
    made = 0
    with tempfile.TemporaryDirectory() as folder:
        os.chdir(folder)
        for case, pack, answer in rows(program, Case):
            trial.row(case, pack, answer)
        for dtd, root, text in examples():
            trial.case(f"root {root}\n{text}", dtd, root, text, [])
        while made < count:
            models, search = productive_grammar()
            dtd = "".join(declaration(x, models[x]) for x in models)
            others = {}
            for _ in range(12):
                document, named = document_of(models, list(models))
                root = named or random.choice([document.root.name] * 6 + list(models) * 2)
                found = others.setdefault(root, [])
                before = len(found)
                trial.case(f"root {root}\n{dtd}{document.written()}", dtd, root, document.written(), found)
                for case in found[before:]:
                    trial.tell(f"the least number, root {root}\n{dtd}", lambda: kind_of(search, document.root, root, case.least))
                    made += 1
        for each in large(program):
            trial.large(*each)
        os.chdir("/")
    print(f"{made} packs; hostile ones: " + ", ".join(f"{answer} {number}" for answer, number in sorted(trial.answers.items())))
    print(f"hostile packs: {trial.passed} passed, {trial.failed} failed")
    sys.exit(1 if trial.failed else 0)


if __name__ == "__main__":
    main()
