"""Compares the least number of missing elements with a search that inserts elements, on random small DTDs and documents.

Words: PROGRAM ROUNDS SEED; `need` is a line of the program's session. A round is one DTD and a dozen documents, made as in
`against_insertions.py`, whose search tries all insertions of at most `MOST` elements. Where it finds some, the program must tell the least
number of them. Where it finds none, the program must tell a larger number, or that the document is impossible. Prints each difference, and how many cases passed;
ends with 1 where one failed.
"""
import os
import random
import subprocess
import sys
import tempfile

from lib.grammar import declaration
from lib.search import LEAVES, MOST, NAMES, Search, document, grammar, write, written


def answer(program, root):
    words = [program, "session", "a.dtd", root, "d.xml"]
    return subprocess.run(words, input="need\n", capture_output=True, text=True).stdout.strip()


def kind_of(least, got):
    """How the answer is counted: by whether it is 0, by what it says, or as failed."""
    word, *numbers = got.split()
    if least <= MOST:
        return "failed" if got != f"need {least}" else "valid" if least == 0 else "need"
    if word == "need":
        return "larger" if int(numbers[0]) > MOST else "failed"
    return "impossible" if got.startswith("no impossible ") else "failed"


def round_of(program, counts):
    declared, models = grammar()
    write("a.dtd", "".join(declaration(x, models[x]) for x in declared))
    search = Search(models)
    for _ in range(12):
        tree = document(models, declared, LEAVES)
        write("d.xml", written(tree))
        root = random.choice([tree[0]] * 6 + declared * 2 + NAMES[:1])
        got, least = answer(program, root), search.least_document(tree, root)
        kind = kind_of(least, got)
        counts[kind] = counts.get(kind, 0) + 1
        if kind == "failed":
            print(f"got {got!r}, least {least if least <= MOST else 'unknown'}, root {root}")
            print(open("a.dtd").read() + open("d.xml").read())


def main():
    program, rounds, seed = os.path.abspath(sys.argv[1]), int(sys.argv[2]), int(sys.argv[3])
    random.seed(seed)
    counts = {"failed": 0}
    with tempfile.TemporaryDirectory() as folder:
        os.chdir(folder)
        for _ in range(rounds):
            round_of(program, counts)
        os.chdir("/")
    print(", ".join(f"{kind} {count}" for kind, count in sorted(counts.items())))
    failed = counts["failed"]
    print(f"least numbers: {sum(counts.values()) - failed} passed, {failed} failed")
    sys.exit(1 if failed else 0)


if __name__ == "__main__":
    main()
