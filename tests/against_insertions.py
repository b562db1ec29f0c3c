"""Compares `check` with a search that inserts elements, on random small DTDs and documents.

Words: PROGRAM ROUNDS SEED. A round is one DTD and a dozen documents. The search goes by the definition alone: a document is potentially
valid where elements without attributes can be inserted, round items that follow one another or round none, so that it becomes one valid
element of the root's name. It tries all insertions of at most `MOST` elements. Where it finds some, `check` must answer `valid` or
`possible`, with the number of lists that aren't valid by themselves. Where it finds none, `check` must answer `impossible` with the first
list that no insertion at its own level makes valid; a `possible` is then undecided, and counted apart. Prints each difference, and how
many cases passed; ends with 1 where one failed.
"""
import os
import random
import subprocess
import sys
import tempfile

from lib.grammar import declaration
from lib.search import LEAVES, MOST, NAMES, Search, document, dotted, grammar, lists_of, write, written


def answer(program, root):
    ran = subprocess.run([program, "check", "a.dtd", root, "d.xml"], capture_output=True, text=True)
    return (ran.returncode, ran.stdout)


def judge(search, tree, root, got):
    """What is wrong with the answer; nothing where it is right, and "undecided" where the search can't tell."""
    lists = [((), None, (tree,)), *lists_of(tree)]
    left = sum(not search.is_valid_list(owner, kids, root) for _, owner, kids in lists)
    possible = (0, f"possible {left}\n" if left else "valid\n")
    if search.least_document(tree, root) <= MOST:
        return None if got == possible else f"want {possible!r}"
    if got == possible:
        return "undecided"
    if got[0] != 1 or not got[1].startswith("impossible "):
        return f"want 'impossible', or {possible!r}"
    path = got[1][len("impossible "):].strip()
    dead = [dotted(where) for where, owner, kids in lists if not search.is_live(owner, kids, root)]
    if path not in dead:
        return "want another path"
    return None if path == dead[0] else "undecided"


# The leaves that the program refuses in an element that may hold anything.
def leaves_refused(program):
    write("a.dtd", "<!ELEMENT a ANY>")
    refused = []
    for leaf in LEAVES:
        write("d.xml", f"<a>{leaf}</a>")
        if answer(program, "a") != (0, "valid\n"):
            refused.append(leaf)
    return refused


def round_of(program, counts):
    declared, models = grammar()
    write("a.dtd", "".join(declaration(x, models[x]) for x in declared))
    search = Search(models)
    for _ in range(12):
        tree = document(models, declared, LEAVES)
        write("d.xml", written(tree))
        root = random.choice([tree[0]] * 6 + declared * 2 + NAMES[:1])
        got = answer(program, root)
        fault = judge(search, tree, root, got)
        kind = "undecided" if fault == "undecided" else "failed" if fault else got[1].split()[0]
        counts[kind] = counts.get(kind, 0) + 1
        if kind == "failed":
            print(f"got {got!r}, {fault}, root {root}")
            print(open("a.dtd").read() + open("d.xml").read())


def main():
    program, rounds, seed = os.path.abspath(sys.argv[1]), int(sys.argv[2]), int(sys.argv[3])
    random.seed(seed)
    counts = {"failed": 0, "undecided": 0}
    with tempfile.TemporaryDirectory() as folder:
        os.chdir(folder)
        for leaf in leaves_refused(program):
            print(f"refused: {leaf!r}")
            counts["failed"] += 1
        for _ in range(rounds):
            round_of(program, counts)
        os.chdir("/")
    print(", ".join(f"{kind} {count}" for kind, count in sorted(counts.items())))
    failed, undecided = counts["failed"], counts["undecided"]
    print(f"against insertions: {sum(counts.values()) - failed - undecided} passed, {failed} failed")
    sys.exit(1 if failed else 0)


if __name__ == "__main__":
    main()
