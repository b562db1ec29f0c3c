"""Tries the packs that `complete` prints, and hostile ones made from them, with the checker of `check_pack.py`.

Words: PROGRAM COUNT SEED. So many packs are taken of random small documents under random DTDs, made as in `completions.py`, and those of the
examples. Each must be accepted; its total must be what `need` tells in a session, its body `valid` for the program, with all texts and tags
kept, and its tables all light weights of the lists that aren't valid by themselves, found anew by the rules. From each some hostile packs
are made: a number changed, lines swapped, dropped or doubled, tables moved, a byte of the body changed, the pack of another document, a
smaller or larger completion whose numbers add up, tables for which a rule was left out. What is accepted of these must be least all the
same. Some packs stand here with the answer that each must get. Prints each difference, how often each answer came, and how many packs
passed; ends with 1 where one failed.
"""
import os
import random
import sys
import tempfile

sys.dont_write_bytecode = True

from lib.editing import document_of
from lib.grammar import declaration
from lib.kept import productive_grammar
from lib.pack_trial import PackTrial, examples, rows


def main():
    program, count, seed = os.path.abspath(sys.argv[1]), int(sys.argv[2]), int(sys.argv[3])
    random.seed(seed)
    trial = PackTrial(program)
    packs = 0
    with tempfile.TemporaryDirectory() as folder:
        os.chdir(folder)
        for case, pack, answer in rows(program):
            trial.row(case, pack, answer)
        for dtd, root, text in examples():
            trial.case(f"root {root}\n{text}", dtd, root, text, [])
        while packs < count:
            models, _ = productive_grammar()
            dtd = "".join(declaration(x, models[x]) for x in models)
            others = {}
            for _ in range(12):
                document, named = document_of(models, list(models))
                root = named or random.choice([document.root.name] * 6 + list(models) * 2)
                text = document.written()
                found = others.setdefault(root, [])
                before = len(found)
                trial.case(f"root {root}\n{dtd}{text}", dtd, root, text, found)
                packs += len(found) - before
        os.chdir("/")
    print(f"{packs} packs; hostile ones: " + ", ".join(f"{answer} {number}" for answer, number in sorted(trial.answers.items())))
    print(f"packs: {trial.passed} passed, {trial.failed} failed")
    sys.exit(1 if trial.failed else 0)


if __name__ == "__main__":
    main()
