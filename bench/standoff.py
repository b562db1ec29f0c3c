"""Times `standoff`. Words: the repository's folder, and how many runs of each.

1,000,000 ranges over 20 MB of text, their lines in sorted order and shuffled, beside `check` of the document that comes out. The runs are
interleaved; the best of each is told, in milliseconds of processor time and in megabytes of memory at the peak, with its part of `check`'s.
"""
import os
import random
import subprocess
import sys
import tempfile

from timing import program_of, run, written

DTD = "<!ELEMENT doc ANY><!ELEMENT p ANY><!ELEMENT person ANY><!ELEMENT place ANY><!ELEMENT date ANY>"
PIECES = ["abcdefghij ", "the letter from Delft ", "x&amp;y ", "caf\u00e9 "]


def material(source, folder, groups):
    """A text of 80 bytes for each group of four ranges, and the ranges, sorted and shuffled."""
    pieces, size, units = [], 0, 0
    while size < 80 * groups:
        piece = source.choice(PIECES)
        pieces.append(piece)
        size += len(piece.encode())
        units += len(piece.replace("&amp;", "&"))
    step = units // groups
    lines = []
    for begin in range(0, groups * step, step):
        third = begin + step // 3
        lines += [(begin, begin + step, 0, "p"), (begin + 1, third, 0, "person"), (third + 2, begin + step - 2, 0, "place"),
                  (third + 2, begin + step - 2, 1, "date")]
    files = {"text": "".join(pieces), "dtd": DTD, "sorted": "".join("%d %d %d %s\n" % line for line in lines)}
    source.shuffle(lines)
    files["shuffled"] = "".join("%d %d %d %s\n" % line for line in lines)
    for name, text in files.items():
        written(os.path.join(folder, name), text)


def nested(program, folder):
    """Writes the document that the ranges make to a file, and gives its path."""
    dtd, text, ranges = (os.path.join(folder, name) for name in ("dtd", "text", "sorted"))
    shown = subprocess.run([program, "standoff", dtd, "doc", text, ranges], capture_output=True, check=True).stdout
    document = os.path.join(folder, "document")
    with open(document, "wb") as out:
        out.write(shown.split(b"\n", 2)[2][:-1])
    return document


def main():
    pvtag, rounds = program_of(sys.argv[1]), int(sys.argv[2])
    with tempfile.TemporaryDirectory() as folder:
        dtd, text = (os.path.join(folder, name) for name in ("dtd", "text"))
        material(random.Random(1), folder, 250_000)
        programs = {"check": [pvtag, "check", dtd, "doc", nested(pvtag, folder)]}
        for order in ("sorted", "shuffled"):
            programs[order] = [pvtag, "standoff", dtd, "doc", text, os.path.join(folder, order)]
        best = {name: (float("inf"), float("inf")) for name in programs}
        for _ in range(rounds):
            for name, words in programs.items():
                seconds, memory, status = run(words)[:3]
                if status != 0:
                    sys.exit(f"{name}: status {status}")
                best[name] = (min(best[name][0], seconds), min(best[name][1], memory))
        for name, (seconds, memory) in best.items():
            print(f"{name}: {seconds * 1000:.0f} ms, {memory / 1024:.0f} MB, {seconds / best['check'][0]:.2f} of check's time")


if __name__ == "__main__":
    main()
