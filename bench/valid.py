"""Times `valid` beside other validators. Words: the repository's folder, and how many runs of each.

The runs of one document are interleaved, so that what else the machine does falls on all alike; the best of each is told, in milliseconds
of processor time and in kilobytes of memory at the peak, and as a ratio to that of `xmllint --noout --dtdvalid`.
"""
import os
import shutil
import sys
import tempfile

from document import ATTRIBUTES
from timing import made, program_of, run

DOCUMENTS = [
    ("many small nodes", "nodes", 18_000_000),
    ("long texts", "texts", 18_000_000),
    ("a wide list", "wide", 18_000_000),
    ("one list of 4,000,000 children", "children", 16_000_000),
    ("512 elements deep", "deep", 18_000_000),
    ("attributes, references and comments", "marked", 18_000_000),
]


# The programs that are installed, each with its words for a DTD and a document; `inner` is the document with a DOCTYPE.
def validators(top):
    found = {"pvtag": lambda dtd, doc, inner: [program_of(top), "valid", dtd, "doc", doc]}
    others = {
        "xmllint --noout --dtdvalid": ("xmllint", lambda dtd, doc, inner: ["xmllint", "--noout", "--dtdvalid", dtd, doc]),
        "xmllint --stream --valid": ("xmllint", lambda dtd, doc, inner: ["xmllint", "--noout", "--stream", "--valid", inner]),
        "xmlwf, without a DTD": ("xmlwf", lambda dtd, doc, inner: ["xmlwf", doc]),
        "rxp -V -s": ("rxp", lambda dtd, doc, inner: ["rxp", "-V", "-s", inner]),
    }
    for name, (tool, words) in others.items():
        if shutil.which(tool):
            found[name] = words
        else:
            print(f"skipped: {name} (not installed)")
    return found


# A program that refuses the document is left out: libxml2 stops at 256 elements one inside another.
def compare(programs, dtd, doc, inner, rounds):
    best = {name: (float("inf"), float("inf")) for name in programs}
    for _ in range(rounds):
        for name in list(best):
            seconds, memory, status = run(programs[name](dtd, doc, inner))[:3]
            if status != 0:
                print(f"{name}: status {status}")
                del best[name]
            else:
                best[name] = (min(best[name][0], seconds), min(best[name][1], memory))
    return best


def main():
    top, rounds = sys.argv[1], int(sys.argv[2])
    programs = validators(top)
    with tempfile.TemporaryDirectory() as folder:
        dtd = shutil.copy(f"{top}/examples/article.dtd", folder)
        with open(dtd, "a") as file:
            file.write(ATTRIBUTES)
        for title, kind, size in DOCUMENTS:
            doc, inner = f"{folder}/{kind}.xml", f"{folder}/{kind}-inner.xml"
            made(kind, size, doc)
            with open(doc) as plain, open(inner, "w") as file:
                file.write(f'<!DOCTYPE doc SYSTEM "{dtd}">\n')
                shutil.copyfileobj(plain, file)
            best = compare(programs, dtd, doc, inner, rounds)
            base = best.get("xmllint --noout --dtdvalid", next(iter(best.values())))
            print(f"{title}, {os.path.getsize(doc):,} bytes")
            for name, (seconds, memory) in best.items():
                print(f"  {name:28} {1000 * seconds:7.0f} ms  {memory:8,} kB   time {seconds / base[0]:.2f}  memory {memory / base[1]:.2f}")


if __name__ == "__main__":
    main()
