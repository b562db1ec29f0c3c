"""Times `check`. Words: the repository's folder, and how many runs of each.

On a valid document of 18 MB, and on the same without every tenth pair of tags, beside `valid` and `xmllint --noout --dtdvalid`; on long
lists, each beside one of a tenth of its kids; and on the widest list within the limit. The runs of one document are interleaved; the best
of each is told, in milliseconds of processor time and in kilobytes of memory at the peak, with the status of the last.

Then the time that passes while the whole `check` runs on 1, 2 and 4 processors, the best of the runs, and how many times as fast that is as
on one. The program asks on how many it may run, and cuts the lists of a document with some 16,000 nodes or more into two pieces for each,
which threads judge side by side; all else, the reading of the document above all, one thread does. So on one processor there are two
threads, and a small document has one on any number. Where other work takes the processors, these times tell nothing.
"""
import os
import re
import shutil
import subprocess
import sys
import tempfile
import time

from timing import made, program_of, run, written

LEFT = "<!ELEMENT a (b, c?)><!ELEMENT b (a?)><!ELEMENT c EMPTY>"
LONG_LEFT = "<!ELEMENT a (b, c?)><!ELEMENT b (d)><!ELEMENT d (e)><!ELEMENT e (a?)><!ELEMENT c EMPTY>"
ROW = "<!ELEMENT a (b, c)*><!ELEMENT b EMPTY><!ELEMENT c EMPTY>"
# Four parts and four names. Every other kid is missing, so that a table is filled.
WIDE = "<!ELEMENT a (b, c)*><!ELEMENT b EMPTY><!ELEMENT c EMPTY><!ELEMENT d EMPTY>"

# Lists of `a`: `b` alone is free content, and `c` alone takes tables.
FREE_LISTS = f"<!ELEMENT r (a*)>{ROW}"
TABLE_LISTS = f"<!ELEMENT r (a*)>{LEFT}"


# Cycles in a chain: each name's content leads back to it, with an `x` after it, and on to the next name.
def chain(count):
    names = "".join(f"<!ELEMENT a{i} (b{i}, x?)><!ELEMENT b{i} (a{i}?, a{i + 1}?)>" for i in range(count))
    return f"{names}<!ELEMENT a{count} EMPTY><!ELEMENT x EMPTY>"


# A name whose content is `x` and then a choice of names, each mentioned so many times, of which each needs the one before it.
def choice(count, times=1):
    names = [f"e{i}" for i in range(count)]
    needs = "".join(f"<!ELEMENT {name} ({before})>" for before, name in zip(names, names[1:]))
    return f"<!ELEMENT big (x, ({'|'.join(names * times)}))><!ELEMENT x EMPTY><!ELEMENT e0 EMPTY>{needs}"


# Lists of `a`, whose content is `x` and then so many particles, each one of 4,000 names that may be left out.
def long_model(count, names=4_000):
    others = "".join(f", e{i % names}?" for i in range(count))
    return f"<!ELEMENT r (a*)><!ELEMENT a (x{others})><!ELEMENT x EMPTY>" + "".join(f"<!ELEMENT e{i} EMPTY>" for i in range(names))


# The document without the tags of every tenth element but the first.
def without_tags(text):
    found, number = [], 0
    open_tags = []
    for piece in re.split(r"(<[^>]*>)", text):
        if piece.startswith("</"):
            if open_tags.pop():
                found.append(piece)
        elif piece.startswith("<"):
            number += 1
            is_kept = number % 10 != 0
            if not piece.endswith("/>"):
                open_tags.append(is_kept)
            if is_kept:
                found.append(piece)
        else:
            found.append(piece)
    return "".join(found)


def row(kid, count, root="a"):
    return f"<{root}>" + f"<{kid}/>" * count + f"</{root}>"


# Title, DTD, root, document, and whether xmllint is told beside it.
def cases(top, folder):
    article = open(f"{top}/examples/article.dtd").read()
    text = open(made("nodes", 18_000_000, f"{folder}/plain.xml")).read()
    yield "18 MB, valid", article, "doc", text, True
    yield "18 MB, without every tenth pair of tags", article, "doc", without_tags(text), False
    for count in (20_000, 200_000):
        yield f"{count:,} kids, every other one missing", ROW, "a", row("b", count), False
        yield f"{count:,} kids by left recursion", LEFT, "a", row("c", count), False
        yield f"{count:,} kids by left recursion through several names", LONG_LEFT, "a", row("c", count), False
    # 11,000 columns, so that 6,098 kids are the most.
    for count in (600, 6_000):
        yield f"{count:,} kids by a chain of 1,000 cycles", chain(1_000), "a0", row("x", count, "a0"), False
    for count in (400, 4_000):
        yield f"one list under a choice of a chain of {count:,} names", choice(count), "big", "<big/>", False
        yield "the same, each mentioned 14 times", choice(count, 14), "big", "<big/>", False
    for count in (1, 11, 101):
        yield f"{count} lists through tables under a model of 32,001 particles", long_model(16_000), "r", f"<r>{'<a/>' * count}</r>", False
    # Eight columns, so that (n + 1) * 8 is the limit.
    yield "the widest list", WIDE, "a", row("b", 8_388_607), False


# Title, DTD, root, document, and how many times as often it is checked as told: a short run strays more.
def cases_on_processors(article, tagless):
    yield "18 MB of small lists", article, "doc", tagless, 1
    yield "2,000 lists of 400 kids, every other one missing", FREE_LISTS, "r", "<r>" + row("b", 400) * 2_000 + "</r>", 1
    yield "2,000 such lists by left recursion", TABLE_LISTS, "r", "<r>" + row("c", 400) * 2_000 + "</r>", 1
    yield "20 lists", FREE_LISTS, "r", "<r>" + row("b", 2) * 6 + "</r>", 40
    yield "<a/>", "<!ELEMENT a EMPTY>", "a", "<a/>", 40


# The seconds that pass while a program runs on so many processors.
def passed(words, processors):
    allowed = sorted(os.sched_getaffinity(0))[:processors]
    before = time.monotonic()
    subprocess.run(words, stdout=subprocess.DEVNULL, check=True, preexec_fn=lambda: os.sched_setaffinity(0, allowed))
    return time.monotonic() - before


# The least seconds of so many runs on each number of processors.
def times_on_processors(words, runs):
    best = {count: float("inf") for count in (1, 2, 4) if count <= len(os.sched_getaffinity(0))}
    for _ in range(runs):
        for count in best:
            best[count] = min(best[count], passed(words, count))
    return best


def tell_processors(top, folder, rounds):
    article = open(f"{top}/examples/article.dtd").read()
    tagless = without_tags(open(f"{folder}/plain.xml").read())
    for title, dtd, root, doc, often in cases_on_processors(article, tagless):
        files = [written(f"{folder}/a.dtd", dtd), root, written(f"{folder}/d.xml", doc)]
        found = times_on_processors([program_of(top), "check", *files], rounds * often)
        print(f"{title}, by the time that passes")
        for count, seconds in found.items():
            print(f"  on {count} {1000 * seconds:10.2f} ms  {found[1] / seconds:5.2f}")


def main():
    top, rounds = sys.argv[1], int(sys.argv[2])
    program = program_of(top)
    with tempfile.TemporaryDirectory() as folder:
        for title, dtd, root, doc, is_compared in cases(top, folder):
            files = [written(f"{folder}/a.dtd", dtd), root, written(f"{folder}/d.xml", doc)]
            programs = {"check": [program, "check", *files], "valid": [program, "valid", *files]}
            if is_compared and shutil.which("xmllint"):
                programs["xmllint"] = ["xmllint", "--noout", "--dtdvalid", files[0], files[2]]
            best = {name: (float("inf"), float("inf"), 0) for name in programs}
            for _ in range(rounds):
                for name, words in programs.items():
                    seconds, memory, status = run(words)[:3]
                    best[name] = (min(best[name][0], seconds), min(best[name][1], memory), status)
            print(f"{title}, {os.path.getsize(files[2]):,} bytes")
            for name, (seconds, memory, status) in best.items():
                print(f"  {name:8} {1000 * seconds:8.0f} ms  {memory:9,} kB  status {status}")
        tell_processors(top, folder, rounds)


if __name__ == "__main__":
    main()
