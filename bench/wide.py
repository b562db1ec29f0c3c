"""Times `pvlong need` on wide lists, and prints a table of what it told, its processor time and its memory at the peak.

Words: the repository's folder, how many runs of each, and a part of the titles, where less is wanted than all. Lists of one kind, or of two in
turn, under small recursive models, under DocBook and XHTML where they are installed with lxml; random lists under both; and dictionaries under a
DTD in the shape of TEI's, of 190 names and some 7,000 parts, without a share of the pairs of tags. The best time is told, and the time that is
aimed at. PVLONG names another build of the program than build/pvlong.
"""
import os
import random
import sys
import tempfile
from typing import NamedTuple

sys.path.insert(0, os.path.join(os.path.dirname(os.path.dirname(os.path.abspath(__file__))), "tests"))
import published  # noqa: E402
from lib.dictionaries import dictionary, dictionary_dtd  # noqa: E402
from timing import program_of, run  # noqa: E402

# The most seconds on the clock for one run.
LONGEST = 120


class Row(NamedTuple):
    """A measure: the DTD's file, the root's name, the document, and the seconds that are aimed at."""
    title: str
    dtd: str
    root: str
    text: str
    aim: float


def in_turn(root, kids, count):
    """A list of kids in turn."""
    return f"<{root}>" + "".join(kids[at % len(kids)] for at in range(count)) + f"</{root}>"


def at_random(root, kids, count, seed):
    """A list of random kids."""
    rest = random.Random(seed)
    return f"<{root}>" + "".join(rest.choice(kids) for _ in range(count)) + f"</{root}>"


def small():
    """The rows under small DTDs, which recur."""
    for name, dtd, root, kid in (
        ("`s (s?, w)`", "<!ELEMENT s (s?,w)><!ELEMENT w EMPTY>", "s", "<w/>"),
        ("`x (y, x?)`", "<!ELEMENT x (y,x?)><!ELEMENT y EMPTY>", "x", "<y/>"),
        ("`t ((t,t)?)`", "<!ELEMENT t ((t,t)?)>", "t", "<t/>"),
        ("`expr (num | (expr, op?, expr))`", "<!ELEMENT expr (num|(expr,op?,expr))><!ELEMENT num EMPTY><!ELEMENT op EMPTY>", "expr", "<num/>"),
    ):
        for count in (66, 501, 1_000):
            yield Row(f"{name}, {count} kids", dtd, root, in_turn(root, [kid], count), 1)


def in_docbook(dtd):
    """The rows under DocBook."""
    section = "<section><title>t</title><para>a</para></section>"
    for count in (51, 101, 151, 501):
        yield Row(f"DocBook, `term` and `listitem`, {count} kids", dtd, "chapter", in_turn("chapter", ["<term/>", "<listitem><para/></listitem>"], count), 1)
    for count in (501, 1_001, 2_001, 4_001):
        text = in_turn("chapter", ["<para>a</para>", section], count)
        yield Row(f"DocBook, `para` and `section`, {count} kids", dtd, "chapter", text, 1 if count < 1_000 else 3)
    yield Row("DocBook, a text and a name, 2,000 kids", dtd, "chapter", in_turn("chapter", ["words ", "<emphasis>a</emphasis>"], 2_000), 3)
    kids = ["<title/>", "<para/>", section, "<term/>", "<listitem><para/></listitem>", "words ", "<entry/>"]
    yield Row("DocBook, 400 random kids of seven kinds", dtd, "chapter", at_random("chapter", kids, 400, 7), 1)


def in_xhtml(dtd):
    """The rows under XHTML."""
    for count in (100, 200, 400, 2_000, 4_000):
        yield Row(f"XHTML, text and `li`, {count} kids", dtd, "body", in_turn("body", ["words ", "<li>a</li>"], count), 1 if count < 1_000 else 3)
    kids = ["words ", "<p/>", "<li/>", "<td/>", "<tr><td/></tr>", "<em/>", "<dt/>", "<ul><li/></ul>"]
    yield Row("XHTML, 400 random kids of eight kinds", dtd, "body", at_random("body", kids, 400, 8), 1)


def in_dictionaries():
    """The rows under the DTD in the shape of TEI's."""
    dtd = dictionary_dtd()
    for title, share, size in (("a twentieth", 0.05, 143_000), ("a third", 1 / 3, 125_000), ("a half", 0.5, 125_000), ("nineteen twentieths", 0.95, 125_000),
                               ("a third", 1 / 3, 500_000)):
        random.seed(3)
        text, taken = published.without_tags(dictionary(random.Random(2), size), share)
        yield Row(f"a dictionary of {size // 1000} kB, {title} missing, {taken} pairs", dtd, "TEI", text, 1 if size < 200_000 else 3)


def rows():
    yield from small()
    python = published.python_with_lxml()
    for original, make in ((published.MANUALS, in_docbook), (published.STRICT, in_xhtml)):
        if python and os.path.exists(original):
            yield from make(published.run(python, published.TOOL, original).stdout)
    yield from in_dictionaries()


def main():
    top, rounds, part = sys.argv[1], int(sys.argv[2]), "".join(sys.argv[3:4])
    program = program_of(top, "pvlong")
    os.environ["XML_CATALOG_FILES"] = published.CATALOGS
    os.environ.pop("PVLONG_SECONDS", None)
    print("| On | Printed | Took | Memory |\n|---|---|---|---|")
    with tempfile.TemporaryDirectory() as folder:
        os.chdir(folder)
        for row in rows():
            if part not in row.title:
                continue
            published.write("a.dtd", row.dtd)
            published.write("a.xml", row.text)
            all_runs = [run([program, "need", "a.dtd", row.root, "a.xml"], keep=True, most=LONGEST) for _ in range(rounds)]
            best = min(all_runs)
            told = best.output.decode().strip() if best.status >= 0 else "nothing"
            print(f"| {row.title} | `{told}` | {best.seconds:.2f} s ({row.aim} s) | {best.memory / 1000:.0f} MB |", flush=True)
        os.chdir("/")


if __name__ == "__main__":
    main()
