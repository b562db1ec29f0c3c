"""Prints the tables of docs/PUBLISHED.md. Words: the repository's folder, and how many runs of each.

For each DTD: its names and parts, and the widest lists that `check` and `need` take under it. Then, for a document of this machine or one
that is made where there is none, its elements and bytes, the times of `flatten`, `dtd` and `valid`, and, where a tenth of its pairs of tags
is taken away, of `check` and of a session that tells `need`, with what they print. The best of the runs, in milliseconds of processor time
and megabytes at the peak.
"""
import gzip
import os
import random
import re
import shutil
import subprocess
import sys
import tempfile

sys.path.insert(0, os.path.join(os.path.dirname(os.path.dirname(os.path.abspath(__file__))), "tests"))
import published as tests  # noqa: E402

PAGE = "/usr/share/doc/libexpat1-dev/expat.html/reference.html"
CASES = [
    ("XHTML 1.0 strict", tests.STRICT, "html", PAGE),
    ("XHTML 1.0 transitional", tests.TRANSITIONAL, "html", PAGE),
    ("XHTML 1.1", tests.XHTML11, "html", PAGE),
    ("XHTML Basic 1.1", tests.W3C + "REC-xhtml-basic-20101123/xhtml-basic11.dtd", "html", PAGE),
    ("XHTML 1.1, MathML 2 and SVG 1.1", tests.W3C + "WD-XHTMLplusMathMLplusSVG-20020809/xhtml-math-svg.dtd", "html", PAGE),
    ("DocBook 4.1.2", tests.DOCBOOK + "4.1.2/docbookx.dtd", "refentry", "/usr/share/man/man1/ls.1.gz"),
    ("DocBook 4.5", tests.MANUALS, "refentry", "/usr/share/man/man1/dpkg.1.gz"),
    ("DocBook 4.5", tests.MANUALS, "refentry", "/usr/share/man/man1/ls.1.gz"),
    ("MathML 2", tests.W3C + "XX-MathML2-20031104/mathml2.dtd", "math", None),
    ("MathML 3", tests.MATHML, "math", None),
    ("SVG 1.1", tests.SVG, "svg", "/usr/share/icons/hicolor/scalable/apps/gvim.svg"),
    ("SMIL 3.0", tests.W3C + "REC-SMIL3-20081201/SMIL30Language.dtd", "smil", None),
    ("VoiceXML 2.1", tests.W3C + "REC-voicexml21-20070619/vxml.dtd", "vxml", None),
    ("XML's own specification", tests.W3C + "Specification/xmlspec.dtd", "spec", None),
    ("XML catalogs", tests.CATALOG, "catalog", "/etc/xml/catalog"),
]


# The best processor time in milliseconds and the peak in megabytes, the status and what was printed.
def measure(words, given, runs):
    best = (float("inf"), float("inf"), None, None)
    for _ in range(runs):
        ran = subprocess.Popen(words, stdin=subprocess.PIPE, stdout=subprocess.PIPE, text=True)
        ran.stdin.write(given)
        ran.stdin.close()
        printed = ran.stdout.read()
        _, status, usage = os.wait4(ran.pid, 0)
        time, memory = 1000 * (usage.ru_utime + usage.ru_stime), usage.ru_maxrss / 1024
        best = (min(best[0], time), min(best[1], memory), os.waitstatus_to_exitcode(status), printed)
    return best


# A document with this root, of some hundred elements or more.
def made(text, root):
    models = tests.models_of(text)
    least = tests.least_of(models)
    trees = [tests.element(models, least, root, [1000]) for _ in range(50)]
    return tests.document(max(trees, key=lambda tree: sum(1 for _ in tests.elements(tree))))


# A document's name and text: of this file, or made where it isn't there, isn't XML, or is a page of the manual and doclifter is missing.
def document(text, root, path):
    name, found = os.path.basename(path or ""), None
    if path and os.path.exists(path) and not path.endswith(".gz"):
        found = tests.plain(path)
    elif path and os.path.exists(path) and shutil.which("doclifter"):
        with gzip.open(path) as file:
            tests.write("page.xml", subprocess.run(["doclifter"], input=file.read(), capture_output=True).stdout)
        name, found = re.sub(r"(.*)\.(\d)\.gz", r"\1(\2)", name), tests.plain("page.xml")
    return (name, found) if found else ("made", made(text, root))


def row(program, python, title, dtd, root, path, runs):
    # A row's document, and what is taken away, are the same whichever other rows there are.
    random.seed(f"{title} {path}")
    flatten = measure([python, tests.TOOL, dtd], "", 1)
    tests.write("flat.dtd", flatten[3])
    told = measure([program, "dtd", "flat.dtd"], "", runs)
    types, parts, undeclared = map(int, re.search(r"types (\d+) parts (\d+) undeclared (\d+)", told[3]).groups())
    columns = types + parts + undeclared
    check_width = 67108864 // columns - 1
    need_width = max(width for width in range(6000) if (width + 1) * (width + 2) // 2 * columns <= 16777216)
    name, whole = document(flatten[3], root, path)
    tests.write("whole.xml", whole)
    damaged, taken = tests.without_tags(whole, 0.1)
    tests.write("damaged.xml", damaged)
    valid = measure([program, "valid", "flat.dtd", root, "whole.xml"], "", runs)
    check = measure([program, "check", "flat.dtd", root, "damaged.xml"], "", runs)
    need = measure([program, "session", "flat.dtd", root, "damaged.xml"], "need\n", runs)
    count = len(re.findall(r"<[^/!?]", whole))
    limits = f"| {title} | {types:,} | {parts:,} | {check_width:,} | {need_width:,} |"
    times = (
        f"| {title} | {name}, {count:,} elements, {max(1, round(len(whole.encode()) / 1000))} kB | {flatten[0] / 1000:.1f} s "
        f"| {told[0]:,.0f} ms | {valid[0]:,.0f} ms | {check[0]:,.0f} ms, {check[1]:,.0f} MB | {need[0]:,.0f} ms, {need[1]:,.0f} MB "
        f"| {taken}: {check[3].strip()}, {need[3].strip()} |"
    )
    return limits, times


def main():
    top, runs = os.path.abspath(sys.argv[1]), int(sys.argv[2])
    program = os.environ.get("PVTAG", f"{top}/build/pvtag")
    os.environ["XML_CATALOG_FILES"] = tests.CATALOGS
    python = tests.python_with_lxml()
    with tempfile.TemporaryDirectory() as folder:
        os.chdir(folder)
        rows = [row(program, python, title, dtd, root, path, runs) for title, dtd, root, path in CASES if os.path.exists(dtd)]
        os.chdir("/")
    print("| DTD | Names | Parts | `check` | `need` |", "|---|---|---|---|---|", *dict.fromkeys(limits for limits, _ in rows), sep="\n")
    print("| DTD | Document | `flatten` | `dtd` | `valid` | `check` | `need` | Pairs removed |", "|---|---|---|---|---|---|---|---|", sep="\n")
    print(*(times for _, times in rows), sep="\n")


if __name__ == "__main__":
    main()
