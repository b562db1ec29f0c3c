"""Tries what docs/PUBLISHED.md says of RELAX NG: `trang` makes a DTD of a schema, by which the program says of random documents what `xmllint` says by the
schema; schemas that a DTD can't express are refused, for the reasons that the page lists.

Words: PROGRAM DOCUMENTS SEED. The last line tells how many passed.
"""
import os
import random
import re
import shutil
import subprocess
import sys
import tempfile
from pathlib import Path

from lib.counting import Expecting
from lib.waiting import PATIENCE

TOP = Path(__file__).resolve().parent.parent
NAMES = ("opener", "dateline", "place", "date", "salute", "body", "p", "lb", "person", "closer")
# What `trang` doesn't convert, each with the words of its reason.
REFUSED = {
    "element r { element a {empty} & element b {empty} }": 'cannot handle this kind of "interleave"',
    "element r { mixed { element a {empty}+ } }": 'cannot handle this kind of "mixed"',
    "element r { text, element a {empty} }": 'cannot handle this kind of "group"',
    "element r { element x { element t {text} }, element y { element t {empty} } }": "duplicate declaration of element",
    'element r { (attribute k {"1"}, element a {empty}) | (attribute k {"2"}, element b {empty}) }': "ambiguous attribute choice not handled",
    "element r { any* }\nany = element * { any* }": "wildcards are not supported",
}
# DocBook 5, where the style sheets that Debian has are installed.
DOCBOOK = Path("/usr/share/xml/docbook/stylesheet/docbook-xsl/assembly/schema/docbook51b7.rnc")


def run(*words: str | Path, folder: Path) -> subprocess.CompletedProcess[str]:
    return subprocess.run(list(map(str, words)), cwd=folder, capture_output=True, text=True, timeout=PATIENCE, check=False)


def content(rest: random.Random, depth: int) -> str:
    """Elements, mostly as a letter has them, and texts."""
    parts = []
    for _ in range(rest.randint(0, 3)):
        name = rest.choice(NAMES)
        parts.append(f"<{name}>{content(rest, depth + 1) if depth < 3 else ''}</{name}>" if rest.random() < 0.5 else rest.choice(("t", " ", "")))
    return "".join(parts)


def letter(rest: random.Random) -> str:
    opener = rest.choice(("<salute>x</salute>", "<dateline>in <place>y</place></dateline><salute/>", content(rest, 1)))
    body = rest.choice(("<p>a <person>b</person></p>", "<lb/><p/>", "<p><lb/> c</p>", content(rest, 1)))
    parts = [f"<opener>{opener}</opener>", f"<body>{body}</body>", rest.choice(("", "<closer>d</closer>", content(rest, 2)))]
    if rest.random() < 0.2:
        rest.shuffle(parts)
    return f"<letter>{''.join(parts)}</letter>"


def try_letter(trial: Expecting, pvtag: str, count: int, rest: random.Random, folder: Path) -> None:
    """The schema of a letter as a DTD."""
    shutil.copy(TOP / "examples/letter.rnc", folder)
    told = run("trang", "letter.rnc", "letter.dtd", folder=folder)
    trial.expect("a DTD is made", told.returncode == 0 and 'approximating datatype "date" by "NMTOKEN"' in told.stderr, told)
    one, other = (sorted(run(pvtag, "dtd", file, folder=folder).stdout.splitlines()) for file in ("letter.dtd", TOP / "examples/letter.dtd"))
    trial.expect("it is that of the example", bool(one) and one == other, (one, other))
    run("trang", "letter.rnc", "letter.rng", folder=folder)
    names = [f"{number}.xml" for number in range(count)]
    for name in names:
        (folder / name).write_text(letter(rest))
    told = run("xmllint", "--noout", "--relaxng", "letter.rng", *names, folder=folder)
    by_schema = {found[1] for found in re.finditer(r"^(\S+) validates$", told.stderr, re.MULTILINE)}
    by_dtd = {name for name in names if run(pvtag, "valid", "letter.dtd", "letter", name, folder=folder).stdout == "valid\n"}
    trial.expect("documents are valid by both, or by neither", by_schema == by_dtd, (by_schema ^ by_dtd))
    trial.expect("some of each", len(names) / 10 < len(by_schema) < len(names) * 9 / 10, len(by_schema))


def try_refused(trial: Expecting, folder: Path) -> None:
    page = (TOP / "docs/PUBLISHED.md").read_text("utf-8")
    for schema, why in REFUSED.items():
        (folder / "one.rnc").write_text(f"start = {schema}\n")
        told = run("trang", "one.rnc", "one.dtd", folder=folder)
        trial.expect(f"a schema that isn't converted: {schema}", told.returncode == 1 and why in told.stderr and not (folder / "one.dtd").exists(), told)
        trial.expect("the page has its reason", why in page, why)
    if DOCBOOK.exists():
        told = run("trang", DOCBOOK, "one.dtd", folder=folder)
        trial.expect("DocBook 5", told.returncode == 1 and 'kind of "interleave"' in told.stderr, told.stderr[:400])
    else:
        print("skipped: DocBook 5 (no docbook-xsl)")


def main() -> int:
    trial, rest = Expecting(), random.Random(int(sys.argv[3]))
    with tempfile.TemporaryDirectory(prefix="pvtag-trial-") as folder:
        try_letter(trial, os.path.abspath(sys.argv[1]), int(sys.argv[2]), rest, Path(folder))
        try_refused(trial, Path(folder))
    return trial.ended()


if __name__ == "__main__":
    sys.exit(main())
