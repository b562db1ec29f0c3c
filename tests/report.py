"""Tries `clients/report` on documents of all kinds: against `check`, again for what changed, killed and taken up, interrupted, in batches.

Words: the program, a seed, and how many documents. The last line tells how many passed.
"""
import contextlib
import csv
import html.parser
import json
import os
import random
import shutil
import signal
import subprocess
import sys
import tempfile
import time
import urllib.parse
from pathlib import Path
from typing import Any

from lib.counting import Expecting
from lib.waiting import PATIENCE, hanging_lxml, runs_still, until

TOP = Path(__file__).resolve().parent.parent
sys.path.insert(0, str(TOP / "clients"))
from pvtag.attributes import python_with_lxml  # noqa: E402
from pvtag.reporting.rows import Row  # noqa: E402

REPORT = str(TOP / "clients" / "report")
DTD = TOP / "examples" / "letter.dtd"
# It keeps a line for each document that is checked. Where a file HELD is named, all but the first documents wait for it.
FREE = 6
WRAPPER = """#!/bin/sh
[ "$1" != check ] || [ "$4" = /dev/null ] || {
    echo "$4" >>"$LOG"
    [ -z "$SLOW" ] || sleep "$SLOW"
    case $4 in
    */000[0-5].xml) ;;
    *) while [ -n "$HELD" ] && [ ! -e "$HELD" ]; do sleep 0.1; done ;;
    esac
    eval "$BEFORE"
}
exec "$PVTAG" "$@"
"""
KINDS = (b"valid", b"possible", b"impossible", b"refused")


def document(kind: int, number: int) -> bytes:
    """A letter that is valid, lacks an element, has two in the wrong order, or is no document."""
    letter = (TOP / "examples" / ("letter.xml", "letter-draft.xml", "letter-swapped.xml", "letter.xml")[kind]).read_bytes()
    return letter + b"<!-- %d -->\n" % number if kind < 3 else letter[:-20 - number % 7]


class Trial(Expecting):
    """Documents in a folder, a program that keeps count, and what passed."""

    def __init__(self, folder: Path, pvtag: str, seed: int, count: int) -> None:
        super().__init__()
        self.folder, self.random = folder, random.Random(seed)
        self.texts, self.log, self.program = folder / "texts", folder / "log", folder / "pvtag"
        self.program.write_text(WRAPPER)
        self.program.chmod(0o755)
        self.dtd = folder / "letter.dtd"
        shutil.copy(DTD, self.dtd)
        self.variables = {**os.environ, "PVTAG": os.path.abspath(pvtag), "LOG": str(self.log), "BEFORE": ""}
        self.texts.mkdir()
        self.kinds = [self.random.randrange(4) for _ in range(count)]
        for number, kind in enumerate(self.kinds):
            self.file(number).write_bytes(document(kind, number))

    def file(self, number: int) -> Path:
        return self.texts / f"{number:04}.xml"

    def start(self, *words: str, slow: str = "", held: Path | str = "", most: int | None = None) -> subprocess.Popen[bytes]:
        """Begins a run, whose files have at most so many bytes."""
        self.log.write_bytes(b"")
        limit = ["prlimit", f"--fsize={most}"] if most is not None else []
        return subprocess.Popen([*limit, sys.executable, REPORT, "--program", str(self.program), *words], bufsize=0, start_new_session=True,
                                env={**self.variables, "SLOW": slow, "HELD": str(held)},
                                stdin=subprocess.PIPE, stdout=subprocess.PIPE, stderr=subprocess.PIPE)

    def run(self, *words: str, given: bytes = b"") -> tuple[int, bytes, str]:
        run = self.start(*words)
        said, errors = run.communicate(given, timeout=PATIENCE)
        return run.returncode, said, errors.decode()

    def over(self, *words: str, **more: bytes) -> tuple[int, bytes, str]:
        return self.run(str(self.dtd), "letter", *words, **more)

    def checked(self) -> int:
        return len(self.log.read_bytes().splitlines())


def rows_of(report: bytes) -> list[dict[str, Any]]:
    """The rows of JSON Lines without how long each took."""
    return [{name: value for name, value in json.loads(line).items() if name != "seconds"} for line in report.splitlines()[1:]]


def try_kinds(trial: Trial) -> bytes:
    """Each document against `check`; both forms; files by a list; one job and several."""
    status, said, errors = trial.over("--need", str(trial.texts))
    rows = rows_of(said)
    trial.expect("it ends well", status == 0 and errors == "", (status, errors))
    trial.expect("a row a document, in order", [row["path"] for row in rows] == [str(trial.file(it)) for it in range(len(trial.kinds))])
    for row, kind in zip(rows, trial.kinds):
        trial.expect("a verdict", row["verdict"].encode() == KINDS[kind], row)
        trial.expect("what is open and missing", kind > 1 or (row["open"], row["missing"]) == (kind, kind), row)
        trial.expect("place and sentence", kind < 2 or (row["line"] >= 1 and len(row["sentence"]) > 10), row)
    listed = b"".join(os.fsencode(trial.file(it)) + b"\0" for it in range(len(trial.kinds)))
    trial.expect("by a list and one job", rows_of(trial.over("--need", "-0", "--jobs", "1", given=listed)[1]) == rows)
    # The script above stands alone; beside the program itself `pvmany` may be built.
    asked = subprocess.run([sys.executable, REPORT, "--program", trial.variables["PVTAG"], str(trial.dtd), "letter", "--need", str(trial.texts)],
                           capture_output=True, timeout=PATIENCE, check=False)
    trial.expect("by `pvmany`", asked.returncode == 0 and rows_of(asked.stdout) == rows, asked.stderr)
    tabbed = trial.over("--need", "--format", "tsv", str(trial.texts))[1].decode().splitlines()
    names = tabbed[1].split("\t")
    for line, row in zip(tabbed[2:], rows):
        told = {name: value for name, value in zip(names, line.split("\t")) if value and name != "seconds"}
        trial.expect("the same as TSV", told == {name: str(value) for name, value in row.items()}, (told, row))
    return said


def try_strange_files(trial: Trial) -> None:
    """What isn't a file, can't be read, is no document or too large gets a row, and the others theirs."""
    odd = trial.folder / "odd"
    (odd / "folder.xml").mkdir(parents=True)
    os.mkfifo(odd / "pipe.xml")
    (odd / "empty.xml").write_bytes(b"")
    (odd / "binary.xml").write_bytes(bytes(range(256)))
    (odd / "gone.xml").symlink_to("nothing")
    (odd / "tab\tnew\nline\\.xml").write_bytes(document(0, 0))
    Path(os.fsdecode(bytes(odd) + b"/\xff\xfe.xml")).write_bytes(document(1, 0))
    with (odd / "large.xml").open("wb") as file:
        file.truncate(67_108_865)
    wanted = {"pipe.xml": "unreadable", "empty.xml": "refused", "binary.xml": "refused", "gone.xml": "unreadable", "large.xml": "refused",
              "tab\tnew\nline\\.xml": "valid", "\udcff\udcfe.xml": "possible", "missing": "unreadable"}
    for form in ("json", "tsv"):
        out = trial.folder / f"odd.{form}"
        status, _, errors = trial.over("--format", form, "--output", str(out), str(odd), str(odd / "missing"))
        # What was written is read as an earlier report, and written as JSON.
        again = rows_of(trial.over("--since", str(out), str(odd), str(odd / "missing"))[1])
        told = {row["path"].rpartition("/")[2]: row["verdict"] for row in again}
        trial.expect(f"strange files, {form}", told == wanted and status == 1 and errors == "", (told, status, errors))


# Documents with subsets, entities and attributes: the verdict on elements, that on attributes and how many faults, a place, and words.
ENTITIES = '<!ENTITY me "Anna"><!ENTITY to "&me; &#38;#38; Jan">'
LETTER = "<letter{0}><opener><salute>Dear {1}</salute></opener><body><p rend='it'>{1}</p></body></letter>"
MIXED = {
    "plain": (LETTER.format(" id='a'", "Anna"), "valid", "valid", 0, None, None),
    "missing": (LETTER.format("", "Anna"), "valid", "invalid", 1, 2, "lacks the attribute `id`"),
    "subset": (f"<!DOCTYPE letter [{ENTITIES}]>\n" + LETTER.format(" id='a'", "&to;"), "valid", "valid", 0, None, None),
    "of the DTD": (LETTER.format(" id='a'", "&nbsp;"), "valid", "valid", 0, None, None),
    "undeclared": (LETTER.format(" id='&none;'", "&none;"), "valid", "invalid", 1, 9, "the value of `id` of `letter` isn't known"),
    "undeclared text": (LETTER.format(" id='a'", "&none;"), "valid", "valid", 0, 37, "`&none;` isn't declared"),
    "elements": ("<!DOCTYPE letter [<!ENTITY e '<salute/>'>]><letter id='a'><opener>&e;</opener></letter>", "refused", None, None, 67, "brings elements"),
    "declared": ("<!DOCTYPE letter [<!ELEMENT letter ANY>]>" + LETTER.format(" id='a'", ""), "valid", "valid", 0, 19, "declares an element itself"),
    "possible": ("<!DOCTYPE letter [ ]><letter id='1'><body/></letter>", "possible", "invalid", 1, 30, "`id` of `letter` is `1`"),
    "impossible": ("<!DOCTYPE letter [\n ]><letter id='a'><body/><opener/></letter>", "impossible", "valid", 0, 19, "`body` (line 2) stands before `opener`"),
    "broken": ("<!DOCTYPE letter [\n ]><letter id='a'><body/>&me;", "refused", None, None, 30, "the file ends before"),
}


def try_attributes(trial: Trial) -> None:
    """What is said of attributes and entities, and that no document is refused for its subset."""
    if python_with_lxml() is None:
        print("skipped: attributes in reports (no lxml, package python3-lxml)")
        return
    texts, dtd = trial.folder / "mixed", trial.folder / "attributes.dtd"
    texts.mkdir()
    dtd.write_bytes(DTD.read_bytes() + b"<!ATTLIST letter id ID #REQUIRED><!ATTLIST p rend (it|bf) 'it'><!ENTITY nbsp '&#160;'>")
    for name, (text, *_) in MIXED.items():
        (texts / f"{name}.xml").write_text(text)
    page = trial.folder / "mixed.html"
    status, said, errors = trial.run("--need", "--html", str(page), str(dtd), "letter", str(texts))
    trial.expect("it ends well", (status, errors) == (0, ""), (status, errors))
    for row in rows_of(said):
        _, verdict, attributes, faults, column, words = MIXED[Path(row["path"]).stem]
        told = (row["verdict"], row.get("attributes"), row.get("faults"), row.get("column"))
        trial.expect("attributes and entities", told == (verdict, attributes, faults, column) and (words or "") in row.get("sentence", ""), row)
        trial.expect("no subset is refused", "declarations in the" not in row.get("sentence", ""), row)
    trial.expect("the page counts", "6 valid, 3 documents with 3 missing or wrong" in page.read_text(), page.read_text()[-3000:])
    status, said, errors = trial.run("--no-attributes", "--html", str(page), str(dtd), "letter", str(texts))
    trial.expect("without attributes", all("attributes" not in row for row in rows_of(said)) and "attributes weren't looked at" in page.read_text())
    status, _, errors = trial.run("--fail-on", "attributes", str(dtd), "letter", str(texts))
    trial.expect("attributes fail a run", (status, errors) == (4, "report: 3 attributes\n"), (status, errors))
    # Without lxml.
    (trial.folder / "without").mkdir()
    (trial.folder / "without" / "lxml.py").write_text("raise ImportError")
    trial.variables["PYTHONPATH"] = str(trial.folder / "without")
    status, said, errors = trial.run(str(dtd), "letter", str(texts))
    rows = [row for row in rows_of(said) if "attributes" in row]
    trial.expect("no lxml", (status, rows) == (0, []) and "lxml is missing" in errors and errors.count("\n") == 1, (status, rows, errors))
    status, _, errors = trial.run("--fail-on", "attributes", str(dtd), "letter", str(texts))
    trial.expect("attributes that can't be looked at fail a run", status == 3 and "can't be looked at" in errors, (status, errors))
    del trial.variables["PYTHONPATH"]


# Documents of a mixed folder: their bytes, the verdict, the DTD's file and root that its row names, and words of its sentence.
MODULE = '<!ENTITY % names SYSTEM "names.mod"> %names; <!ELEMENT poem (title?, line+)>'
BY_DOCTYPE = {
    "letter": (b"<!DOCTYPE letter SYSTEM 'letter.dtd'>", "letter", "valid", "letter.dtd", ""),
    "draft": (b'<?xml version="1.0"?>\n<!-- . --><!DOCTYPE letter PUBLIC "-//x" "letter.dtd" [ <!ENTITY a "]>"> ]>', "draft", "possible", "letter.dtd", ""),
    "instruction": (b'<?pvtag dtd="letter.dtd" root="letter"?>', "swapped", "impossible", "letter.dtd", "stands before"),
    "poem": (b'<!DOCTYPE poem SYSTEM "poem.dtd">', b"<poem><line>A</line></poem>", "valid", "poem.dtd", ""),
    "poem-draft": (b'<!DOCTYPE poem SYSTEM "poem.dtd">', b"<poem>A</poem>", "possible", "poem.dtd", ""),
    "by-catalog": (b'<!DOCTYPE poem PUBLIC "-//test//DTD Poem//EN" "http://example.org/poem.dtd">', b"<poem><title/></poem>", "possible", "http:", ""),
    "other-root": (b'<!DOCTYPE line SYSTEM "poem.dtd">', b"<line>A</line>", "valid", "poem.dtd", ""),
    "no-such-root": (b'<!DOCTYPE verse SYSTEM "poem.dtd">', b"<verse/>", "impossible", "poem.dtd", "`verse`"),
    "plain": (b"", "letter", "no-dtd", "", "names no DTD"),
    "gone": (b'<!DOCTYPE letter SYSTEM "gone.dtd">', "letter", "no-dtd", "", "there is no such DTD"),
    "bad": (b'<!DOCTYPE a SYSTEM "bad.dtd">', b"<a/>", "no-dtd", "", "bad.dtd:1:"),
    "unknown": (b'<!DOCTYPE a PUBLIC "-//none" "http://example.org/none.dtd">', b"<a/>", "no-dtd", "", "can't be made plain"),
    "no-name": (b'<?pvtag dtd="poem.dtd" root="a b"?>', b"<poem/>", "no-dtd", "", "the root that it names, `a b`, is no name of XML"),
    "no-utf-8": (b'<?pvtag dtd="poem.dtd" root="a\xff"?>', b"<poem/>", "refused", "", "iconv -f ISO-8859-1"),
    "broken": (b"<!DOCTYPE letter SYSTEM 'letter.dtd'>", b"<letter>", "refused", "letter.dtd", "ends before"),
    "utf-16": (b"", "<!DOCTYPE letter SYSTEM 'letter.dtd'><letter/>".encode("utf-16"), "refused", "", "iconv -f UTF-16 -t UTF-8"),
    "latin-1": (b"<!DOCTYPE letter SYSTEM 'letter.dtd'>", b"<letter>\xe9t\xe9</letter>", "refused", "letter.dtd", "iconv -f ISO-8859-1"),
}
CATALOG = '<catalog xmlns="urn:oasis:names:tc:entity:xmlns:xml:catalog"><public publicId="-//test//DTD Poem//EN" uri="poem.dtd"/></catalog>'


def try_forms(trial: Trial) -> None:
    """Control characters of names in each form, and read again; CSV; a summary; a page beside other documents."""
    texts = trial.folder / "forms"
    texts.mkdir()
    strange = ["a\x1b[31m.xml", "b\u202e.xml", "c\x7f\x85.xml", "d,\"\n.xml", "e\udcff\\x41.xml", "f<b>:.xml"]
    for number, name in enumerate(strange):
        Path(os.fsdecode(bytes(texts) + b"/" + os.fsencode(name))).write_bytes(document(number % 4, number))
    rows = rows_of(trial.over(str(texts))[1])
    wanted = [str(texts / name) for name in strange]
    trial.expect("names in JSON", [row["path"] for row in rows] == wanted, rows)
    for form in ("json", "tsv", "csv"):
        out, page = texts / f"out.{form}", texts / "page.html"
        status, said, errors = trial.over("--format", form, "--output", str(out), "--html", str(page), "--summary", str(texts))
        lines = said.decode().splitlines()
        trial.expect("a summary", (status, errors) == (0, "") and lines[0] == "6 documents: 2 possible, 2 valid, 1 impossible, 1 refused", lines)
        found = [line.split("\t") for line in lines if "\timpossible\t" in line]
        trial.expect("a sentence without names", found[0][:3] == ["1", "impossible", "`…` (line N) stands before `…` (line N); in `…` they come in the other "
                                                              "order. `…` is declared `…`."] and found[0][3].endswith(".xml:2:1"), lines)
        for text in (out.read_bytes(), page.read_bytes(), said):
            trial.expect("no control characters", not set(text) & {0x1B, 0x7F} and b"\xc2\x85" not in text and b"\xe2\x80\xae" not in text, text)
        links = Page()
        links.feed(page.read_text())
        files = [os.path.join(texts, os.fsdecode(urllib.parse.unquote_to_bytes(link))) for link in links.links]
        trial.expect("links from the page", files == [os.path.join(texts, f"./{name}") for name in strange], links.links)
        if form == "csv":
            table = list(csv.DictReader(out.read_text().splitlines(keepends=True)))
            trial.expect("no formula", all(Row(f"{first}1.xml").text(form).startswith(f"./{first}1.xml,") for first in "=+-@"))
            trial.expect("CSV", [row["verdict"] for row in table] == [row["verdict"] for row in rows] and len(table[0]) == len(table[2]), table)
        else:
            again = rows_of(trial.over("--since", str(out), str(texts))[1])
            trial.expect("read again", again == rows and trial.checked() == 0, (again, trial.checked()))


def try_summary(trial: Trial) -> None:
    """Names and numbers are taken out of sentences, and what is the same for all stays: encodings, marks, and the line that converts."""
    texts = trial.folder / "summed"
    texts.mkdir()
    letter = document(0, 1).decode()
    for name, data in (("a1", letter.replace("</salute>", "\xe9</salute>").encode("latin-1")), ("a2", letter.replace("<body>", "<body><!-- \xe9 -->").encode("latin-1")),
                       ("b", letter.encode("utf-16")), ("c1", b"<letter><p>"), ("c2", b"<letter>\n<body>"), ("d", letter.replace("<body>", "<body><!-- -- -->").encode()),
                       ("e1", letter.replace("<body>", "<body><lb>1</lb>").encode()), ("e2", letter.replace("<body>", "<body><p><lb>2</lb></p>").encode())):
        (texts / f"{name}.xml").write_bytes(data)
    status, said, errors = trial.over("--summary", "--no-attributes", str(texts))
    wanted = ["8 documents: 6 refused, 2 impossible",
              f"2\timpossible\tThe text (line N) stands in `…`, which holds nothing. `…` is declared `…`.\t{texts}/e1.xml",
              f"2\trefused\tthe file ends before `…` (line N) has ended\t{texts}/c1.xml",
              f"2\trefused\tthe file isn't UTF-8 and looks like Latin-1; `iconv -f ISO-8859-1 -t UTF-8 FILE` converts it\t{texts}/a1.xml",
              f"1\trefused\ta comment ends with `-->`, and holds no `--` before\t{texts}/d.xml",
              f"1\trefused\tthe file is in UTF-16, and UTF-8 alone is read; `iconv -f UTF-16 -t UTF-8 FILE` converts it\t{texts}/b.xml"]
    told = [line.rpartition(".xml:")[0] + ".xml" if ".xml:" in line else line for line in said.decode().splitlines()]
    trial.expect("a summary without names and numbers", (status, errors, told) == (0, "", wanted), (status, errors, told))
    status, said, errors = trial.over("--summary", "--no-attributes", str(texts / "b.xml"))
    trial.expect("a summary of one", said.startswith(b"1 document: 1 refused\n"), said)


def try_by_doctype(trial: Trial) -> None:
    """Each document by the DTD that it names; the others by the given pair; a DTD in modules; against xmllint; again what changed."""
    if python_with_lxml() is None:
        print("skipped: documents by their DTDs (no lxml, package python3-lxml)")
        return
    texts = trial.folder / "by-doctype"
    texts.mkdir()
    shutil.copy(DTD, texts)
    for name, text in (("poem.dtd", MODULE), ("names.mod", "<!ELEMENT title (#PCDATA)> <!ELEMENT line (#PCDATA)>"), ("bad.dtd", "<!ELEMENT a (b>"), ("catalog", CATALOG)):
        (texts / name).write_text(text)
    for name, (front, body, *_) in BY_DOCTYPE.items():
        files = {"letter": "letter.xml", "draft": "letter-draft.xml", "swapped": "letter-swapped.xml"}
        content = (TOP / "examples" / files[body]).read_bytes() if isinstance(body, str) else body
        (texts / f"{name}.xml").write_bytes(front + content)
    trial.variables["XML_CATALOG_FILES"] = f"file://{texts}/catalog"
    status, said, errors = trial.run("--by-doctype", str(texts))
    trial.expect("some have no DTD", (status, errors) == (1, ""), (status, errors))
    rows = {Path(row["path"]).stem: row for row in rows_of(said)}
    trial.expect("a row a document", rows.keys() == BY_DOCTYPE.keys(), rows.keys())
    for name, (_, _, verdict, dtd, words) in BY_DOCTYPE.items():
        row = rows[name]
        named = row.get("dtd", "")
        trial.expect("by its DTD", row["verdict"] == verdict and words in row.get("sentence", "") and (dtd in named if dtd else not named), row)
        if shutil.which("xmllint") and verdict in ("valid", "possible", "impossible"):
            told = subprocess.run(["xmllint", "--noout", "--nonet", "--valid", str(texts / f"{name}.xml")], capture_output=True, env=trial.variables)
            trial.expect("as xmllint says", b"<?pvtag" in (texts / f"{name}.xml").read_bytes() or (told.returncode == 0) == (verdict == "valid"), (row, told))
    status, said, _ = trial.run("--by-doctype", "--otherwise", str(trial.dtd), "letter", str(texts))
    row = next(it for it in rows_of(said) if it["path"].endswith("/plain.xml"))
    trial.expect("by the given pair", (row["verdict"], row["dtd"], row["root"]) == ("valid", str(trial.dtd), "letter"), row)
    out = texts / "report.tsv"
    again = ("--by-doctype", "--format", "tsv", "--since", str(out), "--output", str(out), str(texts))
    trial.run(*again)
    first = trial.checked()
    trial.run(*again)
    trial.expect("only what has no verdict is judged again", first > 5 and trial.checked() == 0, (first, trial.checked()))
    with (texts / "names.mod").open("a") as module:
        module.write(" <!ELEMENT more EMPTY>")
    trial.run(*again)
    wanted = sum("poem.dtd" in row.get("dtd", "") for row in rows.values())
    trial.expect("a DTD in modules that changes", trial.checked() == wanted, (trial.checked(), wanted))
    del trial.variables["XML_CATALOG_FILES"]
    status, said, errors = trial.run(str(texts / "poem.dtd"), "poem", str(texts / "poem-draft.xml"))
    trial.expect("a given DTD in modules", status == 0 and rows_of(said)[0]["verdict"] == "possible" and "dtd" not in rows_of(said)[0], (status, said, errors))
    odd = trial.folder / "odd-roots"
    odd.mkdir()
    (odd / "one.xml").write_text(f'<!DOCTYPE a\xd7b SYSTEM "{texts}/letter.dtd"><letter/>', encoding="utf-8")
    shutil.copy(texts / "letter.xml", odd / "other.xml")
    status, said, errors = trial.run("--by-doctype", "--otherwise", str(DTD), "letter", str(odd))
    told = [(row["verdict"], row.get("sentence", "")) for row in rows_of(said)]
    trial.expect("a root that is no name ends no run", (status, errors) == (1, "") and told[0] == ("no-dtd", "the root that it names, `a\xd7b`, is no name of XML")
                 and len(told) == 2, (status, told, errors))
    trial.expect("a pair for nothing", trial.run("--otherwise", str(DTD), "letter", str(texts))[0] == 2)


def try_again(trial: Trial, report: bytes) -> None:
    """Only what changed is judged again; another DTD, root or question makes all new."""
    out = trial.folder / "first.jsonl"
    trial.over("--need", "--output", str(out), str(trial.texts))
    trial.expect("a file as the output", rows_of(out.read_bytes()) == rows_of(report))
    again = ("--need", "--since", str(out), "--output", str(out), str(trial.texts))
    trial.over(*again)
    trial.expect("nothing is judged again", trial.checked() == 0 and rows_of(out.read_bytes()) == rows_of(report), trial.checked())
    os.utime(trial.file(0))
    trial.over(*again)
    trial.expect("another time, the same bytes", trial.checked() == 0, trial.checked())
    one = trial.file(1)
    one.write_bytes(document(2, 7))
    trial.over(*again)
    row = rows_of(out.read_bytes())[1]
    trial.expect("what changed is", trial.checked() == 1 and row["verdict"] == "impossible", (trial.checked(), row))
    one.write_bytes(document(trial.kinds[1], 1))
    trial.over("--since", str(out), str(trial.texts))
    trial.expect("another question", trial.checked() == len(trial.kinds), trial.checked())
    with trial.dtd.open("a") as dtd:
        dtd.write("<!-- later -->\n")
    trial.over(*again)
    trial.expect("another DTD", trial.checked() == len(trial.kinds), trial.checked())
    out.write_bytes(b'{"pvtag-report": 1}\n\xff\n{}\n')
    trial.expect("no report", trial.over(*again)[0] == 0 and trial.checked() == len(trial.kinds))


def try_killed(trial: Trial, report: bytes, times: int) -> None:
    """A run that is killed at any moment is taken up, and comes to what one run in one go does."""
    for _ in range(times):
        out, part = trial.folder / "killed.jsonl", trial.folder / "killed.jsonl.part"
        out.unlink(missing_ok=True)
        words = (str(trial.dtd), "letter", "--need", "--jobs", "3", "--output", str(out), str(trial.texts))
        run = trial.start(*words, slow="0.02")
        least = trial.random.randrange(len(trial.kinds))
        until(lambda: run.poll() is not None or trial.checked() >= least)
        time.sleep(trial.random.uniform(0, 0.05))
        # On a quick machine it may have ended by itself.
        with contextlib.suppress(ProcessLookupError):
            os.killpg(run.pid, signal.SIGKILL)
        run.communicate()
        if part.exists() and trial.random.random() < 0.5:
            whole = part.read_bytes()
            part.write_bytes(whole[: len(whole) - trial.random.randrange(40)])
        kept = max(part.read_bytes().count(b"\n") - 1, 0) if part.exists() else 0
        was_whole = out.exists()
        trial.run(*words)
        trial.expect("a killed run, taken up", plain(out.read_bytes()) == plain(report) and not part.exists(), out.read_bytes()[-300:])
        trial.expect("what it had is kept", was_whole or trial.checked() <= len(trial.kinds) - kept, (kept, trial.checked()))


def plain(report: bytes) -> list[dict[str, Any]]:
    """The rows without what a change of the file's time makes of them."""
    return [{name: value for name, value in row.items() if name != "time"} for row in rows_of(report)]


def try_interrupted(trial: Trial) -> None:
    """Ctrl-C, twice, and other signals end the run at once, with what was done written and nothing left running."""
    for number in (signal.SIGINT, signal.SIGTERM, signal.SIGHUP):
        run = trial.start(str(trial.dtd), "letter", "--jobs", "2", str(trial.texts), held=trial.folder / "never")
        # The head, and the rows of the documents that don't wait.
        first = b"".join(run.stdout.readline() for _ in range(1 + FREE)) if run.stdout else b""
        os.kill(run.pid, number)
        os.kill(run.pid, number)
        said, errors = run.communicate(timeout=PATIENCE)
        trial.expect("it ends at once", run.returncode == 130 and errors == b"", (run.returncode, errors))
        trial.expect("what was done is written", said == b"" and len(rows_of(first)) == FREE, (first, said))
        trial.expect("nothing is left running", until(lambda: not left_running(trial)), left_running(trial))


def try_interrupted_dtds(trial: Trial) -> None:
    """Ctrl-C while a DTD is made plain ends what makes it."""
    folder = trial.folder / "hanging"
    folder.mkdir()
    note = folder / "note"
    hanging_lxml(folder, note)
    dtd, one = folder / "modules.dtd", folder / "one.xml"
    dtd.write_text(MODULE)
    one.write_text('<!DOCTYPE poem SYSTEM "modules.dtd"><poem/>')
    trial.variables["PYTHONPATH"] = str(folder)
    for words in ((str(dtd), "poem", str(one)), ("--by-doctype", "--format", "csv", "--no-attributes", str(one))):
        note.unlink(missing_ok=True)
        run = trial.start(*words)
        until(lambda: run.poll() is not None or note.exists())
        begun = int(note.read_text()) if note.exists() else 0
        is_begun = runs_still(begun)
        run.send_signal(signal.SIGINT)
        said, errors = run.communicate(timeout=PATIENCE)
        trial.expect("it ends while a DTD is made plain", is_begun and (run.returncode, errors) == (130, b"") and said.count(b"\n") < 2, (is_begun, run.returncode, said, errors))
        trial.expect("and what makes it", until(lambda: not runs_still(begun)), begun)
    del trial.variables["PYTHONPATH"]


def left_running(trial: Trial) -> list[Path]:
    """The runs of the program."""
    return [file for file in Path("/proc").glob("[0-9]*/cmdline") if str(trial.program).encode() in contents(file)]


def contents(file: Path) -> bytes:
    try:
        return file.read_bytes()
    except OSError:
        return b""


def try_changing(trial: Trial) -> None:
    """Documents that vanish or change while they are judged, and a DTD that does."""
    texts = trial.folder / "changing"
    for before, wanted in (('rm -f "$4"', {"failed"}), ('echo >>"$4"', {"failed"}), ('[ "$4" -ot "$0" ] || { cp "$4" "$4.new"; mv "$4.new" "$4"; }', {"failed"})):
        shutil.copytree(trial.texts, texts)
        trial.variables["BEFORE"] = before
        status, said, errors = trial.over(str(texts))
        told = {row["verdict"] for row in rows_of(said)}
        trial.expect("documents that change", status == 1 and errors == "" and told == wanted and len(rows_of(said)) == len(trial.kinds), (status, told, errors))
        shutil.rmtree(texts)
    trial.variables["BEFORE"] = 'echo "<!-- -->" >>"$2"'
    before_it = trial.dtd.read_bytes()
    status, said, errors = trial.over(str(trial.texts))
    trial.expect("a DTD that changes", status == 3 and "has changed since the run began" in errors and rows_of(said) == [], (status, errors))
    trial.dtd.write_bytes(before_it)
    trial.variables["BEFORE"] = ""


def try_outputs(trial: Trial, report: bytes) -> None:
    """Outputs that can't be written, and one that two runs want."""
    out = trial.folder / "both.jsonl"
    pipe = trial.folder / "pipe"
    os.mkfifo(pipe)
    for name in (trial.folder / "no" / "where", trial.folder, pipe, "/dev/null"):
        for word in ("--output", "--html"):
            status, _, errors = trial.over(word, str(name), str(trial.texts))
            trial.expect("no place for a file", status == 3 and errors.count("\n") == 1 and not Path(name).is_file(), (name, status, errors))
    words = (str(trial.dtd), "letter", "--need", "--output", str(out), str(trial.texts))
    run = trial.start(*words, most=1500)
    errors = run.communicate(timeout=PATIENCE)[1]
    trial.expect("a full disk", run.returncode == 3 and errors.count(b"\n") == 1 and not out.exists(), (run.returncode, errors))
    # What it left would be taken up, and as many documents fewer be checked before the others wait.
    Path(f"{out}.part").unlink()
    go = trial.folder / "go"
    first = trial.start(*words, held=go)
    until(lambda: first.poll() is not None or trial.checked() > FREE)
    status, _, errors = trial.run(*words)
    trial.expect("another run", status == 3 and "another run writes" in errors, (status, errors))
    go.touch()
    said = first.communicate(timeout=PATIENCE)
    trial.expect("the first isn't disturbed", first.returncode == 0 and plain(out.read_bytes()) == plain(report), (first.returncode, said))
    left = [it.name for it in trial.folder.iterdir() if "both" in it.name]
    trial.expect("nothing else is left", left == ["both.jsonl"], left)


def try_batches(trial: Trial, report: bytes) -> None:
    """Batches, one of which fails and one of which is done twice; then all, also by GNU parallel where it is installed."""
    folder = trial.folder / "batches"
    files = trial.run("--plan", "4", "--folder", str(folder), str(trial.texts))[1].decode().splitlines()
    trial.expect("four batches", len(files) == 4, files)
    for file in files[1:] + files[1:2]:
        listed = Path(file).read_bytes()
        Path(f"{file}.rows").write_bytes(trial.over("--need", "-0", given=listed)[1])
    rows = Path(f"{files[2]}.rows")
    rows.write_bytes(rows.read_bytes()[:-30])
    status, said, errors = trial.run("--join", str(folder))
    first = Path(files[0]).read_bytes().count(b"\0")
    trial.expect("what is missing is named", status == 1 and len(errors.splitlines()) == first + 1 and errors.startswith("report: no row for "), errors)
    trial.expect("the others are there", len(rows_of(said)) == len(trial.kinds) - first - 1)
    if shutil.which("parallel"):
        command = f"{sys.executable} {REPORT} --program {trial.program} --need -0 {trial.dtd} letter <{{}} >{{}}.rows"
        subprocess.run(["parallel", "--will-cite", "--sshlogin", ":", command, ":::", *files], env=trial.variables, check=False)
    else:
        for file in files:
            Path(f"{file}.rows").write_bytes(trial.over("--need", "-0", given=Path(file).read_bytes())[1])
    page = trial.folder / "page.html"
    status, said, errors = trial.run("--join", str(folder), "--html", str(page))
    failing = trial.run("--join", str(folder), "--fail-on", "impossible")
    trial.expect("joined rows fail a run", failing[0] == (4 if 2 in trial.kinds else 0) and failing[1] == said, failing[2])
    trial.expect("all put together", status == 0 and errors == "" and plain(said) == plain(report), (status, errors))
    strange = Path(f"{files[0]}.rows")
    head, row, *others = strange.read_bytes().split(b"\n")
    for changed, count in ((row.replace(b'"verdict": "', b'"verdict": "<b>'), 1), (row.replace(b'"seconds": ', b'"seconds": "<b>", "x": '), 1)):
        strange.write_bytes(b"\n".join([head, changed, *others]))
        status, _, errors = trial.run("--join", str(folder), "--html", str(page))
        trial.expect("a row that is none", status == 1 and errors.count("\n") == count and "<b>" not in page.read_text(), (status, errors))
    strange.write_bytes(b"\n".join([head[5:], row, *others]))
    trial.expect("rows without a head", trial.run("--join", str(folder))[2].count("\n") == first)
    strange.write_bytes(b"\n".join([head, row, *others]))
    trial.run("--join", str(folder), "--html", str(page))
    trial.expect("a plan needs an empty folder", trial.run("--plan", "4", "--folder", str(folder), str(trial.texts))[0] == 3)
    try_page(trial, page.read_text())


class Page(html.parser.HTMLParser):
    """Counts rows, and keeps what a page asks for."""

    def __init__(self) -> None:
        super().__init__()
        self.rows, self.asked, self.links = 0, list[str](), list[str]()

    def handle_starttag(self, tag: str, attrs: list[tuple[str, str | None]]) -> None:
        self.rows += tag == "tr"
        self.asked += [f"{name}={value}" for name, value in attrs if name == "src" or name == "href" and tag != "a"]
        self.links += [value or "" for name, value in attrs if name == "href" and tag == "a"]


def try_page(trial: Trial, text: str) -> None:
    page = Page()
    page.feed(text)
    trial.expect("a row a document in the page", page.rows == len(trial.kinds) + 1, page.rows)
    files = [os.path.join(trial.folder, urllib.parse.unquote(link)) for link in page.links]
    trial.expect("links to the documents", len(files) == len(trial.kinds) and all(map(os.path.isfile, files)), page.links)
    trial.expect("nothing is asked for", page.asked == [] and "http" not in text, page.asked)


def try_faults(trial: Trial) -> None:
    """What keeps a run from beginning is told in a sentence."""
    bad = trial.folder / "bad.dtd"
    bad.write_text("<!ELEMENT a (b>")
    one = str(trial.file(0))
    empty = trial.folder / "empty"
    empty.mkdir()
    for what, words in (("no DTD", ["nothing.dtd", "letter", one]), ("a DTD in fault", [str(bad), "a", one]), ("no name", [str(trial.dtd), "1", one]),
                        ("a root that isn't declared", [str(trial.dtd), "lettre", one]), ("a root that isn't UTF-8", [str(trial.dtd), "\udcff", one]),
                        ("no document", [str(trial.dtd), "letter", str(empty)]), ("no document by its name", [str(trial.dtd), "letter", "--suffix", ".doc", str(trial.texts)]),
                        ("an empty list", [str(trial.dtd), "letter", "-0"]), ("a plan of nothing", ["--plan", "2", "--folder", str(trial.folder / "planned"), str(empty)]),
                        ("no folder", ["--join", str(trial.folder / "none")])):
        status, said, errors = trial.run(*words)
        trial.expect(what, status == 3 and said == b"" and errors.startswith("report: ") and errors.count("\n") == 1, (status, said, errors))
    trial.expect("no words", trial.run()[0] == 2)
    told = subprocess.run([sys.executable, REPORT, "--program", "/nothing/pvtag", str(trial.dtd), "letter", one], capture_output=True, check=False)
    trial.expect("no program", told.returncode == 3 and told.stderr.count(b"\n") == 1, told)


def try_streams(trial: Trial) -> None:
    """Deep JSON in an earlier report, closed outputs, and Ctrl-C while it starts."""
    one, earlier = str(trial.file(0)), trial.folder / "deep.jsonl"
    head = trial.over(one)[1].splitlines()[0]
    deep = b'{"path": ' + b"[" * 100_000
    for first in (head, deep):
        earlier.write_bytes(first + b"\n" + deep + b"\n")
        status, said, errors = trial.over("--since", str(earlier), one)
        trial.expect("deep JSON", (status, errors, len(rows_of(said))) == (0, "", 1), (status, errors))
    words = [sys.executable, REPORT, "--program", str(trial.program), str(trial.dtd), "letter", one]
    for closed, status, told in (("1>&-", 3, b"report: the standard output is closed\n"), ("2>&-", 0, b""), ("1>&- --output closed.jsonl", 0, b"")):
        ran = subprocess.run(["sh", "-c", f'"$@" {closed}', "sh", *words], capture_output=True, env={**trial.variables, "HELD": "", "SLOW": ""}, cwd=trial.folder)
        trial.expect("closed outputs", (ran.returncode, ran.stderr) == (status, told), (closed, ran))
    trial.expect("a file beside a closed output", len(rows_of((trial.folder / "closed.jsonl").read_bytes())) == 1)
    for delay in (0.15, 0.3, 0.6):
        run = trial.start(str(trial.dtd), "letter", one, held="")
        time.sleep(delay)
        run.send_signal(signal.SIGINT)
        _, errors = run.communicate(timeout=PATIENCE)
        # Until its first line is run Python itself may say so.
        is_early = b"line 0, in <module>" in errors or errors != b"" and b"clients/report" not in errors
        trial.expect("Ctrl-C while it starts", is_early or run.returncode in (0, 130, -signal.SIGINT) and errors == b"", (run.returncode, errors))


def try_failing(trial: Trial) -> None:
    """A run fails for documents of the kinds that it is asked to fail for, in one run and joined; its report is as it was."""
    whole = rows_of(trial.over(str(trial.texts))[1])
    has = {kind: sum(row["verdict"] == kind for row in whole) for kind in ("impossible", "refused")}
    has["invalid"] = sum(row["verdict"] != "valid" for row in whole)
    for kinds in ("impossible", "refused", "invalid", "impossible,refused", "attributes"):
        named = [kind for kind in kinds.split(",") if has.get(kind)]
        wanted = f"report: {', '.join(f'{has[kind]} {kind}' for kind in named)}\n" if named else ""
        status, said, errors = trial.over("--fail-on", kinds, str(trial.texts))
        trial.expect("a run fails", (status, errors) == (4 if named else 0, wanted) and rows_of(said) == whole, (kinds, status, errors))
    valid = [str(trial.file(it)) for it, kind in enumerate(trial.kinds) if kind == 0]
    status, _, errors = trial.over("--fail-on", "invalid,attributes", *valid)
    trial.expect("none of these kinds", (status, errors) == (0, ""), (status, errors))
    status, _, errors = trial.over("--fail-on", "invalid", *valid, str(trial.folder / "nothing.xml"))
    trial.expect("no verdict", (status, errors) == (1, ""), (status, errors))
    status, said, errors = trial.over("--most", str(10**12), *valid)
    trial.expect("a run as long as it takes", (status, errors, len(rows_of(said))) == (0, "", len(valid)), (status, errors))
    for words in (["--fail-on", "wrong"], ["--fail-on", "attributes", "--no-attributes"]):
        trial.expect("wrong kinds", trial.over(*words, *valid)[0] == 2, words)


def main() -> int:
    pvtag, seed, count = sys.argv[1], int(sys.argv[2]), int(sys.argv[3])
    # A shell's command in the background ignores it, and so would what is begun here.
    signal.signal(signal.SIGINT, signal.default_int_handler)
    with tempfile.TemporaryDirectory(prefix="pvtag-report-") as folder:
        trial = Trial(Path(folder), pvtag, seed, count)
        report = try_kinds(trial)
        try_strange_files(trial)
        try_attributes(trial)
        try_forms(trial)
        try_summary(trial)
        try_by_doctype(trial)
        try_killed(trial, report, 6)
        try_interrupted(trial)
        try_interrupted_dtds(trial)
        try_changing(trial)
        try_outputs(trial, report)
        try_batches(trial, report)
        try_faults(trial)
        try_failing(trial)
        try_streams(trial)
        try_again(trial, report)
    return trial.ended()


if __name__ == "__main__":
    sys.exit(main())
