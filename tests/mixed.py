"""Tries one report over a mixed folder: letters, DocBook, XHTML, documents of this machine, and broken ones, each row against `xmllint --valid`.

Words: the program, how many documents, and a seed. Skipped without xmllint, lxml and the DTDs of Debian's docbook-xml and w3c-sgml-lib. The last lines
tell how long the report and xmllint took, and how many passed.
"""
import json
import os
import random
import re
import shutil
import subprocess
import sys
import tempfile
import time
from collections import Counter
from pathlib import Path

from lib.counting import Expecting

TOP = Path(__file__).resolve().parent.parent
sys.path.insert(0, str(TOP / "clients"))
from pvtag.attributes import python_with_lxml  # noqa: E402

CATALOGS = "file:///usr/share/xml/w3c-sgml-lib/schema/dtd/catalog.xml file:///etc/xml/catalog"
NEEDED = ("/usr/share/xml/docbook/schema/dtd/4.5/docbookx.dtd", "/usr/share/xml/w3c-sgml-lib/schema/dtd/REC-xhtml1-20020801/xhtml1-strict.dtd")
# Where the machine may have documents that name a DTD.
HERE = ("/usr/share/gdb/syscalls", "/usr/share/dbus-1/interfaces", "/usr/share/X11/xkb/rules", "/usr/share/xml/docbook/stylesheet/docbook-xsl/slides",
        "/usr/share/xml/w3c-sgml-lib/schema/dtd")
DOCBOOK = '<!DOCTYPE article PUBLIC "-//OASIS//DTD DocBook XML V4.5//EN" "http://www.oasis-open.org/docbook/xml/4.5/docbookx.dtd">\n'
XHTML = '<!DOCTYPE html PUBLIC "-//W3C//DTD XHTML 1.0 Strict//EN" "http://www.w3.org/TR/xhtml1/DTD/xhtml1-strict.dtd">\n'
LETTER = '<!DOCTYPE letter SYSTEM "letter.dtd">\n'
TAG = re.compile(r"<(/?)([a-z]+)[^<>]*?(/?)>")
# Of what libxml2 finds, what is about elements and texts.
ELEMENTS = re.compile(r"validity error : (Element \S+ (content does not follow|was declared|is not declared|children)|No declaration for element|root and DTD name)")
SECONDS = 3600


def made(kind: str, rest: random.Random) -> str:
    """A document that is valid."""
    if kind == "letters":
        body = "".join(rest.choice(("<p>I met <person>Mr Adams</person> in <place>Delft</place>.</p>", "<lb/>", "<p>On <date>3 May</date> &amp; later.</p>"))
                       for _ in range(rest.randint(1, 8)))
        return f"{LETTER}<letter><opener><salute>Dear brother,</salute></opener><body>{body}</body></letter>\n"
    if kind == "DocBook":
        paragraphs = "".join(f"<para>A <emphasis>{rest.choice('abc')}</emphasis>, <link linkend='s{at}'>there</link>.</para>" for at in range(rest.randint(1, 4)))
        items = "<itemizedlist><listitem><para>x</para></listitem></itemizedlist>" * rest.randint(0, 2)
        return f"{DOCBOOK}<article><title>t</title>{''.join(f'<section id=%s><title>u</title>{paragraphs}{items}</section>' % repr(f's{at}') for at in range(4))}</article>\n"
    parts = "".join(rest.choice(("<p>a <em>b</em>&nbsp;c</p>", "<ul><li>d</li><li>e <a href='f'>g</a></li></ul>", "<h2>h</h2>", "<p><br/></p>"))
                    for _ in range(rest.randint(1, 8)))
    return f"{XHTML}<html xmlns='http://www.w3.org/1999/xhtml'><head><title>t</title></head><body>{parts}</body></html>\n"


def without_pair(text: str, rest: random.Random) -> str:
    """A document without one pair of tags; its DOCTYPE names the root, which stays."""
    tags = [(found, found[1], found[3]) for found in TAG.finditer(text)]
    opens = [at for at, (_, is_end, is_empty) in enumerate(tags) if not is_end and not is_empty][1:]
    if not opens:
        return text
    at = rest.choice(opens)
    depth, end = 0, at
    for end in range(at, len(tags)):
        depth += -1 if tags[end][1] else not tags[end][2]
        if depth == 0:
            break
    one, other = tags[at][0], tags[end][0]
    return text[:one.start()] + text[one.end():other.start()] + text[other.end():]


def broken(text: str, rest: random.Random) -> bytes:
    """A document that is none, or is in another encoding."""
    data = text.encode()
    return rest.choice((
        lambda: data[:len(data) * 2 // 3],
        lambda: data.replace(b"</", b"<", 1),
        lambda: data.replace(b">\n<", b">\n<!-- \xe9 --><", 1),
        lambda: text.encode("utf-16"),
        lambda: data.replace(b"</", b"&nothing;</", 1),
        lambda: data.replace(b"<!DOCTYPE", b"<!-- no DOCTYPE", 1).replace(b">\n", b" -->\n", 1),
        lambda: b"",
    ))()


def changed(text: str, rest: random.Random) -> str:
    """A document with other tags: some taken away, one written twice or swapped with the next."""
    for _ in range(rest.randint(0, 3)):
        text = without_pair(text, rest)
    if rest.random() < 0.2:
        text = re.sub(r"<(salute|title|head)>(.*?)</\1>", r"\g<0>\g<0>", text, count=1, flags=re.S)
    if rest.random() < 0.1:
        text = re.sub(r" (id|linkend|href)='[^']*'", r" \1='s1'", text)
    return text


def write_all(folder: Path, count: int, rest: random.Random) -> Counter[str]:
    """The folder; how many documents there are of each kind."""
    kinds: Counter[str] = Counter()
    found = [it for place in HERE for suffix in ("*.xml", "*.html") for it in sorted(Path(place).rglob(suffix)) if it.stat().st_size < 300_000]
    found = [it for it in found if re.search(rb"<!DOCTYPE\s+(?!html\s*>|HTML)\w", it.read_bytes()[:1500])][:count // 10]
    for number in range(count):
        kind = "of the machine" if number < len(found) else rest.choice(("letters", "DocBook", "XHTML")) if rest.random() < 0.9 else "broken"
        kinds[kind] += 1
        at = folder / kind.replace(" ", "-") / f"{number:05}.xml"
        at.parent.mkdir(exist_ok=True)
        if kind == "of the machine":
            # Its DTD stands beside it there, or is found by a catalog.
            at.symlink_to(found[number])
        elif kind == "broken":
            at.write_bytes(broken(made(rest.choice(("letters", "DocBook", "XHTML")), rest), rest))
        else:
            at.write_text(changed(made(kind, rest), rest))
    for it in folder.iterdir():
        shutil.copy(TOP / "examples/letter.dtd", it)
    return kinds


def by_xmllint(files: list[str], variables: dict[str, str]) -> dict[str, list[str]]:
    """What xmllint says of each document, of many in a run."""
    said: dict[str, list[str]] = {file: [] for file in files}
    for at in range(0, len(files), 100):
        told = subprocess.run(["xmllint", "--noout", "--nonet", "--valid", *files[at:at + 100]], capture_output=True, env=variables, check=False, timeout=SECONDS)
        for line in told.stderr.decode(errors="replace").splitlines():
            name = re.match(r"(.*?\.xml):\d+: ", line)
            if name and name[1] in said:
                said[name[1]].append(line)
            elif line.startswith(("I/O error", "warning: failed to load")):
                pass
    return said


def agree(trial: Expecting, row: dict[str, object], lines: list[str], is_there: bool) -> None:
    """One row against what xmllint says."""
    verdict, path = row["verdict"], row["path"]
    # DocBook has an element called warning.
    errors = [it for it in lines if " warning : " not in it]
    is_whole = not any("parser error" in it or "I/O" in it for it in errors)
    if verdict in ("valid", "possible", "impossible") and is_whole:
        elements = [it for it in errors if ELEMENTS.search(it)]
        trial.expect("elements, as xmllint says", (verdict == "valid") == (not elements), (row, lines[:5]))
        if row.get("attributes"):
            trial.expect("all of it, as xmllint says", (verdict == "valid" and row["attributes"] == "valid") == (not errors), (row, lines[:5]))
    elif verdict in ("valid", "possible", "impossible"):
        trial.expect("an entity that isn't declared, which is taken for text", any("Entity" in it for it in errors), (row, lines[:5]))
    elif verdict == "refused":
        sentence = str(row["sentence"])
        is_known = bool(errors) or not is_there or any(it in sentence for it in ("xmllint --", "UTF-", "at most"))
        trial.expect("what is refused, xmllint refuses, or the sentence has what converts it", is_known, (row, lines[:5]))
    else:
        trial.expect("no DTD", verdict == "no-dtd" and bool(row["sentence"]), (path, row, lines[:5]))


def main() -> int:
    program, count, seed = os.path.abspath(sys.argv[1]), int(sys.argv[2]), int(sys.argv[3])
    lacking = [it for it in NEEDED if not os.path.exists(it)] + ["xmllint"] * (not shutil.which("xmllint")) + ["lxml"] * (python_with_lxml() is None)
    if lacking:
        print(f"skipped: a mixed folder (no {lacking[0]})")
        return 0
    trial, variables = Expecting(), {**os.environ, "XML_CATALOG_FILES": CATALOGS}
    with tempfile.TemporaryDirectory(prefix="pvtag-trial-") as name:
        folder = Path(name) / "mixed"
        folder.mkdir()
        kinds = write_all(folder, count, random.Random(seed))
        words = [sys.executable, str(TOP / "clients/report"), "--program", program, "--by-doctype", "--quiet", str(folder)]
        began = time.monotonic()
        told = subprocess.run(words, capture_output=True, env=variables, check=False, timeout=SECONDS)
        took = time.monotonic() - began
        rows = [row for row in map(json.loads, told.stdout.splitlines()) if "path" in row and "verdict" in row]
        trial.expect("the report ends", told.returncode in (0, 1) and not told.stderr, (told.returncode, told.stderr[-400:]))
        trial.expect("a row for each document", len(rows) == sum(kinds.values()), (len(rows), kinds))
        began = time.monotonic()
        said = by_xmllint([str(row["path"]) for row in rows], variables)
        beside = time.monotonic() - began
        for row in rows:
            agree(trial, row, said[row["path"]], os.path.getsize(row["path"]) > 0)
        verdicts = Counter(row["verdict"] for row in rows)
        trial.expect("of each verdict", count < 50 or all(verdicts[it] for it in ("valid", "possible", "impossible", "refused", "no-dtd")), verdicts)
    print(", ".join(f"{number} {it}" for it, number in sorted(kinds.items())) + ": " + ", ".join(f"{number} {it}" for it, number in sorted(verdicts.items())))
    print(f"the report took {took:.1f} s, and xmllint, a hundred in a run, {beside:.1f} s")
    return trial.ended()


if __name__ == "__main__":
    sys.exit(main())
