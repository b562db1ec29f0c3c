"""Tries `clients/standoff` and `clients/mark` on what taggers write: ranges in lines, columns and JSON, with offsets in characters, UTF-16 and bytes.

Words: PROGRAM ROUNDS SEED. Random ranges on random texts and marked documents: what `standoff` makes has the text and the ranges, as a parser reads it;
what `mark` puts in, and what it leaves out as crossing a tag, is by a model that knows spans alone. Then known files and what is said of them. The last
line tells how many passed.
"""
import json
import os
import random
import subprocess
import sys
import tempfile
from collections import Counter
from pathlib import Path
from xml.etree import ElementTree

from lib.counting import Expecting
from lib.waiting import PATIENCE

TOP = Path(__file__).resolve().parent.parent
NAMES = ("a", "b", "c")
DTD = "".join(f"<!ELEMENT {name} (#PCDATA|{'|'.join(NAMES)})*>" for name in ("r", *NAMES))
CHARACTERS = "ab &<>\n\xe9\u4e00\U0001f600"
KINDS = {"characters": len, "bytes": lambda text: len(text.encode()), "utf-16": lambda text: len(text.encode("utf-16-le")) // 2}
Span = tuple[int, int, str]


def spans_of(document: str) -> tuple[str, list[Span]]:
    """The text of a document, and its elements but the root, by a parser."""
    text, spans = [""], []

    def read(element: ElementTree.Element, is_root: bool = False) -> None:
        start = len(text[0])
        text[0] += element.text or ""
        for kid in element:
            read(kid)
            text[0] += kid.tail or ""
        if not is_root:
            spans.append((start, len(text[0]), element.tag))

    read(ElementTree.fromstring(document), True)
    return text[0], spans


def crosses(one: Span, other: Span) -> bool:
    return one[0] < other[0] < one[1] < other[1] or other[0] < one[0] < other[1] < one[1]


def escaped(text: str) -> str:
    return text.replace("&", "&amp;").replace("<", "&lt;").replace(">", "&gt;")


def marked(text: str, rest: random.Random, depth: int = 0) -> str:
    """A text with tags round parts of it, comments, references and CDATA sections."""
    if depth > 3 or len(text) < 2 or rest.random() < 0.3:
        kinds = (escaped(text), "".join(f"&#{ord(char)};" for char in text), f"<!-- c -->{escaped(text)}")
        return rest.choice(kinds)
    cut = rest.randint(1, len(text) - 1)
    parts = [marked(part, rest, depth + 1) for part in (text[:cut], text[cut:])]
    name = rest.choice(NAMES)
    at = rest.randint(0, 2)
    return "".join(f"<{name}>{part}</{name}>" if number == at else part for number, part in enumerate(parts))


class Trial(Expecting):
    def __init__(self, program: str, folder: Path) -> None:
        super().__init__()
        self.program, self.folder = program, folder
        (folder / "any.dtd").write_text(DTD)

    def run(self, command: str, *words: str | Path) -> tuple[int, str, str]:
        made = subprocess.run([sys.executable, "-B", str(TOP / "clients" / command), "--program", self.program, *map(str, words)], capture_output=True,
                              timeout=PATIENCE, cwd=self.folder, check=False)
        return made.returncode, made.stdout.decode(), made.stderr.decode()

    def write(self, name: str, text: str) -> Path:
        (self.folder / name).write_bytes(text.encode())
        return self.folder / name


def ranges_file(trial: Trial, text: str, spans: list[Span], kind: str, form: int) -> Path:
    """Spans in a form, by offsets of a kind."""
    rows = [(KINDS[kind](text[:start]), KINDS[kind](text[:end]), name) for start, end, name in spans]
    if form == 0:
        return trial.write("ranges", "".join(f"{start}\t{end}\t{name}\n" for start, end, name in rows))
    if form == 1:
        return trial.write("ranges", "label\tnote\tstart\tend\n" + "".join(f"{name}\tx\t{start}\t{end}\n" for start, end, name in rows))
    objects = [{"end": end, "label": name, "start": start, "score": 0.5} for start, end, name in rows]
    forms = (objects, {"text": text, "ents": objects}, [list(row) for row in rows])
    if form == 5:
        return trial.write("ranges", "".join(json.dumps(it) + "\n" for it in objects))
    return trial.write("ranges", json.dumps(forms[form - 2], ensure_ascii=form == 2, indent=form))


def random_spans(text: str, rest: random.Random, most: int) -> list[Span]:
    return [(*sorted(rest.sample(range(len(text) + 1), 2)), rest.choice(NAMES)) for _ in range(rest.randint(1, most))]


def nested(spans: list[Span]) -> list[Span]:
    """Those that cross none before them."""
    kept: list[Span] = []
    for span in spans:
        if not any(crosses(span, other) for other in kept):
            kept.append(span)
    return kept


def try_standoff(trial: Trial, rest: random.Random) -> None:
    text = "".join(rest.choice(CHARACTERS) for _ in range(rest.randint(2, 40)))
    spans, kind, form = random_spans(text, rest, 6), rest.choice(list(KINDS)), rest.randint(0, 5)
    file, source = ranges_file(trial, text, spans, kind, form), trial.write("text", text)
    told = trial.run("standoff", "any.dtd", "r", source, file, "--offsets", kind, "--output", "made.xml")
    if nested(spans) != spans:
        trial.expect("crossing ranges are told", told[0] == 9 - 6 and "crosses" in told[2], (spans, told))
        return
    trial.expect("ranges nest", told == (0, "valid\n", ""), (text, spans, kind, form, told))
    got, found = spans_of((trial.folder / "made.xml").read_text("utf-8"))
    trial.expect("the text", got == text, (text, got))
    trial.expect("the ranges", sorted(found) == sorted(spans), (spans, found))


def try_mark(trial: Trial, rest: random.Random) -> None:
    text = "".join(rest.choice(CHARACTERS) for _ in range(rest.randint(2, 30)))
    document = f"<r>{marked(text, rest)}</r>"
    got, before = spans_of(document)
    spans, kind = random_spans(text, rest, 4), rest.choice(list(KINDS))
    file, source = ranges_file(trial, text, spans, kind, rest.randint(0, 5)), trial.write("doc.xml", document)
    wanted, left_out = list(before), 0
    for span in sorted(spans, key=lambda it: (it[0], -it[1])):
        if any(crosses(span, other) for other in wanted):
            left_out += 1
        else:
            wanted.append(span)
    status, made, said = trial.run("mark", "any.dtd", "r", source, file, "--offsets", kind)
    trial.expect("what is left out", status == int(left_out > 0) and said.count("crosses a tag") == left_out, (document, spans, status, said))
    after, found = spans_of(made) if made else ("", [])
    trial.expect("the text stays", after == got == text, (document, spans, made, said))
    trial.expect("what is put in", Counter(found) == Counter(wanted), (document, spans, made, said))
    told = trial.run("mark", "any.dtd", "r", source, file, "--offsets", kind, "--all", "--output", "all.xml")
    trial.expect("all or none", told[:2] == (int(left_out > 0), "") and (trial.folder / "all.xml").exists() == (left_out == 0), told)
    (trial.folder / "all.xml").unlink(missing_ok=True)
    status, made, said = trial.run("mark", "any.dtd", "r", source, file, "--offsets", kind, "--cut")
    after, found = spans_of(made) if made else ("", [])
    parts = Counter(found)
    parts.subtract(Counter(before))
    # White space between parts needs no element.
    covered = {(at, name) for (start, end, name), count in parts.items() for at in range(start, end) if count > 0 and not text[at].isspace()}
    wanted_at = {(at, name) for start, end, name in spans for at in range(start, end) if not text[at].isspace()}
    trial.expect("cut at tags", status == 0 and after == text and min(parts.values(), default=0) >= 0 and covered == wanted_at, (document, spans, made, said))


LETTER = ("letter.dtd", "letter", "draft.xml")


def try_known(trial: Trial) -> None:
    """What is said of files, one by one."""
    for name, source in (("letter.dtd", "letter.dtd"), ("draft.xml", "letter-draft.xml")):
        trial.write(name, (TOP / "examples" / source).read_text("utf-8"))
    trial.write("plain", "Leiden, 3 May 1764")
    trial.write("two.xml", "<letter><opener><salute>x</salute></opener>\n<body><p>A b</p>\n<p>c d</p></body></letter>")
    trial.write("control", "a\x01")
    (trial.folder / "latin").write_bytes(b"caf\xe9")
    for command, words, rows, status, out, wanted in (
        ("standoff", ("letter.dtd", "lb", "plain"), "0 6 0 place\n", 1, "<lb><place>", "standoff: impossible: `place` stands in `lb`, which holds nothing."),
        ("standoff", ("letter.dtd", "p", "plain"), "0 7 0 place\n6 9 0 date\n", 3, "", "ranges:2: `date` from 6 to 9: it crosses `place` from 0 to 7 (FOLDER/ranges:1), and elements can't cross"),
        ("standoff", ("letter.dtd", "p", "plain"), "0\t9\t1x\n", 3, "", "ranges:1: `1x` from 0 to 9: that is no name of XML"),
        ("standoff", ("letter.dtd", "p", "plain"), "0\t99\tdate\n", 3, "", "ranges:1: `date` from 0 to 99: it doesn't begin and end at characters of the text, which ends at 18"),
        ("standoff", ("letter.dtd", "p", "plain"), "3\t3\tdate\n", 3, "", "ranges:1: `date` from 3 to 3: it is empty"),
        ("standoff", ("letter.dtd", "p", "plain"), "3\tx\tdate\n", 3, "", "ranges:1: end is no offset: 'x'"),
        ("standoff", ("letter.dtd", "p", "plain"), "nothing\n", 3, "", "ranges:1: a line is `FROM TO LEVEL NAME`, or has start, end, label with tabs between"),
        ("standoff", ("letter.dtd", "p", "plain"), "[1,", 3, "", "ranges:1:4: this is no JSON: Expecting value"),
        ("standoff", ("letter.dtd", "p", "plain"), "[" * 100_000, 3, "", "standoff: FOLDER/ranges: this JSON is nested too deep"),
        ("mark", LETTER, '{"start": 0, "end": 4, "label": "p"}\n{"a": ' + "[" * 100_000, 3, "", "mark: FOLDER/ranges: this JSON is nested too deep"),
        ("standoff", ("letter.dtd", "p", "plain"), '[{"start": 0, "end": ' + "9" * 5000, 3, "", "this JSON has a number with too many digits"),
        ("standoff", ("letter.dtd", "p", "plain"), '{"start": 0, "end": 1, "label": "p"}\n{"start": ' + "9" * 5000, 3, "", "this JSON has a number with too many digits"),
        ("standoff", ("letter.dtd", "p", "plain"), f"0\t{'9' * 5000}\tdate\n", 3, "", "ranges:1: end is above 4,294,967,295"),
        ("mark", LETTER, "0 5 4294967296 date\n", 3, "", "ranges:1: the level is above 4,294,967,295"),
        ("standoff", ("letter.dtd", "p", "plain"), '[{"start": -1, "end": 5, "label": "date"}]', 3, "", "range 1: start is below 0"),
        ("standoff", ("letter.dtd", "p", "plain"), "0\t6\tplace\r\n", 0, "<p><place>Leiden</place>", "standoff: valid"),
        ("standoff", ("letter.dtd", "p", "plain"), '{"text": "\u2028\x85", "start": 0, "end": 6, "label": "place"}\r\n{"start": 8, "end": 18, "label": "date"}\r\n', 0, "<p><place>Leiden</place>",
         "standoff: valid"),
        ("standoff", ("letter.dtd", "p", "plain"), "0\t6\tpla\x0bce\n1\n", 3, "", "ranges:2: a line is `FROM TO LEVEL NAME`"),
        *((client, words, f'[{{"start": 0, "end": 1, "label": "{name}"}}]', 3, "", "ranges, range 1: label is no name: '")
          for client, words in (("standoff", ("letter.dtd", "p", "plain")), ("mark", LETTER)) for name in ("p\\n0 1 0 date", "p\\r", "\\ud800", "a\\u0000")),
        ("standoff", ("letter.dtd", "p", "plain"), '[{"start": 0, "end": 1, "label": "p\\u001b[31m"}]', 3, "", "`p\\u001b[31m` from 0 to 1: that is no name of XML"),
        ("mark", LETTER, '[{"start": 0, "end": 1, "label": "p\\u001b[31m"}]', 1, "<opener>Dear", "`p\\u001b[31m` from 0 to 1: `p\\u001b[31m` is no name of XML"),
        ("mark", LETTER, '[{"start": 0, "end": 1, "label": "a b"}]', 1, "<opener>Dear", "`a b` from 0 to 1: `a b` is no name of XML"),
        ("standoff", ("letter.dtd", "p", "plain"), '[{"begin": 1}]', 3, "", "ranges, range 1: a range has start, end, label"),
        ("standoff", ("letter.dtd", "p", "plain"), '[{"start": 1.5, "end": 2, "label": "date"}]', 3, "", "range 1: start is no offset: 1.5"),
        ("standoff", ("letter.dtd", "p", "control"), "[]", 3, "", "control: character 1 is U+0001, which XML can't hold"),
        ("standoff", ("letter.dtd", "p", "latin"), "[]", 3, "", "latin: a text is UTF-8, and byte 3 isn't"),
        ("standoff", ("letter.dtd", "p", "none"), "[]", 3, "", "none: No such file or directory"),
        ("standoff", ("letter.dtd", "1", "plain"), "[]", 2, "", "these words are no command: ROOT is a name of XML"),
        ("standoff", ("letter.dtd", "letter", "plain"), "[]", 0, "<letter>Leiden", "standoff: possible: 1 list of elements isn't valid yet, and inserting tags can make the document valid"),
        ("mark", LETTER, "0 4 0 closer\n", 1, "<opener>Dear brother", "ranges:1: `closer` from 0 to 4: `opener` can't hold `closer`, and no element between them could."),
        ("mark", LETTER, "5 20 0 p\n", 1, "<opener>Dear brother", "ranges:1: `p` from 5 to 20: it crosses a tag of `opener`\nmark: 1 of 1 ranges are left out"),
        ("mark", LETTER, "25 33 0 1x\n", 1, "<p>I have met Mr", "ranges:1: `1x` from 25 to 33: `1x` is no name of XML"),
        ("mark", LETTER, "25 99 0 p\n", 1, "<p>I have met Mr", "ranges:1: `p` from 25 to 99: it doesn't begin and end at characters of the text, which ends at 43"),
        ("mark", ("--cut", "letter.dtd", "letter", "two.xml"), "3 8 0 person\n", 0, "<p>A<person> b</person></p>\n<p><person>c </person>d</p>", ""),
        ("mark", LETTER, '{"from": 25, "to": 33, "is": "person"}', 0, "<person>Mr Adams</person> in", ""),
        ("mark", ("letter.dtd", "letter", "plain"), "[]", 7, "", "plain:1:1: "),
    ):
        file = trial.write("ranges", rows)
        more = ("--fields", "from,to,is") if "from" in rows else ()
        told = trial.run(command, *words, file, *more)
        shown = wanted.replace("FOLDER", str(trial.folder))
        trial.expect(f"{command} {rows[:200]!r}", told[0] == status and out in told[1] and (shown in told[2] if shown else not told[2]) and "Traceback" not in told[2]
                     and bool(out) == bool(told[1]), told)
    ranges = trial.write("ranges", "25 33 0 person\n")
    entity = trial.write("entity.xml", "<!DOCTYPE letter [<!ENTITY who 'Adams'>]><letter><opener>x</opener><body><p>y &who; z</p></body></letter>")
    told = trial.run("mark", "letter.dtd", "letter", entity, trial.write("ranges", "3 4 0 person\n"))
    trial.expect("an entity is one character", told[0] == 0 and "<p>y <person>&who;</person> z</p>" in told[1] and "<!ENTITY who" in told[1], told)
    told = trial.run("mark", *LETTER, ranges, "--fields", "a,b")
    trial.expect("two fields", told[0] == 2, told)


def main() -> int:
    program, rounds, seed = os.path.abspath(sys.argv[1]), int(sys.argv[2]), int(sys.argv[3])
    with tempfile.TemporaryDirectory(prefix="pvtag-trial-") as folder:
        trial, rest = Trial(program, Path(folder)), random.Random(seed)
        try_known(trial)
        for _ in range(rounds):
            try_standoff(trial, rest)
            try_mark(trial, rest)
    return trial.ended()


if __name__ == "__main__":
    sys.exit(main())
