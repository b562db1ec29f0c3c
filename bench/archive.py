"""Times reports on many documents beside xmllint, and weighs them. Words: the repository's folder, how many documents, how many bytes each has, and
how many small ones the memory is told of.

The documents are valid letters under examples/letter.dtd and, where it is installed with lxml, sections under DocBook, made plain by tools/flatten.
Judged are they by `clients/report`, by the same again with nothing changed, by a `pvmany` for each processor, by the program with `xargs -n1`, and by
`xmllint --noout --dtdvalid` with `xargs -n1` and `-n50`, by the same DTD and by DocBook as it is published, each with as many at a time as there are
processors, in turn and three times. Told are the least processor time of a document with its documents a second, and which part that is of xmllint's,
fifty documents a call, and of `pvmany`'s; beside them a report on one document, whose time is that of a start, and what reading the documents and their
SHA-256 take in Python. Then what a draft under DocBook takes of which every tenth pair of tags is removed, or in which little more than lists and words
is tagged: one `pvmany` for all, a report, and the program for each. Then the memory at the peak of a report on a hundredth and a tenth of the small documents, of 1 kB, and on all of them.
With `--write` the tables are put into docs/SPEED.md. Nothing else is to run meanwhile.
"""
import hashlib
import os
import random
import resource
import shutil
import subprocess
import sys
import tempfile
import time
from collections.abc import Iterator
from concurrent.futures import ThreadPoolExecutor
from pathlib import Path
from typing import NamedTuple

import large
from check import without_tags
from page import put
from timing import TIME, program_of, told_time

TOP = Path(__file__).resolve().parent.parent
LETTER = TOP / "examples" / "letter.dtd"
PARAGRAPH = "<p>I have met <person>Mr Adams</person> in <place>Delft</place> on <date>3 May 1764</date>, who sends his regards to all.</p>\n"
PROCESSORS = len(os.sched_getaffinity(0))
# So many drafts, of so many bytes, go through one process.
DRAFTS, DRAFT_BYTES = 1_000, 10_000
# In tables: what has an aim, and what others are told as parts of.
REPORT, MANY, PEER = "`clients/report`", "`pvmany check`", "`xmllint`, fifty a call"
# The part of `pvmany`'s processor time that is aimed at for a report.
REPORT_AIM = 1.5
ROUNDS = 3


class Kind(NamedTuple):
    """Documents: what they are, their DTD, its root, one of them, the part of xmllint's time that is aimed at, if one is, and the DTD as it is
    published, where that is another."""
    title: str
    dtd: Path
    root: str
    text: str
    aim: float | None = None
    published: str | None = None


class Took(NamedTuple):
    """The seconds that passed, and those of processors."""
    passed: float
    used: float


class Run(NamedTuple):
    """The words of a command, and its input."""
    words: list[str]
    given: bytes = b""


def letter(size: int) -> str:
    """A letter of about so many bytes."""
    front, end = "<letter><opener><salute>Dear brother,</salute></opener>\n<body>", "</body><closer>Yours, Anna</closer></letter>\n"
    return front + PARAGRAPH * max(1, (size - len(front) - len(end)) // len(PARAGRAPH)) + end


def docbook(folder: Path) -> Path | None:
    """DocBook, made plain."""
    python = large.tests.python_with_lxml()
    if not python or not os.path.exists(large.tests.MANUALS):
        print("skipped: documents under DocBook (no docbook-xml, or no lxml)")
        return None
    os.environ["XML_CATALOG_FILES"] = large.tests.CATALOGS
    flat = folder / "docbook.dtd"
    flat.write_text(large.tests.run(python, large.tests.TOOL, large.tests.MANUALS).stdout)
    return flat


def kinds(size: int, flat: Path | None) -> Iterator[Kind]:
    """The kinds of documents, of about so many bytes each."""
    yield Kind("letters", LETTER, "letter", letter(size), 0.5)
    if flat:
        yield Kind("sections under DocBook", flat, large.DOCBOOK.root, large.text_of(large.DOCBOOK, size) + "\n", 0.3, large.tests.MANUALS)


def write_documents(folder: Path, texts: Iterator[str], count: int) -> list[Path]:
    """So many documents, each another one by its number."""
    files = [folder / f"{number // 1000:03}" / f"{number:06}.xml" for number in range(count)]
    for number, file in enumerate(files):
        file.parent.mkdir(parents=True, exist_ok=True)
        file.write_text(f"{next(texts)}<!-- {number} -->\n")
    return files


def alike(text: str) -> Iterator[str]:
    while True:
        yield text


def listed(files: list[Path]) -> bytes:
    return b"".join(os.fsencode(file) + b"\0" for file in files)


def took(*runs: Run) -> Took:
    """What these runs take side by side, whatever their statuses are."""
    start, before = time.monotonic(), resource.getrusage(resource.RUSAGE_CHILDREN)
    with ThreadPoolExecutor(len(runs)) as pool:
        for ran in [pool.submit(subprocess.run, run.words, input=run.given, stdout=subprocess.DEVNULL, stderr=subprocess.DEVNULL, check=False) for run in runs]:
            ran.result()
    after = resource.getrusage(resource.RUSAGE_CHILDREN)
    return Took(time.monotonic() - start, after.ru_utime + after.ru_stime - before.ru_utime - before.ru_stime)


def report_of(program: str, kind: Kind, texts: Path, out: Path, *more: str) -> list[str]:
    return [sys.executable, str(TOP / "clients" / "report"), "--program", program, "--output", str(out), *more, str(kind.dtd), kind.root, str(texts)]


def summed(files: list[Path]) -> Took:
    """What it takes here to read these files and to add up their bytes."""
    start, before = time.monotonic(), time.process_time()
    for file in files:
        hashlib.sha256(file.read_bytes()).hexdigest()
    return Took(time.monotonic() - start, time.process_time() - before)


class Judging(NamedTuple):
    """What judges documents: how many it judges, and its runs; without any, Python reads them and adds up their bytes."""
    title: str
    judged: int
    runs: list[Run]


def many_of(program: str) -> str | None:
    """The program for many documents, if it is built beside the other."""
    many = Path(program).with_name("pvmany")
    return str(many) if many.is_file() else None


def by_xargs(words: list[str], files: list[Path], each: int) -> Run:
    return Run(["xargs", "-0", "-P", str(PROCESSORS), "-n", str(each), *words], listed(files))


def shares_of(words: list[str], files: list[Path]) -> list[Run]:
    """A run for each processor, as a report has them."""
    return [Run(words, listed(files[at::PROCESSORS])) for at in range(min(PROCESSORS, len(files)))]


def runs_of(program: str, kind: Kind, folder: Path, files: list[Path]) -> Iterator[Judging]:
    """What judges the documents; what takes long for each, a tenth of them."""
    texts, out, few = folder / "texts", folder / "report", files[: max(len(files) // 10, 1)]
    yield Judging(REPORT, len(files), [Run(report_of(program, kind, texts, out))])
    yield Judging("the same again", len(files), [Run(report_of(program, kind, texts, out, "--since", str(out)))])
    yield Judging("a report on one of them", 1, [Run(report_of(program, kind, files[0], folder / "one"))])
    yield Judging("reading and SHA-256 alone, in Python", len(files), [])
    many = many_of(program)
    if many:
        yield Judging(MANY, len(files), shares_of([many, "check", str(kind.dtd), kind.root], files))
    yield Judging("`pvtag check` by `xargs`", len(few), [by_xargs([program, "check", str(kind.dtd), kind.root], few, 1)])
    if shutil.which("xmllint"):
        lint = ["xmllint", "--nonet", "--noout", "--dtdvalid"]
        yield Judging(PEER, len(files), [by_xargs([*lint, str(kind.dtd)], files, 50)])
        yield Judging("`xmllint`, one a call", len(few), [by_xargs([*lint, str(kind.dtd)], few, 1)])
        if kind.published:
            yield Judging("`xmllint`, the DTD as published, fifty a call", len(few), [by_xargs([*lint, kind.published], few, 50)])


def part_of(used: float, peer: float | None, aim: float | None = None) -> str:
    return "" if peer is None else f"{used / peer:.2f}" + (f" ({aim})" if aim else "")


def tables(program: str, count: int, size: int, flat: Path | None) -> Iterator[str]:
    """A table of rates for each kind."""
    for kind in kinds(size, flat):
        with tempfile.TemporaryDirectory(prefix="pvtag-archive-") as made:
            folder = Path(made)
            files = write_documents(folder / "texts", alike(kind.text), count)
            judgings = list(runs_of(program, kind, folder, files))
            found = dict[str, list[Took]]()
            for _ in range(ROUNDS):
                for it in judgings:
                    found.setdefault(it.title, []).append(took(*it.runs) if it.runs else summed(files))
        least = {it.title: min(told.used for told in found[it.title]) / it.judged for it in judgings}
        yield from (f"{count:,} {kind.title}, of {len(kind.text) / 1000:.0f} kB each:", "",
                    "| Judged by | Documents a second | Processor time of a document | Part of `xmllint`'s | Part of `pvmany`'s |", "|---|---|---|---|---|")
        for title, judged, _ in judgings:
            used, passed = least[title], min(it.passed for it in found[title])
            cells = (part_of(used, least.get(PEER), kind.aim if title == MANY else None), part_of(used, least.get(MANY), REPORT_AIM if title == REPORT else None))
            yield f"| {title} | {judged / passed:,.0f} | {told_time(used)} | {' | '.join(cells)} |"
        yield ""


def drafts(program: str, flat: Path | None) -> Iterator[str]:
    """A table of what drafts under DocBook take."""
    many = many_of(program)
    if not (many and flat):
        return
    random.seed(1)
    texts = {"every tenth pair of tags is removed": (alike(without_tags(large.text_of(large.DOCBOOK, DRAFT_BYTES))), " (2 ms)", " (10 ms)"),
             "little more than lists and words is tagged": (iter(lambda: large.few_tags(large.DOCBOOK, DRAFT_BYTES), None), "", "")}
    kind = Kind("drafts", flat, large.DOCBOOK.root, "")
    words = [str(flat), kind.root]
    yield from (f"A draft under DocBook, of {DRAFT_BYTES / 1000:.0f} kB, of {DRAFTS:,}; a report with its part of what `pvmany` takes, one for each processor, with `--need` for both:", "",
                "| Draft | `pvmany check` | a report | `pvmany need` | a report with `--need` | `pvtag check` | `pvtag session`, `need` |", "|---|---|---|---|---|---|---|")
    for title, (made, checked, needed) in texts.items():
        with tempfile.TemporaryDirectory(prefix="pvtag-archive-") as folder:
            files = write_documents(Path(folder) / "texts", made, DRAFTS)
            few, out = files[: DRAFTS // 20], Path(folder) / "report"
            check, need = [many, "check", *words], [many, "need", *words]
            report = report_of(program, kind, Path(folder) / "texts", out)
            report_need = report_of(program, kind, Path(folder) / "texts", out, "--need")
            runs = [[Run(check, listed(files))], shares_of(check, files), [Run(report)], [Run(need, listed(files))], shares_of(need, files), [Run(report_need)]]
            used = [min(each) / len(files) for each in zip(*([took(*run).used for run in runs] for _ in range(ROUNDS)))]
            cells = [told_time(used[0]) + checked, f"{told_time(used[2])}, {part_of(used[2], used[1], REPORT_AIM)}",
                     told_time(used[3]) + needed, f"{told_time(used[5])}, {part_of(used[5], used[1] + used[4], REPORT_AIM)}",
                     told_time(sum(took(Run([program, "check", *words, str(file)])).used for file in few) / len(few)),
                     told_time(sum(took(Run([program, "session", *words, str(file)], b"need\n")).used for file in few) / len(few))]
        yield f"| {title} | {' | '.join(cells)} |"
    yield ""


def memory(program: str, count: int) -> Iterator[str]:
    """A table of the memory of reports on small documents."""
    kind = Kind("letters", LETTER, "letter", letter(1_000))
    yield from ("| Small documents | Memory of the report at the peak |", "|---|---|")
    with tempfile.TemporaryDirectory(prefix="pvtag-archive-") as folder:
        for part in (count // 100, count // 10, count):
            texts, out, told = Path(folder) / f"texts-{part}", Path(folder) / f"report-{part}", Path(folder) / "told"
            write_documents(texts, alike(kind.text), part)
            took(Run([TIME, "-f", "%M", "-o", str(told), *report_of(program, kind, texts, out)]))
            yield f"| {part:,} | {int(told.read_text().split()[-1]) / 1000:.0f} MB |"


def main() -> None:
    count, size, small = (int(word.replace(",", "")) for word in sys.argv[2:5])
    program, load = program_of(str(TOP)), os.getloadavg()[0]
    lines = [f"On {PROCESSORS} processors under a load of {load:.0f}. A number in brackets is an aim.", ""]
    with tempfile.TemporaryDirectory(prefix="pvtag-archive-") as folder:
        flat = docbook(Path(folder))
        for part in (tables(program, count, size, flat), drafts(program, flat), memory(program, small) if os.path.exists(TIME) else iter(())):
            for line in part:
                lines.append(line)
                print(line, flush=True)
    if "--write" in sys.argv:
        put(str(TOP), "bench/run archive", lines)


if __name__ == "__main__":
    main()
