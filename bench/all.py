"""Measures what the program does, all together, and prints one table.

Words: the repository's folder, how many rounds, the most seconds, and `--write`, which puts the table into docs/SPEED.md.

A row is one measure at a size N and at 10 N. Told are the least processor times of the rounds, the exponent by which the time grows, which
is the logarithm to base 10 of their ratio, and what part it is, at 10 N, of the time of a peer: another program where it is installed, or
a command that does a part of the work. In brackets stands what is aimed at. Of a line of a session the time is the difference between a
session with many such lines and one with none. In a round each run is made once, those of a row one after another; a run that several
rows tell is made once. Behind the most seconds, which count from the start, no round begins, and in the first one no run; a run ends after
a minute.

The variable PVTAG names another build of the program, and BEFORE one that is measured beside it, in each row.
"""
import math
import os
import random
import shutil
import sys
import tempfile
import time
from typing import NamedTuple

import cached
import deny
import dtds
import models
import need
import offer
import standoff
from check import without_tags
from document import ATTRIBUTES
from page import put
from timing import made, program_of, run, told_time, written

LINEAR, FLAT = 1.1, 0.1
LINES = 200_000


class Work(NamedTuple):
    """A run of a program: its words, its input, and the status with which it is to end."""
    words: tuple
    given: bytes = b""
    status: int = 0


class Taken(NamedTuple):
    """What is measured: a run, or a line of one, of which there are so many; the run without them is taken off."""
    work: Work
    lines: int = 0

    def runs(self):
        return [self.work, self.work._replace(given=b"")] if self.lines else [self.work]

    def seconds(self, best):
        whole, *rest = (best[it] for it in self.runs())
        return max((whole - rest[0]) / self.lines, 1e-9) if rest else whole

    def by(self, program, other):
        """The same by another build of the program."""
        words = tuple(other if it == program else it for it in self.work.words)
        return self._replace(work=self.work._replace(words=words))


class Row(NamedTuple):
    """A measure at N and at 10 N, and its peers at 10 N, each with the ratio that is aimed at. Of the exponent, and of the seconds at 10 N,
    the greatest are told that are aimed at. What isn't aimed at is none."""
    title: str
    sizes: str
    taken: tuple
    beside: dict
    growth: float = None
    most: float = None

    def runs(self):
        return [it for taken in (*self.taken, *(peer for peer, _ in self.beside.values())) for it in taken.runs()]


class Made(NamedTuple):
    """The program, the folder for files, and the DTD of the articles, with attributes for the parsers that ask for them."""
    program: str
    folder: str
    article: str

    def file(self, name, text):
        return written(f"{self.folder}/{name}", text)

    def run(self, command, dtd, root, *files, given=b"", status=0):
        return Taken(Work((self.program, command, dtd, root, *files), given, status))

    def session(self, dtd, root, doc, line, times):
        """A line of a session, or several, so often."""
        work = Work((self.program, "session", dtd, root, doc), (line * times).encode())
        return Taken(work, line.count("\n") * times)


def parsers(dtd, doc, aims):
    """What validates the document by this DTD, and what reads it alone, as far as they are installed."""
    words = {"`xmllint`": ("xmllint", "--noout", "--dtdvalid", dtd, doc), "`xmlwf`": ("xmlwf", doc)}
    return {name: (Taken(Work(it)), aims.get(name)) for name, it in words.items() if shutil.which(it[0])}


def both(make, *sizes):
    return tuple(make(size) for size in sizes)


def of_documents(at):
    """`valid`, `check`, and the opening of a session, on documents of 1.8 and 18 MB."""
    sizes = (1_800_000, 18_000_000)
    told = "1.8, 18 MB"
    kinds = {"nodes": "small nodes", "texts": "long texts", "wide": "a wide list", "marked": "attributes, references"}
    docs = {kind: both(lambda size: made(kind, size, f"{at.folder}/{kind}.{size}"), *sizes) for kind in kinds}
    aims = {"`xmllint`": 0.25, "`xmlwf`": 1}
    for kind, title in kinds.items():
        beside = parsers(at.article, docs[kind][1], aims if kind == "nodes" else {})
        yield Row(f"`valid`, {title}", told, both(lambda doc: at.run("valid", at.article, "doc", doc), *docs[kind]), beside, LINEAR)
    check = both(lambda doc: at.run("check", at.article, "doc", doc), *docs["nodes"])
    yield Row("`check`, small nodes", told, check, parsers(at.article, docs["nodes"][1], {"`xmllint`": 1}), LINEAR)
    tagless = both(lambda doc: at.file(f"{os.path.basename(doc)}.tagless", without_tags(open(doc).read())), *docs["nodes"])
    possible = both(lambda doc: at.run("check", at.article, "doc", doc), *tagless)
    yield Row("`check`, each tenth pair of tags missing", told, possible, {"`check`, whole": (check[1], 1.3)}, LINEAR)
    opened = both(lambda doc: at.run("session", at.article, "doc", doc), *docs["nodes"])
    yield Row("a session's opening", told, opened, {"`check`": (check[1], 1.1)}, LINEAR)
    yield from denials(at, told, docs["nodes"])


def denials(at, told, docs):
    """`why` and `deny`, on documents that a head after their sections makes impossible."""
    ends = both(lambda doc: at.file(f"{os.path.basename(doc)}.head", deny.after_all(open(doc).read())), *docs)
    check = at.run("check", at.article, "doc", ends[1], status=1)
    why = both(lambda doc: at.run("why", at.article, "doc", doc), *ends)
    tables = both(lambda taken: printed(taken, f"{taken.work.words[-1]}.den"), *why)
    denied = tuple(at.run("deny", at.article, "doc", *files) for files in zip(ends, tables))
    yield Row("`why`", told, why, {"`check`": (check, 1.2)}, LINEAR)
    yield Row("`deny`", told, denied, {"`why`": (why[1], 1)}, LINEAR)


def printed(taken, path):
    """Writes what a run prints to a file, and gives its path."""
    with open(path, "wb") as file:
        file.write(run(taken.work.words, taken.work.given, keep=True, weigh=False).output)
    return path


def of_missing(at):
    """`need`, `complete` and `verify`, on short lists and on one long list."""
    for title, told, make, sizes, growth, most in (
        ("short lists", "2,000, 20,000 lists", need.short_lists, (2_000, 20_000), LINEAR, None),
        ("one list", "100, 1,000 tokens", need.one_list, (100, 1_000), None, 0.1),
    ):
        docs = both(lambda size: at.file(f"need.{size}", make(size)), *sizes)
        check, opened = (at.run(command, at.article, "doc", docs[1]) for command in ("check", "session"))
        asked = both(lambda doc: at.run("session", at.article, "doc", doc, given=b"need\n"), *docs)
        complete = both(lambda doc: at.run("complete", at.article, "doc", doc), *docs)
        packs = both(lambda taken: printed(taken, f"{taken.work.words[-1]}.pack"), *complete)
        verify = tuple(at.run("verify", at.article, "doc", *files) for files in zip(docs, packs))
        beside = {"`check`": (check, 1.5 if growth else None), "the opening": (opened, None)}
        yield Row(f"`need`, {title}", told, asked, beside, growth, most)
        yield Row(f"`complete`, {title}", told, complete, {"`need`": (asked[1], None)}, growth)
        yield Row(f"`verify`, {title}", told, verify, {"`complete`": (complete[1], 1)}, growth)


def of_ranges(at):
    """`standoff`, of 100,000 and 1,000,000 ranges, beside `check` of the document that they make."""
    folders = both(lambda groups: f"{at.folder}/{groups}", 25_000, 250_000)
    for folder, groups in zip(folders, (25_000, 250_000)):
        os.mkdir(folder)
        standoff.material(random.Random(1), folder, groups)
    dtd = f"{folders[1]}/dtd"
    check = at.run("check", dtd, "doc", standoff.nested(at.program, folders[1]))
    for order in ("sorted", "shuffled"):
        taken = both(lambda folder: at.run("standoff", dtd, "doc", f"{folder}/text", f"{folder}/{order}"), *folders)
        yield Row(f"`standoff`, {order}", "100,000, 1,000,000 ranges", taken, {"`check`": (check, 2)}, LINEAR)


def of_edits(at):
    """An edit and an offer, deep in a document and in a long list."""
    dtd, told = at.file("cached.dtd", cached.DTD), "100,000, 1,000,000 nodes"
    docs = both(lambda sections: at.file(f"cached.{sections}", cached.document(sections)), 1_000, 10_000)
    for title, lines in (("an edit", cached.MOVES["an edit"]), ("a refused edit", cached.MOVES["a refused edit"])):
        line = "".join(f"{it}\n" for it in lines)
        taken = both(lambda doc: at.session(dtd, "r", doc, line, LINES // 2), *docs)
        yield Row(f"{title}, by the document", told, taken, {}, FLAT)
    taken = both(lambda doc: at.session(dtd, "r", doc, "offer 0.3.5 0 1\n", LINES // 20), *docs)
    yield Row("`offer`, by the document", told, taken, {}, FLAT)
    kids = (2_000, 20_000)
    docs = both(lambda count: at.file(f"kids.{count}", f"<r><s>{'<p>x</p>' * count}</s></r>"), *kids)
    taken = tuple(at.session(dtd, "r", doc, "insert 0.0 0 p\nundo\n", 2_000_000 // count) for doc, count in zip(docs, kids))
    yield Row("an edit, by the list", "2,000, 20,000 kids", taken, {}, LINEAR)
    yield from offers(at)


def offers(at):
    """An offer in a list of any of the names: of 100 names by the list's kids, and in a list of 20 kids by the names."""
    def taken(names, kids, times):
        dtd = at.file(f"offer.{names}.dtd", offer.free_dtd(names))
        doc = at.file(f"offer.{kids}.xml", f"<root>{'<n0/>' * kids}</root>")
        return at.session(dtd, "root", doc, f"offer 0 {kids // 2} {kids // 2 + 1}\n", times)

    yield Row("`offer`, by the list", "100, 1,000 kids", (taken(100, 100, 500), taken(100, 1_000, 50)), {}, LINEAR)
    yield Row("`offer`, by the names", "10, 100 names", (taken(10, 20, 5_000), taken(100, 20, 500)), {}, LINEAR)


def of_models(at):
    """`valid` under large content models: many short lists, beside the same in ANY elements, and a list whose kids may stand anywhere."""
    free = at.file("models.any.dtd", models.dtd_of_lists("ANY", models.DECLARED))
    for number, shape in enumerate(models.short_lists()):
        dtd = at.file(f"models.{number}.dtd", models.dtd_of_lists(shape.model, shape.declared))
        sizes = (shape.count, 10 * shape.count)
        docs = both(lambda count: at.file(f"models.{number}.{count}", models.lists(shape.kids, count)), *sizes)
        taken = both(lambda doc: at.run("valid", dtd, "doc", doc), *docs)
        beside = {"ANY": (at.run("valid", free, "doc", docs[1]), 2 if shape.count == models.LENGTH else None)}
        yield Row(f"`valid`, {shape.title}", "{:,}, {:,} lists".format(*sizes), taken, beside, LINEAR)
    dtd = at.file("models.wide.dtd", models.dtd_of_lists(models.optional("a0", models.OPTIONAL), 1))
    docs = both(lambda kids: at.file(f"models.wide.{kids}", models.lists("<a0/>" * kids, 1)), 100, 1_000)
    taken = both(lambda doc: at.run("valid", dtd, "doc", doc), *docs)
    yield Row("`valid`, one list, a0? 32,701 times", "100, 1,000 kids", taken, {}, LINEAR)


def of_others(at):
    """A drill, and the reading of a DTD."""
    yield Row("`drill`", "2,000, 20,000", both(lambda size: Taken(Work((at.program, "drill", str(size)))), 2_000, 20_000), {}, LINEAR)
    for title, form in ("a chain", dtds.chain), ("a choice of a chain", dtds.chosen):
        files = both(lambda count, form=form: at.file(f"{form.__name__}.{count}.dtd", form(count)), 400, dtds.TYPES)
        yield Row(f"`dtd`, {title}", "400, 4,096 names", both(lambda path: Taken(Work((at.program, "dtd", path))), *files), {}, LINEAR)


def measured(runs, rounds, late):
    """The least processor seconds of each run up to this time, the status of those that failed, and how many rounds there were."""
    best, failed = {}, {}
    for round_ in range(rounds):
        for work in runs:
            if time.monotonic() >= late and (round_ == 0 or work == runs[0]):
                return best, failed, round_
            if work not in failed:
                ran = run(work.words, work.given, weigh=False, most=60)
                best[work] = min(best.get(work, math.inf), ran.seconds)
                if ran.status != work.status:
                    failed[work] = ran.status
    return best, failed, rounds


def aimed(value, aim):
    return value if aim is None else f"{value} ({aim:g})"


def cells(row, best, failed):
    """A row of the table."""
    lost = [it for it in row.runs() if it not in best or it in failed]
    for it in (it for taken in row.taken for it in taken.runs() if it in lost):
        why = f"status {failed[it]}" if it in failed else "no time"
        return [row.title, row.sizes, f"not measured: {why}", "", ""]
    small, large = (taken.seconds(best) for taken in row.taken)
    peers = [(name, peer.seconds(best), aim) for name, (peer, aim) in row.beside.items() if not any(it in lost for it in peer.runs())]
    beside = ", ".join(f"{aimed(f'{large / seconds:.2f}', aim)} of {name}" for name, seconds, aim in peers)
    took = aimed(f"{told_time(small)}, {told_time(large)}", row.most)
    return [row.title, row.sizes, took, aimed(f"{math.log10(large / small):.2f}", row.growth), beside]


def table(rows, best, failed):
    heads = ["Measure", "N, 10 N", "Took", "Exponent", "Part of a peer's time"]
    lines = ["| " + " | ".join(line) + " |" for line in (heads, *(cells(row, best, failed) for row in rows))]
    return [lines[0], "|---|---|---|---|---|", *lines[1:]]


def main():
    words = [it for it in sys.argv[1:] if it != "--write"]
    top, rounds, late = words[0], int(words[1]), time.monotonic() + float(words[2])
    program, other = program_of(top), os.environ.get("BEFORE")
    with tempfile.TemporaryDirectory() as folder:
        article = written(f"{folder}/article.dtd", open(f"{top}/examples/article.dtd").read() + ATTRIBUTES)
        at = Made(program, folder, article)
        rows = [row for part in (of_documents, of_missing, of_ranges, of_edits, of_models, of_others) for row in part(at)]
        if other:
            for row in rows:
                row.beside["before"] = row.taken[1].by(program, os.path.abspath(other)), None
        runs = list(dict.fromkeys(it for row in rows for it in row.runs()))
        load = os.getloadavg()[0]
        best, failed, done = measured(runs, rounds, late)
    for tool in ("xmllint", "xmlwf"):
        if not shutil.which(tool):
            print(f"skipped: {tool} (not installed)")
    machine = f"{os.cpu_count()} processors under a load of {load:.0f} to {os.getloadavg()[0]:.0f}"
    lines = [f"The best of {max(done, 1)} rounds, on {machine}.", "", *table(rows, best, failed)]
    print(*lines, sep="\n")
    if "--write" in sys.argv:
        put(top, "bench/run all", lines)


if __name__ == "__main__":
    main()
