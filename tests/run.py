"""Runs the checks after the proofs on the built programs, side by side as far as processors go. Arguments: names of checks, all where none are
given; `--list` lists them, and `--table` writes their table into docs/PROVED.md. The last lines say how long each took, and how many tests passed.

A check is a command whose last line of the form `N passed, M failed`, or `NAME: N passed, M failed`, tells what it tried; it is ended after its
seconds with all that it started, and skipped where a tool that it needs is missing. What it prints is shown once it has ended. A check that tries
nothing, and doesn't say why, has failed.
"""
import contextlib
import io
import os
import re
import shutil
import signal
import subprocess
import sys
import tempfile
import threading
import time
from collections.abc import Iterator
from concurrent.futures import FIRST_COMPLETED, Future, ThreadPoolExecutor, wait
from pathlib import Path
from typing import IO, NamedTuple, TypeVar

TOP = Path(__file__).resolve().parent.parent
sys.path.append(str(TOP / "tools"))
sys.dont_write_bytecode = True
from processes import end_all  # noqa: E402

T = TypeVar("T")

COUNT = re.compile(r"^(?:[\w' -]+: )?(\d+) passed, (\d+) failed", re.MULTILINE)
SKIPPED = re.compile(r"^skipped: ", re.MULTILINE)
PAGE = TOP / "docs" / "PROVED.md"
MARKED = re.compile(r"(<!-- tests/run\.py --table -->\n)(.*?)(<!-- end -->)", re.DOTALL)
PROGRAMS = {"PVTAG": "build/pvtag", "PVLONG": "build/pvlong", "PVMANY": "build/pvmany"}


class Check(NamedTuple):
    """A check: its name, which is its file's, what it is in a few words, the tools that it needs, the most seconds, the command, what the table of
    docs/PROVED.md says of it, and the tools that it looks for by itself, and does less without."""
    name: str
    what: str
    tools: list[str]
    seconds: int
    words: list[str]
    tries: str = ""
    further: tuple[str, ...] = ()


def row(name: str, what: str, tools: str, seconds: int, words: str, tries: str = "") -> Check:
    """A check; the tools that it looks for by itself have a plus before them."""
    needed, further = ([it for it in tools.split() if it.startswith("+") == is_further] for is_further in (False, True))
    return Check(name, what, needed, seconds, [PROGRAMS.get(it, it) for it in words.split()], tries or what, tuple(it[1:] for it in further))


# The longest first, so that the last to end isn't one of them. The seconds end what hangs: they are many times what the check takes on a machine that
# is slow and busy.
CHECKS = [
    row("program", "the program as a user runs it", "", 3600, "tests/program.sh",
        "the built program on files, pipes and devices of the machine; the commands that README, `docs/COMMANDS.md`, `docs/HOWTO.md` "
        "and the manual show, with what they print"),
    row("published", "published DTDs against xmllint", "xmllint +lxml +dtds", 3600, "python3 tests/published.py PVTAG 1 300",
        "published DTDs made plain by `tools/flatten`, and real documents against `xmllint` with the original DTDs; that nothing is left of a "
        "`flatten` that was ended"),
    row("annotate", "the page in a browser", "chromium chromedriver +selenium", 3600, "python3 tests/annotate.py PVTAG",
        "the page, by mouse and keyboard: keys at 0 to 300 ms after the mouse while the program is busy, a letter finished from a "
        "plain text, in at most 45 moves and 250 keys too, offers by their costs, refusals with their reasons, typing, attributes, finding, "
        "undo, two windows, a folder of letters, the place that was left, contrasts, a phone's width, 100,000 nodes"),
    row("examples", "the examples in comments of the crates", "rt", 3600, "python3 tests/examples.py",
        "the examples in comments of public items, compiled without proofs; that the tests which they name are there"),
    row("look", "a first look without proofs, against README", "rt", 3600, "tests/look.sh",
        "that `tools/look` shows, without proofs, what README's first session shows"),
    row("failing_allocations", "commands with an allocation failing", "cc", 3600, "python3 tests/failing_allocations.py PVTAG 12000",
        "a session in which an edit of each kind is made, undone and made again, and the other commands, each of whose allocations "
        "fails in turn; of `check`, on lists that one thread judges, and on more that several do, one in 41 and in 1,009 of those "
        "before the last verdicts"),
    row("worst", "worst cases: how time and memory grow", "", 3600, "python3 tests/worst.py PVTAG PVLONG",
        "each command on what a hostile author would try, at a size and at ten times that size: how time and memory grow, and how much "
        "the larger one takes"),
    row("threads", "how many threads do work", "", 3600, "python3 tests/threads.py PVTAG",
        "how many threads of the built program had worked by the time that it waits for a reader or for input, on all processors and "
        "on one"),
    row("limits", "limits on addresses", "", 3600, "python3 tests/limits.py PVTAG",
        "commands on large documents under limits on addresses, as `./pvtag` runs them there: the answer or status 5, and no more than "
        "a few times the processor time"),
    row("inputs", "inputs and files: left alone, missing, named twice", "", 3600, "python3 tests/inputs.py PVTAG",
        "each command with its input open and unread, with files that aren't there, and with one file in several places"),
    row("hostile", "hostile files and failing machines", "", 3600, "python3 tests/hostile.py PVTAG 200",
        "`dtd`, `valid`, `check` and `session` on hostile DTDs, documents and scripts, and on files that change; each command on "
        "endless files, and what is no file, with little memory, and with outputs and inputs that fail"),
    row("packs", "packs against a checker", "", 3600, "python3 tests/packs.py PVTAG 300 1",
        "packs of `complete` for random documents, and hostile ones made from them, with a checker written from `docs/FORMATS.md` "
        "(`tests/check_pack.py`): the program's own are accepted, and their tables are the light weights by the rules; whatever is "
        "accepted is least"),
    row("hostile_packs", "packs that were changed", "", 3600, "python3 tests/hostile_packs.py PVTAG 100 1",
        "`verify` on packs of `complete` and on hostile ones made from them: it answers as `tests/check_pack.py`, and what it accepts "
        "is least, as the search and `need` say; packs at the limits"),
    row("hostile_denials", "denials, and those that were changed", "", 3600, "python3 tests/hostile_denials.py PVTAG 150 1 240",
        "`why` on random documents, against a search and the rules; `deny` on its denials and on hostile ones made from them, with a "
        "judge written from `docs/FORMATS.md` (`tests/check_denial.py`): what is denied the search finds impossible; denials and lists "
        "at the limits"),
    row("against_xmllint", "validity against xmllint", "xmllint", 3600, "python3 tests/against_xmllint.py PVTAG 200 1 120",
        "some thousand random DTDs and documents against `xmllint`"),
    row("drafts", "drafts against xmllint", "xmllint", 3600, "python3 tests/drafts.py PVTAG 60 1 120",
        "documents that `xmllint` finds valid, with pairs of tags removed at random, are always `valid` or `possible`: made ones under "
        "made DTDs and, with `lxml`, published ones, and documents of the machine under these"),
    row("broken_documents", "broken documents against xmllint", "xmllint", 3600, "python3 tests/broken_documents.py PVTAG 2000 1",
        "real documents with bytes cut, doubled, swapped and flipped against `xmllint`"),
    row("against_insertions", "verdicts against a search that inserts", "", 3600, "python3 tests/against_insertions.py PVTAG 850 1",
        "`check` against a search that inserts elements into some ten thousand random documents"),
    row("possible_lists", "verdicts of lists against derivations by spans", "", 3600, "python3 tests/possible_lists.py PVTAG 120 1",
        "`check` on some thousand random lists, under DTDs with many mixed, starred and recursive models, against derivations by spans"),
    row("weights", "weights against derivations", "", 3600, "python3 tests/weights.py PVTAG 200 1 100",
        "`check`, and `verdicts`, `need` and `complete` of sessions, on random documents of many lists, some of more than 16,000 "
        "nodes, under DTDs with many mixed, starred and recursive models, some of 70 names, against derivations by spans with their "
        "costs"),
    row("least_numbers", "least numbers against a search", "", 3600, "python3 tests/least_numbers.py PVTAG 850 1",
        "least numbers of missing elements against the search that inserts elements"),
    row("long", "wide lists: bounds and completions", "", 3600, "python3 tests/long.py PVLONG PVTAG 1 150",
        "`pvlong`: its bounds against `need`, the search that inserts elements and derivations by spans, on small documents; under "
        "DocBook, XHTML, the DTDs of `examples/` and made ones, that what it completes is valid, keeps texts and tags, and has as many "
        "new elements as it prints, and that no more are missing than tags were removed; files in fault"),
    row("many", "many documents by one process", "", 3600, "python3 tests/many.py PVMANY PVTAG 10000 1",
        "`pvmany`: each line against that of `pvtag` for the same document, with every kind of fault among good ones; 10,000 documents "
        "in one process, whose memory stays; names in any pieces, and an answer before more is asked; what is missing in random documents, "
        "each asked twice, against sessions; files, input and output in fault; reports by it, also where it dies or hangs"),
    row("completions", "completions: valid, whole, least", "", 3600, "python3 tests/completions.py PVTAG 400 1 60",
        "`need` and `complete` in sessions: the number against the search that inserts elements; what is shown is valid, also by "
        "`xmllint` where there is one, keeps texts and tags, and has that many elements more"),
    row("cuts", "cuts of texts against a model", "", 3600, "python3 tests/cuts.py PVTAG 40 1",
        "texts cut at every place, and cut and joined at random, against a model that keeps a text as the list of its units"),
    row("report", "reports on documents", "+lxml +xmllint +parallel", 3600, "python3 tests/report.py PVTAG 1 40",
        "`clients/report` on documents of all kinds against `check`: again for what changed, killed, interrupted, in batches; by the "
        "DTDs that documents name, against `xmllint`; kinds for which a run fails; names with control characters in each form, read again; "
        "summaries without names and numbers"),
    row("mixed", "one report over a mixed folder, against xmllint", "xmllint +lxml +dtds", 3600, "python3 tests/mixed.py PVTAG 300 1",
        "one report over a folder of letters, DocBook, XHTML, documents of this machine and broken ones: each row against `xmllint`"),
    row("package", "the package, in a bare root", "", 3600, "python3 tests/package.py PVTAG PVLONG PVMANY",
        "the package that `tools/package` makes, unpacked in a bare root"),
    row("check_by_session", "check against the opening of a session", "", 3600, "python3 tests/check_by_session.py PVTAG 300 1",
        "`check` against the verdicts that a session prints, on random documents, broken ones too, on lists near the width for "
        "verdicts, and on as many tokens of long lists as one thread judges"),
    row("against_a_model", "sessions against a model", "", 3600, "python3 tests/against_a_model.py PVTAG 20000 7",
        "sessions on random documents, impossible ones too, 20,000 lines, against a model of a session"),
    row("remembered", "what a session remembers of weights", "", 3600, "python3 tests/remembered.py PVTAG 1",
        "what a session remembers of the weights of lists: `need` after random edits of a document with 50,000 lists, no two alike, "
        "against a formula and a fresh session; the memory that it adds"),
    row("long_lists", "long lists of sessions against fresh sessions", "", 3600, "python3 tests/long_lists.py PVTAG 54 1 45",
        "sessions on documents with lists of 300 to 2,000 kids, under content models of each kind, under EMPTY and under a name that "
        "isn't declared: after random edits, refused ones too, undo and redo, in one list for a while or back and forth, the verdicts, "
        "offers and replies of a new session, and `check`"),
    row("expansions", "parameter entities against a model", "", 3600, "python3 tests/expansions.py PVTAG 3000 1",
        "parameter entities of some thousand random DTDs, by what `dtd` lists of them, against a model of `docs/FORMATS.md`"),
    row("standoff", "the nesting of ranges against a model", "", 3600, "python3 tests/standoff.py PVTAG 1500 1",
        "`standoff` on random texts and ranges, in two orders: the spans that the library's parser reads off the printed document are "
        "the ranges, its text the text, its verdict that of `check`; refusals by a model"),
    row("schemas", "DTDs that are made of RELAX NG schemas", "trang xmllint", 3600, "python3 tests/schemas.py PVTAG 100 1",
        "a DTD that `trang` makes of a RELAX NG schema: random documents are valid by it as `xmllint --relaxng` says by the schema; "
        "schemas that `trang` refuses, for the reasons that `docs/PUBLISHED.md` lists"),
    row("taggers", "what clients make of taggers' output", "", 3600, "python3 tests/taggers.py PVTAG 100 1",
        "`clients/standoff` and `clients/mark` on random ranges, in lines, columns and JSON, with offsets of each kind, against a model "
        "that knows spans alone; what is said of files that they can't use, deep JSON and numbers of thousands of digits among them"),
    row("client_places", "the places that clients report", "", 3600, "python3 tests/client_places.py PVTAG 100 1",
        "where `clients/pvtag` says that items and nodes of files stand, against the program's numbers, expat and Python's codecs"),
    row("client_files", "what clients say of files in fault", "+xmllint +lxml", 3600, "python3 tests/client_files.py PVTAG 100 1",
        "what clients say of files that the program refuses, and of files that they can't use; other encodings than UTF-8, each converted by "
        "the line that is printed; closed outputs; what is left of a command that was ended, and Ctrl-C while it starts; "
        "`clients/ranges` there and back"),
    row("attributes", "attributes and entities of documents, against xmllint", "xmllint +lxml", 3600, "python3 tests/attributes.py PVTAG 1 120",
        "what clients say of attributes under random DTDs and on changed documents of the machine: valid where `xmllint --valid` says "
        "so, with as many faults; letters that are called valid pass `xmllint --dtdvalid`; documents with internal subsets and "
        "entities come back as they were written, and are judged as with their texts in place"),
    row("reasons", "the reasons of clients, by force", "", 3600, "python3 tests/reasons.py PVTAG 60 1",
        "the kids that `clients/why` names, by force, under random DTDs: they alone are impossible, all proper parts of them possible; "
        "what its sentences say; lists of refused edits"),
    row("reason_drafts", "the reasons of drafts under published DTDs", "xmllint +lxml +dtds", 3600, "python3 tests/reason_drafts.py PVTAG 1 120",
        "the kids that `clients/why` names, and its sentences, for drafts by DocBook and XHTML whose kids were swapped, doubled or "
        "moved; the time for 1,000 kids"),
    row("lsp", "the language server, by a scripted client", "", 3600, "python3 tests/lsp.py PVTAG",
        "what the language server answers a scripted client: each request, positions; the order of names, what repairs a list, what "
        "stays while a tag is half typed"),
    row("lsp_protocol", "the protocol of the language server", "", 3600, "python3 tests/lsp_protocol.py PVTAG",
        "how the language server keeps to the protocol: bad and cancelled requests, bad messages, its life; where DTDs are found; that "
        "no document waits for another one's DTD, and all runs end with it"),
    row("lsp_wraps", "the actions of the language server", "", 3600, "python3 tests/lsp_wraps.py PVTAG 400 1 120",
        "the language server's actions on random selections against a session's `wrap`; what it inserts is least and valid"),
    row("lsp_editors", "the language server in editors", "+nvim +emacs +dtds", 3600, "python3 tests/lsp_editors.py PVTAG 300",
        "the server in both editors, by their own clients"),
    row("annotate_parts", "the parts of the page", "", 3600, "python3 tests/annotate_parts.py PVTAG 1",
        "the parts of the page of `clients/annotate`: its tree against a session after random edits, its verdicts after random moves, its "
        "script cut at each byte, a full disk, moves in which something raises, sessions that die"),
    row("annotate_asks", "what the page asks for, after random moves", "", 3600, "python3 tests/annotate_asks.py PVTAG 1",
        "what the page asks for, after random moves: completions taken over, what tags cost against what the whole document misses, "
        "what is typed, attributes"),
    row("annotate_attributes", "attributes and entities on the page", "xmllint +lxml", 3600, "python3 tests/annotate_attributes.py PVTAG 1",
        "what the page says of attributes: of 200 random letters those that it calls valid pass `xmllint --dtdvalid`, and no others; "
        "documents with entities marked up, saved, opened again and taken back"),
    row("annotate_requests", "the requests of the page", "", 3600, "python3 tests/annotate_requests.py PVTAG",
        "the server of the page: requests of others, a killed server, a killed session, closed windows, files with faults, a document "
        "that another program changed"),
    row("annotate_files", "the files of the page, and moves made again", "", 3600, "python3 tests/annotate_files.py PVTAG 1",
        "the files of the page: moves made again on a changed document, scripts with lines that can't stand there, modes, owners and "
        "links, pipes, a server killed round a Save"),
    row("annotate_letters", "what makes a letter quick on the page", "", 3600, "python3 tests/annotate_letters.py PVTAG",
        "what makes a letter quick on the page: a tag round each line or paragraph; the palette and its file; suggestions of exact "
        "words, for which nothing waits; values of attributes from what has them and from a table of names; comments; other forms of the "
        "document; reasons with first names; that under 60 names the wanted one is among the first five in nine of ten moves, where another "
        "letter lies beside it"),
    row("annotate_drawer", "a folder of documents on the page", "+lxml", 3600, "python3 tests/annotate_drawer.py PVTAG",
        "the list of a folder's documents: each with the verdict that `report` has of it, judged again where it changed; marks in a file "
        "that several write; texts that begin documents; documents that another has open, that changed outside, or were left; "
        "thirty letters, of which the last ten take at most half the moves of the first ten"),
    row("annotate_walk", "a walk through what the page asks for", "", 3600, "python3 tests/annotate_walk.py PVTAG 1",
        "a random walk through what the page asks for, with half surrogates, writes that fail, changes from outside, killed sessions "
        "and servers: what would be saved is what the program shows, and the page's text is that"),
    row("library", "the Python library, as a tool uses it", "+perl", 3600, "python3 tests/library.py PVTAG 100",
        "the Python library as a tool uses it: installed without a network; parts of texts that are wrapped whole or not at all, with "
        "their history; paths of nodes after random edits; threads that share a session; wrong words; the examples in its docstrings; dates "
        "tagged by the examples in Python and Perl"),
    row("wide_clients", "what clients say of wide lists", "", 3600, "python3 tests/wide_clients.py PVTAG PVLONG",
        "what the page, the language server and reports say of a list that is too wide to count, by `pvlong` and by a stand-in for it: "
        "numbers, ranges, nothing; that a move ends what is asked; verdicts on lists that are too wide for a session"),
    row("build", "the build, with a stand-in for the kit", "", 3600, "python3 tests/build.py",
        "`tools/build`, with a stand-in for the kit"),
    row("runner", "the run of these checks", "", 3600, "python3 tests/runner.py",
        "`tests/run.py` itself: what fails, hangs, is skipped or interrupted"),
    row("style", "files by pyflakes and shellcheck, pages by their form", "+cmark +pyflakes3 +shellcheck", 3600, "python3 tests/style.py",
        "nothing of what the program does: that these tools find nothing in Python files and shell scripts; that prose of the pages "
        "keeps to 120 columns, it and the messages of clients to the words of the field, that no list, heading or table comes about "
        "by accident, and that this table is that of `tests/run.py`; that each choice of `docs/DECISIONS.md` names a file that is there, "
        "and each edit of a crate a text that is there once"),
    row("definitions", "the page of definitions against its sources", "", 3600, "tools/definitions --check",
        "that the tables of `docs/DEFINITIONS.md` are those of the comments above the definitions, and that each definition which a "
        "public contract cites has a sentence; that the files which the pages name are there; that two crates define no name except those that "
        "`docs/DEVELOPING.md` lists"),
]


def file_of(check: Check) -> str:
    """The file of a check, from the top."""
    return next(it for it in check.words if it.startswith(("tests/", "tools/")))


def table() -> str:
    """The table of checks in docs/PROVED.md."""
    lines = ["| Check | Needs | Tries |", "|---|---|---|"]
    for it in sorted(CHECKS, key=lambda it: it.name):
        python = ["python3"] * (not file_of(it).endswith(".sh"))
        needs = ", ".join(f"`{tool}`" for tool in [*python, *it.tools, *it.further])
        lines.append(f"| `{it.name}` | {needs} | {it.tries} |".replace("|  |", "| |"))
    return "\n".join(lines)


def write_table() -> None:
    """Writes the table into its page, between its marks."""
    text = PAGE.read_text(encoding="utf-8")
    PAGE.write_text(MARKED.sub(lambda found: f"{found[1]}\n{table()}\n\n{found[3]}", text), encoding="utf-8")


class Result(NamedTuple):
    """What a check came to."""
    check: Check
    seconds: float
    passed: int
    failed: int
    is_skipped: bool
    # Whether it had failed beside others, and was run once more, alone; and what it printed when it failed.
    is_second: bool = False
    first: str = ""


class Runs:
    """The checks that are running. Once they are stopped, all are ended, and no other begins."""

    def __init__(self) -> None:
        self.lock, self.stopped, self.running = threading.Lock(), False, set[subprocess.Popen[bytes]]()

    def begin(self, check: Check, said: IO[bytes]) -> subprocess.Popen[bytes]:
        with self.lock:
            if self.stopped:
                raise InterruptedError
            run = subprocess.Popen(check.words, cwd=TOP, stdin=subprocess.DEVNULL, stdout=said, stderr=said, start_new_session=True)
            self.running.add(run)
            return run

    def said_by(self, check: Check) -> tuple[str, int | None]:
        """Runs the command for at most its seconds, and gives what it printed and its status, none where it was out of time."""
        with tempfile.TemporaryFile() as said:
            run = self.begin(check, said)
            try:
                status = run.wait(check.seconds)
            except subprocess.TimeoutExpired:
                status = None
            finally:
                end_all(run, first=signal.SIGKILL)
                with self.lock:
                    self.running.discard(run)
            said.seek(0)
            return said.read().decode(errors="replace"), status

    def result_of(self, check: Check) -> tuple[Result, str]:
        """Runs a check, and gives what it came to and what there is to show."""
        lacking = next((it for it in check.tools if not shutil.which(it)), None)
        if lacking:
            return Result(check, 0, 0, 0, True), f"skipped: {check.what} (no {lacking})\n"
        start = time.monotonic()
        try:
            shown, status = self.said_by(check)
        except OSError as fault:
            shown, status = f"{fault}\n", 127
        took = time.monotonic() - start
        passed, failed = counted(shown, status)
        if failed:
            shown += f"{' '.join(check.words)}: {'out of time' if status is None else f'status {status}'}\n"
        return Result(check, took, passed, failed, bool(SKIPPED.search(shown))), shown

    def stop(self) -> None:
        """Ends all that is running."""
        with self.lock:
            self.stopped = True
            for run in self.running:
                end_all(run, first=signal.SIGKILL)


def counted(shown: str, status: int | None) -> tuple[int, int]:
    """How many tests passed and failed, by what a check printed and its status. One that doesn't tell, or tells of none without saying that it was
    skipped, has failed."""
    counts = COUNT.findall(shown)
    passed, failed = map(int, counts[-1]) if counts else (0, 1)
    tried_nothing = passed == failed == 0 and not SKIPPED.search(shown)
    return passed, failed or int(status != 0 or tried_nothing)


def processors() -> int:
    """The processors that these checks may use at a time: those that they may run on, and no more than the share of a container."""
    allowed = len(os.sched_getaffinity(0))
    with contextlib.suppress(OSError, ValueError):
        most, period = Path("/sys/fs/cgroup/cpu.max").read_text(encoding="ascii").split()
        allowed = max(1, min(allowed, round(int(most) / int(period))))
    return allowed


def show(name: str, shown: str) -> None:
    print(f"== {name}\n{shown}", end="" if shown.endswith("\n") or not shown else "\n", flush=True)


def ended(tries: list[Future[T]]) -> Iterator[Future[T]]:
    """The tries as they end. Each wait is short: a signal that comes just before one is taken only after it."""
    waiting = set(tries)
    while waiting:
        done, waiting = wait(waiting, 1, FIRST_COMPLETED)
        yield from done


def run(checks: list[Check]) -> list[Result]:
    """Runs the checks, as many at a time as there are processors, and shows each once it has ended. One that fails beside others, and not for its
    time, is run once more, alone, and that counts: a fault of the program is there again, and that a machine was busy isn't one."""
    results, runs = [], Runs()
    with ThreadPoolExecutor(processors()) as pool:
        try:
            for done in ended([pool.submit(runs.result_of, it) for it in checks]):
                result, shown = done.result()
                results.append(result._replace(first=shown if result.failed else ""))
                show(result.check.name, shown)
            for at, first in enumerate(results):
                if first.failed and first.seconds < first.check.seconds:
                    second, shown = runs.result_of(first.check)
                    results[at] = second._replace(is_second=True, first=first.first)
                    show(f"{first.check.name}, once more, alone", shown)
        except BaseException:
            pool.shutdown(wait=False, cancel_futures=True)
            runs.stop()
            raise
    return results


def interrupted(number: int, _: object) -> None:
    """Ends the run, once: what ends then isn't to be disturbed."""
    for other in (signal.SIGINT, signal.SIGTERM, signal.SIGHUP):
        signal.signal(other, signal.SIG_IGN)
    sys.exit(128 + number)


def chosen(names: list[str]) -> list[Check]:
    """The checks of these names, in their order."""
    known = {it.name: it for it in CHECKS}
    unknown = [it for it in names if it not in known]
    if unknown:
        sys.exit(f"tests/all.sh: there is no check {unknown[0]}: --list lists them")
    return [known[it] for it in names] or CHECKS


def main(words: list[str]) -> int:
    if words == ["--list"]:
        for it in CHECKS:
            print(f"{it.name:20}{it.what}")
        return 0
    if words == ["--table"]:
        write_table()
        return 0
    for number in (signal.SIGINT, signal.SIGTERM, signal.SIGHUP):
        if signal.getsignal(number) is not signal.SIG_IGN:
            signal.signal(number, interrupted)
    for stream in (sys.stdout, sys.stderr):
        if isinstance(stream, io.TextIOWrapper):
            stream.reconfigure(errors="backslashreplace")
    # No test takes a program that isn't proved, and none leaves compiled files beside the sources.
    os.environ |= {"PVTAG_PROVED": "1", "PYTHONDONTWRITEBYTECODE": "1"}
    results = run(chosen(words))
    for one in results:
        if one.is_second and not one.failed:
            show(f"{one.check.name}: failed beside others, and passed alone. When it failed it printed", one.first)
    for one in sorted(results, key=lambda it: -it.seconds):
        beside = f", {one.failed} failed" * (one.failed > 0) + ", skipped in part" * one.is_skipped
        beside += ", alone, after it failed beside others" * (one.is_second and not one.failed)
        print(f"{one.check.name:20}{one.seconds:5.0f} s {one.passed:7} passed{beside}")
    passed, failed, skipped = sum(it.passed for it in results), sum(it.failed for it in results), sum(it.is_skipped for it in results)
    print(f"{passed} passed, {failed} failed" + f", {skipped} skipped" * (skipped > 0))
    return 1 if failed else 0


if __name__ == "__main__":
    sys.exit(main(sys.argv[1:]))
