"""What tests of `pvlong` share: what it tells, and whether a document's bounds and its completion are right."""
import re
import shutil
import subprocess
from collections.abc import Callable
from typing import NamedTuple

import completions
import published
from lib.counting import Fault, need, same
from lib.grammar import NEVER
from lib.kept import check_kept
from lib.search import write

TOP = published.TOP
# The most seconds that one run may take: it is ended then, and has failed.
LONGEST = 600
# A program that isn't proved looks at each access to memory. It may take so many times as long.
UNPROVED = 20
# The DTDs of examples/, each with the name of a root and its documents.
EXAMPLES = {
    "article.dtd": ("doc", ["article.xml", "draft.xml", "outline.xml", "report.xml"]),
    "letter.dtd": ("letter", ["letter.xml", "letter-draft.xml", "letter-swapped.xml"]),
    "page.dtd": ("html", ["page.xhtml"]),
}


class Told(NamedTuple):
    """What is told to be missing: at least and at most so many elements, or what the line says instead."""
    least: float
    most: float
    line: str


class Programs:
    """Both programs, and how many cases of each kind there were."""

    def __init__(self, pvlong: str, pvtag: str) -> None:
        self.pvlong, self.pvtag = pvlong, pvtag
        with open(pvlong, "rb") as file:
            self.times = UNPROVED if b"__asan_" in file.read() else 1
        self.passed, self.failed, self.counts = 0, 0, {}

    def run(self, words: list[str], given: bytes = b"") -> tuple[int, bytes]:
        ran = subprocess.run(words, input=given, capture_output=True, timeout=LONGEST * self.times, check=False)
        return ran.returncode, ran.stdout

    def long(self, *words: str) -> tuple[int, bytes]:
        return self.run([self.pvlong, *words])

    def session_need(self, *files: str) -> str:
        """The reply to `need`, or what is said in place of a session."""
        return self.run([self.pvtag, "session", *files], b"need\n")[1].decode().strip()

    def case(self, what: str, judged: Callable[[], str], shown: Callable[[], str]) -> None:
        """Counts a case by what it gives, or tells of a fault in it."""
        try:
            kind = judged()
            self.passed += 1
        except (Fault, subprocess.TimeoutExpired) as fault:
            kind = "failed"
            self.failed += 1
            print(f"{what}: {fault}\n{shown()[:4000]}", flush=True)
        self.counts[f"{what}: {kind}"] = self.counts.get(f"{what}: {kind}", 0) + 1


def told_of(status: int, output: bytes) -> Told:
    line = output.decode()
    found = re.fullmatch(r"need (\d+)(?: to (\d+))?\n", line)
    if found:
        least, most = int(found[1]), int(found[2] or found[1])
        need(status == 0 and (found[2] is None or least < most), f"status {status}, {line!r}")
        return Told(least, most, line)
    wanted = 1 if line.startswith("no impossible ") else 8
    need(status == wanted and re.fullmatch(r"no (impossible|wide) [0-9.]+\n|no (heavy|limit|proof)\n", line), f"status {status}, {line!r}")
    return Told(NEVER, NEVER, line)


def judge(both: Programs, dtd: str, root: str, text: str, original: str = "") -> Told:
    """What is missing; the completed document is right. xmllint goes by the DTD as it was published, where there is one."""
    write("d.xml", text)
    told = told_of(*both.long("need", dtd, root, "d.xml"))
    status, body = both.long("complete", dtd, root, "d.xml")
    if told.most == NEVER:
        same((status, body.decode()), (1 if told.line.startswith("no impossible ") else 8, told.line), "complete")
        return told
    same(status, 11 if told.least < told.most else 0, "the status of complete")
    if original and shutil.which("xmllint"):
        write("body.xml", body.decode())
        same(both.run([both.pvtag, "valid", dtd, root, "body.xml"]), (0, b"valid\n"), "the body")
        need(published.xmllint(original, ["body.xml"])["body.xml"] is True, "xmllint finds a fault in the body")
    else:
        completions.check_valid(both.pvtag, dtd, root, body.decode())
    check_kept(text, body.decode(), int(told.most))
    _, line = both.run([both.pvtag, "check", dtd, root, "d.xml"])
    if line == b"valid\n":
        same((told.line, body.decode()), ("need 0\n", text), "a valid document")
    else:
        found = re.fullmatch(rb"possible (\d+)\n", line)
        need(found and told.least >= int(found[1]), f"{told.line!r} for {line!r}")
    return told


def by_session(told: Told, reply: str) -> str:
    """By what a session replies to `need`; gives how the case is counted."""
    if reply.startswith("need "):
        number = int(reply.split()[1])
        need(told.least <= number <= told.most, f"{told.line!r} for {reply!r}")
        return "valid" if told.most == 0 else "exact" if told.least == told.most else f"off by {told.most - told.least}"
    if reply.startswith("no impossible "):
        same(told.line, f"{reply}\n", "what is impossible")
        return "impossible"
    need(reply.startswith("no wide ") or reply == "no heavy", f"the session says {reply!r}")
    need(told.line.startswith(("need ", "no limit")), f"{told.line!r} for {reply!r}")
    return "no limit" if told.most == NEVER else "wide, exact" if told.least == told.most else f"wide, off by {told.most - told.least}"


def try_example(both: Programs, dtd: str, root: str, name: str, what: str = "examples") -> None:
    with open(f"{TOP}/examples/{name}", encoding="utf-8", newline="") as file:
        text = file.read()

    path = f"{TOP}/examples/{dtd}"
    both.case(what, lambda: by_session(judge(both, path, root, text, path), both.session_need(path, root, "d.xml")), lambda: name)
