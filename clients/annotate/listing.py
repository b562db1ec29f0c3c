"""What a folder of documents has: which there are, the verdict on each, who has it open, and which are done.

Documents are judged as `clients/report` judges them, one after another beside all else, and again where a file has changed.
"""
import contextlib
import fcntl
import json
import os
import pwd
import re
import stat
import threading
import time
from collections.abc import Iterator
from typing import NamedTuple

from .files import put_file, read
from .palette import NAME as PALETTE
from pvtag.program import Stopped, Trouble, seen_of, shown_name
from pvtag.reporting.judging import Judge, Options
from pvtag.reporting.rows import Row
from pvtag.reporting.runs import Runs
from pvtag.reporting.together import Together

DOCUMENT, TEXT = ".xml", ".txt"
# The most seconds that the program has for one document.
MOST = 60.0
# So often it is tried to have the marks alone, and so long between.
TRIES, PAUSE = 50, 0.01
Seen = tuple[int, ...] | None


class Listed(NamedTuple):
    """A document, or a plain text that one may be made of."""

    name: str
    is_text: bool


def listed(folder: str) -> list[Listed]:
    """The documents of a folder, and its plain texts beside which there is none, in the order of their names and numbers."""
    try:
        names = {each.name for each in os.scandir(folder) if not each.name.startswith(".") and is_file(each)}
    except OSError as fault:
        raise Trouble(f"{shown_name(folder)}: {fault.strerror}") from None
    texts = {name for name in names if name.endswith(TEXT) and name != PALETTE and document_of(name) not in names}
    found = [Listed(name, name in texts) for name in names if name.endswith(DOCUMENT) or name in texts]
    return sorted(found, key=lambda each: in_order(each.name))


def is_file(each: "os.DirEntry[str]") -> bool:
    try:
        return each.is_file()
    except OSError:
        return False


def document_of(text: str) -> str:
    """What the document of a plain text is called."""
    return text.removesuffix(TEXT) + DOCUMENT


def in_order(name: str) -> list[tuple[int, str]]:
    """By this names are sorted: the numbers in them by what they say."""
    return [(int(part), "") if part.isdecimal() and len(part) < 19 else (-1, part) for part in re.split(r"(\d+)", name)]


class Verdicts:
    """What each document comes to, as far as that is known by now."""

    def __init__(self, program: list[str], dtd: str, root: str) -> None:
        self.words, self.lock = (program, dtd, root), threading.Lock()
        self.rows: dict[str, tuple[Seen, Row]] = {}
        self.wanted: list[str] = []
        self.is_judging = False
        # Why nothing is judged, where the DTD can't be had.
        self.why = ""

    def of(self, paths: list[str]) -> list[Row | None]:
        """The rows of these documents, none where one isn't judged yet; those that have changed are judged then."""
        rows = list[Row | None]()
        wanted = list[str]()
        for path in paths:
            rows.append(self.row(path))
            wanted += [] if rows[-1] else [path]
        with self.lock:
            self.wanted = wanted
            if wanted and not self.is_judging:
                self.is_judging = True
                threading.Thread(target=self.judge, daemon=True).start()
        return rows

    def row(self, path: str) -> Row | None:
        """The row of a document, if it was judged as it is now."""
        seen, row = self.rows.get(path, (None, None))
        return row if seen == seen_of(path) else None

    def judge(self) -> None:
        """Judges what is wanted, until nothing is."""
        try:
            for paths in self.batches():
                program, dtd, root = self.words
                judge = Judge(program, (dtd, root), Options(need=True, most=MOST, attributes=True, by_doctype=False))
                seen = [seen_of(path) for path in paths]
                runs = Runs(Together(judge).rows, max(1, len(os.sched_getaffinity(0)) // 2))
                try:
                    for found in runs.over(paths):
                        self.rows |= {paths[number]: (seen[number], row) for number, row in found}
                finally:
                    runs.end()
                    judge.close()
                self.why = ""
        except Stopped:
            return
        except (Trouble, OSError) as trouble:
            self.why = str(trouble)
        finally:
            with self.lock:
                self.is_judging = False

    def batches(self) -> Iterator[list[str]]:
        while True:
            with self.lock:
                wanted, self.wanted = self.wanted, []
            paths = [path for path in wanted if self.row(path) is None]
            if not paths:
                return
            yield paths


class Marks:
    """The documents that are done. They stand in a file beside the folder, which several may write."""

    def __init__(self, folder: str) -> None:
        self.folder, self.path = folder, folder + ".pvtag"

    def names(self) -> set[str]:
        data = read(self.path)
        if data is None:
            return set()
        try:
            names = json.loads(data)["done"]
            return {name for name in names if isinstance(name, str)}
        except (ValueError, KeyError, TypeError):
            raise Trouble(f"{shown_name(self.path)} isn't what annotate writes there; move it elsewhere to start again") from None

    def put(self, name: str, is_done: bool) -> None:
        """Marks a document, or takes its mark away."""
        with self.alone():
            names = self.names()
            names = names | {name} if is_done else names - {name}
            data = json.dumps({"done": sorted(names, key=in_order)}, indent=1).encode() + b"\n"
            try:
                put_file(self.path, data, self.path if os.path.exists(self.path) else None)
            except OSError as fault:
                raise Trouble(f"{shown_name(self.path)} can't be written: {fault.strerror}") from None

    @contextlib.contextmanager
    def alone(self) -> Iterator[None]:
        """Nobody else writes them meanwhile."""
        number = os.open(self.folder, os.O_RDONLY | os.O_CLOEXEC)
        try:
            for left in reversed(range(TRIES)):
                try:
                    fcntl.flock(number, fcntl.LOCK_EX | fcntl.LOCK_NB)
                    break
                except BlockingIOError:
                    if not left:
                        raise Trouble(f"{shown_name(self.path)} is being written by another annotate") from None
                    time.sleep(PAUSE)
            yield
        finally:
            os.close(number)


def holder_of(document: str) -> str:
    """Who has a document open in another annotate; "" where nobody has."""
    path = os.path.realpath(document) + ".pvtag"
    try:
        number = os.open(path, os.O_RDONLY | os.O_NONBLOCK | os.O_CLOEXEC)
    except FileNotFoundError:
        return ""
    except OSError:
        return owner_of(path)
    try:
        if not stat.S_ISREG(os.fstat(number).st_mode):
            return ""
        fcntl.flock(number, fcntl.LOCK_SH | fcntl.LOCK_NB)
        return ""
    except BlockingIOError:
        return owner_of(path, os.fstat(number).st_ino)
    except OSError:
        return ""
    finally:
        os.close(number)


def owner_of(path: str, inode: int | None = None) -> str:
    """The user whose program has a file of this number locked, as far as that can be told; else its owner."""
    with contextlib.suppress(OSError, KeyError, ValueError, IndexError):
        with open("/proc/locks", encoding="ascii") as file:
            rows = [line.split() for line in file]
        process = next((row[4] for row in rows if row[1] == "FLOCK" and row[5].rpartition(":")[2] == str(inode)), None)
        seen = os.stat(path if process is None else f"/proc/{process}")
        return "you" if seen.st_uid == os.getuid() else pwd.getpwuid(seen.st_uid).pw_name
    return "somebody"


def has_moves(document: str) -> bool:
    """Whether there are moves that weren't saved, by the script beside a document."""
    try:
        with open(os.path.realpath(document) + ".pvtag", "rb") as file:
            first = file.readline()
            file.seek(max(len(first), os.fstat(file.fileno()).st_size - 4096))
            last = file.read().rstrip(b"\n").rpartition(b"\n")[2]
    except OSError:
        return False
    return bool(last) and not last.startswith(b"saved ")
