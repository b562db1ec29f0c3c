"""A folder of documents, on one page: what is asked of the list, and of each document that is opened from it.

A document has its session from the first request on, until its last window was closed for a while. A path of a request
names a document of the list, and no other file.
"""
import os
import threading
import traceback
from collections.abc import Callable
from typing import Any
from urllib.parse import quote, unquote_to_bytes

from .declared import Declared
from .listing import Listed, Marks, Verdicts, document_of, has_moves, holder_of, in_order, listed
from .making import make_document, open_editor
from pvtag.document import Told
from pvtag.program import RUNNING, Trouble, shown_name
from pvtag.reporting.rows import Row, shown
from .script import Changed
from .values import Names
from .work import Refusal, Work, request

# So long a document stays open after its last window, in seconds.
LEFT = 60.0


class Entry:
    """A document of a drawer, which is opened when something is asked of it."""

    home = "index.html"

    def __init__(self, drawer: "Drawer", name: str) -> None:
        self.drawer, self.name, self.path = drawer, name, os.path.join(drawer.folder, name)
        self.lock, self.work, self.version = threading.Lock(), None, 0
        self.windows: set[str] = set()
        # How many requests are being answered, and how often a window was closed.
        self.answering, self.byes = 0, 0

    work: Work | None

    def has(self, name: str) -> bool:
        return name in OF_ENTRY or Work.has(name)

    def answer(self, name: str, ask: Any) -> Told:
        if name in OF_ENTRY:
            return answered(lambda: OF_ENTRY[name](self, ask))
        if name == "bye":
            return answered(lambda: self.bye(ask))
        ask = request(ask, **({"window": str} if name == "hello" else {}))
        try:
            work = self.begin(name == "hello" and bool(ask.get("again")))
        except Trouble as trouble:
            return {"trouble": str(trouble), "closed": True, "changed": isinstance(trouble, Changed)}
        except OSError as fault:
            return {"trouble": f"{shown_name(self.name)} can't be opened: {fault.strerror}", "closed": True, "changed": False}
        try:
            if name != "hello":
                return work.answer(name, ask)
            told = work.answer(name, ask)
            self.windows.add(ask["window"])
            return {**told, "drawer": self.drawer.place_or_name(self.name)}
        finally:
            with self.lock:
                self.answering -= 1

    def begin(self, again: bool = False) -> Work:
        """What is open of it, which is then being asked."""
        with self.lock:
            if self.work is None:
                drawer = self.drawer
                editor = open_editor(drawer.program, drawer.dtd, drawer.root, self.path, again, self.version)
                self.work = Work(editor, drawer.declared, shown_name(self.name), drawer.names)
                self.work.is_over = drawer.is_over
            self.answering += 1
            return self.work

    def bye(self, ask: Any) -> Told:
        """A window was closed; where it was the last, and none comes, the document is closed in a while."""
        self.windows.discard(request(ask, window=str)["window"])
        work = self.work
        if work is not None:
            work.answer("bye", ask)
        with self.lock:
            self.byes += 1
            timer = threading.Timer(LEFT, self.close_if_left, [self.byes])
        timer.daemon = True
        timer.start()
        return {}

    def close_if_left(self, byes: int) -> None:
        if not self.windows and byes == self.byes:
            self.close(False)

    def close(self, is_end: bool = True) -> None:
        """Ends its session, but not while something is being answered, unless all ends."""
        with self.lock:
            if self.work is None or self.answering and not is_end:
                return
            self.version = self.work.editor.version
            self.work.close()
            self.work = None


class Drawer:
    home = "drawer.html"
    note = ""

    def __init__(self, program: list[str], dtd: str, root: str, folder: str, declared: dict[str, Declared],
                 names: Names | None = None) -> None:
        self.program, self.dtd, self.root, self.declared = program, dtd, root, declared
        self.folder, self.names = os.path.realpath(folder), names
        self.verdicts, self.marks = Verdicts(program, dtd, root), Marks(self.folder)
        self.lock = threading.Lock()
        self.entries: dict[str, Entry] = {}
        self.is_over: Callable[[], bool] = lambda: False
        listed(self.folder)
        self.marks.names()

    @property
    def title(self) -> str:
        return shown_name(os.path.basename(self.folder)) or self.folder

    def at(self, path: str) -> tuple["Drawer | Entry", str]:
        """Whom a path asks: the list, or the document whose name stands first in it."""
        name, slash, rest = path.partition("/")
        if not slash:
            return self, path
        return self.entry(os.fsdecode(unquote_to_bytes(name))), rest

    def entry(self, name: str) -> Entry:
        """A document of the list."""
        with self.lock:
            if name not in self.entries:
                if not self.has_document(name):
                    raise Refusal(404, "there is no such document")
                self.entries[name] = Entry(self, name)
            return self.entries[name]

    def has_document(self, name: str) -> bool:
        try:
            return Listed(name, False) in listed(self.folder)
        except Trouble:
            return False

    def has(self, name: str) -> bool:
        return name in OF_DRAWER

    def answer(self, name: str, ask: Any) -> Told:
        return answered(lambda: OF_DRAWER[name](self, ask))

    def close(self) -> None:
        RUNNING.stop()
        for entry in list(self.entries.values()):
            entry.close()

    # What is asked.
    def hello(self, _: Any) -> Told:
        return {"title": self.title}

    def list_(self, _: Any) -> Told:
        """All documents, with what is known of each by now."""
        found, done = listed(self.folder), self.marks.names()
        documents = [each for each in found if not each.is_text]
        rows = dict(zip(documents, self.verdicts.of([self.path_of(each.name) for each in documents])))
        return {"rows": [self.told(each, rows.get(each), each.name in done) for each in found], "why": self.verdicts.why}

    def told(self, each: Listed, row: Row | None, is_done: bool) -> Told:
        told: Told = {"url": address_of(each.name), "name": shown_name(each.name), "is_text": each.is_text, "done": is_done}
        if each.is_text:
            return told
        path, entry = self.path_of(each.name), self.entries.get(each.name)
        work = entry.work if entry is not None else None
        is_here = entry is not None and work is not None and bool(entry.windows)
        by = "here" if is_here else "" if work is not None else holder_of(path)
        told |= {"by": by, "moves": work.editor.made != work.editor.saved if work is not None else has_moves(path)}
        return told if row is None else {**told, **told_of(row)}

    def path_of(self, name: str) -> str:
        return os.path.join(self.folder, name)

    def place_of(self, name: str) -> Told:
        """Where a document stands among the others."""
        names, done = [each.name for each in listed(self.folder)], self.marks.names()
        at = names.index(name) + 1 if name in names else 0
        return {"title": self.title, "at": at, "of": len(names), "done": name in done, "left": sum(each not in done for each in names)}

    def place_or_name(self, name: str) -> Told:
        """The same; where the folder or what is done can't be read, a document is shown all the same, at no place."""
        try:
            return self.place_of(name)
        except (Trouble, OSError):
            return {"title": self.title, "at": 0, "of": 0, "done": False, "left": 0}

    def mark(self, ask: Any) -> Told:
        """Marks a document of the list as done, or not."""
        is_done = request(ask, done=bool)["done"]
        self.marks.put(self.named(ask).name, is_done)
        return {"done": is_done}

    def named(self, ask: Any) -> Listed:
        """What the page speaks of."""
        url = request(ask, url=str)["url"]
        found = next((each for each in listed(self.folder) if address_of(each.name) == url), None)
        if found is None:
            raise Trouble("that isn't in the folder any more")
        return found

    def begun(self, ask: Any) -> Told:
        """Where a document is opened: a plain text begins one, which is there from then on."""
        found = self.named(ask)
        return {"url": address_of(self.document_for(found))}

    def document_for(self, each: Listed) -> str:
        """The name of a document, which is made of a plain text; one that can't be opened is removed again."""
        if not each.is_text:
            return each.name
        name = document_of(each.name)
        path = self.path_of(name)
        make_document(self.root, self.path_of(each.name), path, self.dtd)
        entry = self.entry(name)
        try:
            entry.begin()
        except BaseException:
            os.unlink(path)
            raise
        with entry.lock:
            entry.answering -= 1
        return name

    def onward(self, name: str) -> Told:
        """Where the next document is that isn't done, after this one, and then from the first on; none where all others are."""
        done = self.marks.names()
        left = [each for each in listed(self.folder) if each.name != name and each.name not in done]
        behind = [each for each in left if in_order(each.name) > in_order(name)]
        found = next(iter(behind or left), None)
        return {"url": None if found is None else address_of(self.document_for(found))}


def address_of(name: str) -> str:
    return quote(os.fsencode(name), safe="")


def told_of(row: Row) -> Told:
    """What a document comes to, as the page shows it."""
    place = f"{row.line}:{row.column}: " if row.line is not None else ""
    return {"verdict": row.verdict, "missing": row.range or row.missing, "faults": row.faults, "sentence": shown(place + (row.sentence or ""))}


def answered(call: Callable[[], Told]) -> Told:
    """What is answered, or `trouble`, a sentence for the user."""
    try:
        return call()
    except Trouble as trouble:
        return {"trouble": str(trouble)}
    except OSError as fault:
        return {"trouble": f"{shown_name(fault.filename or 'a file that is needed')}: {fault.strerror}"}
    except (KeyError, TypeError, ValueError, AttributeError, IndexError):
        traceback.print_exc()
        raise Refusal(400, "that is no request") from None


OF_DRAWER: dict[str, Callable[[Drawer, Any], Told]] = {
    "hello": Drawer.hello, "bye": lambda *_: {}, "list": Drawer.list_, "mark": Drawer.mark, "begin": Drawer.begun,
}
OF_ENTRY: dict[str, Callable[[Entry, Any], Told]] = {
    "mark": lambda entry, ask: entry.drawer.mark({**request(ask), "url": address_of(entry.name)}),
    "onward": lambda entry, _: entry.drawer.onward(entry.name),
}
