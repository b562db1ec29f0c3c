"""A document that is marked up: a session, its tree and its script, kept together.

A move is made whole or not at all, it is on the disk before it is told, and it is taken back whole. Whether it can be
made says the session. Its lines for attributes and comments are made in the tree only: a session keeps those as they are.
First a move is played in the session; what is played there is taken back, whatever is raised. Then it is written down,
and from there on it is made: where the tree can't be brought to it, both begin anew by what is written.
"""
import hashlib
import threading
from collections.abc import Callable, Sequence
from typing import Any

from .again import Again
from .changes import lines_of
from .forms import check_forms
from .moves import (
    BESIDE, EDITS, LONGEST, BadLine, Move, exchanged, groups_of, is_edit, is_main, move_of, surviving, title_of, undo_of,
)
from pvtag.document import ELEMENT, Document, Told
from pvtag.masks import Masked, mask
from pvtag.program import Trouble, file_of, read_file
from pvtag.session import Ended, Made, Refused, Session
from .runs import Stale, below
from .script import Script, hash_of
from .verdicts import verdicts_of

# A window that was away for more moves than these gets the whole tree.
KEPT = 1000
# So much of both is shown where the tree's document isn't that of the session, on both sides of the place, in bytes.
ROUND = 200


class Differs(Trouble):
    """The tree's document isn't the one that the session shows: both, round the first place where they differ."""

    def __init__(self, own: bytes, shown: bytes) -> None:
        super().__init__("the document of the page isn't the one that the program shows; nothing is written")
        size = min(len(own), len(shown))
        at = next((at for at in range(size) if own[at] != shown[at]), size)
        parts = (text[max(0, at - ROUND):at + ROUND] for text in (own, shown))
        self.own, self.shown = (part.decode(errors="replace") for part in parts)


class Unseen(Trouble):
    """What a window shows isn't the document."""


class Editor:
    def __init__(self, program: list[str], dtd: str, root: str, script: Script, version: int = 0) -> None:
        """`version` is the last one of which a window may know, where the document was open before."""
        self.program, self.dtd, self.root, self.script = program, dtd, root, script
        self.lock = threading.RLock()
        # What the session and the tree have: the document, its subset and its entities masked.
        self.masked: Masked = mask(script.source, read_file(dtd) if b"&" in script.source else b"")
        self.entities = {stand_in_of(form): form.decode() for form in self.masked.stands if form.startswith(b"&")}
        try:
            self.made, self.undone = self.moves()
        except BadLine as bad:
            raise script.trouble(bad) from None
        self.changes: list[Told] = []
        self.version, self.needed = version, {"version": -1}
        # What a refusal is explained by: the tree, the lines up to the one that was refused, and the path that was told; it
        # gives a call that asks the program, `later`, when the lock isn't held any more.
        self.explain: Callable[[Document, list[str], str], Callable[[], Told]] | None = None
        self.failed: list[str] = []
        # Called where the document has changed.
        self.outdated: Callable[[], None] = lambda: None
        # The edits that are played in the session ahead of the moves that are made, and whether the tree is that of the
        # moves.
        self.ahead, self.is_whole, self.first = 0, False, 1
        # The window that asks.
        self.asker = threading.local()
        self.begin()
        self.note = self.make_again() if script.earlier is not None else ""

    needed: Told
    saved: list[Move] | None
    open: int
    bad: int

    def moves(self) -> tuple[list[Move], list[Move]]:
        """The moves of the script, and those that were taken back, the last first. A move that was written in part is
        taken back."""
        made, undone = surviving(self.script.lines)
        groups = groups_of(made)
        part = made[sum(map(len, groups)):]
        if part:
            undos = [undo_of(line.text) for line in reversed(part)]
            self.script.append(undos)
            made, undone = surviving([*self.script.lines, *((0, undo) for undo in undos)])
        check_forms(self.program, made + undone)
        return list(map(move_of, groups_of(made))), list(map(move_of, groups_of(reversed(undone))[::-1]))

    # The session.
    def opened(self) -> Session:
        """A session on the document that the script begins with."""
        source = self.masked.data
        with file_of(source) as path:
            session = Session(self.program, self.dtd, self.root, path)
            try:
                if session.show() != source:
                    raise Trouble(f"the program shows another document than {self.script.name}")
            except BaseException:
                session.close()
                raise
        return session

    def begin(self) -> None:
        """Opens the session and makes the moves of the script; nodes have other numbers then."""
        session = self.opened()
        try:
            document = Document(self.masked.data, self.first)
            for move in self.made:
                replay(session, move, self.script)
                redraw(document, move)
        except (KeyError, IndexError, ValueError, AttributeError):
            session.close()
            raise Trouble(f"{self.script.path}, line {move.numbers[-1]}: what this line is about isn't there") from None
        except BaseException:
            session.close()
            raise
        self.use(session)
        self.document, self.first = document, max(document.nodes) + 1
        self.changes, self.version = [], self.version + 1
        self.outdated()
        self.judge_all()
        self.saved = self.made[:] if hash_of(self.whole_source()) == self.script.on_disk else None
        self.is_whole = True

    def begin_again(self) -> None:
        """Opens another session in the place of one that has ended, and makes the moves in it. The tree stays as it is, so
        that what was asked of it still is about something; unless it isn't the one that the session shows."""
        with self.lock:
            if not self.is_whole:
                return self.begin()
            self.end_session()
            session = self.opened()
            try:
                for move in self.made:
                    replay(session, move, self.script)
                is_same = session.show() == self.given()
            except BaseException:
                session.close()
                raise
            self.use(session)
            if is_same:
                self.judge_all()
            else:
                self.begin()

    def use(self, session: Session) -> None:
        """Goes on with this session."""
        self.end_session()
        self.session = session
        self.ahead = 0

    def end_session(self) -> None:
        """Ends the session; whatever is asked of it then raises `Ended`."""
        if hasattr(self, "session"):
            self.session.process.kill()
            self.session.close()

    def whole(self) -> None:
        """Begins anew where the tree couldn't be brought to what is written down."""
        if not self.is_whole:
            self.begin()

    def make_again(self) -> str:
        """Makes the moves of the script that was put aside on the document as it is; what came of it."""
        assert self.script.earlier is not None
        again = Again(self.script.earlier, self.script.name, self.masked, read_file(self.dtd))
        try:
            again.make_on(self)
        except BadLine as bad:
            raise self.script.trouble(bad) from None
        self.script.settle()
        return again.note

    # Verdicts.
    def judge_all(self) -> None:
        """Takes over the verdicts of all lists."""
        rows = values(self.session.verdicts())
        for node, row in zip(self.document.elements(), rows, strict=True):
            node.verdict = row.verdict
        self.open, self.bad = (sum(row.verdict == verdict for row in rows) for verdict in ("possible", "impossible"))
        self.document.changed = {}

    def judge(self, before: int, reply: Made | None) -> dict[int, str]:
        """Takes over the verdicts of the lists that moves after this number have changed, and tells them. The program is asked where its reply to the
        last of them doesn't say them."""
        changed, self.document.changed = self.document.changed, {}
        if before == self.session.moves or reply is None:
            return {}
        found = verdicts_of(changed, reply.open - self.open, reply.bad - self.bad)
        if found is None:
            rows = self.session.changed(before)
            if isinstance(rows, Refused):
                raise Ended(None, "there is too little memory for the verdicts")
            found = {self.document.there(row.path): row.verdict for row in rows}
        for node, verdict in found.items():
            node.verdict = verdict
        self.open, self.bad = reply.open, reply.bad
        return {node.id: verdict for node, verdict in found.items()}

    # What the page is told.
    def state(self, since: Any = None) -> Told:
        """Where things stand: the whole tree, or what changed since a version."""
        with self.lock:
            told: Told = {
                "version": self.version, "open": self.open, "bad": self.bad, "top": self.document.top.verdict,
                "made": len(self.made), "undone": len(self.undone), "saved": self.made == self.saved,
            }
            first = self.version - len(self.changes)
            if since is None or not first <= since <= self.version:
                return {**told, "tree": self.document.told()}
            return {**told, "since": since, "changes": self.changes[since - first:]}

    def history(self) -> Told:
        """The moves in words, those that were taken back last."""
        with self.lock:
            made, undone = self.made, reversed(self.undone)
            return {"made": [move.title for move in made], "undone": [move.title for move in undone]}

    def recent(self) -> list[str]:
        """The names that were used last, the last one first."""
        names: list[str] = []
        for move in reversed(self.made[-60:]):
            names += [name for name in reversed(move.names) if name not in names]
        return names[:8]

    def need(self) -> Told:
        """How many elements are missing."""
        with self.lock:
            if self.needed.get("version") != self.version:
                reply = self.session.need()
                told = {"need": reply} if isinstance(reply, int) else self.refusal(reply)
                self.needed = {"version": self.version, **told}
            return self.needed

    def refusal(self, reply: Refused) -> Told:
        """A reply of the session as the page takes it: a path becomes the number of its list, where it is there."""
        told: Told = {"no": reply.why, "what": reply.what}
        if reply.why in ("impossible", "wide"):
            node = self.document.node_at(reply.what)
            told["list"] = node.id if node is not None and node.kind == ELEMENT else None
        return told

    # Trying.
    def tried(self, lines: Sequence[str], ask: Callable[[], Any]) -> Any:
        """What is answered after these lines, which are taken back; the refusal of one that can't be made."""
        start = self.ahead
        try:
            for line in lines:
                reply = self.play(line)
                if isinstance(reply, Refused):
                    return reply
            return ask()
        finally:
            self.rewind(start)

    def play(self, line: str) -> Made | Refused | None:
        """Makes an edit in the session; none where it is no edit of a session. What is no line of a session, or can't be
        written as UTF-8, is refused."""
        word = line.split(" ", 1)[0]
        if "\n" in line or "\r" in line or word not in (*EDITS, *map(str.strip, BESIDE)):
            return Refused("command")
        try:
            size = len(line.encode())
        except UnicodeEncodeError:
            return Refused("shape", "bad-text")
        if size > LONGEST:
            return Refused("limit")
        if line.startswith(BESIDE):
            return None
        reply = self.session.edit(line)
        self.ahead += isinstance(reply, Made)
        return reply

    def rewind(self, to: int) -> None:
        """Takes back what was played in the session, but for the first so many edits. A session in which that can't be done
        is ended; so nothing of it is left."""
        while self.ahead > to:
            try:
                reply = self.session.undo()
            except Ended:
                self.ahead = 0
                raise
            if not isinstance(reply, Made):
                self.end_session()
                self.ahead = 0
                raise Ended(None, "an edit can't be taken back")
            self.ahead -= 1

    # Moves.
    def move(self, ask: Any) -> Told:
        """Makes a move; the state after it, or a refusal."""
        with self.lock:
            since = self.known(ask)
            return self.answer(since, lines_of(self.document, ask))

    def answer(self, since: int, lines: list[str]) -> Told:
        """Makes these lines one move; the state after it, or a refusal."""
        refusal = self.make(Move(lines), [])
        return self.state(since) if refusal is None else self.refused(refusal)

    def refused(self, refusal: Refused) -> Told:
        """Why a move was refused: whose list would become impossible, one that is there or that of the new element, and
        which kids are in the way."""
        told = self.refusal(refusal)
        if refusal.why != "impossible":
            return told
        word, path, *rest = self.failed[-1].split(" ")
        if word in ("wrap", "insert"):
            node = self.document.node_at(path)
            told |= {"list": node.id if node is not None and node.kind == ELEMENT else None,
                     "new": refusal.what == below(path, int(rest[0]))}
        return {**told, "later": self.explain(self.document, self.failed, refusal.what)} if self.explain else told

    def make(self, move: Move, undone: list[Move]) -> Refused | None:
        """Makes a move, or changes nothing and answers why. What can be made again after it is `undone`."""
        return self.exchange(0, move, undone)

    def exchange(self, count: int, move: Move | None, undone: list[Move]) -> Refused | None:
        """Takes the last so many moves back and makes another in their place, in one; or changes nothing and answers
        why."""
        old, before = self.made[len(self.made) - count:], self.session.moves
        lines = move.lines if move is not None else []
        taken: list[str] = []
        last: Made | None = None
        try:
            for line in (line for each in reversed(old) for line in reversed(each.lines)):
                if not line.startswith(BESIDE):
                    last = made(self.session.undo())
                    taken.append(line)
            for at, line in enumerate(lines):
                reply = self.play(line)
                if isinstance(reply, Refused):
                    self.failed = lines[:at + 1]
                    self.restore(taken)
                    return reply
                last = reply or last
            self.write(exchanged(old, move))
        except BaseException as fault:
            if isinstance(fault, Exception) and not isinstance(fault, MemoryError):
                self.restore(taken)
            else:
                # It may come from anywhere, so what was played isn't sure: another session makes what is written down.
                self.end_session()
            raise
        self.ahead, self.is_whole = 0, False
        self.made[len(self.made) - count:] = [move] if move is not None else []
        self.undone = undone
        try:
            backs = [back() for each in reversed(old) for back in each.backs]
            self.tell(backs + (redraw(self.document, move) if move is not None else []), before, last)
            self.is_whole = True
        except Exception:
            # It is made, whatever has failed: both begin anew by what is written down.
            self.begin()
        return None

    def restore(self, taken: list[str]) -> None:
        """The session as it was before a move: what was played is taken back, and these edits, which were taken back, are
        made again. A session in which that can't be done is ended; it is begun again when it is asked next."""
        try:
            self.rewind(0)
            for line in reversed(taken):
                if not isinstance(self.session.edit(line), Made):
                    self.end_session()
        except (Ended, OSError, ValueError):
            self.end_session()
        except BaseException:
            self.end_session()
            raise

    def write(self, lines: list[str]) -> None:
        """Writes lines to the script."""
        try:
            self.script.keep_base()
            self.script.append(lines)
        except OSError as fault:
            raise Trouble(f"the move can't be written to {self.script.path}: {fault.strerror}") from None

    def tell(self, changes: list[Told], before: int, reply: Made | None) -> None:
        verdicts = self.judge(before, reply)
        self.version += 1
        self.outdated()
        by = getattr(self.asker, "window", "")
        self.changes.append({"changes": changes, "verdicts": verdicts, "by": by})
        del self.changes[:-KEPT]

    def undo(self, ask: Any) -> Told:
        with self.lock:
            since = self.known(ask)
            if self.made:
                self.undo_one()
            return self.state(since)

    def undo_one(self) -> None:
        self.exchange(1, None, [*self.undone, self.made[-1]])

    def redo(self, ask: Any) -> Told:
        with self.lock:
            since = self.known(ask)
            if self.undone:
                self.redo_one()
            return self.state(since)

    def redo_one(self) -> None:
        """Makes a move again by its lines: the session itself forgets what was undone when a cut is tried."""
        refusal = self.make(self.undone[-1], self.undone[:-1])
        if refusal is not None:
            raise Trouble(f"the move can't be made again: {' '.join(refusal)}")

    def back(self, ask: Any) -> Told:
        """Goes to where so many moves were made."""
        with self.lock:
            since = self.known(ask)
            while len(self.made) > ask["to"]:
                self.undo_one()
            while len(self.made) < ask["to"] and self.undone:
                self.redo_one()
            return self.state(since)

    def known(self, ask: Any) -> int:
        """The version that the page knows, which must be the present one."""
        self.whole()
        if ask["version"] != self.version:
            raise Stale
        return self.version

    # Files.
    def save(self, ask: Any) -> Told:
        """Writes the document; but not where the page, which tells the sum of what it shows, shows another one."""
        with self.lock:
            since = self.known(ask)
            source = self.whole_source()
            if ask.get("seen", "") not in ("", sum_of(self.document)):
                raise Unseen("what this window showed isn't the document. It is drawn anew; look at it, and save again")
            self.script.save(source, str(ask.get("way", "")))
            self.saved = self.made[:]
            return self.state(since)

    def save_beside(self, ask: Any) -> Told:
        """Writes the document to another file in its folder."""
        with self.lock:
            self.whole()
            return {"path": self.script.save_beside(str(ask["name"]), self.whole_source())}

    def shown(self) -> bytes:
        """The document's bytes: those of the session, with the attributes that were edited. The tree's are compared with
        them first."""
        with self.lock:
            source, own = values(self.session.show()), self.given()
            if own != source:
                raise Differs(own, source)
            return self.document.written().encode() if self.document.given else own

    def whole_source(self) -> bytes:
        """The document as it is written: with its subset and its entities."""
        return self.masked.restored(self.shown())

    def with_entities(self, text: str) -> str:
        """A text of a tag or a script, in which characters that stand for entities are what stands for them: they were
        copied on the page."""
        return "".join(self.entities.get(char, char) for char in text) if self.entities else text

    def as_read(self, text: str) -> str:
        """A text of the tree, or the attributes of a tag, with the names of the entities of which the tree has stand-ins."""
        stands = self.masked.stands
        text = "".join(stands[self.entities[char].encode()].decode() if char in self.entities else char for char in text) if self.entities else text
        return self.masked.restored_text(text) if stands else text

    def given(self) -> bytes:
        """The tree's document as the session should show it."""
        return self.document.written(self.document.given).encode(errors="surrogatepass")

    def close(self) -> None:
        """Ends it all; an answer that takes long isn't waited for."""
        if not self.lock.acquire(timeout=2):
            self.session.process.kill()
            self.lock.acquire()
        self.session.close()
        self.script.close()


def replay(session: Session, move: Move, script: Script) -> None:
    """Makes a move of a script in a session."""
    for number, line in zip(move.numbers, move.lines, strict=True):
        if line.startswith(BESIDE):
            continue
        reply = session.edit(line)
        if isinstance(reply, Refused):
            where = f"{script.path}, line {number}" if number else script.path
            why = f"`{line if len(line) < 80 else line[:80] + '…'}`: {' '.join(reply)}"
            raise Trouble(f"{where}: a move can't be made any more ({why}); was the DTD changed?")


def redraw(document: Document, move: Move) -> list[Told]:
    """Makes a move in a tree; the changes."""
    told = is_main if any(map(is_main, move.lines)) else is_edit
    last = max(at for at, line in enumerate(move.lines) if told(line) or at == 0)
    edits = []
    for at, line in enumerate(move.lines):
        if at == last:
            move.title = title_of(move.lines, document)
        edits.append(document.edit(line))
    move.backs = [back for _, back in reversed(edits)]
    return [change for change, _ in edits]


def sum_of(document: Document) -> str:
    """A sum of what a page shows of a document: its nodes in order, with their depth."""
    sum_ = hashlib.sha256()
    for row in document.told():
        references = "".join(f"{at}={unit}" for at, unit in row.get("refs", {}).items())
        parts = (str(row["depth"]), row["kind"], row.get("name", ""), row.get("attrs", ""), row.get("note", ""), row.get("text", ""), references)
        sum_.update("\0".join(parts).encode(errors="surrogatepass") + b"\n")
    return sum_.hexdigest()


def made(reply: Made | Refused) -> Made:
    """The reply to an undo, which only want of memory refuses."""
    if isinstance(reply, Refused):
        raise Trouble("there is too little memory")
    return reply


def values(reply: Any) -> Any:
    """A reply that isn't a refusal: only want of memory refuses these."""
    if isinstance(reply, Refused):
        raise Trouble("there is too little memory")
    return reply


def stand_in_of(form: bytes) -> str:
    """The character that a stand-in of an entity refers to."""
    return chr(int(form[2:-1]))
