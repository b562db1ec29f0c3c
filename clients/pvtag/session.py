"""A session of `pvtag`, kept open through two pipes: one method a command, replies as values.

    with Session(["./pvtag"], "letter.dtd", "letter", "draft.xml") as session:
        session.wrap("0.0", 0, 1, "salute")     # Made(lists=2, open=0, bad=0), or Refused("impossible", "0.0")
        session.offer("0.1")                    # the names that the element may have instead
        session.tree()                          # its nodes, each with its path
        session.show()                          # the document's bytes

An edit, undo or redo answers `Made` or `Refused`; what else is asked answers its value, or `Refused` where there is
none. `Refused` is false in a condition, and so are 0 and an empty list: of these `isinstance` tells it apart. A path is
text, as in a line: "." is the document node, "0" the root.

Where the program ends, also before it began, each call raises `Ended`, which has its status and what it wrote last. What
isn't of the type that a method names raises `TypeError`, and a line end or half a surrogate pair in a name or a text
`ValueError`; then nothing was asked. Threads may share a session: a call waits until that of another thread has its answer.
"""
import contextlib
import errno
import io
import os
import re
import stat
import subprocess
import threading
from collections.abc import Iterator, Sequence
from typing import Literal, NamedTuple, NoReturn

from . import program as programs
from .tracking import Node, Tracked

# What other tools may use; each has an example.
__all__ = ("Session", "Made", "Refused", "Verdict", "Completed", "Ended")

Path = str | os.PathLike[str]
# Edits after which two texts may stand side by side, which the document that is shown doesn't tell from one.
CUTTING = ("split", "unwrap", "addtext", "deltext")


class Made(NamedTuple):
    """A move that was made: so many lists changed; so many aren't valid by themselves now but can be mended, and so
    many can't.

    >>> session.wrap("0.0", 0, 1, "salute")
    Made(lists=2, open=0, bad=0)
    """

    lists: int
    open: int
    bad: int


class Refused(NamedTuple):
    """A line that nothing came of, false in a condition. `why` is "shape", "impossible", "limit", "history", "command",
    "memory", "wide" or "heavy"; `what` the reason of a shape, or the path of a list.

    >>> refused = session.wrap("0.0", 0, 1, "closer")
    >>> refused
    Refused(why='impossible', what='0.0')
    >>> bool(refused)
    False
    """

    why: str
    what: str = ""

    def __bool__(self) -> Literal[False]:
        return False


class Verdict(NamedTuple):
    """A list, its verdict ("valid", "possible" or "impossible"), and the number of the move that changed it last.

    >>> session.verdicts()[1]
    Verdict(path='0', verdict='valid', stamp=0)
    """

    path: str
    verdict: str
    stamp: int


# A row of a list that isn't valid.
UNSETTLED = re.compile(rb"^(\S+) ((?:im)?)possible ", re.M)


class Unsettled(NamedTuple):
    """How many lists aren't valid, and how many of these can't be mended; the paths of the first that can't, and of the
    first that can."""

    lists: int
    bad: int
    first_bad: list[str]
    first: list[str]

    def more(self, rows: bytes, most_bad: int, most: int) -> "Unsettled":
        """This with the rows of further lists added; at most so many paths are kept."""
        if b"possible " not in rows:
            return self
        found = UNSETTLED.findall(rows)
        bad = sum(bool(word) for _, word in found)
        if len(self.first_bad) < most_bad and bad:
            self.first_bad.extend([path.decode() for path, word in found if word][: most_bad - len(self.first_bad)])
        if len(self.first) < most and bad < len(found):
            self.first.extend([path.decode() for path, word in found if not word][: most - len(self.first)])
        return Unsettled(self.lists + len(found), self.bad + bad, self.first_bad, self.first)


class Completed(NamedTuple):
    """A completed document, and how many elements are new in it.

    >>> session.complete().new
    1
    """

    new: int
    document: bytes


class Ended(Exception):
    """The program has ended: its status, and its last line.

    >>> from pvtag.program import find
    >>> Session(find(), "examples/letter.dtd", "letter", "examples/letter.txt").show()
    Traceback (most recent call last):
        ...
    pvtag.session.Ended: the session has ended with status 7: document syntax 0
    """

    def __init__(self, status: int | None, line: str) -> None:
        super().__init__(f"the session has ended with status {status}: {line or 'it wrote nothing'}")
        self.status, self.line = status, line


class Session:
    """A session on a document; `wrap` and the other edits change it, and `show` prints it.

    >>> from pvtag.program import find
    >>> with Session(find(), "examples/letter.dtd", "letter", "examples/letter-draft.xml") as draft:
    ...     draft.wrap("0.0", 0, 1, "salute")
    ...     draft.need()
    Made(lists=2, open=0, bad=0)
    0
    """
    def __init__(self, program: Sequence[str], dtd: Path, root: str, document: Path) -> None:
        """Begins; `program` is a list of words, as `program.find` gives it. A session of its own keeps the terminal's
        Ctrl-C from it. Raises `OSError` where the program can't be run, or a file isn't there, is a folder or may not be
        read; `TypeError` where `program` is one text, or a word isn't text."""
        if isinstance(program, (str, bytes)):
            raise TypeError(f"the program is a list of words, such as [{program!r}]")
        files = [os.fspath(path) for path in (dtd, document)]
        words = [*map(os.fspath, program), "session", files[0], root, files[1]]
        for word in words:
            of_type(word, str)
        for path in files:
            can_be_read(path)
        with programs.handed_over(words) as (given, open_):
            self.process = programs.uninterrupted(lambda: programs.popen(
                given, stdin=subprocess.PIPE, stdout=subprocess.PIPE, pass_fds=open_, start_new_session=True))
        assert self.process.stdin is not None and isinstance(self.process.stdout, io.BufferedReader)
        self.input, self.output = self.process.stdin, self.process.stdout
        self.lock, self.moves = threading.RLock(), 0
        # The edits that are made and those that are undone, as lines, and the tree beside the session, once it is wanted.
        self.made: list[str] = []
        self.undone: list[str] = []
        self.tracked: Tracked | None = None

    # Edits.
    def wrap(self, path: str, start: int, end: int, name: str) -> Made | Refused:
        """Puts a new element round the kids of a node from `start` up to `end`.

        >>> session.wrap("0.0", 0, 1, "salute")
        Made(lists=2, open=0, bad=0)
        >>> session.wrap("0.0", 0, 1, "p")
        Refused(why='impossible', what='0.0')
        """
        return self.edit(named(line_of("wrap", path, start, end), name))

    def insert(self, path: str, at: int, name: str) -> Made | Refused:
        """Puts a new element, which holds nothing, before a kid of a node, or after the last one.

        >>> session.insert("0.0", 0, "dateline")
        Made(lists=2, open=1, bad=0)
        """
        return self.edit(named(line_of("insert", path, at), name))

    def unwrap(self, path: str) -> Made | Refused:
        """Takes the tags of an element away.

        >>> session.unwrap("0.2.0")
        Made(lists=1, open=2, bad=0)
        >>> session.show().splitlines()[1]
        b'<body>I have met Mr Adams in Delft.</body></letter>'
        """
        return self.edit(line_of("unwrap", path))

    def rename(self, path: str, name: str) -> Made | Refused:
        """Gives an element another name.

        >>> session.rename("0.2.0", "closer")
        Refused(why='impossible', what='0.2')
        >>> session.rename("0.2", "body")
        Made(lists=2, open=1, bad=0)
        """
        return self.edit(named(line_of("rename", path), name))

    def split(self, path: str, at: int) -> Made | Refused:
        """Cuts a text in two, at a unit.

        >>> session.split("0.2.0.0", 11)
        Made(lists=1, open=1, bad=0)
        >>> [text for _, text in session.texts()][-2:]
        ['I have met ', 'Mr Adams in Delft.']
        """
        return self.edit(line_of("split", path, at))

    def join(self, path: str) -> Made | Refused:
        """Makes one text of a text and the next.

        >>> session.split("0.2.0.0", 11) and session.join("0.2.0.0")
        Made(lists=1, open=1, bad=0)
        >>> session.texts()[-1]
        ('0.2.0.0', 'I have met Mr Adams in Delft.')
        """
        return self.edit(line_of("join", path))

    def text(self, path: str, text: str) -> Made | Refused:
        """Gives a text other units, which are written as between tags.

        >>> session.text("0.2.0.0", "I &amp; Mr Adams")
        Made(lists=1, open=1, bad=0)
        >>> session.texts()[-1]
        ('0.2.0.0', 'I & Mr Adams')
        """
        return self.edit(named(line_of("text", path), text))

    def addtext(self, path: str, at: int, text: str) -> Made | Refused:
        """Puts a new text before a kid of a node, or after the last one.

        >>> session.addtext("0.2.0", 1, " Soon more.")
        Made(lists=1, open=1, bad=0)
        """
        return self.edit(named(line_of("addtext", path, at), text))

    def deltext(self, path: str) -> Made | Refused:
        """Takes a text away.

        >>> session.deltext("0.2.0.0")
        Made(lists=1, open=1, bad=0)
        >>> session.show().splitlines()[1]
        b'<body><p></p></body></letter>'
        """
        return self.edit(line_of("deltext", path))

    def undo(self) -> Made | Refused:
        """Undoes the last edit that isn't undone.

        >>> session.undo()
        Refused(why='history', what='')
        >>> session.unwrap("0.2.0") and session.undo()
        Made(lists=2, open=1, bad=0)
        """
        return self.edit("undo")

    def redo(self) -> Made | Refused:
        """Makes the edit again that was undone last.

        >>> session.unwrap("0.2.0") and session.undo() and session.redo()
        Made(lists=1, open=2, bad=0)
        """
        return self.edit("redo")

    def wrap_text(self, path: str, start: int, end: int, name: str) -> Made | Refused:
        """Wraps these units of a text, which is cut for that. All is done, and is three moves of the history at most, or
        nothing: where the element is refused the cuts are undone, and what could be redone before is lost. What is raised
        meanwhile ends the program.

        >>> session.wrap_text("0.2.0.0", 11, 19, "person")
        Made(lists=2, open=1, bad=0)
        >>> session.show().splitlines()[1]
        b'<body><p>I have met <person>Mr Adams</person> in Delft.</p></body></letter>'
        """
        return self.wrap_run(path, start, path, end, name)

    def wrap_run(self, first: str, start: int, last: str, end: int, name: str) -> Made | Refused:
        """Puts an element round what stands from a unit of one text up to a unit of another. Both are kids of one element. A
        kid that is no text is taken whole, from 0 up to 1.

        >>> from pvtag.program import run
        >>> session.split("0.0.0", 5)
        Made(lists=1, open=1, bad=0)
        >>> session.wrap_run("0.0.0", 0, "0.0.1", 8, "salute")
        Made(lists=2, open=0, bad=0)
        """
        for path, at in ((first, start), (last, end)):
            named(line_of("split", path, at), name)
        with self.whole():
            lines = self.lines_of_run(first, start, last, end, name)
            if isinstance(lines, Refused):
                return lines
            for count, line in enumerate(lines):
                done = self.edit(line)
                if isinstance(done, Refused):
                    for _ in range(count):
                        self.undo()
                    return done
            return done

    def lines_of_run(self, first: str, start: int, last: str, end: int, name: str) -> list[str] | Refused:
        """The edits that wrap a run: cuts of its texts, the last one first, and the element."""
        tracked = self.track()
        if isinstance(tracked, Refused):
            return tracked
        (owner, _, one), (other, _, two) = first.rpartition("."), last.rpartition(".")
        sizes = [tracked.size(path) for path in (first, last)]
        if not all(map(tracked.has, (first, last))):
            return Refused("shape", "no-node")
        if first == last and sizes[0] is None:
            return Refused("shape", "not-text")
        size, most = (1 if size is None else size for size in sizes)
        is_within = 0 <= start < size and 0 < end <= most and (int(one), start) < (int(two), end)
        if owner != other or not is_within:
            return Refused("shape", "range")
        cuts = [line_of("split", last, end)] * (end < most) + [line_of("split", first, start)] * (start > 0)
        at = int(one) + (start > 0)
        return [*cuts, named(line_of("wrap", owner, at, int(two) + (start > 0) + 1), name)]

    def edit(self, line: str) -> Made | Refused:
        """Makes the edit that a line of a script says.

        >>> session.edit("wrap 0.0 0 1 salute")
        Made(lists=2, open=0, bad=0)
        >>> session.edit("wrap 0.0")
        Refused(why='command', what='')
        """
        with self.lock:
            words = self.ask(line)
            if words[0] == "no":
                return refused(words)
            return self.was_made(line, words)

    def was_made(self, line: str, words: list[str]) -> Made:
        self.moves += 1
        self.follow(line)
        return Made(*map(int, words[1:4]))

    def tried(self, lines: Sequence[str], then: str = "") -> list[tuple[Made | Refused, bytes]]:
        """What each of these edits answers, each undone before the next, and what "need" or "verdicts" then says, as it comes.
        They are written together where no edit was made before, since an undo of nothing changes nothing: so there are to be
        few, and what is said of them short. Of one that is refused nothing more is said, and what could be redone before is
        lost.

        >>> session.tried(["wrap 0.0 0 1 salute", "wrap 0.0 0 1 p"], "need")
        [(Made(lists=2, open=0, bad=0), b'0'), (Refused(why='impossible', what='0.0'), b'')]
        >>> session.history()
        []
        """
        with self.whole():
            together = [lines] if not self.made else [[line] for line in lines]
            return [answer for some in together for answer in self.tried_together(some, then)]

    def tried_together(self, lines: Sequence[str], then: str) -> Iterator[tuple[Made | Refused, bytes]]:
        if self.made and lines:
            # One line: its undo is only asked for where it was made.
            reply = self.edit(lines[0])
            told = self.told_by(self.ask(then)) if then and isinstance(reply, Made) else b""
            if isinstance(reply, Made) and not isinstance(self.undo(), Made):
                raise Ended(None, "a move can't be taken back")
            yield reply, told
            return
        after = [then, "undo"] if then else ["undo"]
        self.write("".join(f"{each}\n" for line in lines for each in (in_one_line(line), *after)))
        for line in lines:
            words = self.words()
            reply = refused(words) if words[0] == "no" else self.was_made(line, words)
            told = self.told_by(self.words()) if then else b""
            words = self.words()
            told = told if isinstance(reply, Made) else b""
            if isinstance(reply, Made):
                if words[0] == "no":
                    raise Ended(None, "a move can't be taken back")
                self.was_made("undo", words)
            yield reply, told

    def told_by(self, words: list[str]) -> bytes:
        """The rows of verdicts, or a number; nothing where that is refused."""
        if words[0] == "verdicts":
            return b"".join(self.lines(int(words[1])))
        return b"" if words[0] == "no" else words[1].encode()

    # The tree.
    def follow(self, line: str) -> None:
        """Makes a move of the session in the tree beside it."""
        if line == "undo":
            self.undone.append(self.made.pop())
            if self.tracked is not None and not self.tracked.undo():
                # What stands before that has no cuts, and is read again.
                self.tracked = None
            return
        if line == "redo":
            line = self.undone.pop()
        else:
            self.undone.clear()
        self.made.append(line)
        if self.tracked is not None:
            self.tracked.edit(line)

    def track(self) -> Tracked | Refused:
        """The tree beside the session. Where it begins after a cut, it is read as it was before that: so many moves are
        undone and made again."""
        if self.tracked is None:
            first = next((at for at, line in enumerate(self.made) if line.startswith(CUTTING)), len(self.made))
            count = len(self.made) - first
            done = [self.undo() for _ in range(count)]
            shown = self.show()
            tracked = self.tracked = None if isinstance(shown, Refused) else Tracked(shown)
            done += [self.redo() for _ in range(count)]
            assert all(done)
            if tracked is None:
                return Refused("memory")
        return self.tracked or Refused("memory")

    def tree(self) -> list[Node] | Refused:
        """The nodes of the document as it is now, in document order from the root on, each with its path.

        >>> [(node.path, node.kind, node.name or node.text) for node in session.tree()][:3]
        [('0', 'element', 'letter'), ('0.0', 'element', 'opener'), ('0.0.0', 'text', 'Dear brother,')]
        """
        with self.whole():
            tracked = self.track()
            return tracked if isinstance(tracked, Refused) else tracked.nodes()

    def texts(self) -> list[tuple[str, str]] | Refused:
        """The texts in document order, each with its path and with one character for each of its units, as `wrap_text`
        counts them.

        >>> session.texts()[0]
        ('0.0.0', 'Dear brother,')
        """
        nodes = self.tree()
        if isinstance(nodes, Refused):
            return nodes
        return [(node.path, node.text) for node in nodes if node.kind == "text"]

    # What changes nothing.
    def history(self) -> list[str]:
        """The edits that were made and aren't undone, as lines.

        >>> session.wrap("0.0", 0, 1, "salute") and session.history()
        ['wrap 0.0 0 1 salute']
        """
        with self.whole():
            return [self.line() for _ in range(int(self.ask("history")[1]))]

    def show(self) -> bytes | Refused:
        """The document's bytes.

        >>> session.show()[:29]
        b'<letter><opener>Dear brother,'
        """
        with self.whole():
            words = self.ask("show")
            return refused(words) if words[0] == "no" else self.body(int(words[1]))

    def verdicts(self) -> list[Verdict] | Refused:
        """All lists, in document order.

        >>> [(row.path, row.verdict) for row in session.verdicts()][:3]
        [('.', 'valid'), ('0', 'valid'), ('0.0', 'possible')]
        """
        rows = self.verdict_lines()
        return rows if isinstance(rows, Refused) else [verdict_of(row) for row in rows.splitlines()]

    def changed(self, after: int) -> list[Verdict] | Refused:
        """The lists that moves after number `after` have changed, moves being counted from 1.

        >>> session.wrap("0.0", 0, 1, "salute") and session.changed(0)
        [Verdict(path='0.0', verdict='valid', stamp=1), Verdict(path='0.0.0', verdict='valid', stamp=1)]
        """
        with self.lock:
            rows, moves = self.verdict_lines(), self.moves
        if isinstance(rows, Refused):
            return rows
        late = b"|".join(b"%d" % stamp for stamp in range(after + 1, moves + 1))
        return [verdict_of(row) for row in re.findall(rb"^.* (?:%s)$" % late, rows, re.M)] if late else []

    def need(self) -> int | Refused:
        """The least number of missing elements.

        >>> session.need()
        1
        """
        words = self.ask("need")
        return refused(words) if words[0] == "no" else int(words[1])

    def complete(self) -> Completed | Refused:
        """A document with as few elements inserted as make it valid.

        >>> session.complete().document[:46]
        b'<letter><opener><salute>Dear brother,</salute>'
        """
        with self.whole():
            words = self.ask("complete")
            return refused(words) if words[0] == "no" else Completed(int(words[1]), self.body(int(words[2])))

    def offer(self, path: str, start: int | None = None, end: int | None = None) -> list[str] | Refused:
        """The names that this run of kids may be wrapped in; without a run, those that the element may have.

        >>> session.offer("0.2.0", 0, 1)
        ['place', 'date', 'person']
        >>> session.offer("0.2")
        ['body']
        """
        if (start is None) != (end is None):
            raise TypeError("a run of kids has a start and an end")
        with self.whole():
            words = self.ask(line_of("offer", path, *(() if start is None or end is None else (start, end))))
            return refused(words) if words[0] == "no" else [self.line() for _ in range(int(words[1]))]

    # The pipes.
    def ask(self, line: str) -> list[str]:
        """The first line of the reply, as words."""
        line = in_one_line(line)
        with self.whole():
            self.write(f"{line}\n")
            return self.words()

    def write(self, lines: str) -> None:
        with contextlib.suppress(BrokenPipeError):
            self.input.write(lines.encode())
            self.input.flush()

    def words(self) -> list[str]:
        """The first line of a reply, as words."""
        first = self.line()
        words = first.split(" ", 2) if first.startswith("no ") else first.split(" ")
        if words[0] not in REPLIES:
            self.ended(first)
        return words

    @contextlib.contextmanager
    def whole(self) -> Iterator[None]:
        """One thread at a time. What is raised in here ends the program: what is left of a reply would be taken for the
        next one."""
        with self.lock:
            if self.output.closed:
                raise Ended(self.process.returncode, "")
            try:
                yield
            except Ended:
                raise
            except BaseException as fault:
                # Another thread may have closed it meanwhile.
                was_closed = isinstance(fault, ValueError) and self.input.closed
                self.process.kill()
                self.close()
                if was_closed:
                    raise Ended(self.process.returncode, "") from None
                raise

    def line(self) -> str:
        line = self.output.readline()
        if not line.endswith(b"\n"):
            self.ended(line.decode(errors="replace"))
        return line[:-1].decode()

    def lines(self, count: int) -> Iterator[bytes]:
        """So many lines, in pieces that may end anywhere but at the end."""
        while count > 0:
            piece = self.output.peek()
            if not piece:
                self.ended("")
            ends = piece.count(b"\n")
            if ends > count:
                piece, ends = b"".join(line + b"\n" for line in piece.split(b"\n")[:count]), count
            count -= ends
            yield self.output.read(len(piece))

    def body(self, size: int) -> bytes:
        """So many bytes, and the LF after them."""
        text = self.output.read(size + 1)
        if len(text) <= size:
            self.ended("")
        return text[:-1]

    def verdict_lines(self) -> bytes | Refused:
        """The rows of all lists, as they come."""
        with self.whole():
            words = self.ask("verdicts")
            return refused(words) if words[0] == "no" else b"".join(self.lines(int(words[1])))

    def unsettled(self, most_bad: int, most: int) -> Unsettled | Refused:
        """The lists that aren't valid, with the paths of so many that can't be mended, and of so many that can. The rows of
        all lists are looked through as they come, and not kept.

        >>> session.unsettled(1, 1)
        Unsettled(lists=1, bad=0, first_bad=[], first=['0.0'])
        """
        with self.whole():
            words = self.ask("verdicts")
            if words[0] == "no":
                return refused(words)
            found, rest = Unsettled(0, 0, [], []), b""
            for piece in self.lines(int(words[1])):
                rows, _, rest = (rest + piece).rpartition(b"\n")
                found = found.more(rows, most_bad, most)
            return found

    def ended(self, line: str) -> NoReturn:
        raise Ended(self.close(), line)

    def close(self) -> int:
        """Ends the program, which a closed input asks for, and gives its status.

        >>> session.close()
        0
        >>> session.need()
        Traceback (most recent call last):
            ...
        pvtag.session.Ended: the session has ended with status 0: it wrote nothing
        """
        try:
            self.input.close()
        except BrokenPipeError:
            pass
        self.output.close()
        try:
            return self.process.wait(timeout=5)
        except subprocess.TimeoutExpired:
            self.process.kill()
            return self.process.wait()

    def __enter__(self) -> "Session":
        return self

    def __exit__(self, *_: object) -> None:
        self.close()


REPLIES = ("ok", "no", "show", "history", "verdicts", "need", "completed", "offer")


def of_type(value: object, wanted: type) -> None:
    if not isinstance(value, wanted) or isinstance(value, bool):
        raise TypeError(f"{value!r} is no {wanted.__name__}")


def line_of(word: str, path: str, *numbers: int) -> str:
    """A line of a script."""
    of_type(path, str)
    for number in numbers:
        of_type(number, int)
    return in_one_line(" ".join([word, path, *map(str, numbers)]))


def named(line: str, last: str) -> str:
    """A line of a script that ends with a name or a text."""
    of_type(last, str)
    return in_one_line(f"{line} {last}")


def in_one_line(line: str) -> str:
    if "\n" in line or "\r" in line:
        raise ValueError("a line holds no line end")
    # Half a surrogate pair raises a `ValueError` here, before anything was asked.
    line.encode()
    return line


def can_be_read(path: str) -> None:
    """Raises where no file of this name can be read. A pipe isn't opened: what stands in it can be read once."""
    if stat.S_ISDIR(os.stat(path).st_mode):
        raise IsADirectoryError(errno.EISDIR, os.strerror(errno.EISDIR), path)
    if not os.access(path, os.R_OK):
        raise PermissionError(errno.EACCES, os.strerror(errno.EACCES), path)


def refused(words: list[str]) -> Refused:
    return Refused(*words[1:])


def verdict_of(row: bytes) -> Verdict:
    path, verdict, stamp = row.split()
    return Verdict(path.decode(), verdict.decode(), int(stamp))

