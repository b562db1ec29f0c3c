"""What stands beside a document while it is marked up: DOC.pvtag, the script so far.

It is a script of a session, `moves` says of which lines. Two more lines, which a session answers with `no command`,
tell the documents by their SHA-256: `document HASH` at the start, the one that the script begins with, and `saved HASH`
before each Save, the one that is put in its place. The one that it begins with is kept in DOC.pvtag.base from the first
move on, so that everything can be taken back after a Save too, and made again where DOC was changed by another
program. Each move is on the disk before it is told to be made. A last line that was cut off is dropped, and so are lines
that count together and aren't all there.
"""
import contextlib
import hashlib
import os
import stat
from typing import NamedTuple

from .files import Kept, check_file, locked, made_beside, put_file, put_new, read, sync_folder, write_into, written_beside
from .moves import INSTEAD, LONGEST, BadLine, count_in
from pvtag.program import Trouble, shown_name

SAVED, DOCUMENT = "saved ", "document "
# What DOC's name is followed by, at the longest.
LONGEST_END = ".pvtag.base"


class Changed(Trouble):
    """The document isn't the one that the script goes on from."""


class Question(Trouble):
    """What has to be asked before the document is written, and the ways in which it may be."""

    def __init__(self, why: str, ways: list[str]) -> None:
        super().__init__(why)
        self.ways = ways


class Earlier(NamedTuple):
    """A script that doesn't go on from the document: its lines by their numbers, the document that it began with, where
    that was kept, and for each Save how many lines stand before it and the document's hash."""

    lines: list[tuple[int, str]]
    base: bytes | None
    saves: list[tuple[int, str]]


def hash_of(source: bytes) -> str:
    return hashlib.sha256(source).hexdigest()


class Script:
    def __init__(self, document: str, again: bool = False) -> None:
        """Opens the script of a document, and keeps others from it. `source` is the document that it begins with. Where
        the document was changed by another program, that is `Changed`; with `again` another script begins with the
        document as it is, and `earlier` is the old one, which stays in its place until `settle`."""
        self.name, self.document = shown_name(document), os.path.realpath(document)
        self.path, self.base = self.document + ".pvtag", self.document + ".pvtag.base"
        self.check_name()
        source = read(self.document)
        if source is None:
            raise Trouble(f"there is no file {self.name}; --from TEXT makes it of a plain text")
        self.source, self.on_disk, self.is_kept = source, hash_of(source), False
        self.earlier: Earlier | None = None
        # The file that is to take the script's place, and the script that is there meanwhile.
        self.fresh, self.aside = "", -1
        try:
            self.number = locked(self.path, self.document)
        except BlockingIOError:
            raise Trouble(f"{self.name} is being marked up already, by another annotate") from None
        try:
            self.lines = self.whole_lines()
            self.resume(again)
        except BadLine as bad:
            self.release()
            raise self.trouble(bad) from None
        except BaseException:
            self.release()
            raise

    lines: list[tuple[int, str]]
    began_with = ""
    # The size of the script before lines that were written in part and couldn't be cut off.
    torn: int | None = None

    def check_name(self) -> None:
        """Refuses a document whose name leaves no room for those beside it."""
        folder, name = os.path.split(self.document)
        with contextlib.suppress(OSError, ValueError):
            most = os.pathconf(folder, "PC_NAME_MAX") - len(LONGEST_END)
            if len(os.fsencode(name)) > most:
                raise Trouble(f"{self.name}: a name of at most {most} bytes is wanted, since what is kept beside it has "
                              "longer ones")

    def trouble(self, bad: BadLine) -> Trouble:
        return Trouble(f"{shown_name(self.path)}, line {bad.number}: {bad.why}")

    def content(self) -> bytes:
        return os.pread(self.number, os.fstat(self.number).st_size, 0)

    def whole_lines(self) -> list[tuple[int, str]]:
        """The lines by their numbers, from 1. What was cut off is dropped."""
        content = self.content()
        if not content.startswith(DOCUMENT.encode()[:len(content)]):
            raise Trouble(f"{shown_name(self.path)} is no script of annotate; move it elsewhere to start again")
        whole = content.split(b"\n")[:-1]
        lines = [(number, text_of(number, line)) for number, line in enumerate(whole, 1)]
        for number, line in lines[::-1]:
            if line.startswith(INSTEAD) and number + count_in(line, INSTEAD, number) > len(lines):
                lines = lines[:number - 1]
        size = sum(len(line) + 1 for line in whole[:len(lines)])
        os.ftruncate(self.number, size)
        return lines

    def resume(self, again: bool) -> None:
        """Finds the document that the script begins with: the one on the disk, or the one that was kept."""
        if not self.lines:
            return self.begin_anew()
        self.began_with = self.lines[0][1].removeprefix(DOCUMENT)
        saves, lines = list[tuple[int, str]](), list[tuple[int, str]]()
        for number, line in self.lines[1:]:
            if line.startswith(SAVED):
                saves.append((len(lines), line.removeprefix(SAVED)))
            elif not line.startswith(DOCUMENT):
                lines.append((number, line))
        self.lines = lines
        if self.on_disk == self.began_with:
            return
        kept = read(self.base)
        base = kept if kept is not None and hash_of(kept) == self.began_with else None
        if base is not None and self.on_disk in {saved for _, saved in saves}:
            self.source = base
        elif again:
            self.begin_again(Earlier(lines, base, saves))
        else:
            raise Changed(f"{self.name} has changed since it was marked up. Bring it back, or begin with --again: the "
                          "moves are then made again on it as it is now, as far as they go")

    def begin_anew(self) -> None:
        self.began_with, self.lines = self.on_disk, []
        self.append([f"{DOCUMENT}{self.on_disk}"])
        sync_folder(os.path.dirname(self.path))

    def begin_again(self, earlier: Earlier) -> None:
        """Begins another script with the document as it is; the old one stays where it is until `settle`."""
        self.earlier, self.aside = earlier, self.number
        self.number, self.fresh = made_beside(self.path, self.document)
        self.begin_anew()

    def settle(self) -> None:
        """Puts the script that was begun in the place of the old one, which is kept in DOC.pvtag.old."""
        size = os.fstat(self.aside).st_size
        put_file(self.path + ".old", os.pread(self.aside, size, 0), self.document)
        os.replace(self.fresh, self.path)
        sync_folder(os.path.dirname(self.path))
        os.close(self.aside)
        self.fresh, self.aside = "", -1
        if self.content().count(b"\n") > 1:
            self.keep_base()

    def append(self, lines: list[str]) -> None:
        """Writes these lines, all or none, and waits until they are on the disk."""
        if not self.fresh and not self.is_there:
            self.put_back()
        rest = "".join(f"{line}\n" for line in lines).encode()
        # What was left of others, where it couldn't be cut off, isn't gone on with.
        size = os.fstat(self.number).st_size if self.torn is None else self.torn
        self.torn = size
        os.ftruncate(self.number, size)
        try:
            while rest:
                rest = rest[os.write(self.number, rest):]
            os.fsync(self.number)
            self.torn = None
        except BaseException:
            os.ftruncate(self.number, size)
            self.torn = None
            raise

    @property
    def is_there(self) -> bool:
        """Whether the script's file still has its name; another program may have removed it, or put another one there."""
        try:
            return os.path.samestat(os.fstat(self.number), os.stat(self.path))
        except FileNotFoundError:
            return False

    def put_back(self) -> None:
        """Writes the script anew, where its file was removed; but over no other."""
        number, beside = made_beside(self.path, f"/dev/fd/{self.number}")
        try:
            rest = self.content()
            while rest:
                rest = rest[os.write(number, rest):]
            os.fsync(number)
            put_new(beside, self.path)
        except BaseException as fault:
            os.close(number)
            if isinstance(fault, FileExistsError):
                raise Trouble(f"{shown_name(self.path)} was replaced by another program, and nothing is written; move it elsewhere") from None
            raise
        finally:
            with contextlib.suppress(OSError):
                os.unlink(beside)
        os.close(self.number)
        self.number = number
        sync_folder(os.path.dirname(self.path))

    def keep_base(self) -> None:
        """Keeps the document that the script begins with, where that isn't done; it isn't in the place of another's
        until that is put aside."""
        if self.fresh or self.is_kept and os.path.exists(self.base):
            return
        kept = read(self.base)
        if kept is None or hash_of(kept) != self.began_with:
            put_file(self.base, self.source, self.document if os.path.exists(self.document) else self.path)
        self.is_kept = True

    @property
    def is_changed(self) -> bool:
        """Whether the document isn't any more what was opened or saved."""
        now = read(self.document)
        return now is not None and hash_of(now) != self.on_disk

    def save(self, source: bytes, way: str = "") -> None:
        """Puts these bytes in the document's place, where that is still what was opened or saved. What can't be put there
        as it should is a `Question`, but where the `way` is told: "replace", or "into" the file that is there."""
        if self.is_changed:
            raise Changed(f"{self.name} was changed by another program since it was opened, and isn't written over")
        like = self.document if os.path.exists(self.document) else self.path
        if like == self.document and not way:
            self.check_place()
        try:
            self.keep_base()
            with written_beside(self.document, source, like, is_strict=not way) as beside:
                self.append([f"{SAVED}{hash_of(source)}"])
                if way == "into":
                    write_into(self.document, source)
                else:
                    os.replace(beside, self.document)
                # It is there now, whether or not the folder can be waited for.
                self.on_disk = hash_of(source)
        except Kept as kept:
            raise Question(f"A file that takes the place of {self.name} can't have {kept}.", self.ways()) from None
        except OSError as fault:
            raise Trouble(f"{self.name} can't be written: {fault.strerror}") from None

    def check_place(self) -> None:
        """Asks before a document is replaced that may not be written, or that has other names."""
        there = os.stat(self.document)
        check_file(self.document, there.st_mode)
        if there.st_nlink > 1:
            raise Question(f"{self.name} has {there.st_nlink - 1} more name{'s' if there.st_nlink > 2 else ''}, which "
                           "would keep the old text.", self.ways())
        if not self.is_open:
            raise Question(f"{self.name} may not be written.", self.ways())

    @property
    def is_open(self) -> bool:
        """Whether the document may be written, by its mode too: some may write whatever it says."""
        return os.access(self.document, os.W_OK) and bool(stat.S_IMODE(os.stat(self.document).st_mode) & 0o222)

    def ways(self) -> list[str]:
        return ["replace", "into"] if self.is_open else ["replace"]

    def save_beside(self, name: str, source: bytes) -> str:
        """Writes these bytes to another file in the document's folder, which isn't there yet; its path."""
        folder = os.path.dirname(self.document)
        if name != os.path.basename(name) or name in ("", ".", "..") or "\0" in name:
            raise Trouble("a name of a file in the same folder is wanted, without a path")
        path = os.path.join(folder, name)
        try:
            if os.path.lexists(path):
                raise FileExistsError
            put_file(path, source, self.document if os.path.exists(self.document) else self.path, is_new=True)
        except FileExistsError:
            raise Trouble(f"{name} is there already") from None
        except UnicodeEncodeError:
            raise Trouble("that is no name of a file") from None
        except OSError as fault:
            raise Trouble(f"{name} can't be written: {fault.strerror}") from None
        return path

    def close(self) -> None:
        """Lets others have the script; one without a move is removed."""
        with contextlib.suppress(OSError):
            if not self.fresh and self.is_there and os.fstat(self.number).st_size <= len(f"{DOCUMENT}{self.began_with}\n"):
                os.unlink(self.path)
        self.release()

    def release(self) -> None:
        """Lets others have the script; one that wasn't settled is gone."""
        with contextlib.suppress(OSError):
            if self.fresh:
                os.unlink(self.fresh)
        for number in {self.number, self.aside} - {-1}:
            with contextlib.suppress(OSError):
                os.close(number)
        self.number = self.aside = -1


def text_of(number: int, line: bytes) -> str:
    """A line of a script as text."""
    if len(line) > LONGEST:
        raise BadLine(number, f"a line has at most {LONGEST:,} bytes")
    if b"\r" in line:
        raise BadLine(number, "a line holds no carriage return")
    try:
        return line.decode()
    except UnicodeDecodeError:
        raise BadLine(number, "this line isn't UTF-8") from None
