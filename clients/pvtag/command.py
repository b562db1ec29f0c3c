"""What the commands of `clients/` share: their words, and what they say of files. How they begin and end is in `start`."""
import argparse
import contextlib
import os
import sys
from collections.abc import Callable, Iterator, Mapping
from typing import NamedTuple

from .attributes import Attributes, Checked
from .dtd import Dtd
from .faults import Fault, Refusal, fault_of
from .layout import Layout, Node
from .masks import Masked, MaskedSource, mask
from .places import Source
from .program import Answer, Trouble, add_option, file_of, find, is_utf_8, read_file, shown_name
from .reasons import Reason, Reasons
from .session import Ended, Session
from .start import said

DTD = ("DTD", "the file of the DTD")
ROOT = ("ROOT", "the name of the root element")
DOC = ("DOC", "the file of the document")
# What the declaration says stands in a line of its own.
BELOW = "\n  "


class Given(NamedTuple):
    """A file of a command: its name, a path by which it can be read again and again, and of a document what was masked of
    it, where the program is given another text than that of the file."""

    name: str
    path: str
    masked: Masked | None = None

    def source(self) -> Source:
        """The file as the program is given it, with the lines and columns of the file as it is written."""
        return Source(self.name, read_file(self.path)) if self.masked is None else MaskedSource(self.name, self.masked)

    def restored(self, printed: bytes) -> bytes:
        """What the program printed of it, as it is written."""
        return self.masked.restored(printed) if self.masked is not None else printed


class Asked(NamedTuple):
    """What a command is about."""

    program: list[str]
    dtd: Given
    root: str
    doc: Given

    def checked(self) -> Checked:
        """What is wrong with the document's attributes."""
        with Attributes(read_file(self.dtd.path)) as attributes:
            return attributes.check(self.doc.masked or read_file(self.doc.path))

    def reasons(self) -> Reasons:
        return Reasons(self.program, Dtd(self.program, self.dtd.path, self.dtd.name), self.root)


def reader(description: str, *words: tuple[str, str]) -> argparse.ArgumentParser:
    """Reads a command's words, each told by its name and what it is, and the option for the program."""
    made = argparse.ArgumentParser(description=description, formatter_class=argparse.RawDescriptionHelpFormatter)
    for name, meaning in words:
        made.add_argument(name.lower(), metavar=name, help=meaning)
    add_option(made)
    return made


@contextlib.contextmanager
def given(path: str) -> Iterator[Given]:
    """A file, of which a copy is kept where it is a pipe or the like. One whose name isn't UTF-8 is handed over open: the
    program takes no such words."""
    if os.path.isfile(path) and not is_utf_8(path):
        with open(path, "rb") as file:
            yield Given(shown_name(path), f"/proc/{os.getpid()}/fd/{file.fileno()}")
    elif os.path.isfile(path):
        yield Given(shown_name(path), path)
    else:
        with file_of(read_file(path)) as copy:
            yield Given(shown_name(path), copy)


@contextlib.contextmanager
def asked_of(words: argparse.Namespace) -> Iterator[Asked]:
    """What the words DTD, ROOT and DOC of a command ask about."""
    with given(words.dtd) as dtd, given(words.doc) as file, masked_of(file, dtd) as doc:
        yield Asked(find(words.program), dtd, words.root, doc)


@contextlib.contextmanager
def masked_of(file: Given, dtd: Given) -> Iterator[Given]:
    """A document as the program reads it: the file, or a copy in which its subset and its entities are masked. What is to
    be said of these is said on the error output."""
    masked = mask(read_file(file.path), read_file(dtd.path))
    if masked.is_plain:
        yield file
        return
    source = Source(file.name, masked.source)
    for remark in masked.remarks:
        if not remark.is_fault:
            print(f"{file.name}:{source.place(remark.span.start)}: warning: {remark.sentence}", file=sys.stderr)
    if (fault := masked.fault) is not None:
        raise Refusal(Fault(file.name, fault.span, source.place(fault.span.start), fault.sentence, "", 7))
    with file_of(masked.data) as copy:
        yield Given(file.name, copy, masked)


def say_attributes(asked: Asked, most: int | None) -> None:
    """Says on the error output what is wrong with attributes, at most so many of them, or that they weren't looked at."""
    checked = asked.checked()
    masked = asked.doc.masked
    source = Source(asked.doc.name, masked.source if masked is not None else read_file(asked.doc.path))
    for fault in checked.faults[:most]:
        where = f":{source.place(fault.span.start)}" if fault.span is not None else ""
        print(f"{source.name}{where}: {fault.sentence}", file=sys.stderr)
    if not checked.are_valid:
        more = "; --all tells each" if most is not None and len(checked.faults) > most else ""
        said(f"{checked.sentence}{more}", 0)


def answered(answer: Answer, files: Mapping[str, Given]) -> Answer:
    """An answer, where it is one; else what was refused, by the command's files by their word."""
    if answer.status > 1:
        raise Refusal(fault_of(answer.status, answer.line, {word: file.source() for word, file in files.items()}))
    return answer


@contextlib.contextmanager
def session_on(asked: Asked) -> Iterator[Session]:
    """A session; where it ends by itself, what was refused."""
    try:
        session = Session(asked.program, asked.dtd.path, asked.root, asked.doc.path)
    except OSError as fault:
        raise Trouble(f"{shown_name(asked.program[0])} can't be run: {fault.strerror}") from None
    try:
        with session:
            yield session
    except Ended as ended:
        files = {"dtd": asked.dtd.source(), "document": asked.doc.source()}
        raise Refusal(fault_of(ended.status or 3, ended.line, files)) from None


def where_in(source: Source, node: Node, kids: tuple[int, ...]) -> Callable[[int], str]:
    """Where a kid stands, for a sentence: its line, and its column too where others of these stand in the line."""
    places = {kid: source.place(node.kids[kid].span.start) for kid in kids}
    lines = [place.line for place in places.values()]

    def where(kid: int) -> str:
        line, column = places[kid]
        return f" (line {line}, column {column})" if lines.count(line) > 1 else f" (line {line})"

    return where


def placed(source: Source, layout: Layout, reason: Reason) -> str:
    """A reason in two lines: the place is that of the first kid that has no room."""
    node = layout.node(reason.path) or layout.top
    at = node.kids[reason.first] if reason.first is not None else node
    sentences = reason.sentences(where_in(source, node, reason.kids))
    return f"{source.name}:{source.place(at.span.start)}: " + BELOW.join(sentences)
