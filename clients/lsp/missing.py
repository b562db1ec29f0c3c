"""A completion as text edits that insert tags and touch nothing else: a least one, but where a list is too wide for a
session that of `pvlong`."""
import re
from collections.abc import Callable
from typing import NamedTuple

from .documents import Document
from .grammar import Grammar, NewElement
from .lists import Alone
from .nodes import END, ITEM, NAME, SLASH, START
from pvtag.long import Inserted
from pvtag.session import Ended, Refused
from .text import Json
from .work import Work

NUMBERED = re.compile(rb"<" + NAME + rb' n="(\d+)"')
WHY = {
    "impossible": "no insertions can make this document valid",
    "wide": "a list of this document is too wide to count what is missing in it",
    "heavy": "more than 1,000,000 elements are missing",
}


class Completed(NamedTuple):
    """The edits, and what new elements lack of attributes, by their names."""

    edits: list[Json]
    lacking: dict[str, NewElement]

    @property
    def sentence(self) -> str:
        """What they lack, in a sentence; "" where that is nothing."""
        told = [f"`{name}` {new.sentence}" for name, new in self.lacking.items()]
        return f"New elements need attributes that the DTD requires: {'; '.join(told)}." if told else ""


class Change:
    """Bytes in place of others."""

    __slots__ = ("start", "end", "text")

    def __init__(self, start: int, end: int, text: bytes) -> None:
        self.start, self.end, self.text = start, end, text


class Numbered:
    """A document whose elements have a number each in place of their attributes, so that a completion of it tells which
    are new."""

    def __init__(self, data: bytes) -> None:
        self.source = data
        self.tags: list[tuple[int, int]] = []
        parts: list[bytes] = []
        for item in ITEM.finditer(data):
            if item.lastindex == START:
                parts.append(
                    b'<%b n="%d"%b' % (item[1], len(self.tags), b"/>" if data[item.end() - 2] == SLASH else b">")
                )
                self.tags.append(item.span())
            else:
                parts.append(item[0])
        self.data = b"".join(parts)

    def changes(self, completed: bytes, new_element: Callable[[str], NewElement]) -> list[Change]:
        """What a completion of the numbered document changes in the document; new elements are given what is told."""
        changes: list[Change] = []
        at, opened = 0, list[bool]()

        def put(text: bytes) -> None:
            if changes and changes[-1].end == at:
                changes[-1].text += text
            else:
                changes.append(Change(at, at, text))

        for item in ITEM.finditer(completed):
            text, is_short = item[0], item[0].endswith(b"/>")
            if item.lastindex == START and (number := NUMBERED.match(text)):
                at = self.tags[int(number[1])][1]
                was_short = self.source[at - 2] == SLASH
                if was_short and not is_short:
                    changes.append(Change(at - 2, at, b">"))
                if not is_short:
                    opened.append(was_short)
            elif item.lastindex == START:
                front = item.end(1) - item.start()
                put(text[:front] + new_element(item[1].decode()).attributes + text[front:])
                if not is_short:
                    opened.append(True)
            elif item.lastindex == END and opened.pop():
                put(text)
            elif item.lastindex == END:
                at = self.source.index(b">", at) + 1
            else:
                at += len(text)
        return changes


def completed(document: Document, grammar: Grammar, work: Work) -> Completed | str:
    """The edits, or why there are none."""
    numbered = Numbered(document.data)
    try:
        answer = inserted(grammar, grammar.root, numbered.data, work)
    except Ended as ended:
        return f"the document can't be read: {ended.line}"
    if isinstance(answer, Refused):
        return WHY.get(answer.why, f"the program answers: {answer.why}")
    new = dict[str, NewElement]()

    def new_element(name: str) -> NewElement:
        if name not in new:
            new[name] = grammar.new_element(name)
        return new[name]

    changes = numbered.changes(answer.document, new_element)
    edits = [document.put(change.start, change.end, change.text.decode()) for change in changes]
    return Completed(edits, {name: each for name, each in new.items() if each.lacking})


def inserted(grammar: Grammar, root: str, data: bytes, work: Work) -> Inserted | Refused:
    """The completed document."""
    with work.session(grammar, root, data) as session:
        answer = session.complete()
    if not isinstance(answer, Refused):
        return Inserted(answer.document, True)
    return (work.complete_wide(grammar, root, data) if answer.why == "wide" else None) or answer


def missing_in(alone: Alone, grammar: Grammar, work: Work) -> list[str] | None:
    """The names of the elements that a list alone needs inserted in it, those in its kids left out; none where it can't
    be told."""
    try:
        done = inserted(grammar, alone.root(grammar), alone.data, work)
    except Ended:
        return None
    return new_names(done.document) if isinstance(done, Inserted) and done.is_least else None


def new_names(done: bytes) -> list[str]:
    """The names of the new elements of a completed list, those in its kids left out."""
    found, kept, depth = list[str](), list[int](), 0
    for item in ITEM.finditer(done):
        is_short = item[0].endswith(b"/>")
        if item.lastindex == END:
            depth -= 1
            if kept and kept[-1] == depth:
                kept.pop()
        elif item.lastindex == START:
            is_kept = NUMBERED.match(item[0]) is not None
            if not is_kept and not kept and depth:
                found.append(item[1].decode())
            if is_kept and not is_short:
                kept.append(depth)
            depth += not is_short
    return found
