"""The plain text of a tree, and what became of its characters in another one."""
import bisect
import difflib
import os
import re
from collections.abc import Iterator

from pvtag.document import ELEMENT, TEXT, Document, Node, shown

TOKEN = re.compile(r"\w+|\s+|[^\w\s]")
# Words that were replaced are compared by their characters where both sides hold at most so many, and count as the same
# words with changes where they have so much in common.
LONGEST, LEAST = 2000, 0.5
# Texts with more words than these are compared without those that stand everywhere.
MANY = 4000


class Plain:
    """The texts of a tree in order: where each begins, and what each element spans."""

    def __init__(self, document: Document) -> None:
        self.starts: list[int] = []
        self.nodes: list[Node] = []
        self.spans: dict[int, tuple[int, int]] = {}
        parts: list[str] = []
        at, todo = 0, [(document.top, -1)]
        while todo:
            node, start = todo.pop()
            if start >= 0:
                self.spans[node.id] = start, at
            elif node.kind == TEXT:
                self.starts.append(at)
                self.nodes.append(node)
                self.spans[node.id] = at, at + len(node.units)
                parts.append("".join(map(shown, node.units)))
                at += len(node.units)
            elif node.kind == ELEMENT:
                todo.append((node, at))
                todo.extend((kid, -1) for kid in reversed(node.kids))
            else:
                self.spans[node.id] = at, at
        self.text = "".join(parts)

    def find(self, at: int) -> tuple[Node, int]:
        """The text that has this character, and its unit there."""
        number = bisect.bisect_right(self.starts, at) - 1
        return self.nodes[number], at - self.starts[number]


class Across:
    """Which characters of a text are those of another: blocks that are the same in both."""

    def __init__(self, old: str, new: str) -> None:
        self.old, self.new = old, new
        self.blocks = [block for block in blocks_of(old, new) if block[2]]
        self.starts = [start for start, _, _ in self.blocks]

    def at(self, place: int) -> int | None:
        """Where a character of the old text stands in the new one; none where it is gone."""
        number = bisect.bisect_right(self.starts, place) - 1
        if number < 0:
            return None
        start, other, size = self.blocks[number]
        return other + place - start if place < start + size else None

    def first(self, start: int, end: int) -> int | None:
        """Where the first character of a part that is there still stands in the new text."""
        number = max(0, bisect.bisect_right(self.starts, start) - 1)
        for begin, other, size in self.blocks[number:]:
            place = max(start, begin)
            if place >= end:
                return None
            if place < begin + size:
                return other + place - begin
        return None

    def span(self, start: int, end: int) -> tuple[int, int] | None:
        """Where a part stands in the new text; none where it isn't there as it was."""
        first = self.at(start)
        if first is None or self.old[start:end] != self.new[first:first + end - start]:
            return None
        return first, first + end - start


def blocks_of(old: str, new: str) -> Iterator[tuple[int, int, int]]:
    """The parts that are the same in both, in order: where each begins, and its length."""
    front = len(os.path.commonprefix([old, new]))
    rest = len(os.path.commonprefix([old[front:][::-1], new[front:][::-1]]))
    yield 0, 0, front
    ones, others = (TOKEN.findall(text[front:len(text) - rest]) for text in (old, new))
    matcher = difflib.SequenceMatcher(None, ones, others, autojunk=max(len(ones), len(others)) > MANY)
    places, other_places = (offsets(words, front) for words in (ones, others))
    for kind, start, end, other, other_end in matcher.get_opcodes():
        begin, other_begin = places[start], other_places[other]
        if kind == "equal":
            yield begin, other_begin, places[end] - begin
        elif kind == "replace":
            yield from within(old[begin:places[end]], new[other_begin:other_places[other_end]], begin, other_begin)
    yield len(old) - rest, len(new) - rest, rest


def offsets(words: list[str], at: int) -> list[int]:
    places = [at]
    for word in words:
        places.append(places[-1] + len(word))
    return places


def within(old: str, new: str, at: int, other: int) -> Iterator[tuple[int, int, int]]:
    """The parts that two changed pieces share, by their characters: where each begins, and its length."""
    if max(len(old), len(new)) > LONGEST:
        return
    matcher = difflib.SequenceMatcher(None, old, new, autojunk=False)
    if matcher.ratio() >= LEAST:
        for start, begin, size in matcher.get_matching_blocks():
            yield at + start, other + begin, size
