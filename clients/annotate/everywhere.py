"""The same tag round all places of the same text: which places there are, and the move that makes those that are
wanted."""
import math
import time
from collections.abc import Iterator
from typing import Any

from .changes import attributes_for, name_of
from .editor import Editor
from pvtag.document import Document, Node, Told, shown
from pvtag.session import Refused
from .runs import Stale, Stretch, below, run_over, texts_of
from .slices import in_slices

# So many places are listed at most, and so many characters beside each.
MOST = 2000
BESIDE = 40


class Everywhere:
    def __init__(self, editor: Editor) -> None:
        self.editor = editor

    def places(self, ask: Any) -> Told:
        """The places of a text that don't stand in an element of this name already: each with what stands beside it,
        whether it is part of a word, and whether the session would refuse the tag there."""
        text, name = ask["text"], name_of(ask)
        if not isinstance(text, str) or not text.strip():
            raise Stale
        _, rows = in_slices(self.editor, lambda: self.open_places(text, name))
        return {"places": rows[:MOST], "more": len(rows) > MOST}

    def open_places(self, text: str, name: str) -> Iterator[Told | None]:
        """The places of `places`, in steps, and one more than is shown."""
        count = 0
        for stretch, line, owner in found(self.editor.document, text):
            if stretch is None or stands_in(owner, name):
                yield None
                continue
            yield {"place": list(stretch), "in": owner.name, **beside(line, stretch), "refused": isinstance(self.wrapped(stretch, name), Refused)}
            count += 1
            if count > MOST:
                return

    def wrapped(self, stretch: Stretch, name: str) -> Any:
        """What the session says of the tag there; nothing is changed."""
        *cuts, line = self.lines_for(stretch, name)
        return self.editor.tried(cuts, lambda: self.editor.tried([line], lambda: None))

    def lines_for(self, stretch: Stretch, name: str, attrs: str = "") -> list[str]:
        cuts, path, start, end = run_over(self.editor.document, stretch)
        return [*cuts, f"wrap {path} {start} {end} {name}", *attributes_for(below(path, start), attrs)]

    def tag(self, ask: Any, attrs: str = "") -> Told:
        """Makes the tag, with these attributes, round all these places, one move; a place where it is refused is left out, and
        told."""
        name = name_of(ask)
        with self.editor.lock:
            since = self.editor.known(ask)
            # The last place first: what is done there moves no path before it.
            places = [Stretch(*map(int, place)) for place in reversed(ask["places"])]
            return self.make(since, [self.lines_for(place, name, attrs) for place in places])

    def make(self, since: int, moves: list[list[str]]) -> Told:
        """Makes of these what the session makes, one after another, in one move; how many it refuses is told."""
        lines, refused = self.tried(moves)
        answer = self.editor.answer(since, lines) if lines else self.editor.state(since)
        return {**answer, "refused": len(refused)}

    def tried(self, moves: list[list[str]], most: float = math.inf) -> tuple[list[str], list[int]]:
        """The lines of those that the session makes, one after another, and the numbers of those that it refuses; nothing
        is changed. What isn't tried in so many seconds is in neither."""
        made: list[str] = []
        refused: list[int] = []
        editor, start, end = self.editor, self.editor.ahead, time.monotonic() + most
        try:
            for at, lines in enumerate(moves):
                if time.monotonic() > end:
                    break
                before = editor.ahead
                if any(isinstance(editor.play(line), Refused) for line in lines):
                    editor.rewind(before)
                    refused.append(at)
                else:
                    made += lines
        finally:
            editor.rewind(start)
        return made, refused


def found(document: Document, text: str) -> Iterator[tuple[Stretch | None, str, Node]]:
    """The places of a text, in document order, each with the whole text that it is part of and the element that holds
    that; and none after each element."""
    for owner in in_order(document):
        for first, nodes in texts_of(owner):
            line = "".join("".join(map(shown, node.units)) for node in nodes)
            at = line.find(text)
            while at >= 0:
                yield Stretch(owner.id, first, at, at + len(text)), line, owner
                at = line.find(text, at + len(text))
        yield None, "", owner


def in_order(document: Document) -> list[Node]:
    return [node for node in document.elements() if node.owner is not None]


def stands_in(owner: Node, name: str) -> bool:
    node: Node | None = owner
    while node is not None:
        if node.name == name:
            return True
        node = node.owner
    return False


def beside(line: str, stretch: Stretch) -> Told:
    before, text, behind = line[:stretch.start], line[stretch.start:stretch.end], line[stretch.end:]
    is_part = text[0].isalnum() and before[-1:].isalnum() or text[-1].isalnum() and behind[:1].isalnum()
    front = before if len(before) <= BESIDE else "…" + before[-BESIDE:]
    rest = behind if len(behind) <= BESIDE else behind[:BESIDE] + "…"
    return {"before": front, "behind": rest, "part": is_part}
