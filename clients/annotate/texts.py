"""Typing: a stretch of the texts of a list is replaced by what was typed.

What is typed on where the last keys left off is one move with them, so that undo takes back what was typed in one go.
"""
from typing import Any, NamedTuple

from .changes import Side, lines_for, side_of
from .editor import Editor
from .moves import Move
from pvtag.document import Told
from pvtag.session import Refused
from .runs import Stretch, element_of, spot_at, stretch_of

# What was typed in one go, at most: more is another move.
GO = 400


class Typed(NamedTuple):
    """What was typed in one go: the stretch that it stands for, in the tree before, and the version after it."""

    side: Side
    stretch: Stretch
    text: str
    version: int


class Texts:
    def __init__(self, editor: Editor) -> None:
        self.editor = editor
        self.last: Typed | None = None

    def type(self, ask: Any) -> Told:
        """Puts a text in the place of a stretch; the state after it with the place after what was typed, or a
        refusal."""
        editor, text = self.editor, plain(ask["text"])
        with editor.lock:
            since = editor.known(ask)
            stretch = stretch_of(editor.document, ask["place"])
            last = self.last if ask.get("on") else None
            if last is not None and self.goes_on(last, stretch, text):
                refusal = self.replace(1, last.side, *merged(last, stretch, text))
            elif stretch.start == stretch.end and not text:
                return {**editor.state(since), "caret": self.caret(stretch, text)}
            else:
                refusal = self.replace(0, side_of(editor.document, stretch), stretch, text)
            if refusal is not None:
                return {**editor.state(since), **editor.refused(refusal)}
            return {**editor.state(since), "caret": self.caret(stretch, text)}

    def goes_on(self, last: Typed, stretch: Stretch, text: str) -> bool:
        is_there = last.version == self.editor.version and last.stretch[:2] == stretch[:2]
        is_beside = last.stretch.start <= stretch.end and stretch.start <= last.stretch.start + len(last.text)
        return is_there and is_beside and len(last.text) + len(text) <= GO

    def replace(self, count: int, side: Side, stretch: Stretch, text: str) -> Refused | None:
        """Puts a text in the place of a stretch, and this move in the place of so many of the last."""
        is_nothing = stretch.start == stretch.end and not text
        move = None if is_nothing else Move(lines_for(side, stretch, self.editor.with_entities(written(text))))
        refusal = self.editor.exchange(count, move, [])
        if refusal is None:
            self.last = None if is_nothing else Typed(side, stretch, text, self.editor.version)
        return refusal

    def caret(self, stretch: Stretch, text: str) -> list[Any]:
        """The place after what was typed, as the page tells places: of the text before it, where there is one."""
        owner, _ = element_of(self.editor.document, stretch.owner)
        at, unit = spot_at(owner, stretch.first, stretch.start + len(text))
        if unit is None and at > stretch.first:
            return [owner.id, owner.kids[at - 1].id, len(owner.kids[at - 1].units)]
        return [owner.id, owner.kids[at].id if at < len(owner.kids) else None, unit or 0]


def merged(last: Typed, stretch: Stretch, text: str) -> tuple[Stretch, str]:
    """Both in one: of the tree before the first."""
    start, size = last.stretch.start, len(last.text)
    front, rest = max(0, stretch.start - start), max(0, stretch.end - start)
    end = last.stretch.end + max(0, rest - size)
    whole = Stretch(stretch.owner, stretch.first, min(start, stretch.start), end)
    return whole, last.text[:front] + text + last.text[rest:]


def plain(text: Any) -> str:
    """What was typed, its line ends LF."""
    return str(text).replace("\r\n", "\n").replace("\r", "\n")


def written(text: str) -> str:
    """As it is written into a document: each character is one unit. A line of a session holds no line end, so that is a
    reference."""
    return text.replace("&", "&amp;").replace("<", "&lt;").replace(">", "&gt;").replace("\n", "&#10;")
