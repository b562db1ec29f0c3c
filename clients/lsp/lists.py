"""One list, asked of alone: whether an edit of it can be made depends on it and on nothing else of its document.

The document that a session is opened on has the list's element for its root, its kids without what is in them, and a
letter for each text. Two texts that a cut makes of one stand with a comment between them, which is none of a list's
tokens.
"""
import itertools
import re
from array import array
from collections.abc import Sequence
from typing import NamedTuple

from .grammar import Grammar
from .nodes import END, ITEM, NAME, SLASH, START, Element, Kids
from pvtag.session import Refused, Session
from pvtag.tries import STUBS, Kid

WHITE = b" \t\r\n"
TEXTS = ("text", "white")
# A session's own limit.
DEEPEST = 512


TEXT, BLANK = Kid("text"), Kid("white")
# A kid, by what it begins with.
BEGUN = re.compile(rb"<(?:(" + NAME + rb")|!\[)?")


def text_kid(data: bytes) -> Kid:
    return TEXT if data.strip(WHITE) else BLANK


def kids_of(owner: Element, data: bytes) -> list[Kid]:
    """The kids of an element, as far as its content model goes. Those that are alike are one value."""
    kids, known = owner.kids, {b"<![": Kid("cdata"), b"<": Kid("misc")}
    if not isinstance(kids, Kids):
        return [Kid("element", kid.label) if isinstance(kid, Element) else text_kid(data[kid.start : kid.end])
                if kid.kind == "text" else Kid(kid.kind) for kid in kids]
    found = list[Kid]()
    for at, start in enumerate(kids.starts):
        begun = BEGUN.match(data, start)
        if begun is None:
            kid = kids.one(at)
            found.append(text_kid(data[start : kid.end]))
            continue
        name = begun[0]
        if name not in known:
            known[name] = Kid("element", begun[1].decode(errors="replace"))
        found.append(known[name])
    return found


class Cut(NamedTuple):
    """A list with its texts cut, so that a run of its kids is from `start` up to `end`."""

    kids: list[Kid]
    start: int
    end: int


def cut(owner: Element, data: bytes, start: int, end: int) -> Cut | None:
    """The kids of a list that stand between two offsets; none where an offset is within a kid that can't be cut."""
    kids = kids_of(owner, data)
    # The kid that each offset is in or before, and the texts that are cut, with the offsets.
    places, cuts = list[tuple[int, int]](), dict[int, list[int]]()
    for offset in (start, end):
        at = owner.kid_at(offset)
        node = owner.kids[at] if at >= 0 else None
        if node is None or offset >= node.end:
            places.append((len(kids), 0))
        elif offset == node.start:
            places.append((at, 0))
        elif node.kind != "text":
            return None
        else:
            inner = cuts.setdefault(at, [])
            inner += [offset] if offset not in inner else []
            places.append((at, len(inner)))
    first, last = (at + piece + sum(len(inner) for other, inner in cuts.items() if other < at) for at, piece in places)
    for at in sorted(cuts, reverse=True):
        node = owner.kids[at]
        kids[at : at + 1] = [text_kid(data[one:other]) for one, other in itertools.pairwise((node.start, *cuts[at], node.end))]
    return Cut(kids, first, last)


class Alone:
    """A list as a document of its own, whose kid number `inner` has its own kids in it where one is told. Each kid has
    the attribute `n`."""

    def __init__(self, owner: str, kids: Sequence[Kid], inner: int | None = None, below: Sequence[Kid] = ()) -> None:
        self.kids, self.owner = kids, owner
        body, self.places = written(kids, inner, below)
        self.data = b"<%b>%b</%b>" % (owner.encode(), body, owner.encode()) if owner else body

    @property
    def path(self) -> str:
        return "0" if self.owner else "."

    def root(self, grammar: Grammar) -> str:
        return self.owner or grammar.root

    def kid_path(self, at: int) -> str:
        return f"0.{self.places[at]}" if self.owner else str(self.places[at])

    def wraps(self, session: Session, start: int, end: int) -> list[str]:
        """The names that the kids from `start` up to `end` may be wrapped in."""
        return names(session.offer(self.path, self.places[start], self.places[end]))


def written(kids: Sequence[Kid], inner: int | None, below: Sequence[Kid]) -> tuple[bytes, "array[int]"]:
    """A list's kids as bytes, and the number there of each, and of the list's end."""
    body, places, count = bytearray(), array("I"), 0
    for at, kid in enumerate(kids):
        if at and kid.kind in TEXTS and kids[at - 1].kind in TEXTS:
            body += b"<!---->"
            count += 1
        places.append(count)
        count += 1
        name = kid.name.encode()
        if kid.kind != "element":
            body += STUBS[kid.kind]
        elif at == inner:
            body += b'<%b n="%d">%b</%b>' % (name, at, written(below, None, ())[0], name)
        else:
            body += b'<%b n="%d"/>' % (name, at)
    places.append(count)
    return bytes(body), places


def names(offered: list[str] | Refused) -> list[str]:
    return offered if isinstance(offered, list) else []


def alone_with(element: Element, data: bytes) -> Alone:
    """The list that an element stands in, with its own."""
    assert element.owner is not None
    return Alone(element.owner.label, kids_of(element.owner, data), element.at, kids_of(element, data))


def height(data: bytes, start: int, end: int) -> int:
    """How many elements stand in one another between two offsets of a list."""
    highest = depth = 0
    for item in ITEM.finditer(data, start, end):
        if item.lastindex == START:
            highest = max(highest, depth + 1)
            depth += data[item.end() - 2] != SLASH
        elif item.lastindex == END:
            depth -= 1
    return highest


def is_too_deep(owner: Element, start: int, end: int, data: bytes) -> bool:
    """Whether one more element round what stands between two offsets would be more than 512 deep."""
    depth = owner.depth() + 1
    if depth + data.count(b"<", start, end) <= DEEPEST:
        return False
    return depth + height(data, start, end) > DEEPEST
