"""The nodes of a text: elements, and what else stands in them, with their places in bytes."""
import re
from array import array
from bisect import bisect_right
from collections.abc import Callable, Iterator, Sequence
from typing import NamedTuple, overload

SLASH = 47
NAME = rb"[:A-Z_a-z\x80-\xff][-.0-9:A-Z_a-z\x80-\xff]*"
LITERAL = rb"\"[^\"]*\"|'[^']*'"
START, END, TEXT, CDATA, MISC, DOCTYPE = range(1, 7)
TAGS = rb"<(" + NAME + rb")(?>(?:[^<>\"']|\"[^\"<]*\"|'[^'<]*')*)>" rb"|</(" + NAME + rb")[^<>]*>" rb"|([^<]+)"
LONG = (
    rb"|(<!\[CDATA\[(?s:.*?)\]\]>)"
    rb"|(<!--[^-]*(?:-[^-]+)*-->|<\?(?s:.*?)\?>)"
    rb"|(<!DOCTYPE(?>(?:[^<>\"'\[]|" + LITERAL + rb")*)(?:\[(?s:.*?)\]\s*)?>)"
)
# An item of a document, by the groups above, or a `<` that begins none; and the same without items that are looked for
# up to a text's end.
ITEM, LOOSE = re.compile(TAGS + LONG + rb"|<"), re.compile(TAGS + rb"|<")
KINDS = {TEXT: "text", CDATA: "cdata", MISC: "misc"}


class Leaf(NamedTuple):
    """A text, a CDATA section, a comment or a processing instruction: "text", "cdata" or "misc", and where it
    stands."""

    kind: str
    start: int
    end: int


class Element:
    """An element, or the document node, which has no owner: where it starts and ends, and where what is in it does.

    `grown` gives its kids at the first need, where they weren't read with it; `placed` its owner and its number among the
    kids there, where it was found by its tag.
    """

    __slots__ = ("name", "above", "number", "start", "inside", "closes", "end", "known", "grown", "placed")
    kind = "element"

    def __init__(self, name: bytes, owner: "Element | None", at: int, start: int, inside: int) -> None:
        self.name, self.above, self.number, self.start, self.inside = name, owner, at, start, inside
        self.closes = self.end = inside
        self.known: list[Node] | Kids = []
        self.grown: Callable[[Element], list[Node] | Kids] | None = None
        self.placed: Callable[[Element], tuple[Element, int]] | None = None

    @property
    def owner(self) -> "Element | None":
        if self.placed is not None:
            (self.above, self.number), self.placed = self.placed(self), None
        return self.above

    @property
    def at(self) -> int:
        """Its number among the kids of its owner."""
        return self.number if self.owner is not None else 0

    @property
    def kids(self) -> "list[Node] | Kids":
        if self.grown is not None:
            self.known, self.grown = self.grown(self), None
            if self.placed is None and self.above is not None and isinstance(self.above.known, Kids):
                self.above.known.kept.setdefault(self.number, self)
        return self.known

    @property
    def label(self) -> str:
        return self.name.decode(errors="replace")

    @property
    def has_end(self) -> bool:
        """Whether it has an end tag."""
        return self.end > self.closes

    def names(self) -> list[tuple[int, int]]:
        """Where its name stands, in one tag or in both."""
        size = len(self.name)
        first = (self.start + 1, self.start + 1 + size)
        return [first, (self.closes + 2, self.closes + 2 + size)] if self.has_end else [first]

    def is_short(self, data: bytes) -> bool:
        """Whether it is written `<a/>`."""
        return self.end == self.inside and data[self.inside - 2] == SLASH

    def depth(self) -> int:
        """How many elements it stands in, itself counted."""
        return 0 if self.owner is None else 1 + sum(1 for _ in self.owners())

    def is_same(self, other: "Element") -> bool:
        """Whether both are one element of a text."""
        return self.start == other.start and (self.owner is None) == (other.owner is None)

    def owners(self) -> "Iterator[Element]":
        """The elements that it stands in, the innermost first."""
        node = self.owner
        while node is not None and node.owner is not None:
            yield node
            node = node.owner

    def kid_at(self, offset: int) -> int:
        """The number of the last kid that starts at this offset or before it; -1 where there is none."""
        kids = self.kids
        if isinstance(kids, Kids):
            return bisect_right(kids.starts, offset) - 1
        return bisect_right(kids, offset, key=lambda kid: kid.start) - 1


Node = Element | Leaf


class Kids(Sequence[Node]):
    """The kids of an element, each of which starts where the last one ends: nothing but their starts is held. `make` makes
    one of its number, start and end where it is wanted; those whose own kids were wanted are kept."""

    __slots__ = ("starts", "end", "make", "kept")

    def __init__(self, starts: "array[int]", end: int, make: Callable[[int, int, int], Node]) -> None:
        self.starts, self.end, self.make = starts, end, make
        self.kept: dict[int, Element] = {}

    def __len__(self) -> int:
        return len(self.starts)

    @overload
    def __getitem__(self, at: int) -> Node: ...

    @overload
    def __getitem__(self, at: slice) -> Sequence[Node]: ...

    def __getitem__(self, at: int | slice) -> Node | Sequence[Node]:
        if isinstance(at, slice):
            return [self.one(each) for each in range(*at.indices(len(self.starts)))]
        return self.one(range(len(self.starts))[at])

    def __iter__(self) -> Iterator[Node]:
        return map(self.one, range(len(self.starts)))

    def one(self, at: int) -> Node:
        kept = self.kept.get(at)
        return kept if kept is not None else self.make(at, self.starts[at], self.end_of(at))

    def end_of(self, at: int) -> int:
        return self.starts[at + 1] if at + 1 < len(self.starts) else self.end


class Tag(NamedTuple):
    """A tag of an element, and where it stands."""

    element: Element
    start: int
    end: int


class Tree:
    """The nodes of a text below `top`, the document node."""

    def __init__(self, data: bytes) -> None:
        self.data = data
        self.top = Element(b"", None, 0, 0, 0)
        self.top.closes = self.top.end = len(data)

    @property
    def root(self) -> Element | None:
        first = self.top.kids[0] if self.top.kids else None
        return first if isinstance(first, Element) else None

    def node(self, path: str) -> Node | None:
        """The node at a session's path; none where there is none."""
        node: Node = self.top
        for at in [] if path == "." else map(int, path.split(".")):
            if not isinstance(node, Element) or at >= len(node.kids):
                return None
            node = node.kids[at]
        return node

    def around(self, offset: int) -> Element:
        """The innermost element between whose tags this offset is, or at whose inner ends; else the document node."""
        node = self.top
        while True:
            at = node.kid_at(offset)
            kid = node.kids[at] if at >= 0 else None
            if not isinstance(kid, Element) or not kid.inside <= offset <= kid.closes or kid.is_short(self.data):
                return node
            node = kid

    def tag(self, offset: int) -> Tag | None:
        """The tag that this offset is in, or that ends here where none begins."""
        best: Tag | None = None
        node: Element | None = self.top
        while node is not None:
            at = node.kid_at(offset)
            near = [kid for kid in node.kids[max(at - 1, 0) : at + 1] if isinstance(kid, Element)]
            below = None
            for kid in near:
                for start, end in ((kid.start, kid.inside), (kid.closes, kid.end)):
                    if start <= offset < end:
                        return Tag(kid, start, end)
                    if start < end == offset:
                        best = Tag(kid, start, end)
                below = kid if kid.inside <= offset <= kid.closes else below
            node = below
        return best
