"""Where the nodes of a document stand in its bytes: tags, kids and units by offsets, and offsets as places in lists.

It is of use for a document that the program reads. A node is told by its number in document order; numbers don't last
beyond the bytes that they are about.
"""
import bisect
import gc
import re
from array import array
from collections.abc import Iterator

from .document import CDATA, ELEMENT, MISC, TEXT
from .places import Span, front_mark

# What other tools may use; each has an example.
__all__ = ("Layout", "Node")

# An end tag, a start tag with its name and its `/`, anything else in pointed brackets, or a text.
ITEM = re.compile(
    rb"""<(?:(/)[^>]*|([^\s/>!?]+)(?:[^>"']*(?:"[^"]*"|'[^']*'))*[^>"']*?(/)?"""
    rb"""|(!--.*?--|\?.*?\?|!\[CDATA\[.*?\]\]|!DOCTYPE(?:[^>"']|"[^"]*"|'[^']*')*))>|[^<]+""",
    re.S,
)
NAME = re.compile(rb"[^\s/>]+")
# The last group of an item.
END_TAG, START_TAG, EMPTY_TAG = 1, 2, 3
UNIT = re.compile(rb"&[^;]*;|[\x00-\x7f\xc0-\xff][\x80-\xbf]*")


class Node:
    """A node of a document; the document node is number 0. Two of one number are equal.

    >>> node = Layout(b"<p>On <date>1 May</date></p>").node("0.1")
    >>> node.name, node.path, node.source
    ('date', '0.1', b'<date>1 May</date>')
    >>> node.inside, node.owner.name, [kid.kind for kid in node.kids]
    (Span(start=12, end=17), 'p', ['text'])
    """

    __slots__ = ("layout", "number")

    def __init__(self, layout: "Layout", number: int) -> None:
        self.layout, self.number = layout, number

    def __eq__(self, other: object) -> bool:
        return isinstance(other, Node) and (self.layout, self.number) == (other.layout, other.number)

    def __hash__(self) -> int:
        return self.number

    @property
    def kind(self) -> str:
        """"element" (the document node too), "text", "cdata" or "misc", as in `document`."""
        if self.layout.kids[self.number] is not None:
            return ELEMENT
        start = self.layout.starts[self.number]
        if self.layout.data[start:start + 1] != b"<":
            return TEXT
        return CDATA if self.layout.data.startswith(b"<![", start) else MISC

    @property
    def name(self) -> str:
        """An element's name; "" of the document node and of other nodes."""
        if self.number == 0 or self.layout.kids[self.number] is None:
            return ""
        found = NAME.match(self.layout.data, self.layout.starts[self.number] + 1)
        return found[0].decode() if found else ""

    @property
    def span(self) -> Span:
        """All of the node, with its tags."""
        return Span(self.layout.starts[self.number], self.layout.end(self.number))

    @property
    def start_tag(self) -> Span:
        """An element's start tag or empty-element tag; the name in it begins one byte after its start."""
        start = self.layout.starts[self.number]
        found = ITEM.match(self.layout.data, start) if self.number and self.kind == ELEMENT else None
        return Span(start, found.end() if found else start)

    @property
    def end_tag(self) -> Span | None:
        """An element's end tag; none of one written `<a/>`."""
        close = self.layout.closes.get(self.number)
        return Span(close, self.span.end) if close is not None and self.number else None

    @property
    def inside(self) -> Span:
        """What stands between an element's tags; empty, after the tag, where it is written `<a/>`."""
        start = self.start_tag.end
        return Span(start, self.layout.closes.get(self.number, start))

    @property
    def owner(self) -> "Node | None":
        """The element that holds it; none of the document node."""
        return Node(self.layout, self.layout.owners[self.number]) if self.number else None

    @property
    def at(self) -> int:
        """Its number among its owner's kids."""
        return bisect.bisect_left(self.layout.kids[self.layout.owners[self.number]] or [], self.number)

    @property
    def kids(self) -> list["Node"]:
        """An element's kids, as a session counts them: the document node has the root alone."""
        return [Node(self.layout, number) for number in self.layout.kids[self.number] or ()]

    @property
    def path(self) -> str:
        """Its path in a session that has made no edit."""
        places: list[int] = []
        node = self
        while node.number:
            places.append(node.at)
            node = Node(self.layout, self.layout.owners[node.number])
        return ".".join(map(str, reversed(places))) or "."

    @property
    def source(self) -> bytes:
        """The node's bytes."""
        return self.layout.data[self.span.start:self.span.end]

    @property
    def is_white(self) -> bool:
        """Whether it is a text of literal white space alone."""
        return self.kind == TEXT and not self.source.strip(b" \t\r\n")

    def units(self) -> list[int]:
        """The offset of each unit of a text, and after them that of its end."""
        start, end = self.span
        return [*(found.start() for found in UNIT.finditer(self.layout.data, start, end)), end]


class Layout:
    """The nodes of a document. The document is one that the program reads; else what is told is of no use.

    >>> layout = Layout(b"<p>On <date>1 May</date></p>")
    >>> [node.path for node in layout.elements()], [node.source for node in layout.texts()]
    (['.', '0', '0.1'], [b'On ', b'1 May'])
    >>> layout.at(14).path, layout.gap(4)[1:]
    ('0.1.0', (0, 1))
    """

    def __init__(self, data: bytes) -> None:
        self.data = data
        # Of each node its start, its owner, and its kids where it is an element; of each end tag its start. In an
        # element one node or tag ends where the next begins, so no ends are kept but the root's.
        self.starts, self.owners = array("I", [0]), array("I", [0])
        self.kids: list[list[int] | None] = [[]]
        self.closes = {0: len(data)}
        self.root_end = len(data)
        was_enabled = gc.isenabled()
        gc.disable()
        try:
            self.read()
        finally:
            if was_enabled:
                gc.enable()

    def read(self) -> None:
        owner, open_, lists, closes = 0, [0], self.kids, self.closes
        kids = lists[0] or []
        lists[0] = kids
        add_start, add_owner, add_list = self.starts.append, self.owners.append, lists.append
        for found in ITEM.finditer(self.data, front_mark(self.data)):
            which, number = found.lastindex, len(lists)
            if which == END_TAG:
                closes[owner] = found.start()
                open_.pop()
                owner = open_[-1]
                kids = lists[owner] or []
                if owner == 0:
                    self.root_end = found.end()
                    break
                continue
            is_element = which == START_TAG or which == EMPTY_TAG
            if owner == 0 and not is_element:
                continue
            kids.append(number)
            add_start(found.start())
            add_owner(owner)
            if which == START_TAG:
                owner, kids = number, []
                open_.append(number)
                add_list(kids)
            elif is_element:
                add_list([])
                if owner == 0:
                    self.root_end = found.end()
                    break
            else:
                add_list(None)

    def end(self, number: int) -> int:
        """Where a node ends."""
        if number <= 1:
            return self.root_end if number else len(self.data)
        owner = self.owners[number]
        kids = self.kids[owner] or []
        place = bisect.bisect_right(kids, number)
        return self.starts[kids[place]] if place < len(kids) else self.closes[owner]

    @property
    def top(self) -> Node:
        """The document node."""
        return Node(self, 0)

    @property
    def root(self) -> Node:
        return Node(self, 1)

    def node(self, path: str) -> Node | None:
        """The node at a path; none where there is none."""
        number = 0
        for place in [] if path == "." else map(int, path.split(".")):
            kids = self.kids[number]
            if kids is None or place >= len(kids):
                return None
            number = kids[place]
        return Node(self, number)

    def elements(self) -> Iterator[Node]:
        """The document node and all elements, in document order: that of a session's verdicts."""
        return (Node(self, number) for number, kids in enumerate(self.kids) if kids is not None)

    def texts(self) -> Iterator[Node]:
        """All texts, in document order."""
        return (node for node in (Node(self, number) for number in range(len(self.kids))) if node.kind == TEXT)

    def at(self, offset: int) -> Node:
        """The innermost node with this offset in it, its end left out; the document node outside the root."""
        number = 0
        while kids := self.kids[number]:
            place = bisect.bisect_right(kids, offset, key=self.starts.__getitem__) - 1
            if place < 0 or offset >= self.end(kids[place]):
                break
            number = kids[place]
        return Node(self, number)

    def gap(self, offset: int) -> tuple[Node, int, int]:
        """The place in a list that an offset stands for: the element, the number of a kid, and the number of the unit
        that its text is cut before. Unit 0 stands before the whole kid, also after the last one. In a tag, a comment
        or the like it is the place before or after that, whichever is nearer; in a unit that before the unit."""
        node = self.at(offset)
        if node.kind == ELEMENT and (node.number == 0 or node.inside.start <= offset <= node.inside.end):
            behind = bisect.bisect_left(self.kids[node.number] or [], offset, key=self.starts.__getitem__)
            return node, behind, 0
        owner = node.owner or self.top
        if node.kind == TEXT:
            return owner, node.at, bisect.bisect_right(node.units(), offset) - 1
        is_leaf = node.kind != ELEMENT or node.end_tag is None
        tag = node.start_tag if offset < node.inside.start else node.end_tag
        start, end = node.span if is_leaf or tag is None else tag
        is_near = offset - start <= end - offset
        if is_leaf:
            return owner, node.at + (not is_near), 0
        if end == node.inside.start:
            return (owner, node.at, 0) if is_near else (node, 0, 0)
        return (node, len(self.kids[node.number] or ()), 0) if is_near else (owner, node.at + 1, 0)
