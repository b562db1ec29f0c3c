"""The tree of a document, beside a session: its nodes, by numbers that last, and what an edit changes of them.

A session speaks of places by paths and shows a document without the cuts of its texts. So the tree is read once, and
each edit that the session has made is made here too. Nothing is decided: the session has read the document and made
the edit.
"""
import itertools
import re
from collections.abc import Callable, Iterable, Iterator, Mapping, Sequence
from typing import Any

# What other tools may use; each has an example.
__all__ = ("Document", "Node")

ELEMENT, TEXT, CDATA, MISC = "element", "text", "cdata", "misc"
ITEM = re.compile(
    r"""<!--.*?-->|<\?.*?\?>|<!\[CDATA\[.*?\]\]>|<!DOCTYPE(?:[^>"']|"[^"]*"|'[^']*')*>"""
    r"""|</(?P<end>[^\s>]+)(?P<gap>\s*)>"""
    r"""|<(?P<name>[^\s/>!?]+)(?P<attrs>(?:\s+[^\s=]+\s*=\s*(?:"[^"]*"|'[^']*'))*\s*)(?P<short>/?)>|[^<]+""",
    re.S,
)
UNIT = re.compile(r"&[^;]*;|.", re.S)
ESCAPE = re.compile(r"\\(.)")
NAMED = {"&lt;": "<", "&gt;": ">", "&amp;": "&", "&apos;": "'", "&quot;": '"'}
WHITE = frozenset(" \t\r\n")

# The units of a text: its characters where it has no references.
Units = str | list[str]
# What a copy of the tree is told, as it goes into JSON.
Told = dict[str, Any]
# A change that was made, and how to take it back.
Change = tuple[Told, Callable[[], Told]]


# The kids of a node that holds none.
NO_KIDS: "list[Node]" = []


class Node:
    """A node: its kind; of an element its name, tags and kids, of a text its units, of another its source.

    >>> Document(b"<p>On <date>1 May</date></p>").node_at("0.1").name
    'date'
    """

    __slots__ = ("id", "kind", "owner", "kids", "name", "attrs", "short", "gap", "units", "source", "verdict", "new", "note")

    id: int
    kind: str
    owner: "Node | None"
    kids: "list[Node]"
    name: str
    attrs: str
    short: bool
    gap: str
    units: Units
    source: str
    verdict: str
    new: bool
    # A comment before an element, beside the session, as it is written; "" where there is none.
    note: str

    def __init__(self, number: int, kind: str) -> None:
        self.id, self.kind, self.owner, self.name, self.kids = number, kind, None, "", NO_KIDS
        self.verdict, self.new, self.note = "valid", False, ""

    @property
    def is_white(self) -> bool:
        """Whether it is a text of literal white space alone."""
        return self.kind == TEXT and WHITE.issuperset(self.units)


def shown(unit: str) -> str:
    """The character that a unit stands for."""
    if len(unit) == 1:
        return unit
    if unit in NAMED:
        return NAMED[unit]
    return chr(int(unit[3:-1], 16) if unit[2] == "x" else decimal(unit[2:-1]))


def decimal(digits: str) -> int:
    """A number in decimal digits, however many zeros it begins with."""
    return int(digits.lstrip("0") or "0")


def units_of(text: str) -> Units:
    return UNIT.findall(text) if "&" in text else text


def dotted(path: Iterable[int]) -> str:
    return ".".join(map(str, path)) or "."


class Document:
    """The tree of a document, and what edits make of it.

    >>> document = Document(b"<p>On 1 May</p>")
    >>> told, back = document.edit("split 0.0 3")
    >>> document.written()
    '<p>On 1 May</p>'
    >>> _ = document.edit("wrap 0 1 2 date")
    >>> document.written()
    '<p>On <date>1 May</date></p>'
    """
    def __init__(self, source: bytes, first: int = 1) -> None:
        """Reads bytes that the session has read; its nodes are numbered from there on."""
        self.numbers = itertools.count(first)
        self.nodes: dict[int, Node] = {}
        # The attributes that elements had before they were edited, and comments that were there: a session knows of no others.
        self.given: dict[int, str] = {}
        # The lists that edits have changed: each with whether it was there before the first of them, and whether it is now.
        self.changed: dict[Node, tuple[bool, bool]] = {}
        self.top = Node(0, ELEMENT)
        self.top.name, self.top.kids, self.nodes[0] = "", [], self.top
        self.read(source.decode())

    # Reading and writing.
    def read(self, text: str) -> None:
        open_ = [self.top]
        self.before = self.after = ""
        for item in ITEM.finditer(text):
            node = None
            if item["name"]:
                node = self.element(item["name"], [], item["attrs"], bool(item["short"]))
            elif item["end"]:
                open_.pop().gap = item["gap"]
            elif len(open_) == 1 and self.top.kids:
                self.after += item[0]
            elif len(open_) == 1:
                self.before += item[0]
            elif item[0].startswith("<"):
                node = self.leaf(CDATA if item[0].startswith("<![") else MISC, item[0])
            else:
                node = self.words(units_of(item[0]))
            if node is not None:
                open_[-1].kids.append(node)
                node.owner = open_[-1]
                if node.kind == ELEMENT and not node.short:
                    open_.append(node)

    def made(self, kind: str) -> Node:
        node = Node(next(self.numbers), kind)
        self.nodes[node.id] = node
        return node

    def element(self, name: str, kids: list[Node], attrs: str = "", short: bool = False) -> Node:
        node = self.made(ELEMENT)
        node.name, node.kids, node.attrs, node.short, node.gap = name, kids, attrs, short, ""
        return node

    def words(self, units: Units) -> Node:
        node = self.made(TEXT)
        node.units = units
        return node

    def leaf(self, kind: str, source: str) -> Node:
        node = self.made(kind)
        node.source = source
        return node

    def written(self, others: Mapping[int, str] | None = None) -> str:
        """The document's text; or as the session shows it, with other attributes and comments for some nodes, by their numbers."""
        out, old = [self.before], others or {}
        todo: list[Node | str] = [self.top.kids[0]]
        while todo:
            node = todo.pop()
            if isinstance(node, str):
                out.append(node)
            elif node.kind == TEXT:
                out.append("".join(node.units))
            elif node.kind != ELEMENT:
                out.append(old.get(node.id, node.source))
            elif node.short and not node.kids:
                out.append(f"{node.note if others is None else ''}<{node.name}{old.get(node.id, node.attrs)}/>")
            else:
                out.append(f"{node.note if others is None else ''}<{node.name}{old.get(node.id, node.attrs)}>")
                todo.append(f"</{node.name}{node.gap}>")
                todo.extend(reversed(node.kids))
        return "".join(out) + self.after

    # Paths.
    def path_of(self, node: Node) -> str:
        path: list[int] = []
        while node.owner is not None:
            path.append(node.owner.kids.index(node))
            node = node.owner
        return dotted(reversed(path))

    def node_at(self, path: str) -> Node | None:
        """The node at a path; none where there is none."""
        node = self.top
        for place in [] if path == "." else map(int, path.split(".")):
            if node.kind != ELEMENT or place >= len(node.kids):
                return None
            node = node.kids[place]
        return node

    def elements(self) -> Iterator[Node]:
        """The document node and all elements, in document order."""
        todo = [self.top]
        while todo:
            node = todo.pop()
            yield node
            todo.extend(kid for kid in reversed(node.kids) if kid.kind == ELEMENT)

    def excerpt(self, line: str, size: int) -> str:
        """The front of the text that an edit is about."""
        word, path, *rest = line.split(" ")
        node = self.there(path)
        todo = node.kids[int(rest[0]):int(rest[1])] if word == "wrap" else [] if word == "insert" else [node]
        todo, text = todo[::-1], ""
        while todo and len(text) <= size:
            node = todo.pop()
            text += "".join(map(shown, node.units[:size + 1])) if node.kind == TEXT else " "
            todo.extend(reversed(node.kids))
        text = " ".join(text.split())
        return text if len(text) <= size else text[:size] + "…"

    # Edits. Each gives a function that takes it back, and both give what a copy of the tree has to change.
    def edit(self, line: str) -> Change:
        """Makes the edit that a line of a script tells; the change, and how to take it back."""
        word, _, rest = line.partition(" ")
        path, _, rest = rest.partition(" ")
        change: Change = getattr(self, word)(self.there(path), rest)
        return change

    def there(self, path: str) -> Node:
        """The node at a path that has one."""
        node = self.node_at(path)
        if node is None:
            raise KeyError(path)
        return node

    def place_of(self, node: Node) -> tuple[Node, int]:
        """The element that holds a node, and the node's number among its kids."""
        if node.owner is None:
            raise KeyError(".")
        return node.owner, node.owner.kids.index(node)

    def wrap(self, owner: Node, rest: str) -> Change:
        first, last, name = rest.split(" ", 2)
        start, end = int(first), int(last)
        node = self.element(name, owner.kids[start:end])
        return self.put(owner, start, end, [node], tags=node)

    def insert(self, owner: Node, rest: str) -> Change:
        at, name = rest.split(" ", 1)
        node = self.element(name, [], short=True)
        return self.put(owner, int(at), int(at), [node], tags=node)

    def unwrap(self, node: Node, _: str) -> Change:
        owner, at = self.place_of(node)
        return self.put(owner, at, at + 1, node.kids, tags=node)

    def rename(self, node: Node, name: str) -> Change:
        old = node.name

        def set_name(name: str) -> Told:
            node.name = name
            self.has_changed(self.place_of(node)[0])
            self.has_changed(node)
            return {"rename": node.id, "name": name}

        return set_name(name), lambda: set_name(old)

    def split(self, node: Node, rest: str) -> Change:
        at = int(rest)
        owner, where = self.place_of(node)
        parts = [self.words(node.units[:at]), self.words(node.units[at:])]
        return self.put(owner, where, where + 1, parts, *cut_and_joined(node, parts, at))

    def join(self, node: Node, _: str) -> Change:
        owner, where = self.place_of(node)
        parts = owner.kids[where:where + 2]
        one, other = (part.units for part in parts)
        whole = self.words(one + other if isinstance(one, str) and isinstance(other, str) else [*one, *other])
        cut, joined = cut_and_joined(whole, parts, len(one))
        return self.put(owner, where, where + 2, [whole], joined, cut)

    def text(self, node: Node, text: str) -> Change:
        owner, where = self.place_of(node)
        return self.put(owner, where, where + 1, [self.words(units_of(text))])

    def addtext(self, owner: Node, rest: str) -> Change:
        at, text = rest.split(" ", 1)
        return self.put(owner, int(at), int(at), [self.words(units_of(text))])

    def deltext(self, node: Node, _: str) -> Change:
        owner, where = self.place_of(node)
        return self.put(owner, where, where + 1, [])

    def attributes(self, node: Node, attrs: str) -> Change:
        """Gives a tag other attributes, as they stand in it. This is no edit of a session."""
        old = node.attrs
        self.given.setdefault(node.id, old)

        def set_attrs(attrs: str) -> Told:
            node.attrs = attrs
            return {"attributes": node.id, "attrs": attrs.strip()}

        return set_attrs(attrs), lambda: set_attrs(old)

    def comment(self, node: Node, text: str) -> Change:
        """Puts a comment before an element, or another one in place of one that is there; an empty text takes it away. This is no
        edit of a session."""
        is_element = node.kind == ELEMENT
        if not is_element and not (node.kind == MISC and (node.source.startswith("<!--") or node.id in self.given)):
            raise KeyError(node.id)
        old = node.note if is_element else node.source
        self.given.setdefault(node.id, node.attrs if is_element else old)

        def set_comment(source: str) -> Told:
            if is_element:
                node.note = source
            else:
                node.source = source
            return {"comment": node.id, "text": source}

        return set_comment(f"<!--{unescaped(text)}-->" if text else ""), lambda: set_comment(old)

    def put(self, owner: Node, start: int, end: int, made: Sequence[Node], told: list[Told] | None = None,
            told_back: list[Told] | None = None, tags: Node | None = None) -> Change:
        """Puts these nodes in place of the kids from `start` up to `end`; `tags` is the element that comes or goes by that."""
        nodes, old, short = list(made), owner.kids[start:end], owner is not self.top and owner.short

        def replace(before: list[Node], after: list[Node], short: bool, told: list[Told] | None) -> Told:
            owner.kids[start:start + len(before)] = after
            if owner is not self.top:
                owner.short = short
            for node in after:
                node.owner = owner
                for kid in node.kids:
                    kid.owner = node
            self.has_changed(owner)
            if tags is not None:
                self.has_changed(tags, tags not in after, tags in after)
            kids = told if told is not None else told_anew(before, after)
            return {"list": owner.id, "from": start, "to": start + len(before), "kids": kids}

        return replace(old, nodes, short and not nodes, told), lambda: replace(nodes, old, short, told_back)

    def has_changed(self, node: Node, was_there: bool = True, is_there: bool = True) -> None:
        """Keeps that a list has changed."""
        self.changed[node] = self.changed[node][0] if node in self.changed else was_there, is_there

    # What the page is told.
    def told(self) -> list[Told]:
        """All nodes, in document order: each with its depth."""
        rows, todo = [], [(1, self.top.kids[0])]
        while todo:
            depth, node = todo.pop()
            rows.append({"depth": depth, **told_of(node, None)})
            todo.extend((depth + 1, kid) for kid in reversed(node.kids))
        return rows


def unescaped(text: str) -> str:
    r"""What a line of a script says in one line: `\n` for a line end, and `\\` for `\`."""
    return ESCAPE.sub(lambda found: "\n" if found[1] == "n" else found[1], text)


def escaped(text: str) -> str:
    r"""A text as one line of a script says it, from which `unescaped` makes it again: `\n` for a line end, `\\` for `\`."""
    return text.replace("\\", "\\\\").replace("\n", "\\n")


def told_anew(before: list[Node], after: list[Node]) -> list[int | Told]:
    """Nodes that come in place of others: by their numbers where a copy of the tree has them there."""
    known = {node.id for node in before} | {kid.id for node in before for kid in node.kids}
    return [node.id if node.id in known else told_of(node, [kid.id for kid in node.kids]) for node in after]


def cut_and_joined(whole: Node, parts: list[Node], at: int) -> tuple[list[Told], list[Told]]:
    """A text's parts by the whole, and the whole by its parts, as the page is told of them: units of texts it has."""
    one, other = (part.id for part in parts)
    cut: list[Told] = [{"id": one, "kind": TEXT, "of": [[whole.id, 0, at]]},
                       {"id": other, "kind": TEXT, "of": [[whole.id, at, None]]}]
    return cut, [{"id": whole.id, "kind": TEXT, "of": [[one, 0, None], [other, 0, None]]}]


def told_of(node: Node, kids: list[int] | None) -> Told:
    """A node without what is below it, and the numbers of its kids where they are wanted."""
    told: Told = {"id": node.id, "kind": node.kind}
    if node.kind == ELEMENT:
        told |= {"name": node.name}
        if node.attrs.strip():
            told["attrs"] = node.attrs.strip()
        if node.verdict != "valid":
            told["verdict"] = node.verdict
        if node.new:
            told["new"] = True
        if node.note:
            told["note"] = node.note
        if kids:
            told["kids"] = kids
    elif node.kind == TEXT:
        told["text"] = node.units if isinstance(node.units, str) else "".join(map(shown, node.units))
        refs = {at: unit for at, unit in enumerate(node.units) if len(unit) > 1}
        if isinstance(node.units, list) and refs:
            told["refs"] = refs
    else:
        told["text"] = node.source
    return told
