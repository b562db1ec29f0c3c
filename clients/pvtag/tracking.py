"""The tree beside a session: read once, and kept by the moves that the session makes."""
from collections.abc import Callable
from typing import NamedTuple

from . import document
from .document import ELEMENT, TEXT, Document, Told


class Node(NamedTuple):
    """A node of a document. `kind` is "element", "text", "cdata" or "misc": a comment or an instruction. Of an element
    `name` is its name, and `source` what follows that in its tag; of a text `text` has one character for each unit; of
    another node `source` is how it is written."""

    path: str
    kind: str
    name: str = ""
    text: str = ""
    source: str = ""


class Tracked:
    """A document in which no two texts stand side by side, and what is made of it."""

    def __init__(self, shown: bytes) -> None:
        self.document = Document(shown)
        self.backs: list[Callable[[], Told]] = []

    def edit(self, line: str) -> None:
        """Makes an edit that the session has made."""
        self.backs.append(self.document.edit(line)[1])

    def undo(self) -> bool:
        """Takes the last edit back, where it was made here."""
        if not self.backs:
            return False
        self.backs.pop()()
        return True

    def at(self, path: str) -> document.Node | None:
        try:
            return self.document.node_at(path)
        except ValueError:
            return None

    def has(self, path: str) -> bool:
        return self.at(path) is not None

    def size(self, path: str) -> int | None:
        """How many units the text at a path has; none where there is no text."""
        node = self.at(path)
        return len(node.units) if node is not None and node.kind == TEXT else None

    def nodes(self) -> list[Node]:
        """All nodes in document order, from the root on."""
        made, todo = [], [("0", self.document.top.kids[0])]
        while todo:
            path, node = todo.pop()
            made.append(node_of(path, node))
            todo.extend((f"{path}.{at}", node.kids[at]) for at in range(len(node.kids) - 1, -1, -1))
        return made


def node_of(path: str, node: document.Node) -> Node:
    if node.kind == ELEMENT:
        return Node(path, node.kind, name=node.name, source=node.attrs.strip())
    if node.kind == TEXT:
        return Node(path, node.kind, text="".join(map(document.shown, node.units)))
    return Node(path, node.kind, source=node.source)
