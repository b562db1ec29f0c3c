"""Comments, put beside the session as attributes are: before an element, or in place of one that is there.

`to check` is one: a flag. A session keeps comments as they are, so they are written at Save.
"""
from typing import Any

from .editor import Editor
from .forms import are_comments
from .moves import COMMENT
from pvtag.document import ELEMENT, MISC, Document, Node, Told, escaped
from pvtag.program import Trouble
from .runs import Stale, node_of

# What a flag says.
FLAG = "to check"


class Comments:
    def __init__(self, editor: Editor) -> None:
        self.editor = editor

    def put(self, ask: Any) -> Told:
        """Puts a comment before an element, or another one in place of one that is there; an empty text takes it away. A move."""
        text = self.editor.as_read(str(ask["text"])).replace("\r\n", "\n").replace("\r", "\n")
        if text.strip():
            self.check(text)
        with self.editor.lock:
            since = self.editor.known(ask)
            node, path = node_of(self.editor.document, ask["node"])
            if not has_comment(self.editor.document, node):
                raise Stale
            if text_of(node) == text.strip():
                return self.editor.state(since)
            if node.owner is self.editor.document.top and text.strip() and f"<!-- {text.strip()} -->" in self.editor.document.before:
                raise Trouble("this comment stands before the root already; it was written by an earlier script, and isn't changed here")
            said = f" {text.strip()} " if text.strip() else ""
            return self.editor.answer(since, [f"{COMMENT}{path} {escaped(said)}"])

    def check(self, text: str) -> None:
        """Asks the program whether a comment may say this."""
        if "--" in text:
            raise Trouble("a comment holds no two hyphens side by side")
        if not are_comments(self.editor.program, [f" {text.strip()} "]):
            raise Trouble("a comment holds a character that XML doesn't allow")

    def all(self, _: Any) -> Told:
        """All comments, in the order of the document: the node that has each, its text, and the element that it is at."""
        with self.editor.lock:
            rows = [{"node": node.id, "text": text, "at": name_at(node)} for node in nodes_of(self.editor.document) if (text := text_of(node))]
            return {"version": self.editor.version, "comments": rows}


def has_comment(document: Document, node: Node) -> bool:
    """Whether a comment may stand at a node: at an element, or in place of a comment, also one that was removed."""
    if node.kind == ELEMENT:
        return node.owner is not None
    return node.kind == MISC and (node.source.startswith("<!--") or node.id in document.given)


def text_of(node: Node) -> str:
    """What the comment of an element says, or a comment; nothing where there is none."""
    source = node.note if node.kind == ELEMENT else node.source
    return source[4:-3].strip() if source.startswith("<!--") else ""


def name_at(node: Node) -> str:
    if node.kind == ELEMENT:
        return node.name
    return node.owner.name if node.owner is not None else ""


def nodes_of(document: Document) -> list[Node]:
    """The elements and the comments of a document, in its order."""
    found, todo = list[Node](), [document.top.kids[0]]
    while todo:
        node = todo.pop()
        if node.kind in (ELEMENT, MISC):
            found.append(node)
        todo.extend(reversed(node.kids))
    return found
