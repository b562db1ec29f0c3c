"""An open document as it is at one time."""
import contextlib
import threading
from collections import Counter
from collections.abc import Callable
from dataclasses import dataclass
from typing import Any

from .grammar import Finder, Grammar
from .nodes import Tree
from pvtag.long import Counted
from pvtag.masks import same_length
from .reading import Typed, Whole, may_be_whole
from .text import Json, Text
from .wire import INVALID_PARAMS, Error
from .work import Work


class Client:
    """What the editor said of itself at the start."""

    def __init__(self, params: Json) -> None:
        self.capabilities = params.get("capabilities")
        told = params.get("clientInfo")
        self.name = told.get("name") if isinstance(told, dict) else None

    @property
    def replaces_names(self) -> bool:
        """Whether an item of completion may replace what stands after the cursor, and change another place. Neovim's own client
        puts a word before the cursor; plugins for completion say that they can do more."""
        item = "textDocument", "completion", "completionItem"
        return self.name != "Neovim" or bool(self.can(*item, "insertReplaceSupport") or self.can(*item, "resolveSupport"))

    @property
    def shifts_edits(self) -> bool:
        """Whether it makes the other edits of an item after the first, at places that this one has shifted. Emacs's eglot does;
        its older versions don't tell their name."""
        return self.name in (None, "Eglot")

    def can(self, *path: str) -> Any:
        """A capability by its path; none where it isn't told."""
        value = self.capabilities
        for key in path:
            value = value.get(key) if isinstance(value, dict) else None
        return value


@dataclass
class Judged:
    """What is known of a document: how many lists aren't valid, how many of these can't be mended, and how many
    elements are missing."""

    lists: int
    bad: int
    missing: Counted | None = None


class Accepted:
    """The last text of a document that the program has read, with its nodes, and how often names are used in it below
    others."""

    def __init__(self) -> None:
        self.tree: Whole | None = None
        self.used: dict[bytes, Counter[str]] | None = None
        self.used_at = 0.0
        # What was told of it at last, with the text as it was.
        self.told: tuple[Text, list[Json]] | None = None


class Document:
    """A text of a document with its version. It doesn't change; its nodes are read at the first need.

    `settled` says that its judgement is over, or that a newer text has come before it.
    """

    def __init__(self, uri: str, version: int | None, text: Text, accepted: Accepted) -> None:
        self.uri, self.version, self.text, self.accepted = uri, version, text, accepted
        self.lock = threading.Lock()
        self.read: Tree | None = None
        self.masked: bytes | None = None
        self.prepared: Whole | None = None
        self.judged: Judged | None = None
        self.settled = threading.Event()

    @property
    def data(self) -> bytes:
        """The text as the program is given it: an internal subset and entities are masked by as many bytes."""
        if self.masked is None:
            self.masked = same_length(self.text.data)
        return self.masked

    @property
    def tree(self) -> Tree:
        with self.lock:
            if self.read is None:
                self.read = self.tree_of(self.data)
            return self.read

    def tree_of(self, data: bytes) -> Tree:
        """The nodes of this text or of one near it: those of the last text that the program has read, where it is the
        same."""
        last = self.accepted.tree
        return last if last is not None and last.data == data else Typed(data)

    def prepare(self) -> None:
        """Reads the nodes as those of a document, while the program has yet to say whether it is one."""
        if (self.accepted.tree is None or self.accepted.tree.data != self.data) and may_be_whole(self.data):
            with contextlib.suppress(ValueError, AssertionError, IndexError):
                self.prepared = Whole(self.data)
                self.prepared.first_list()

    def accept(self) -> Whole:
        """Called where the program has read the text."""
        last = self.accepted.tree
        whole = last if last is not None and last.data == self.data else self.prepared or Whole(self.data)
        self.prepared = None
        with self.lock:
            self.accepted.tree = self.read = whole
        return whole

    def edit(self, client: Client, edits: list[Json]) -> Json:
        """Text edits of this version, as the editor takes them."""
        if client.can("workspace", "workspaceEdit", "documentChanges"):
            return {"documentChanges": [{"textDocument": {"uri": self.uri, "version": self.version}, "edits": edits}]}
        return {"changes": {self.uri: edits}}

    def put(self, start: int, end: int, text: str) -> Json:
        """A text edit."""
        return put(self.text.range(start, end), text)


class Asked:
    """A request about a document: the document, what was asked, the editor, where grammars are found, and its work."""

    def __init__(self, document: Document, params: Json, client: Client, finder: Finder, work: Work) -> None:
        self.document, self.params, self.client, self.finder, self.work = document, params, client, finder, work
        # Asks the editor, which answers later, and whether the document is as it was; the server sets these.
        self.ask: Callable[[str, Json, Callable[[Any], None]], None] = lambda method, params, then: None
        self.is_current: Callable[[], bool] = lambda: True
        # Tells the person something about the document.
        self.say: Callable[[str], None] = lambda sentence: None

    @property
    def offset(self) -> int:
        return self.document.text.offset(self.params.get("position"))

    @property
    def span(self) -> tuple[int, int]:
        return self.document.text.span(self.params.get("range"))

    @property
    def grammar(self) -> Grammar:
        return self.finder.grammar(self.document.uri, self.document.data, self.work.wait_for)


def text_of(params: Json, key: str) -> str:
    value = params.get(key)
    if not isinstance(value, str):
        raise Error(INVALID_PARAMS, f"{key} is no text")
    return value


def put(place: Json, text: str) -> Json:
    """A text edit of a range."""
    return {"range": place, "newText": text}
