"""Where a document was looked at last, and what stood beside it: kept in this user's folder for states, so that a reload, a restart or
another day begins there.

It is no part of the document, and nothing depends on it: what can't be read or written is passed over.
"""
import contextlib
import json
import os
import threading
from typing import Any

from .files import put_file
from pvtag.document import Told

# Of so many documents it is kept, and so much of one.
KEPT, LONGEST = 300, 2000
LOCK = threading.Lock()


def folder() -> str:
    return os.path.join(os.environ.get("XDG_STATE_HOME") or os.path.expanduser("~/.local/state"), "pvtag")


class Views:
    def __init__(self, document: str) -> None:
        self.document = os.path.realpath(document)
        self.path = os.path.join(folder(), "annotate.json")
        self.last: Told = self.all().get(self.document, {})
        self.kept = self.last

    def all(self) -> dict[str, Told]:
        """What is kept of all documents, the last one last."""
        with contextlib.suppress(OSError, ValueError):
            with open(self.path, encoding="utf-8") as file:
                told = json.load(file)
            if isinstance(told, dict):
                return {name: view for name, view in told.items() if isinstance(view, dict)}
        return {}

    def put(self, ask: Any) -> Told:
        """Where a window stands now."""
        view = {key: ask[key] for key in ("path", "above", "caret", "panel") if ask.get(key) is not None}
        if len(json.dumps(view)) <= LONGEST:
            self.last = view
        return {}

    def write(self) -> None:
        """Keeps it, where it has changed."""
        if self.last == self.kept:
            return
        with LOCK, contextlib.suppress(OSError, ValueError):
            views = self.all()
            views.pop(self.document, None)
            views[self.document] = self.kept = self.last
            os.makedirs(os.path.dirname(self.path), mode=0o700, exist_ok=True)
            text = json.dumps(dict(list(views.items())[-KEPT:]))
            put_file(self.path, text.encode(), self.path if os.path.exists(self.path) else None)
