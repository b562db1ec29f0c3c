"""What is missing where a list is too wide for a session: `pvlong` is asked, beside the moves. A change of the document
ends what it does."""
import threading

from .editor import Editor
from pvtag import long
from pvtag.document import Told
from pvtag.long import Inserted
from pvtag.program import Running, Stopped, file_of
from .runs import Stale


class Wide:
    def __init__(self, editor: Editor) -> None:
        self.editor, self.lock = editor, threading.Lock()
        self.runs = {"need": Running(), "complete": Running()}
        self.needed: Told = {"version": -1}
        editor.outdated = lambda: self.end("need", "complete")

    def end(self, *kinds: str) -> None:
        """Ends what runs of these kinds, and what waits."""
        with self.lock:
            for kind in kinds:
                self.runs[kind].stop()
                self.runs[kind] = Running()

    def need(self, version: int) -> Told:
        """How many elements are missing in this version: at least, and enough. Neither where that isn't told."""
        editor = self.editor
        with editor.lock:
            runs, source = self.runs_of("need", version), editor.shown()
            if self.needed["version"] == version:
                return self.needed
        try:
            with file_of(source) as path:
                found = long.need(editor.program, editor.dtd, editor.root, path, runs)
        except Stopped:
            raise Stale from None
        self.needed = {"version": version} | ({} if found is None else found._asdict())
        return self.needed

    def complete(self, source: bytes, root: str, version: int) -> Inserted | None:
        """The document that these bytes of this version are, completed."""
        with self.editor.lock:
            runs = self.runs_of("complete", version)
        try:
            with file_of(source) as path:
                return long.complete(self.editor.program, self.editor.dtd, root, path, runs)
        except Stopped:
            raise Stale from None

    def runs_of(self, kind: str, version: int) -> Running:
        """Runs that end where the document changes from this version."""
        if self.editor.version != version:
            raise Stale
        return self.runs[kind]
