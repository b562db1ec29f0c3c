"""Why not, in words: of a refused edit, and of a list that nothing can mend; with the kids that stand in each other's
way. The program is asked that in runs of its own, for which no move waits."""
import threading
from collections.abc import Callable
from typing import Any

from .editor import Editor
from pvtag.document import Document, Told
from pvtag.dtd import Dtd
from pvtag.reasons import Reason, Reasons, kids_of
from .runs import element_of
from .takes import Takes


class Explainer:
    def __init__(self, editor: Editor) -> None:
        self.editor = editor
        dtd = Dtd(editor.program, editor.dtd)
        self.reasons, self.takes = Reasons(editor.program, dtd, editor.root), Takes(dtd)
        # One is explained at a time; the editor's lock isn't held meanwhile.
        self.lock = threading.Lock()
        self.told: dict[int, Told] = {}
        self.version = -1
        editor.explain = self.of_edit

    def of_edit(self, document: Document, lines: list[str], path: str) -> Callable[[], Told]:
        """Why the last of these lines was refused, those before it having been made: a call that tells it, for which the tree
        isn't needed any more."""
        find = self.reasons.about_edit(document, lines, path)

        def told() -> Told:
            with self.lock:
                refused = find()
            if refused is None:
                return {}
            reason = refused.reason
            kids = [number for kid in reason.kids if (number := refused.ids[kid]) is not None]
            told: Told = {**self.worded(reason), "cause": reason.cause, "kids": kids}
            return told if refused.owner is None else {**told, "list": refused.owner}

        return told

    def of_lists(self, ask: Any) -> Told:
        """Why these lists can't be mended; nothing of one that can."""
        with self.editor.lock:
            version = self.editor.version
            there = [element_of(self.editor.document, number) for number in ask["nodes"]]
            lists = {node.id: ((path, node.name, kids_of(node.kids)), [kid.id for kid in node.kids]) for node, path in there}
        with self.lock:
            if self.version != version:
                self.told, self.version = {}, version
            new = {number: row for number, row in lists.items() if number not in self.told}
            reasons = self.reasons.of_lists([asked for asked, _ in new.values()])
            for (number, (_, ids)), reason in zip(new.items(), reasons, strict=True):
                kids = [ids[kid] for kid in reason.kids] if reason is not None else []
                self.told[number] = {"node": number, **(self.worded(reason) if reason is not None else {"why": ""}), "kids": kids}
            return {"reasons": [self.told[node.id] for node, _ in there]}

    def worded(self, reason: Reason) -> Told:
        """A reason in words: what is so, and what the list's element takes; `model` is its whole model, where that is long."""
        so, *declared = reason.sentences()
        name = reason.owner or self.editor.root
        if not declared or not declared[0].startswith(f"`{name}` is declared `"):
            return {"why": " ".join([so, *declared])}
        takes, model = self.takes.of(name)
        return {"why": f"{so} {takes}".strip(), **({"model": model} if model else {})}
