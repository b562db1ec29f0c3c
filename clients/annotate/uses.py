"""How often names stand below others: in the document, in the others beside it, and among those made in this sitting."""
from collections import Counter
from collections.abc import Iterable

from .editor import Editor
from .neighbours import Neighbours


class Uses:
    def __init__(self, editor: Editor, around: Neighbours, empty: Iterable[str]) -> None:
        self.editor, self.around, self.empty = editor, around, frozenset(empty)
        self.version, self.here = -1, Counter[tuple[str, str]]()

    def below(self, parent: str, name: str) -> int:
        return self.counted()[parent, name] + self.around.below[parent, name]

    def counted(self) -> Counter[tuple[str, str]]:
        """How often each name stands below each in the document. What was made in this sitting counts once more."""
        editor = self.editor
        with editor.lock:
            if self.version != editor.version:
                pairs = ((node.owner.name, node.name) for node in editor.document.elements() if node.owner is not None)
                self.version, self.here = editor.version, Counter(pairs)
            return self.here

    def ordered(self, names: list[str], parent: str, is_caret: bool) -> list[str]:
        """Names in the order in which they are offered where they cost the same: at a caret those that are EMPTY first; then
        what stands there most often, what was used last, and what stands anywhere; then as they are declared."""
        recent = {name: at for at, name in enumerate(self.editor.recent())}
        anywhere = Counter[str]()
        for counts in (self.counted(), self.around.below):
            for (_, name), count in counts.items():
                anywhere[name] += count

        def order(name: str) -> tuple[bool, int, int, int]:
            used = self.below(parent, name) + (name in recent)
            return is_caret and name not in self.empty, -used, recent.get(name, len(recent)), -anywhere[name]

        return sorted(names, key=order)
