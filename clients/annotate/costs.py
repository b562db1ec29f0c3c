"""What each tag that is offered costs: how many more elements are missing after it, and which, by `pvtag.costs`."""
import contextlib
import threading
import time
from collections.abc import Iterator
from typing import Any

from .alone import Alone, alone
from .declared import Declared
from .editor import Editor
from .neighbours import Neighbours
from pvtag.costs import TURN, Known, Task
from pvtag.document import Node, Told
from pvtag.program import file_of
from pvtag.session import Ended, Made, Refused, Session
from .runs import below, element_of, run_between, run_of, spots_of
from .uses import Uses

# Of so many places what is known is kept.
KEPT = 300
# So many of the names that are offered first are counted first.
FIRST = 9
# The document of a list, the cuts that a move needs there, and its line without a name.
Beside = tuple[Alone, list[str], str]


class Costs:
    def __init__(self, editor: Editor, declared: dict[str, Declared], uses: Uses | None = None) -> None:
        self.editor, self.declared = editor, declared
        empty = [name for name, each in declared.items() if each.kind == "empty"]
        self.uses = uses or Uses(editor, Neighbours(editor.script.document, editor.root), empty)
        self.lock, self.number = threading.Lock(), 0
        self.task: Task | None = None
        # What a list misses is the same wherever it stands, and whatever its texts say.
        self.known: dict[tuple[bytes, str, str, str], Known] = {}

    def offer(self, ask: Any) -> Told:
        """The names that may go round a run, or that an element may have, in the order in which they are offered; those with
        which nothing is missing in the lists that they change, what is known of the others, and the number by which it is
        asked what they cost."""
        editor = self.editor
        with editor.lock:
            cuts, line, lists = self.edit(ask)
            words = line.split(" ")
            reply = editor.tried(cuts, lambda: editor.session.offer(words[1], *map(int, words[2:])))
            if isinstance(reply, Refused):
                return editor.refusal(reply)
            offered = self.uses.ordered(reply, lists[-1].name, "node" not in ask and ask["from"] == ask["to"])
            names = self.ordered(offered)
            beside = self.beside(ask)
            known = self.known_of(beside)
            if names:
                editor.tried(cuts, lambda: self.look(line, known, known.lacking(names), lists))
            there, cuts, line = beside
            task = self.begin(Task(lambda: self.session(there), there.path, cuts, line, names, known))
            return {"names": offered, "whole": list(known.whole), "task": task, "costs": known.costs.copy()}

    @contextlib.contextmanager
    def session(self, there: Alone) -> Iterator[Session]:
        """A session on the document of a list."""
        with file_of(there.source) as path:
            yield Session(self.editor.program, self.editor.dtd, there.root, path)

    def known_of(self, beside: Beside) -> Known:
        """What is known of this place, which is kept for the next time."""
        there, cuts, line = beside
        key = there.source, there.root, "\n".join(cuts), line
        known = self.known.pop(key, None) or Known()
        self.known[key] = known
        if len(self.known) > KEPT:
            self.known.pop(next(iter(self.known)))
        return known

    def edit(self, ask: Any) -> tuple[list[str], str, list[Node]]:
        """The cuts that the move needs, its line without a name, and the lists that are there and are changed by it."""
        document = self.editor.document
        if "node" in ask:
            node, path = element_of(document, ask["node"])
            return [], f"rename {path}", [node, document.place_of(node)[0]]
        cuts, path, start, end = run_of(document, ask)
        return cuts, f"wrap {path} {start} {end}", [element_of(document, ask["list"])[0]]

    def look(self, line: str, known: Known, names: list[str], lists: list[Node]) -> None:
        """Looks with which names all lists that are changed are valid by themselves, and with which none is: then as many
        others are open as were, or two more. As many names as can be told in a turn."""
        editor, end = self.editor, time.monotonic() + TURN
        others = editor.open - sum(node.verdict == "possible" for node in lists)
        impossible = editor.bad - sum(node.verdict == "impossible" for node in lists)
        for name in names:
            if time.monotonic() > end:
                break
            before, reply = editor.ahead, editor.play(f"{line} {name}")
            if isinstance(reply, Made):
                editor.rewind(before)
                if (reply.open, reply.bad) == (others, impossible):
                    known.whole.add(name)
                elif reply.open == others + 2:
                    known.slow.add(name)

    def ordered(self, names: list[str]) -> list[str]:
        """The order in which costs are asked: the first that are offered, then what needs least in itself."""
        return names[:FIRST] + sorted(names[FIRST:], key=lambda name: self.declared[name].size)

    def begin(self, task: Task) -> int:
        """Another task, in the place of the last one; its number."""
        with self.lock:
            self.close()
            self.task = task
            self.number += 1
            return self.number

    def beside(self, ask: Any) -> Beside:
        """The document of the list, the cuts that the move needs there, and its line without a name."""
        document, root = self.editor.document, self.editor.root
        if "node" in ask:
            node, _ = element_of(document, ask["node"])
            owner, at = document.place_of(node)
            there = alone(owner, root, [(at, None)], node)
            return there, [], f"rename {below(there.path, there.spots[0][0])}"
        owner, _, start, end = spots_of(document, ask)
        there = alone(owner, root, [start, end])
        cuts, path, first, last = run_between(there.path, *there.spots)
        return there, cuts, f"wrap {path} {first} {last}"

    def more(self, ask: Any) -> Told:
        """What more is known by now: of the names that are wanted before the others, and of all where that is asked
        for."""
        task, gone = self.task, {"costs": {}, "names": {}, "left": 0, "is_quick": True, "is_gone": True}
        if task is None or ask["task"] != self.number:
            return gone
        try:
            return task.more([name for name in ask["names"] if name in self.declared], ask["all"])
        except Ended:
            # Another place is asked for by now.
            return gone

    def close(self) -> None:
        if self.task is not None:
            self.task.stop()
        self.task = None
