"""The moves of a script made again on a document that another program has changed since.

Two trees are kept: that of the script, in which its moves are made one by one, and that of the document as it is now.
What a move is about is found in the second by what became of its characters, by a diff of the two plain texts, and of its
elements. A move whose own ends were hit is left out, and told; the session says whether the others can be made.
"""
import re
from collections import Counter
from collections.abc import Callable, Mapping, Sequence
from typing import TYPE_CHECKING, Any

from .changes import lines_for, side_of
from .forms import check_forms
from .moves import BadLine, Line, Move, groups_of, is_edit, surviving, title_of
from .plain import Across, Plain
from pvtag.document import ELEMENT, TEXT, Document, Node, Told
from pvtag.masks import Masked, mask
from pvtag.session import Refused
from .runs import Stale, run_of, stretch_of
from .script import Earlier, hash_of

if TYPE_CHECKING:
    from .editor import Editor

# A place of the second tree: a list, a kid of it, and a unit there.
Place = tuple[Node, Node | None, int]


class Hit(Exception):
    """What a move is about isn't there as it was."""


class Again:
    def __init__(self, earlier: Earlier, name: str, masked: Masked, dtd: bytes) -> None:
        """`masked` is the document as it is now; an entity has the same stand-in in both trees and in the lines."""
        self.begin, forms = mask(earlier.base or b"", dtd).like(masked)
        self.lines = [(number, in_forms(line, forms)) for number, line in earlier.lines]
        # What stands for entities that the document doesn't refer to now.
        self.gone = [form.decode() for form in forms.values() if form not in masked.stands]
        self.earlier, self.name = earlier, name
        self.skipped: list[str] = []
        self.made = self.count = self.saved = self.taken_back = 0

    @property
    def note(self) -> str:
        """What came of it, for a user."""
        kept = f" The script before is kept in {self.name}.pvtag.old."
        if self.earlier.base is None:
            return ("The document was changed by another program, and the one that its moves begin with isn't kept: none of "
                    "them was made again." + kept)
        told = "The document was changed by another program. "
        if self.saved:
            told = (f"The document was changed by another program after a Save: it has its tags already, those of {self.saved} "
                    f"move{'s' * (self.saved != 1)}, and it is gone on from there. ")
        if self.taken_back:
            told += f"{self.taken_back} of them had been taken back since; they are in it still. "
        told += f"{self.made} of {self.count} moves {'since then ' if self.saved else ''}were made again on it."
        if self.skipped:
            told += f" Not made: {'; '.join(self.skipped)}."
        return told + kept

    def make_on(self, editor: "Editor") -> None:
        """Makes the moves that can be made."""
        if self.earlier.base is None:
            return
        self.editor, self.now = editor, editor.document
        self.before, groups = self.begun()
        check_forms(editor.program, [line for group in groups for line in group])
        self.count = len(groups)
        self.across = Across("", "")
        self.look()
        self.twins = {0: self.now.top}
        self.pair(self.before.top, self.now.top)
        for group in groups:
            try:
                self.make(group)
            except (KeyError, IndexError, ValueError, AttributeError):
                raise BadLine(group[-1].number, "what this line is about isn't there") from None

    # What it begins from.
    def begun(self) -> tuple[Document, list[list[Line]]]:
        """The tree from which the document was changed, that of the last Save where that is nearer, and the moves since."""
        base, lines = self.begin.data, self.lines
        all_made = surviving(lines)[0]
        for count, sum_ in reversed(self.earlier.saves):
            made = surviving(lines[:count])[0]
            tree = tree_of(base, made)
            if tree is None or hash_of(self.begin.restored(tree.written().encode())) != sum_:
                continue
            if far(tree, self.now) > far(Document(base), self.now):
                break
            same = next((at for at, (one, other) in enumerate(zip(made, all_made)) if one.text != other.text),
                        min(len(made), len(all_made)))
            self.saved, self.taken_back = len(groups_of(made)), len(groups_of(made[same:]))
            return tree, [] if self.taken_back else groups_of(all_made[same:])
        return Document(base), groups_of(all_made)

    def look(self) -> None:
        """Reads both texts, where they have changed."""
        self.old, self.new = Plain(self.before), Plain(self.now)
        if (self.across.old, self.across.new) != (self.old.text, self.new.text):
            self.across = Across(self.old.text, self.new.text)

    def pair(self, before: Node, now: Node) -> None:
        """Finds the elements and other nodes of the second tree that are those of the first, below two that are."""
        todo = [(before, now)]
        while todo:
            one, other = todo.pop()
            empties: dict[tuple[str, str], list[Node]] = {}
            taken: set[int] = set()
            for kid in other.kids:
                if kid.kind != TEXT and not spans(self.new, kid):
                    empties.setdefault(key_of(kid), []).append(kid)
            for kid in one.kids:
                if kid.kind == TEXT:
                    continue
                twin = self.found(kid, other) if spans(self.old, kid) else next(iter(empties.get(key_of(kid), [])), None)
                if twin is None or twin.id in taken:
                    continue
                if not spans(self.old, kid):
                    empties[key_of(kid)].pop(0)
                taken.add(twin.id)
                self.twins[kid.id] = twin
                todo.append((kid, twin))

    def found(self, kid: Node, list_: Node) -> Node | None:
        """The element of a list that holds the first character that is left of this one."""
        at = self.across.first(*self.old.spans[kid.id])
        node: Node | None = self.new.find(at)[0] if at is not None else None
        while node is not None and node.owner is not list_:
            node = node.owner
        is_twin = node is not None and node.kind != TEXT and key_of(node) == key_of(kid)
        return node if is_twin else None

    # Making.
    def make(self, group: list[Line]) -> None:
        """Makes one move, as far as it can be: one that is nothing but several tags, without those that can't."""
        edits = [line.text for line in group if is_edit(line.text)]
        is_many = len(edits) > 1 and all(line.startswith("wrap ") for line in edits)
        lines: list[str] = []
        backs: list[Callable[[], Told]] = []
        made: list[tuple[Node, int]] = []
        hits: list[str] = []
        first = max(self.now.nodes)
        for line in (line.text for line in group):
            title, done = "", len(backs)
            if is_edit(line):
                title = title_of([line], self.before)
                try:
                    more = self.lines_for(line)
                    if any(form in each for each in more for form in self.gone):
                        raise Hit("the document doesn't refer to its entity now")
                    for each in more:
                        backs.append(self.now.edit(each)[1])
                    lines += more
                except (Hit, Stale, KeyError, IndexError, ValueError, AttributeError) as hit:
                    while len(backs) > done:
                        backs.pop()()
                    hits.append(f"{title} ({hit if isinstance(hit, Hit) and str(hit) else 'its place has changed'})")
            last = max(self.before.nodes)
            self.before.edit(line)
            new = [node for node in self.now.nodes.values() if node.id > first and node.kind == ELEMENT]
            for node in list(self.before.nodes.values())[::-1]:
                if node.id <= last:
                    break
                if node.kind == ELEMENT and len(backs) > done and new:
                    made.append((node, len(new) - 1))
                    self.twins[node.id] = new[-1]
            self.look()
        for back in reversed(backs):
            back()
        if hits and not is_many or not lines:
            self.skip(group, hits or ["nothing of it is left"], made)
            return
        last = max(self.now.nodes)
        refusal = self.editor.make(Move(lines), [])
        if isinstance(refusal, Refused):
            self.skip(group, [f"{title_of_group(group)} (refused now)"], made)
            return
        new = [node for node in self.now.nodes.values() if node.id > last and node.kind == ELEMENT]
        for node, number in made:
            self.twins[node.id] = new[number]
        self.skipped += hits
        self.made += 1
        self.look()

    def skip(self, group: list[Line], why: Sequence[str], made: list[tuple[Node, int]]) -> None:
        for node, _ in made:
            self.twins.pop(node.id, None)
        self.skipped += why
        self.look()

    # Finding.
    def lines_for(self, line: str) -> list[str]:
        """The lines that make an edit of the first tree in the second."""
        word, path, *rest = line.split(" ")
        node = self.before.there(path)
        if word == "wrap":
            return self.wrap(node, int(rest[0]), int(rest[1]), rest[2])
        if word == "insert":
            cuts, where, at, _ = run_of(self.now, asked(*[self.point(node, int(rest[0]))] * 2))
            return [*cuts, f"insert {where} {at} {rest[1]}"]
        if word == "addtext":
            place = self.point(node, int(rest[0]))
            return self.typed(place, place, line.split(" ", 3)[3])
        if word in ("text", "deltext"):
            span = self.across.span(*self.old.spans[node.id])
            if span is None:
                raise Hit("its text has changed")
            return self.typed(self.place(span[0], 0), self.place(span[1] - 1, 1), line.split(" ", 2)[2] if word == "text" else "")
        return [" ".join([word, self.now.path_of(self.twin(node)), *line.split(" ", 2)[2:]])]

    def twin(self, node: Node) -> Node:
        twin = self.twins.get(node.id)
        if twin is None:
            raise Hit(f"⟨{node.name}⟩ isn't there" if node.name else "its place isn't there")
        return twin

    def place(self, at: int, after: int) -> Place:
        """The place before a character of the second text, or after it."""
        node, unit = self.new.find(at)
        assert node.owner is not None
        return node.owner, node, unit + after

    def end(self, node: Node, is_last: bool) -> Place:
        """Where a node begins in the second tree, or where it ends."""
        if node.kind != TEXT:
            twin = self.twin(node)
            return self.now.place_of(twin)[0], twin, int(is_last)
        start, end = self.old.spans[node.id]
        at = self.across.at(end - 1 if is_last else start)
        if at is None:
            raise Hit("its end has changed" if is_last else "its start has changed")
        return self.place(at, int(is_last))

    def wrap(self, owner: Node, start: int, end: int, name: str) -> list[str]:
        if start == end:
            place = self.point(owner, start)
            cuts, path, at, after = run_of(self.now, asked(place, place))
            return [*cuts, f"wrap {path} {at} {after} {name}"]
        first, last = self.one_list(self.end(owner.kids[start], False), self.end(owner.kids[end - 1], True))
        list_ = first[0]
        is_all = list_.kids and is_start(first) and is_end(last)
        if is_all and list_.name == name:
            raise Hit("it is there already")
        cuts, path, at, after = run_of(self.now, asked(first, last))
        return [*cuts, f"wrap {path} {at} {after} {name}"]

    def one_list(self, first: Place, last: Place) -> tuple[Place, Place]:
        """Both in one list: out of elements at whose ends they stand."""
        lines = {id(node) for node in line_of(last[0])}
        while id(first[0]) not in lines:
            if not is_start(first):
                raise Hit("other tags stand there now")
            first = self.now.place_of(first[0])[0], first[0], 0
        while last[0] is not first[0]:
            if not is_end(last):
                raise Hit("other tags stand there now")
            last = self.now.place_of(last[0])[0], last[0], 1
        return first, last

    def point(self, owner: Node, at: int) -> Place:
        """The place in the second tree for one between two kids: after the one, or before the other."""
        for is_last, number in ((True, at - 1), (False, at)):
            if 0 <= number < len(owner.kids):
                try:
                    return self.end(owner.kids[number], is_last)
                except Hit:
                    continue
        twin = self.twin(owner)
        if owner.kids and twin.kids:
            raise Hit("what stands beside it has changed")
        return twin, twin.kids[0] if twin.kids else None, 0

    def typed(self, first: Place, last: Place, text: str) -> list[str]:
        stretch = stretch_of(self.now, asked(first, last))
        return lines_for(side_of(self.now, stretch), stretch, text)


def in_forms(line: str, forms: Mapping[bytes, bytes]) -> str:
    """A line with other stand-ins."""
    if not forms or "&#" not in line:
        return line
    by_form = {form.decode(): other.decode() for form, other in forms.items()}
    return re.sub("|".join(map(re.escape, by_form)), lambda found: by_form[found[0]], line)


def asked(first: Place, last: Place) -> Any:
    """A run as the page would tell it."""
    ends = ([kid.id if kid is not None else None, unit] for _, kid, unit in (first, last))
    return {"list": first[0].id, **dict(zip(("from", "to"), ends))}


def is_start(place: Place) -> bool:
    list_, kid, unit = place
    return kid is list_.kids[0] and unit == 0


def is_end(place: Place) -> bool:
    list_, kid, unit = place
    return kid is list_.kids[-1] and unit == (len(kid.units) if kid.kind == TEXT else 1)


def line_of(node: Node | None) -> list[Node]:
    line = []
    while node is not None:
        line.append(node)
        node = node.owner
    return line


def spans(plain: Plain, node: Node) -> bool:
    start, end = plain.spans[node.id]
    return end > start


def key_of(node: Node) -> tuple[str, str]:
    return node.kind, node.name if node.kind == ELEMENT else node.source


def tree_of(base: bytes, lines: Sequence[Line]) -> Document | None:
    """The tree after these edits; none where they can't be made in it."""
    document = Document(base)
    try:
        for line in lines:
            document.edit(line.text)
    except (KeyError, IndexError, ValueError, AttributeError):
        return None
    return document


def far(one: Document, other: Document) -> int:
    """How far two documents are from each other, by the names of their elements."""
    names, others = (Counter(node.name for node in document.elements()) for document in (one, other))
    return sum(((names - others) + (others - names)).values())


def title_of_group(group: list[Line]) -> str:
    edits = [line.text for line in group if is_edit(line.text)]
    words = edits[-1].split(" ") if edits else ["move"]
    return f"⟨{words[-1]}⟩" if words[0] in ("wrap", "insert", "rename") else words[0]
