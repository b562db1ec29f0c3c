"""Why a list can't be mended, by what the program answers: which kids stand in each other's way, and a sentence on it.

    reasons = Reasons(["./pvtag"], Dtd(["./pvtag"], "article.dtd"), "doc")
    reason = reasons.of_list("0", "doc", kids)      # kids: a Kid for each kid of the list, in order
    reason.kids                                     # (0, 1): the numbers of the kids in each other's way
    reason.sentence()                               # "The second `head` has no place after the first: .."

The set of kids is smallest in that no kid can be left out of it: the program finds the list of these kids alone
impossible, and possible without any one of them.
"""
from collections.abc import Callable, Iterable, Sequence
from typing import Literal, NamedTuple, Protocol

from . import denial, sentences
from .document import Document
from .dtd import Dtd
from .layout import Layout
from .needs import needs
from .program import RUNNING, Running, file_of, run
from .search import Asking, Found, search
from .sentences import Pieces
from .tries import Judge, Kid, Try, stub

# What other tools may use; each has an example.
__all__ = ("Reason", "RefusedEdit", "Reasons")

# "root": the root can't stand in an element ROOT; "undeclared": a kid, the list's owner or ROOT has a name that the DTD
# doesn't declare; "unproductive": one of which no element is ever valid; "empty": the owner is declared EMPTY; "text":
# a text that has no place here; "kid": an element that has none; "together": kids of which each would have a place
# without one of the others.
Cause = Literal["root", "undeclared", "unproductive", "empty", "text", "kid", "together"]


class Listed(Protocol):
    """A node of `document` or `layout`."""

    @property
    def kind(self) -> str: ...

    @property
    def name(self) -> str: ...

    @property
    def is_white(self) -> bool: ...


class Reason(NamedTuple):
    """Why a list is impossible. `owner` is the name of its element, "" for the document node; `kids` the numbers of
    the kids that stand in each other's way, ascending, none where the owner itself can't be; `first` the first kid
    that no insertion makes room for, the last of those. `so` says what is so and `declared` what the DTD says, nothing
    where nothing is sure; a number in them stands for where that kid is.

    >>> from pvtag.program import find
    >>> reasons = Reasons(find(), Dtd(find(), "examples/letter.dtd"), "letter")
    >>> data = open("examples/letter-swapped.xml", "rb").read()
    >>> reason = reasons.of_document(data, ["0"])[0]
    >>> reason.owner, reason.kids, reason.first
    ('letter', (2, 4), 4)
    >>> print(reason.sentences()[0])
    `closer` stands before `body`; in `letter` they come in the other order.
    """

    path: str
    owner: str
    cause: Cause
    kids: tuple[int, ...]
    first: int | None
    so: Pieces
    declared: Pieces

    def sentences(self, where: Callable[[int], str] = lambda kid: "") -> list[str]:
        """What is so, and what the DTD says where that is told. `where` gives what is put after the mention of a kid,
        as " (line 3)"."""
        told = [pieces for pieces in (self.so, self.declared) if pieces]
        return ["".join(piece if isinstance(piece, str) else where(piece) for piece in pieces) for pieces in told]

    def sentence(self, where: Callable[[int], str] = lambda kid: "") -> str:
        """Both in one row."""
        return " ".join(self.sentences(where))


class RefusedEdit(NamedTuple):
    """Why an edit was refused: the reason, by the document as it would be after the edit; and of that list the number
    of its element and those of its kids in the tree as it is, a cut text's for each of its parts, none of what is
    new.

    >>> from pvtag.program import find
    >>> reasons = Reasons(find(), Dtd(find(), "examples/letter.dtd"), "letter")
    >>> tree = Document(b"<letter><body>a</body></letter>")
    >>> refused = reasons.of_edit(tree, ["rename 0.0 closing"], "0")
    >>> refused.owner == tree.node_at("0").id, refused.ids
    (True, [2])
    """

    reason: Reason
    owner: int | None
    ids: list[int | None]


def kids_of(nodes: Iterable[Listed]) -> list[Kid]:
    """The kids of a list, of nodes of `document` or `layout`."""
    return [Kid(node.kind, node.name) if not node.is_white else Kid("white") for node in nodes]


class Reasons:
    """Reasons under one DTD and ROOT. It keeps what it was answered, and no process; a DTD that has changed needs
    another one. Its runs of the program end with `runs`.

    >>> from pvtag.program import find
    >>> reasons = Reasons(find(), Dtd(find(), "examples/letter.dtd"), "letter")
    >>> print(reasons.of_list("0.0", "opener", [Kid("element", "p")]).sentences()[0])
    `opener` can't hold `p`, and no element between them could.
    """

    def __init__(self, program: list[str], dtd: Dtd, root: str, runs: Running = RUNNING) -> None:
        self.program, self.dtd, self.root, self.runs = program, dtd, root, runs
        self.judge = Judge(program, dtd, root, runs)

    def of_list(self, path: str, owner: str, kids: Sequence[Kid]) -> Reason | None:
        """Why this list is impossible, or none where it isn't. `owner` is "" for the list of the document node, path
        ".", whose one kid is the root."""
        return self.of_lists([(path, owner, kids)])[0]

    def of_lists(self, lists: Sequence[tuple[str, str, Sequence[Kid]]]) -> list[Reason | None]:
        """Why each of these lists is impossible, or none, by a few runs of the program for all of them."""
        found = self.searched([(owner, kids) for _, owner, kids in lists])
        return [self.told(*each, what) for each, what in zip(lists, found, strict=True)]

    def of_document(self, data: bytes, paths: Iterable[str]) -> list[Reason]:
        """Why these lists of a document are impossible: those that `check`, `why` or a session's `verdicts` told."""
        layout = Layout(data)
        nodes = [(path, layout.node(path)) for path in paths]
        lists = [(path, node.name, kids_of(node.kids)) for path, node in nodes if node is not None]
        return [reason for reason in self.of_lists(lists) if reason is not None]

    def of_edit(self, tree: Document, lines: Sequence[str], path: str) -> RefusedEdit | None:
        """Why the last of these lines was refused with `no impossible PATH`, those before it having been made but not
        in the tree yet. The tree is as it was afterwards."""
        return self.about_edit(tree, lines, path)()

    def about_edit(self, tree: Document, lines: Sequence[str], path: str) -> Callable[[], RefusedEdit | None]:
        """What `of_edit` does, in two parts: this call needs the tree, and what it returns needs the program."""
        last, backs = next(reversed(tree.nodes)), []
        origin: dict[int, int] = {}
        try:
            for line in lines:
                change, back = tree.edit(line)
                backs.append(back)
                parts = [kid for kid in change.get("kids", ()) if isinstance(kid, dict) and "of" in kid]
                origin.update({kid["id"]: origin.get(kid["of"][0][0], kid["of"][0][0]) for kid in parts})
            owner = tree.there(path)
            number, name, kids = owner.id, owner.name, kids_of(owner.kids)
            nodes = [origin.get(node.id, node.id) for node in owner.kids]
        finally:
            for back in reversed(backs):
                back()
            while next(reversed(tree.nodes)) > last:
                tree.nodes.popitem()
        ids = [number if number <= last else None for number in nodes]

        def refused() -> RefusedEdit | None:
            reason = self.of_list(path, name, kids)
            return None if reason is None else RefusedEdit(reason, number if number <= last else None, ids)

        return refused

    # ---- what was found ----

    def searched(self, lists: Sequence[tuple[str, Sequence[Kid]]]) -> list[Found | None]:
        """What each list's search finds, all asking in the same runs."""
        found: list[Found | None] = [None] * len(lists)
        asking: dict[int, tuple[Asking, list[Try]]] = {}

        def go_on(at: int, searching: Asking, answers: list[bool] | None) -> None:
            try:
                asking[at] = searching, searching.send(answers) if answers is not None else next(searching)
            except StopIteration as end:
                asking.pop(at, None)
                found[at] = end.value

        for at, (owner, kids) in enumerate(lists):
            if self.needs_search(owner, kids):
                go_on(at, search(owner, kids), None)
            else:
                found[at] = self.at_once(owner, kids)
        while asking:
            asked = [each for _, tries in asking.values() for each in tries]
            answers = iter(self.judge.impossible(asked))
            for at, (searching, tries) in list(asking.items()):
                go_on(at, searching, [next(answers) for _ in tries])
        return found

    def needs_search(self, owner: str, kids: Sequence[Kid]) -> bool:
        has_tokens = any(kid.is_token for kid in kids)
        return has_tokens and self.dtd.is_productive(owner) and self.dtd.types[owner].kind != "empty"

    def at_once(self, owner: str, kids: Sequence[Kid]) -> Found | None:
        """What is found without a search: of the document node, of an owner that can't be, of one declared EMPTY."""
        if owner == "" and self.dtd.is_productive(self.root):
            return Found((0,), 0, False) if self.judge.impossible([Try("", tuple(kids))]) == [True] else None
        if not self.dtd.is_productive(owner or self.root):
            return Found((), -1, False)
        return Found((0,), 0, False) if self.dtd.types[owner].kind == "empty" and kids else None

    # ---- sentences ----

    def told(self, path: str, owner: str, kids: Sequence[Kid], found: Found | None) -> Reason | None:
        """The reason of a list, by what its search has found."""
        if found is None:
            return None
        cause, so, declared = self.worded(owner, [kids[at] for at in found.kids], found)
        return Reason(path, owner, cause, found.kids, found.first if found.kids else None, so, declared)

    def worded(self, owner: str, kids: list[Kid], found: Found) -> tuple[Cause, Pieces, Pieces]:
        if not kids:
            return self.name_worded(owner or self.root, None)
        declared = sentences.declared(owner or self.root, self.dtd.model(owner or self.root))
        if len(kids) > 1:
            if len(set(kids)) == 1:
                return "together", sentences.too_many(owner, kids[0], found.kids), declared
            if len(kids) == 2:
                return "together", sentences.pair(owner, kids, found.kids, found.has_order), declared
            return "together", sentences.several(owner, kids, found.kids), declared
        kid, at = kids[0], found.kids[0]
        if owner and self.dtd.types[owner].kind == "empty":
            return "empty", sentences.in_empty(owner, kid, at), declared
        if kid.kind == "element" and not self.dtd.is_productive(kid.name):
            return self.name_worded(kid.name, at)
        if not owner:
            return "root", sentences.in_root(self.root, kid, at), declared
        return "kid" if kid.kind == "element" else "text", sentences.alone(owner, kid, at), declared

    def name_worded(self, name: str, at: int | None) -> tuple[Cause, Pieces, Pieces]:
        """Of a name of which no element can be valid."""
        if name not in self.dtd.types:
            other = self.dtd.behind_prefix(name)
            nearest = sentences.prefixed(other) if other else sentences.nearest(self.dtd.nearest(name))
            return "undeclared", sentences.undeclared(name, at, self.is_mentioned(name)), nearest
        why = needs(self.program, self.dtd, name)
        return "unproductive", sentences.unproductive(name, at, why), ()

    def is_mentioned(self, name: str) -> bool:
        """Whether the DTD has a name that it doesn't declare, by the cause that `why` tells of an element of it."""
        with file_of(stub(Kid("element", name))) as path:
            answer = run(self.program, "why", self.dtd.path, name, path, runs=self.runs)
        return denial.read(answer.output).cause == "unproductive"
