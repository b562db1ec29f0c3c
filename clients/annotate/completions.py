"""What is missing, by completions, and how it is taken over: the new elements of a completed document, as edits. A
completion is a least one, but where a list is too wide for that: there it is that of `pvlong`, which tells whether it is.

A completion keeps all that is there, in its order. So its new elements have places in the lists that are there, which
are found by walking through both side by side.
"""
import contextlib
import time
from collections import Counter
from collections.abc import Callable, Collection, Iterator
from typing import Any, NamedTuple

from .alone import bare, completed, whole
from .attributes import Attributes
from .changes import attributes_for, name_of
from .editor import Editor
from .moves import short
from pvtag.document import TEXT, Document, Node, Told, shown
from pvtag.program import Trouble, file_of
from pvtag.long import Inserted
from pvtag.session import Ended, Made, Refused, Session
from .runs import Spot, Stale, below, element_of, run_between
from .wide import Wide


# So long the names that new elements may have are looked for, in seconds; and of so many what was found is kept.
CHOOSING, KEPT = 10.0, 1000


class New(NamedTuple):
    """A new element of a completed list, and the run of the list that it would go round. It stands in another new one,
    or in none."""

    node: Node
    start: Spot
    end: Spot
    around: int | None


class Cursor:
    """A place in a list, that goes on by what a completed list has of it."""

    def __init__(self, owner: Node) -> None:
        self.kids, self.at, self.unit = owner.kids, 0, 0

    @property
    def spot(self) -> Spot:
        return self.at, self.unit or None

    def step(self) -> Node:
        """Past a kid that is no text; that kid."""
        self.at += 1
        return self.kids[self.at - 1]

    def advance(self, units: int) -> None:
        """Past units of texts."""
        while units:
            left = len(self.kids[self.at].units) - self.unit
            taken = min(left, units)
            units, self.unit = units - taken, self.unit + taken
            if taken == left:
                self.at, self.unit = self.at + 1, 0


def news_in(owner: Node, list_: Node) -> tuple[list[New], list[tuple[Node, Node]]]:
    """The new elements of a completed list, each after those that stand in it; and the elements that are there, each
    with its completed one."""
    cursor, news, pairs = Cursor(owner), [], []
    todo: list[tuple[Node, Spot | None]] = [(kid, None) for kid in reversed(list_.kids)]
    around: list[int] = []
    while todo:
        node, start = todo.pop()
        if start is not None:
            around.pop()
            news.append(New(node, start, cursor.spot, around[-1] if around else None))
        elif node.kind == TEXT:
            cursor.advance(len(node.units))
        elif not node.new:
            kid = cursor.step()
            pairs += [(kid, node)] if kid.kind == "element" else []
        else:
            around.append(node.id)
            todo.append((node, cursor.spot))
            todo.extend((kid, None) for kid in reversed(node.kids))
    return news, pairs


def lists_in(owner: Node, list_: Node) -> Iterator[tuple[Node, list[New]]]:
    """The lists of a completed one that have something new, from it on down."""
    todo = [(owner, list_)]
    while todo:
        there, done = todo.pop()
        news, pairs = news_in(there, done)
        if news:
            yield there, news
        todo += pairs


def without(news: list[New], left: Collection[int]) -> list[New]:
    """New elements without these: what stands in one of them stands where that would."""
    around = {new.node.id: new.around for new in news}

    def outer(number: int | None) -> int | None:
        while number is not None and number in left:
            number = around[number]
        return number

    return [new._replace(around=outer(new.around)) for new in news if new.node.id not in left]


def lines_for(path: str, news: list[New], given: Callable[[str], str] = lambda name: "") -> list[str]:
    """The edits that make all new elements of a list: an outer one before those in it, and the last one first, so that
    no place is moved before it is used. Each has the attributes that are `given` by its name."""
    spots = {spot for new in news for spot in (new.start, new.end)}
    cuts = sorted((at, unit) for at, unit in spots if unit is not None)
    lines = [f"split {below(path, at)} {unit}" for at, unit in reversed(cuts)]

    def index(spot: Spot) -> int:
        at, unit = spot
        return at + sum(cut < (at, unit or 0) for cut in cuts) + (unit is not None)

    places: dict[int, tuple[str, int]] = {}
    for new in reversed(news):
        list_, first = places[new.around] if new.around is not None else (path, 0)
        start, end = index(new.start), index(new.end)
        lines.append(f"wrap {list_} {start - first} {end - first} {new.node.name}")
        lines += attributes_for(below(list_, start - first), given(new.node.name))
        places[new.node.id] = below(list_, start - first), start
    return lines


class Completions:
    def __init__(self, editor: Editor, attributes: Attributes | None = None) -> None:
        self.editor, self.wide, self.attributes = editor, Wide(editor), attributes
        self.asked: Session | None = None
        self.version, self.news = -1, dict[int, tuple[Node, New]]()
        self.lists: list[tuple[Node, list[New]]] = []
        # What was told to be missing in lists, by version and number.
        self.told: dict[tuple[int, int], list[New]] = {}
        # The names that new elements of the preview may have, where there are several.
        self.choices: dict[int, list[str]] = {}
        # The other names of elements, by what they stand in and what they hold.
        self.alikes: dict[Any, list[str]] = {}

    def complete(self, source: bytes, root: str, version: int) -> Inserted | Refused:
        """A completion; `stop` ends what finds it."""
        self.stop()
        reply = self.complete_least(source, root)
        if not isinstance(reply, Refused) or reply.why != "wide":
            return reply
        return self.wide.complete(source, root, version) or reply

    def complete_least(self, source: bytes, root: str) -> Inserted | Refused:
        """A least completion, by a session of its own."""
        try:
            with file_of(source) as path, Session(self.editor.program, self.editor.dtd, root, path) as session:
                self.asked = session
                reply = session.complete()
                return reply if isinstance(reply, Refused) else Inserted(reply.document, True)
        except Ended as ended:
            if ended.status is not None and ended.status < 0:
                raise Stale from None
            raise Trouble(f"what is missing isn't known: {ended}") from None

    def stop(self) -> None:
        if self.asked is not None:
            self.asked.process.kill()
        self.wide.end("complete")

    # The whole document.
    def preview(self) -> Told:
        """A completion, its new elements told apart; each may be taken over then, or all of them."""
        editor = self.editor
        with editor.lock:
            source, version = whole(editor.document), editor.version
        reply = self.complete(source, editor.root, version)
        if isinstance(reply, Refused):
            return editor.refusal(reply)
        tree = completed(reply.document)
        choices = self.chosen(reply.document, editor.root, tree, [node for node in tree.elements() if node.new])
        with editor.lock:
            if editor.version != version:
                raise Stale
            self.version, self.choices = version, choices
            self.lists = list(lists_in(editor.document.top, tree.top))
        self.news = {new.node.id: (owner, new) for owner, news in self.lists for new in news}
        rows = [{**row, "choices": choices[row["id"]]} if row["id"] in choices else row for row in tree.told()]
        return {"tree": rows, "new": len(self.news), "least": reply.is_least, "version": version}

    def chosen(self, source: bytes, root: str, tree: Document, news: list[Node]) -> dict[int, list[str]]:
        """The names that new elements of a completed document may have at the same cost, where there are several: with
        another one too nothing is missing. The first, which the element has from then on, is the one that this document
        uses most below such a parent. One that there was no time to look at stands among them by its own name alone."""
        used, choices = self.uses(), {node.id: [node.name] for node in news}
        session_on = (self.editor.program, self.editor.dtd, root)
        with contextlib.suppress(Ended), file_of(source) as path, Session(*session_on, path) as session:
            session.history()
            end = time.monotonic() + CHOOSING
            for node in news:
                if time.monotonic() > end:
                    break
                where, parent = tree.path_of(node), tree.place_of(node)[0].name
                names = [node.name, *self.alike(session, where, node)]
                names.sort(key=lambda name: -used[parent, name])
                choices[node.id] = names
                if len(names) == 1:
                    del choices[node.id]
                elif names[0] != node.name:
                    session.rename(where, names[0])
                    node.name = names[0]
        return choices

    def alike(self, session: Session, path: str, node: Node) -> list[str]:
        """The other names that an element may have with which nothing is missing: those with which its own list is valid, and
        the one that it stands in; so they are the same for others that stand and hold the same."""
        owner = node.owner
        assert owner is not None
        key = owner.name, owner.kids.index(node), tuple(map(kind_of, owner.kids)), tuple(map(kind_of, node.kids))
        if key not in self.alikes:
            offered, found = session.offer(path), list[str]()
            for name in [] if isinstance(offered, Refused) else offered:
                reply = session.rename(path, name) if name != node.name else None
                if isinstance(reply, Made):
                    session.undo()
                    found += [name] if (reply.open, reply.bad) == (0, 0) else []
            self.alikes[key] = found
            if len(self.alikes) > KEPT:
                self.alikes.pop(next(iter(self.alikes)))
        return self.alikes[key]

    def uses(self) -> Counter[tuple[str, str]]:
        """How often each name stands below each in the document."""
        with self.editor.lock:
            elements = self.editor.document.elements()
            return Counter((node.owner.name, node.name) for node in elements if node.owner is not None)

    # One list.
    def missing(self, ask: Any) -> Told:
        """What is missing in one list."""
        editor = self.editor
        with editor.lock:
            owner, _ = element_of(editor.document, ask["node"])
            there, version = bare(owner, editor.root), editor.version
        reply = self.complete(there.source, there.root, version)
        if isinstance(reply, Refused):
            return {"no": reply.why}
        tree = completed(reply.document)
        with editor.lock:
            if editor.version != version:
                raise Stale
            news = news_of(owner, tree)
        choices = self.chosen(reply.document, there.root, tree, [new.node for new in sorted(news, key=order_of)])
        self.told = {key: value for key, value in self.told.items() if key[0] == version} | {(version, owner.id): news}
        rows = [told_of(owner, new, choices.get(new.node.id)) for new in sorted(news, key=order_of)]
        return {"missing": rows, "least": reply.is_least}

    # Taking over.
    def take(self, ask: Any) -> Told:
        """Makes what is missing: one new element of the preview, all of them that can have one name alone, or those of one
        list, by the names that were chosen; one move. How many of all were left is told."""
        editor = self.editor
        if self.attributes is not None:
            self.attributes.look()
        with editor.lock:
            since = editor.known(ask)
            if "node" in ask:
                lines = self.lines_of_list(ask["node"], ask.get("names") or {})
            elif self.version != since:
                raise Stale
            elif "new" in ask:
                lines = self.lines_of_one(ask["new"], ask.get("name"))
            else:
                # The lists further on first, since the paths of those before them stay then.
                paths = [(editor.document.path_of(owner), without(news, self.choices)) for owner, news in self.lists]
                paths.sort(key=depth_of, reverse=True)
                lines = [line for path, news in paths for line in lines_for(path, news, self.given)]
                return {**(editor.answer(since, lines) if lines else editor.state(since)), "left": len(self.choices)}
            return editor.answer(since, lines) if lines else editor.state(since)

    def lines_of_list(self, number: Any, names: Any) -> list[str]:
        """What was told to be missing in a list."""
        path = element_of(self.editor.document, number)[1]
        news = self.told.get((self.editor.version, number))
        if news is None:
            raise Stale
        for new in news:
            new.node.name = chosen_name(names.get(str(new.node.id)), new.node)
        return lines_for(path, news, self.given)

    def lines_of_one(self, number: Any, name: Any) -> list[str]:
        if number not in self.news:
            raise Stale
        owner, new = self.news[number]
        path = element_of(self.editor.document, owner.id)[1]
        cuts, path, start, end = run_between(path, new.start, new.end)
        name = chosen_name(name, new.node)
        return [*cuts, f"wrap {path} {start} {end} {name}", *attributes_for(below(path, start), self.given(name))]

    def given(self, name: str) -> str:
        return self.attributes.given(name) if self.attributes is not None else ""


def kind_of(kid: Node) -> str:
    """What a kid is to the list that it stands in."""
    return kid.name or (kid.kind if not kid.is_white else "")


def chosen_name(name: Any, node: Node) -> str:
    """The name that was chosen for a new element, or the one that it has."""
    return name_of({"name": name}) if name is not None else node.name


def news_of(owner: Node, tree: Document) -> list[New]:
    """The new elements of a list that was completed by itself."""
    return news_in(owner, tree.top if owner.owner is None else tree.there("0"))[0]


def depth_of(row: tuple[str, list[New]]) -> int:
    return 0 if row[0] == "." else row[0].count(".") + 1


def order_of(new: New) -> tuple[int, int, int, int]:
    """In the order of the document, an outer one before those in it."""
    return (new.start[0], new.start[1] or 0, -new.end[0], -(new.end[1] or 0))


def told_of(owner: Node, new: New, choices: list[str] | None) -> Told:
    """A new element as the page tells it: its name, the others that it may have, and what it would go round, or stand
    after."""
    before = [kid for kid in owner.kids[:new.start[0]] if not kid.is_white]
    behind = f"⟨{before[-1].name}⟩" if before and before[-1].name else ""
    told: Told = {"id": new.node.id, "name": new.node.name, "around": around(new.node), "behind": behind}
    return told if choices is None else {**told, "choices": choices}


def around(new: Node) -> str:
    """What a new element would go round, in words: its texts and the elements that are there."""
    parts: list[str] = []
    todo = [new]
    while todo:
        node = todo.pop()
        if node.kind == TEXT and not node.is_white:
            parts.append(f"“{short(''.join(map(shown, node.units)))}”")
        elif node.name and not node.new:
            parts.append(f"⟨{node.name}⟩")
        todo.extend(reversed(node.kids))
    return " ".join(parts if len(parts) <= 4 else [*parts[:2], "…", parts[-1]])
