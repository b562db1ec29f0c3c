"""Tags for words that were tagged the same way before: in the documents beside, or in this one.

Only exact words are looked for, and only those that had the same tag with the same attributes three times or more, and no
other as often. Each suggestion is an edit that the session would make.
"""
import re
from collections import Counter
from collections.abc import Iterable, Iterator
from typing import Any

from .attributes import Attributes, pairs_of
from .changes import name_of
from .editor import Editor
from .everywhere import Everywhere, beside, in_order, stands_in
from .neighbours import LONGEST, Neighbours, Tag
from pvtag.document import TEXT, Node, Told, shown
from pvtag.session import Refused
from .runs import Stretch, element_of, spot_at, stretch_of, texts_of
from .slices import in_slices

# So often words had their tag, at least.
OFTEN = 3
# So many words are looked for, and so many places told.
WORDS, PLACES = 3000, 300
# Where words may begin: not within one, nor with white space.
STARTS = re.compile(r"(?<![^\W_])[^\W_]|[^\w\s]|_")


class Suggestions:
    def __init__(self, editor: Editor, around: Neighbours, everywhere: Everywhere, attributes: Attributes) -> None:
        self.editor, self.around, self.everywhere, self.attributes = editor, around, everywhere, attributes

    def told(self, _: Any = None) -> Told:
        """The places of words that have no tag here, in the order of the document: the words, what stands beside them, the
        tag, how often they had it, and how many places of the same words there are."""
        self.attributes.look()
        version, rows = in_slices(self.editor, self.rows)
        counts = Counter(row["text"] for row in rows)
        return {"version": version, "rows": [{**row, "here": counts[row["text"]]} for row in rows]}

    def tag(self, ask: Any) -> Told:
        """Makes these tags, each with its own attributes, in one move; one that is refused is left out, and told."""
        return self.make(ask, [(row["place"], name_of(row), self.attributes.asked(row)) for row in ask["places"]])

    def tag_all(self, ask: Any) -> Told:
        """Makes one tag at all these places, in one move."""
        name, attrs = name_of(ask), self.attributes.asked(ask)
        return self.make(ask, [(place, name, attrs) for place in ask["places"]])

    def make(self, ask: Any, rows: list[tuple[Any, str, str]]) -> Told:
        editor = self.editor
        with editor.lock:
            since = editor.known(ask)
            stretches = [(stretch_of(editor.document, place), name, attrs) for place, name, attrs in rows]
            # The last place first: what is done there moves no path before it.
            stretches.sort(key=lambda row: self.order(row[0]), reverse=True)
            return self.everywhere.make(since, [self.everywhere.lines_for(*row) for row in stretches])

    def order(self, stretch: Stretch) -> list[int]:
        """By this places stand in the order of the document."""
        _, path = element_of(self.editor.document, stretch.owner)
        return [int(at) for at in path.split(".") if at] + [stretch.first, stretch.start]

    def known(self, counts: dict[str, Counter[Tag]]) -> Iterator[None]:
        """Counts the tags that words had, beside and here, in steps."""
        for text, tags in self.around.tagged.copy().items():
            for tag, count in tags.copy().items():
                counts.setdefault(text, Counter())[self.without_ids(tag)] += count
            yield
        for node in in_order(self.editor.document):
            text = text_of(node)
            if text and node.owner is not None and node.owner.owner is not None:
                counts.setdefault(text, Counter())[self.without_ids((node.name, tuple(pairs_of(node.attrs))))] += 1
            yield

    def without_ids(self, tag: Tag) -> Tag:
        """A tag without the attributes of which each value stands once in a document."""
        name, pairs = tag
        ids = {each.name for each in self.attributes.known.of(name) if each.type == "ID"} | {"xml:id"}
        return name, tuple(pair for pair in pairs if pair[0] not in ids)

    def rows(self) -> Iterator[Told | None]:
        """The rows, in steps; each step tries one place at most."""
        counts = dict[str, Counter[Tag]]()
        yield from self.known(counts)
        known, count = often(counts), 0
        words = Words(known)
        for owner in in_order(self.editor.document) if known else ():
            for first, nodes in texts_of(owner):
                line = "".join("".join(map(shown, node.units)) for node in nodes)
                for at, text in words.found(line):
                    row = self.row(owner, Stretch(owner.id, first, at, at + len(text)), line, *known[text])
                    yield row
                    count += row is not None
                    if count == PLACES:
                        return
            yield None

    def row(self, owner: Node, stretch: Stretch, line: str, tag: Tag, count: int) -> Told | None:
        """A place where the session would make the tag; none where it wouldn't."""
        name, pairs = tag
        if stands_in(owner, name) or isinstance(self.everywhere.wrapped(stretch, name), Refused):
            return None
        told = beside(line, stretch)
        return {"text": line[stretch.start:stretch.end], "name": name, "pairs": list(pairs), "count": count, "in": owner.name,
                "before": told["before"], "behind": told["behind"], "place": place_of(owner, stretch)}


def often(counts: dict[str, Counter[Tag]]) -> dict[str, tuple[Tag, int]]:
    """The words that had one tag often, and no other as often, with it."""
    known = dict[str, tuple[Tag, int]]()
    for text, tags in counts.items():
        (tag, count), *others = tags.most_common(2)
        if count >= OFTEN and text.strip() == text and len(text) > 1 and (not others or others[0][1] < count):
            known[text] = tag, count
    return dict(sorted(known.items(), key=lambda row: -row[1][1])[:WORDS])


class Words:
    """Words that are looked for in texts, by their first two characters; the longest first."""

    def __init__(self, words: Iterable[str]) -> None:
        self.by_start: dict[str, list[str]] = {}
        for word in sorted(words, key=len, reverse=True):
            self.by_start.setdefault(word[:2], []).append(word)

    def found(self, line: str) -> Iterator[tuple[int, str]]:
        """Where they stand, whole, in a text."""
        end = 0
        for start in STARTS.finditer(line):
            at = start.start()
            if at < end:
                continue
            for word in self.by_start.get(line[at:at + 2], ()):
                if line.startswith(word, at) and not (word[-1].isalnum() and line[at + len(word):at + len(word) + 1].isalnum()):
                    end = at + len(word)
                    yield at, word
                    break


def text_of(node: Node) -> str:
    """The text of an element that holds no tags, where it isn't long."""
    if any(kid.kind != TEXT for kid in node.kids):
        return ""
    text = "".join("".join(map(shown, kid.units)) for kid in node.kids)
    return text if len(text) <= LONGEST else ""


def place_of(owner: Node, stretch: Stretch) -> Told:
    """A stretch as the page tells places."""
    at, unit = spot_at(owner, stretch.first, stretch.start)
    last, end = spot_at(owner, stretch.first, stretch.end)
    before = owner.kids[last - 1]
    return {"list": owner.id, "from": [owner.kids[at].id, unit or 0],
            "to": [before.id, len(before.units)] if end is None else [owner.kids[last].id, end]}
