"""The values that an attribute may be given: those that it has in the document, in those beside it, and in a table of names.

The table is a CSV file: in each row a value, and the names that it stands for. Nothing is guessed; what the words of an element
had before, or are called in the table, comes first.
"""
import csv
import io
import itertools
import os
from collections.abc import Iterable, Iterator
from typing import Any

from .attributes import Attributes, pairs_of
from .changes import name_of
from .editor import Editor
from .everywhere import in_order
from .neighbours import Neighbours
from pvtag.document import ELEMENT, TEXT, Node, Told, shown
from pvtag.program import Trouble, read_file, shown_name
from .runs import element_of

# The attributes that name somebody or something, whatever the DTD says of them; and those of these that point at an ID.
NAMING, POINTING = ("key", "ref", "corresp"), ("ref", "corresp")
# What the first cell of a row is called that names the columns.
TITLES = ("id", "xml:id", "key", "ref", "value", "identifier")
# So many values are told of one attribute, so many tags of words, and so many other elements of the same words; and so much of what
# stands beside them.
VALUES, TAGS, OTHERS, BESIDE = 500, 20, 300, 30


class Names:
    """A table of names. It is read again where the file has changed."""

    def __init__(self, path: str | None) -> None:
        self.path, self.seen, self.kept = path, (0, 0), list[tuple[str, list[str]]]()
        self.rows()

    def rows(self) -> list[tuple[str, list[str]]]:
        """Each value, and the names that it stands for."""
        if self.path is None:
            return self.kept
        try:
            now = os.stat(self.path)
        except OSError as fault:
            raise Trouble(f"{shown_name(self.path)}: {fault.strerror}") from None
        if (now.st_mtime_ns, now.st_size) != self.seen:
            self.kept, self.seen = list(self.read(self.path)), (now.st_mtime_ns, now.st_size)
        return self.kept

    def read(self, path: str) -> Iterator[tuple[str, list[str]]]:
        try:
            text = read_file(path).decode("utf-8-sig")
            rows = list(csv.reader(io.StringIO(text, newline=""), delimiter=delimiter_of(text)))
        except UnicodeDecodeError:
            raise Trouble(f"{shown_name(path)} isn't UTF-8") from None
        except csv.Error as fault:
            raise Trouble(f"{shown_name(path)} is no table: {fault}") from None
        for number, row in enumerate(rows):
            cells = [" ".join(cell.split()) for cell in row]
            if cells and cells[0] and not (number == 0 and cells[0].lower() in TITLES):
                yield cells[0], [cell for cell in cells[1:] if cell]


def delimiter_of(text: str) -> str:
    """What stands between the cells, by the first line: a comma, a semicolon or a tab."""
    first = text.partition("\n")[0]
    return max(",;\t", key=lambda char: first.count(char))


class Values:
    def __init__(self, editor: Editor, around: Neighbours, attributes: Attributes, names: Names) -> None:
        self.editor, self.around, self.attributes, self.names = editor, around, attributes, names

    def of(self, ask: Any) -> Told:
        """The attributes of an element, with the values that each may be given, and the other elements of its name and its words."""
        told = self.attributes.of(ask)
        rows = self.names.rows()
        with self.editor.lock:
            node, _ = element_of(self.editor.document, ask["node"])
            kinds = {each["name"]: each["kind"] for each in told["declared"] or ()}
            names = {*kinds, *(name for name, _ in told["pairs"])} & {*NAMING}
            known = {name: self.values(node, name, rows, told["ids"]) for name in sorted(names)}
            return {**told, "known": known, "others": self.others(node)}

    def values(self, node: Node, attribute: str, rows: list[tuple[str, list[str]]], ids: list[str]) -> list[Told]:
        """The values of an attribute that names something, each with what it stands for; those of these words first."""
        words = text_of(node)
        called = {value: ", ".join(names) for value, names in rows}
        tags = [tag for tag, _ in self.tags(node.name, words)]
        here = [(each.name, pairs_of(each.attrs)) for each in in_order(self.editor.document)]
        found = [
            *(value for tag in tags for name, value in tag if name == attribute),
            *(value for value, names in rows if words in names),
            *(value for name, pairs in here if name == node.name for key, value in pairs if key == attribute),
            *self.around.values_of(node.name, attribute),
            *called,
            *(f"#{each}" for each in ids if attribute in POINTING),
            *(value for _, pairs in here for key, value in pairs if key == attribute),
        ]
        values = list(dict.fromkeys(value for value in found if value))[:VALUES]
        return [{"value": value, "about": called.get(value, called.get(value.removeprefix("#"), ""))} for value in values]

    def tags(self, name: str, words: str) -> list[tuple[list[tuple[str, str]], int]]:
        """The attributes that an element of this name had round these words, here and beside, without those that identify it; the most
        frequent first."""
        counts = dict[tuple[tuple[str, str], ...], int]()
        ids = self.attributes.ids_of(name)
        beside = ((pairs, count) for (other, pairs), count in self.around.tagged.get(words, {}).copy().items() if other == name)
        here = ((tuple(pairs_of(each.attrs)), 1) for each in in_order(self.editor.document) if each.name == name and text_of(each) == words)
        for pairs, count in (*beside, *here):
            kept = tuple(pair for pair in pairs if pair[0] not in ids)
            if kept:
                counts[kept] = counts.get(kept, 0) + count
        return [(list(pairs), count) for pairs, count in sorted(counts.items(), key=lambda row: -row[1])]

    def known(self, ask: Any) -> Told:
        """The attributes that may be given to a tag round words: those that it had, and those by which the table knows them."""
        name, words = name_of(ask), " ".join(str(ask["text"]).split())
        rows = self.names.rows()
        with self.editor.lock:
            tags = [pairs for pairs, _ in self.tags(name, words)]
        attribute = self.naming(name)
        tags += [[(attribute, value)] for value, names in rows if words in names]
        return {"known": list(dict.fromkeys(tuple(pairs) for pairs in tags))[:TAGS]}

    def naming(self, name: str) -> str:
        """The attribute by which an element is named: the first of these that is declared."""
        declared = {each["name"] for each in self.attributes.declared_for(name)}
        return next((each for each in NAMING if each in declared), NAMING[0])

    def others(self, node: Node) -> list[Told]:
        """The other elements of this name and these words, each with what stands beside it."""
        words = text_of(node)
        if not words:
            return []
        alike = (each for each in in_order(self.editor.document) if each is not node and each.name == node.name and text_of(each) == words)
        return [{"node": each.id, **beside(each), "attrs": each.attrs.strip()} for _, each in zip(range(OTHERS), alike)]


def text_of(node: Node) -> str:
    """All text of an element, its blanks as one."""
    return " ".join("".join(units_in([node])).split())


def units_in(nodes: Iterable[Node], step: int = 1) -> Iterator[str]:
    """The units of nodes, in their order, or back from the last one."""
    todo = list(nodes)[::-step]
    while todo:
        node = todo.pop()
        if node.kind == TEXT:
            yield from map(shown, node.units[::step])
        elif node.kind == ELEMENT:
            todo.extend(node.kids[::-step])


def beside(node: Node) -> Told:
    """The text before and after an element, in its list."""
    assert node.owner is not None
    kids = node.owner.kids
    at = kids.index(node)
    before, after = (list(itertools.islice(units_in(part, step), BESIDE)) for part, step in ((kids[:at], -1), (kids[at + 1:], 1)))
    return {"before": "".join(["…"[:len(before) // BESIDE], *reversed(before)]), "behind": "".join([*after, "…"[:len(after) // BESIDE]])}
