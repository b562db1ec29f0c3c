"""The attributes of a tag: names and values as a form has them, and what a DTD declares of them.

A session keeps attributes as they are, so they are edited beside it. Their form is asked of the program; what the DTD
declares, and what is missing or wrong by it, says libxml2 (`pvtag.attributes`). Where it can't be asked, what the DTD
declares is read here, and only shown.
"""
import re
import threading
from typing import Any

from .changes import attributes_for, lines_of, name_of, one_line
from .editor import Editor
from .forms import are_attributes
from .moves import ATTRIBUTES
from pvtag import attributes as libxml
from pvtag.document import NAMED, Told, decimal
from pvtag.filling import given_to
from pvtag.masks import mask
from pvtag.program import Trouble, read_file
from .runs import below, element_of

PAIR = re.compile(r"""([^\s=]+)\s*=\s*("[^"]*"|'[^']*')""")
REFERENCE = re.compile(r"&(#x[0-9a-fA-F]+|#[0-9]+|\w+);")
COMMENT = re.compile(r"<!--.*?-->|<\?.*?\?>", re.S)
ENTITY = re.compile(r"""<!ENTITY\s+%\s+(\S+)\s+("[^"]*"|'[^']*')\s*>""")
REFERENCE_IN_DTD = re.compile(r"%([^\s%;]+);")
ATTLIST = re.compile(r"""<!ATTLIST\s+(\S+)((?:[^>"']|"[^"]*"|'[^']*')*)>""")
DEFINITION = re.compile(
    r"""(\S+)\s+(CDATA|IDREFS?|ID|ENTIT(?:Y|IES)|NMTOKENS?|(?:NOTATION\s+)?\([^)]*\))\s*"""
    r"""(#REQUIRED|#IMPLIED|(?:#FIXED\s+)?(?:"[^"]*"|'[^']*'))"""
)
# So often texts of parameter entities are put in place, before it is given up.
ROUNDS = 40
# So much longer than the DTD its text may become by that, in bytes; what would be longer isn't built.
MOST = 1 << 24
SPECIAL = {"&": "&amp;", "<": "&lt;", '"': "&quot;", "\t": "&#9;", "\n": "&#10;", "\r": "&#13;"}


def pairs_of(attrs: str) -> list[tuple[str, str]]:
    """Names and values, of attributes as they stand in a tag."""
    return [(name, REFERENCE.sub(character, value[1:-1])) for name, value in PAIR.findall(attrs)]


def character(reference: re.Match[str]) -> str:
    name = reference[1]
    if name.startswith("#x"):
        return chr(int(name[2:], 16))
    return chr(decimal(name[1:])) if name.startswith("#") else NAMED.get(reference[0], reference[0])


def written(pairs: list[tuple[str, str]], before: str = "") -> str:
    """Attributes as they stand in a tag; those that are as they were before keep their form."""
    olds = {pair: found[0] for found, pair in zip(PAIR.finditer(before), pairs_of(before))}
    return "".join(" " + olds.get((name, value), f'{name}="{escaped(value)}"') for name, value in pairs)


def changed(own: list[tuple[str, str]], before: list[tuple[str, str]], now: list[tuple[str, str]], ids: set[str]) -> list[tuple[str, str]]:
    """The attributes of one element as those of another are now: what that has it has, and what was taken from that it hasn't."""
    given = dict(now)
    gone = {name for name, _ in before} - given.keys() - ids
    kept = [(name, given.pop(name, value)) for name, value in own if name not in gone]
    return kept + list(given.items())


def escaped(value: str) -> str:
    return "".join(SPECIAL.get(char, char) for char in value)


class Grown(Exception):
    """The texts of a DTD's parameter entities are too much."""


def declared_in(dtd: str) -> dict[str, list[Told]]:
    """The attributes that a DTD declares for each element, as far as that can be read without other files."""
    text = COMMENT.sub("", dtd)
    entities: dict[str, str] = {}
    for name, value in ENTITY.findall(text):
        entities.setdefault(name, value[1:-1])
    for _ in range(ROUNDS):
        size = sum(len(entities.get(found[1], "")) + 2 - len(found[0]) for found in REFERENCE_IN_DTD.finditer(text))
        if len(text) + size > len(dtd) + MOST:
            raise Grown
        more = REFERENCE_IN_DTD.sub(lambda found: f" {entities.get(found[1], '')} ", text)
        if more == text:
            break
        text = more
    declared: dict[str, list[Told]] = {}
    for name, rest in ATTLIST.findall(text):
        known = declared.setdefault(name, [])
        for attribute, kind, default in DEFINITION.findall(rest):
            if all(each["name"] != attribute for each in known):
                known.append({"name": attribute, "kind": " ".join(kind.split()), "default": " ".join(default.split())})
    return declared


def unseen_in_words(count: int) -> str:
    """What is to be said of entities that aren't declared, or bring what isn't seen."""
    return "" if count == 0 else ", an entity isn't seen" if count == 1 else f", {count} entities aren't seen"


class Attributes:
    def __init__(self, editor: Editor) -> None:
        self.editor = editor
        self.declared: dict[str, list[Told]] | None = None
        # Why none can be told.
        self.why = ""
        # What libxml2 is asked, one question at a time, and what it answered last.
        self.asking, self.known = threading.Lock(), libxml.Attributes(read_file(editor.dtd))
        self.told: Told = {"version": -1}

    def close(self) -> None:
        self.known.close()

    def of(self, ask: Any) -> Told:
        """The attributes of an element, and those that the DTD declares for it, required ones first; none where it declares
        none at all, or where that can't be told."""
        self.all_declared()
        with self.editor.lock:
            node, _ = element_of(self.editor.document, ask["node"])
            declared = self.declared.get(node.name, []) if self.declared else None
            ids = self.ids() if any(each["kind"].startswith("IDREF") for each in declared or ()) else []
            return {"name": node.name, "pairs": self.spelled(pairs_of(node.attrs)), "declared": declared, "why": self.why, "ids": ids}

    def all_declared(self) -> dict[str, list[Told]]:
        """The attributes that are declared, by the names of elements."""
        if self.declared is None:
            self.declared = self.read()
        return self.declared

    def declared_for(self, name: str) -> list[Told]:
        return self.all_declared().get(name, [])

    def ids_of(self, name: str) -> set[str]:
        """The attributes of which each value stands once in a document."""
        return {each["name"] for each in self.declared_for(name) if each["kind"] == "ID"} | {"xml:id"}

    def read(self) -> dict[str, list[Told]]:
        if not self.known.declares_any:
            return {}
        if not self.known.why_not:
            return {name: list(map(told_of, row)) for name, row in self.known.declared.items()} if any(self.known.declared.values()) else {}
        try:
            return declared_in(read_file(self.editor.dtd).decode(errors="replace"))
        except Grown:
            self.why = "The declarations of attributes aren't read: the DTD's parameter entities grow past 16 MB."
            return {}

    def ids(self) -> list[str]:
        """The IDs that are given in the document."""
        names = {name: {each.name for each in row if each.type == "ID"} for name, row in self.known.declared.items()}
        found = dict[str, None]()
        for node in self.editor.document.elements():
            if node.name and names.get(node.name):
                found.update({value: None for name, value in pairs_of(node.attrs) if name in names[node.name]})
        return list(found)

    def faults(self, _: Any) -> Told:
        """What is missing and wrong, by the elements; `sentence` says it in a few words, `valid` whether nothing is, all
        entities are texts, and attributes were looked at. It is about `version`."""
        editor = self.editor
        with self.asking:
            with editor.lock:
                version = editor.version
                if self.told["version"] == version:
                    return self.told
                source = editor.whole_source()
                numbers = [node.id for node in editor.document.elements() if node.owner is not None]
            masked = mask(source, self.known.dtd)
            checked = self.known.check(masked)
            unseen = sum(remark.kind in ("entity", "brings") for remark in masked.remarks)
            rows = [
                {"node": numbers[fault.number], "kind": fault.kind, "name": fault.attribute, "sentence": fault.sentence}
                for fault in checked.faults if fault.number is not None and fault.number < len(numbers)
            ]
            self.told = {"version": version, "faults": rows, "sentence": checked.sentence + unseen_in_words(unseen),
                         "valid": checked.are_valid and not unseen, "count": len(checked.faults)}
            return self.told

    def change(self, ask: Any) -> Told:
        """Gives an element these attributes, and others what is changed of them by that, but for what identifies one; a move."""
        told, also = [(str(name), str(value)) for name, value in ask["pairs"]], list(ask.get("also") or ())
        with self.editor.lock:
            since = self.editor.known(ask)
            node, _ = element_of(self.editor.document, ask["node"])
            before = pairs_of(node.attrs)
            if told == self.spelled(before) and not also:
                return self.editor.state(since)
            pairs = self.read_back(told, before)
        # The program is asked, for which no move waits: one that was made meanwhile is told below.
        self.check(pairs)
        ids = self.ids_of(node.name)
        with self.editor.lock:
            since = self.editor.known(ask)
            lines = [self.line_for(ask["node"], pairs)] if told != self.spelled(before) else []
            for number in also:
                other, _ = element_of(self.editor.document, number)
                own = pairs_of(other.attrs)
                given = changed(own, before, [pair for pair in pairs if pair[0] not in ids], ids)
                lines += [self.line_for(number, given)] if given != own else []
            return self.editor.answer(since, lines) if lines else self.editor.state(since)

    def line_for(self, number: Any, pairs: list[tuple[str, str]]) -> str:
        """The line that gives an element these attributes."""
        node, path = element_of(self.editor.document, number)
        return f"{ATTRIBUTES}{path} {one_line(self.editor.with_entities(written(pairs, node.attrs)))}"

    def spelled(self, pairs: list[tuple[str, str]]) -> list[tuple[str, str]]:
        """Attributes in which a reference to an entity is shown as it is written."""
        names = self.references()
        return [(name, "".join(names.get(char, char) for char in value)) for name, value in pairs] if names else pairs

    def read_back(self, told: list[tuple[str, str]], before: list[tuple[str, str]]) -> list[tuple[str, str]]:
        """Attributes from the form of `spelled`: a value that wasn't changed is what it was, and in others a reference is one again."""
        names, olds = self.references(), dict(zip(self.spelled(before), before))
        pairs = list[tuple[str, str]]()
        for pair in told:
            name, value = olds.get(pair, pair)
            if pair not in olds:
                for char, reference in names.items():
                    value = value.replace(reference, char)
            pairs.append((name, value))
        return pairs

    def references(self) -> dict[str, str]:
        """The references to entities, by the characters that stand for them."""
        stands = self.editor.masked.stands
        return {char: stands[form.encode()].decode() for char, form in self.editor.entities.items()}

    def asked(self, ask: Any) -> str:
        """The attributes that are asked for, as they stand in a tag, where they can; references to entities are ones."""
        pairs = [(str(name), str(value)) for name, value in ask.get("pairs") or ()]
        self.check(pairs)
        with self.editor.lock:
            return one_line(self.editor.with_entities(written(self.read_back(pairs, []))))

    def tag(self, ask: Any) -> Told:
        """Makes a tag with its attributes, round a run, at a place or in the place of another; a move."""
        attrs = self.asked(ask)
        with self.editor.lock:
            since = self.editor.known(ask)
            lines = lines_of(self.editor.document, ask)
            path, *at = lines[-1].removesuffix(f" {name_of(ask)}").split(" ")[1:]
            made = below(path, int(at[0])) if at else path
            return self.editor.answer(since, [*lines, *attributes_for(made, attrs)])

    def given(self, name: str) -> str:
        """The attributes that a new element takes, as they stand in its tag: what it requires and has one value."""
        return written(given_to(self.known, name))

    def look(self) -> None:
        """Reads the DTD, where that wasn't done yet: no move waits for it then."""
        with self.asking:
            self.known.told

    def check(self, pairs: list[tuple[str, str]]) -> None:
        """Asks the program whether a tag may have these attributes, by their form."""
        names = [name for name, _ in pairs]
        twice = next((name for name in names if names.count(name) > 1), None)
        if twice is not None:
            raise Trouble(f"a tag has one attribute {twice}")
        for name, value in pairs:
            if not self.is_form((name, value)):
                is_name = self.is_form((name, ""))
                what = "it holds a character that XML doesn't allow" if is_name else "that isn't a name of XML"
                raise Trouble(f"the attribute {name or '(without a name)'} can't be written: {what}")

    def is_form(self, pair: tuple[str, str]) -> bool:
        attrs = written([pair])
        return pairs_of(attrs) == [pair] and are_attributes(self.editor.program, [attrs])


def told_of(each: libxml.Attribute) -> Told:
    """A declared attribute as the form has it."""
    kind, default = each.declared.rsplit(" #", 1) if " #" in each.declared and each.value is None else (each.declared, "")
    return {
        "name": each.name, "kind": kind, "default": f"#{default}" if default else "", "required": each.is_required,
        "values": list(each.values) or ([each.value] if each.value is not None else []), "means": each.meaning, "only": each.only,
    }
