"""A model of a session: it makes each edit on a copy of the tree, and undoes by making the edits before again on the document that was opened."""
import copy
import random
import re

from lib import search as insertions
from lib.search import dotted
from lib.trees import (
    LEAVES, Element, depth_of, has_close_mark, is_live, is_name, is_text, is_valid_list, items_of, lists_below, tree_of, units_of, written,
)

MOST = 4
BIG = 4294967295


class Refused(Exception):
    pass


class Document:
    number = 0

    def __init__(self, before, root, after):
        self.before, self.root, self.after = before, root, after

    def written(self):
        return self.before + written(self.root) + self.after

    def lists(self):
        return [((), None, [self.root]), *lists_below(self.root, (0,))]

    def node_at(self, path):
        if not path:
            return self
        if path[0] != 0:
            raise Refused("no-node")
        node = self.root
        for place in path[1:]:
            if not isinstance(node, Element) or place >= len(node.kids):
                raise Refused("no-node")
            node = node.kids[place]
        return node

    def kids_of(self, path):
        node = self.node_at(path)
        if node is self:
            return [self.root]
        if not isinstance(node, Element):
            raise Refused("not-element")
        return node.kids

    def set_kids(self, path, kids):
        if not path:
            self.root, = kids
        else:
            owner = self.node_at(path)
            owner.short = owner.short and not kids
            owner.kids = kids

    def text_at(self, path):
        node = self.node_at(path)
        if not is_text(node):
            raise Refused("not-text")
        return node


def need(holds, reason):
    if not holds:
        raise Refused(reason)


# Edits: each makes its change in a document, or raises a reason.
def wrap(doc, path, start, end, name):
    kids = doc.kids_of(path)
    need(start <= end <= len(kids), "range")
    need(is_name(name), "bad-name")
    need(path or (start, end) == (0, 1), "root-shape")
    doc.set_kids(path, kids[:start] + [Element(name, kids=kids[start:end])] + kids[end:])
    need(depth_of(doc.root) <= 512, "deep")


def insert(doc, path, at, name):
    kids = doc.kids_of(path)
    need(at <= len(kids), "range")
    need(is_name(name), "bad-name")
    need(path, "root-shape")
    doc.set_kids(path, kids[:at] + [Element(name, short=True)] + kids[at:])
    need(depth_of(doc.root) <= 512, "deep")


def unwrap(doc, path):
    node = doc.node_at(path)
    need(isinstance(node, Element), "not-element")
    if len(path) == 1:
        need(len(node.kids) == 1 and isinstance(node.kids[0], Element), "root-shape")
    kids = doc.kids_of(path[:-1])
    at = path[-1]
    kids = kids[:at] + node.kids + kids[at + 1:]
    doc.set_kids(path[:-1], kids)
    need(not has_close_mark(kids), "close-mark")


def rename(doc, path, name):
    node = doc.node_at(path)
    need(isinstance(node, Element), "not-element")
    need(is_name(name), "bad-name")
    node.name = name


def split(doc, path, at):
    text = doc.text_at(path)
    need(0 < at < len(text), "range")
    kids = doc.kids_of(path[:-1])
    kids[path[-1]:path[-1] + 1] = [text[:at], text[at:]]


def join(doc, path):
    text = doc.text_at(path)
    kids = doc.kids_of(path[:-1])
    at = path[-1]
    need(at + 1 < len(kids) and is_text(kids[at + 1]), "not-text")
    kids[at:at + 2] = [text + kids[at + 1]]


def new_text(text):
    units = units_of(text)
    need(units and "\r" not in units and "\n" not in units, "bad-text")
    return units


def set_text(doc, path, text):
    doc.text_at(path)
    kids = doc.kids_of(path[:-1])
    kids[path[-1]] = new_text(text)
    need(not has_close_mark(kids), "close-mark")


def add_text(doc, path, at, text):
    kids = doc.kids_of(path)
    need(at <= len(kids), "range")
    units = new_text(text)
    need(path, "root-shape")
    kids = kids[:at] + [units] + kids[at:]
    doc.set_kids(path, kids)
    need(not has_close_mark(kids), "close-mark")


def del_text(doc, path):
    doc.text_at(path)
    kids = doc.kids_of(path[:-1])
    del kids[path[-1]]
    need(not has_close_mark(kids), "close-mark")


# The words of an edit's line: "p" a path, "n" a number, "t" the rest of the line.
EDITS = {
    "wrap": (wrap, "pnnt"),
    "insert": (insert, "pnt"),
    "unwrap": (unwrap, "p"),
    "rename": (rename, "pt"),
    "split": (split, "pn"),
    "join": (join, "p"),
    "text": (set_text, "pt"),
    "addtext": (add_text, "pnt"),
    "deltext": (del_text, "p"),
}


def changed_lists(edit, undone):
    """The paths of the lists that an edit, or its undo, changes."""
    name, (path, *others), _ = edit
    if name in ("wrap", "insert"):
        return [path] if undone else [path, path + (others[0],)]
    if name == "rename" or name == "unwrap" and undone:
        return [path[:-1], path]
    return [path] if name == "addtext" else [path[:-1]]


def number_of(word):
    return int(word) if re.fullmatch(r"0|[1-9][0-9]*", word) and int(word) <= BIG else None


def path_of(word):
    if word == ".":
        return ()
    places = tuple(map(number_of, word.split(".")))
    return None if None in places else places


def edit_of(line):
    """The name and the arguments of an edit; none where the line isn't one."""
    name, *rest = line.split(" ", 1)
    if name not in EDITS or not rest:
        return None
    forms = EDITS[name][1]
    words = rest[0].split(" ", len(forms) - 1)
    if len(words) != len(forms):
        return None
    read = {"p": path_of, "n": number_of, "t": str}
    values = [read[form](word) for form, word in zip(forms, words)]
    return None if None in values else (name, values, line)


def ask_of(line):
    """The edit that a line asks of, but for the name; none where it asks of none."""
    name, *rest = line.split(" ", 1)
    if name != "offer" or not rest:
        return None
    kind = {1: "rename", 3: "wrap"}.get(len(rest[0].split(" ")))
    return f"{kind} {rest[0]}" if kind and edit_of(f"{kind} {rest[0]} a") else None


class Session:
    def __init__(self, search, root, document):
        self.search, self.root = search, root
        self.opened, self.document = document, copy.deepcopy(document)
        self.past, self.undone = [], []
        # How many moves there were, and by the numbers of elements which of them changed their lists last.
        self.moves, self.stamps = 0, {}

    def impossible(self, doc):
        """The paths of the impossible lists."""
        found = self.search.least((*items_of(doc.root),), ("children", ("name", self.root)), MOST) <= MOST
        dead = [path for path, owner, kids in doc.lists() if not is_live(self.search, owner, kids, self.root)]
        assert not (found and dead), f"insertions were found for {doc.written()}, but {dead} are impossible"
        return dead

    def least(self):
        """The least number of missing elements; more than `MOST` where the search finds none."""
        return self.search.least((*items_of(self.document.root),), ("children", ("name", self.root)), MOST)

    def verdict(self, owner, kids):
        if not is_live(self.search, owner, kids, self.root):
            return "impossible"
        return "valid" if is_valid_list(self.search, owner, kids, self.root) else "possible"

    def left(self):
        return sum(self.verdict(owner, kids) == "possible" for _, owner, kids in self.document.lists())

    def edited(self, doc, edit):
        after = copy.deepcopy(doc)
        EDITS[edit[0]][0](after, *edit[1])
        return after

    def replayed(self):
        doc = self.opened
        for edit, _ in self.past:
            doc = self.edited(doc, edit)
        return doc.written()

    def moved(self, edit, undone=False):
        """The reply to a move that was made: the lists that it changed get its number."""
        assert self.document.written() == self.replayed()
        changed = changed_lists(edit, undone)
        self.moves += 1
        for path in changed:
            self.stamps[self.document.node_at(path).number] = self.moves
        return f"ok {len(changed)} {self.left()} {len(self.impossible(self.document))}"

    def edit(self, edit):
        try:
            after = self.edited(self.document, edit)
        except Refused as reason:
            return f"no shape {reason}"
        dead = self.impossible(after)
        if len(dead) > len(self.impossible(self.document)):
            first = next(path for path in changed_lists(edit, False) if tuple(path) in dead)
            return f"no impossible {dotted(first)}"
        self.past, self.undone = [*self.past, (edit, self.document)], []
        self.document = after
        return self.moved(edit)

    def offer(self, asked):
        """The declared names with which an edit would be made, in order of declaration."""
        def dead(doc):
            return sum(not is_live(self.search, owner, kids, self.root) for _, owner, kids in doc.lists())
        try:
            after = {name: self.edited(self.document, edit_of(f"{asked} {name}")) for name in self.search.models}
        except Refused as reason:
            return [f"no shape {reason}"]
        names = [name for name, doc in after.items() if dead(doc) <= dead(self.document)]
        return [f"offer {len(names)}", *names]

    def undo(self):
        if not self.past:
            return "no history"
        edit, before = self.past.pop()
        self.undone.append((edit, self.document))
        self.document = before
        return self.moved(edit, undone=True)

    def redo(self):
        if not self.undone:
            return "no history"
        edit, after = self.undone.pop()
        self.past.append((edit, self.document))
        self.document = after
        return self.moved(edit)

    def verdicts(self):
        rows = []
        for path, owner, kids in self.document.lists():
            rows.append(f"{dotted(path)} {self.verdict(owner, kids)} {self.stamps.get(self.document.node_at(path).number, 0)}")
        return [f"verdicts {len(rows)}", *rows]

    def reply(self, line):
        """The reply, with its LF; none for quit."""
        line = line.rstrip("\r")
        if line == "quit":
            return None
        if line == "show":
            text = self.document.written()
            return f"show {len(text.encode())}\n{text}\n"
        if line == "history":
            return "".join(f"{each}\n" for each in [f"history {len(self.past)}", *(edit[2] for edit, _ in self.past)])
        if line == "verdicts":
            return "".join(f"{each}\n" for each in self.verdicts())
        if line == "need":
            dead = self.impossible(self.document)
            return f"no impossible {dotted(dead[0])}\n" if dead else f"need {self.least()}\n"
        if ask_of(line):
            return "".join(f"{each}\n" for each in self.offer(ask_of(line)))
        if line in ("undo", "redo"):
            return (self.undo() if line == "undo" else self.redo()) + "\n"
        edit = edit_of(line)
        return (self.edit(edit) if edit else "no command") + "\n"


def document_of(models, declared):
    leaves = ["".join(leaf) if isinstance(leaf, list) else leaf for leaf in LEAVES]
    tree = tree_of(insertions.document(models, declared, leaves))
    before = random.choice(["", "", "<!--b-->", '<?xml version="1.0"?>\n', f"<!DOCTYPE {tree.name}>\n "])
    return Document(before, tree, random.choice(["", "\n", "<?a?>"])), tree.name if before.startswith("<!DOCTYPE") else None
