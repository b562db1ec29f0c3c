"""Trees of documents in units, and which of their lists are valid, or can be made so, over all spans of a list."""
import itertools
import random
import re

from lib.search import Search

REFERENCE = re.compile(r"&(?:lt|gt|amp|apos|quot|#[0-9]+|#x[0-9a-fA-F]+);")
WHITE = " \t\r\n"


def is_char(code):
    return code in (9, 10, 13) or 0x20 <= code <= 0xD7FF or 0xE000 <= code <= 0xFFFD or 0x10000 <= code <= 0x10FFFF


def is_name(text):
    return re.fullmatch(r"[A-Za-z_:é][A-Za-z0-9_:.é-]*", text) is not None


def units_of(text):
    """The units of a text; none where it isn't one."""
    units, at = [], 0
    while at < len(text):
        if text.startswith("]]>", at) or text[at] == "<" or not is_char(ord(text[at])):
            return None
        if text[at] != "&":
            units.append(text[at])
            at += 1
            continue
        found = REFERENCE.match(text, at)
        if not found:
            return None
        unit = found.group()
        if unit[1] == "#" and not is_char(int(unit[3:-1], 16) if unit[2] == "x" else int(unit[2:-1])):
            return None
        units.append(unit)
        at = found.end()
    return units


# Nodes: an Element; a list of units, which is a text; or the bytes of another node. A copy of an element has its number.
class Element:
    numbers = itertools.count(1)

    def __init__(self, name, attrs="", short=False, gap="", kids=()):
        self.name, self.attrs, self.short, self.gap, self.kids = name, attrs, short, gap, list(kids)
        self.number = next(Element.numbers)

    def written(self):
        tag = self.name + self.attrs
        if self.short:
            return f"<{tag}/>"
        return f"<{tag}>" + "".join(map(written, self.kids)) + f"</{self.name}{self.gap}>"


def is_text(node):
    return isinstance(node, list)


def written(node):
    return "".join(node) if is_text(node) else node.written() if isinstance(node, Element) else node


def data_of(node):
    return ["white" if unit in WHITE else "data" for unit in node]


def items_of(node):
    """The items of a node, as the search by insertions takes them."""
    if is_text(node):
        return data_of(node)
    if isinstance(node, Element):
        return [(node.name, tuple(item for kid in node.kids for item in items_of(kid)))]
    return ["data" if node.startswith("<![CDATA[") else "misc"]


def heads_of(kids):
    """A list's kids without what stands below: names, and for other kids their items."""
    return [(kid.name, ()) if isinstance(kid, Element) else item for kid in kids for item in ([0] if isinstance(kid, Element) else items_of(kid))]


def word_of(kids):
    """A name for an element, "data" for a text with data and for a CDATA section."""
    word = []
    for kid in kids:
        if isinstance(kid, Element):
            word.append(kid.name)
        elif "data" in items_of(kid):
            word.append("data")
    return word


def has_close_mark(kids):
    """Whether texts side by side, joined, hold the end of a CDATA section, character by character."""
    run = []
    for kid in [*kids, None]:
        if is_text(kid):
            run += kid
            continue
        if any(run[at:at + 3] == ["]", "]", ">"] for at in range(len(run))):
            return True
        run = []
    return False


def depth_of(node):
    return 1 + max(map(depth_of, node.kids), default=0) if isinstance(node, Element) else 0


class Grammar(Search):
    """One DTD, with the spans of each word that was judged under it."""

    def __init__(self, models):
        super().__init__(models)
        self.spans = {}

    def spans_of(self, word):
        key = tuple(word)
        if key not in self.spans:
            self.spans[key] = Spans(self, word)
        return self.spans[key]


class Spans:
    """Which words may stand where content is wanted, over all spans of the word."""

    def __init__(self, search, word):
        self.search, self.word = search, word
        self.filled = {}
        while self.grows():
            pass

    def grows(self):
        more = False
        for x in self.search.models:
            for start in range(len(self.word) + 1):
                ends = self.ends(x, start)
                more |= ends != self.filled.get((x, start), set())
                self.filled[x, start] = ends
        return more

    def ends(self, x, start):
        """Where content of an x that begins here may end."""
        seen, todo = set(), [(self.search.models[x], start)]
        while todo:
            state = todo.pop()
            if state in seen:
                continue
            seen.add(state)
            model, at = state
            if at < len(self.word) and self.word[at] == "data" and model[0] in ("any", "mixed"):
                todo.append((model, at + 1))
            for y in self.search.models:
                after = self.search.after(model, y)
                if after is not None:
                    todo.extend((after, end) for end in self.stands(y, at))
        return {at for model, at in seen if self.search.may_end(model)}

    def stands(self, y, at):
        """Where what stands for a y, from here, may end."""
        ends = set(self.filled.get((y, at), ()))
        if at < len(self.word) and self.word[at] == y and y in self.search.sizes:
            ends.add(at + 1)
        return ends


def is_live(search, owner, kids, root):
    word = word_of(kids)
    if any(token != "data" and token not in search.sizes for token in word):
        return False
    if owner is None:
        return root in search.models and len(word) in search.spans_of(word).stands(root, 0)
    if owner not in search.sizes or search.models[owner] == ("empty",) and kids:
        return False
    return len(word) in search.spans_of(word).filled[owner, 0]


def is_valid_list(search, owner, kids, root):
    if owner is None:
        return kids[0].name == root
    model = search.models.get(owner)
    if model is None or model == ("empty",) and kids:
        return False
    for token in word_of(kids):
        model = search.after(model, token)
        if model is None:
            return False
    return search.may_end(model)


def lists_below(node, path):
    yield path, node.name, node.kids
    for at, kid in enumerate(node.kids):
        if isinstance(kid, Element):
            yield from lists_below(kid, path + (at,))


# The leaves of random documents: units of texts, and other nodes.
LEAVES = [["x"], ["x", "y"], [" "], ["x", " "], ["&amp;"], ["&#32;"], ["]"], ["]", "]"], [">"], ["é"], [" ", "\n"],
          "<!--c-->", "<?p i?>", "<![CDATA[]]>", "<![CDATA[x]]>"]


def tree_of(node):
    """A tree of the model, from a tree of the search, with attributes and ends of several forms."""
    if isinstance(node, str):
        return node if node.startswith("<") else list(units_of(node))
    name, kids = node
    short = not kids and random.random() < 0.5
    attrs = random.choice([""] * 4 + [" ", ' id="d"', "\n i = '<'".replace("<", "x")])
    return Element(name, attrs, short, "" if short else random.choice(["", "", " "]), map(tree_of, kids))
