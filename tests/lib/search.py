"""A search that inserts elements, by the definition alone; random small content models and documents for it.

Particles and content models are those of grammar.py.
"""
import random
from functools import lru_cache

from lib.grammar import random_particle

NAMES = ["a", "b", "c", "d"]
MOST = 9
NEVER = 1 << 30
FORMS = ["name"] * 4 + ["seq", "seq", "choice", "?", "*", "+"]

NONE = ("none",)
DONE = ("seq",)


def may_be_empty(p):
    form = p[0]
    if form in ("?", "*"):
        return True
    if form == "seq":
        return all(map(may_be_empty, p[1:]))
    if form == "choice":
        return any(map(may_be_empty, p[1:]))
    return form == "+" and may_be_empty(p[1])


def forms(p):
    """What a particle is a choice of, none for the one without a word."""
    return [] if p == NONE else [r for q in p[1:] for r in forms(q)] if p[0] == "choice" else [p]


def in_order(first, rest):
    if NONE in (first, rest):
        return NONE
    if DONE in (first, rest):
        return rest if first == DONE else first
    if first[0] == "choice":
        return either([in_order(p, rest) for p in first[1:]])
    if first[0] == "seq":
        return in_order(first[1], in_order(("seq", *first[2:]), rest))
    return ("seq", first, rest)


def either(ps):
    """A choice in one form, so that a particle has only so many derivatives."""
    alive = sorted({q for p in ps for q in forms(p)})
    return NONE if not alive else alive[0] if len(alive) == 1 else ("choice", *alive)


@lru_cache(None)
def behind(p, x):
    """What may stand after the name x in a word of the particle."""
    form = p[0]
    if form == "name":
        return DONE if p[1] == x else NONE
    if form == "seq":
        if len(p) == 1:
            return NONE
        rest = p[2] if len(p) == 3 else ("seq", *p[2:])
        here = in_order(behind(p[1], x), rest if len(p) > 2 else DONE)
        return either([here, behind(rest, x)]) if len(p) > 2 and may_be_empty(p[1]) else here
    if form == "choice":
        return either([behind(q, x) for q in p[1:]])
    if form == "?":
        return behind(p[1], x)
    return NONE if form == "none" else in_order(behind(p[1], x), ("*", p[1]))


class Search:
    """Insertions of elements under one DTD. Items are elements (name, items), "data", "white", "misc", and ("!", name) for an element
    whose kids are left alone."""

    def __init__(self, models):
        self.models = models
        self.found = {}
        self.sizes = {}
        while self.grows():
            pass

    def grows(self):
        """Finds more names of which some element is valid."""
        more = [x for x in self.models if x not in self.sizes and self.is_fillable(self.models[x])]
        self.sizes.update(dict.fromkeys(more))
        return more

    def is_fillable(self, model):
        return model[0] != "children" or self.has_word(model[1])

    def has_word(self, p):
        form = p[0]
        if form == "name":
            return p[1] in self.sizes
        if form == "choice":
            return any(map(self.has_word, p[1:]))
        return form in ("?", "*") or all(map(self.has_word, p[1:]))

    def after(self, model, token):
        """The model of what may stand after a token; nothing where it may not stand there."""
        form = model[0]
        if form == "any":
            return model if token == "data" or token in self.models else None
        if form == "mixed":
            return model if token == "data" or token in model[1] else None
        if form == "empty" or token == "data":
            return None
        rest = behind(model[1], token)
        return None if rest == NONE else ("children", rest)

    def may_end(self, model):
        return model[0] != "children" or may_be_empty(model[1])

    def content(self, items, x, most):
        """The least number of insertions, at most so many, that make the items good content of an element x."""
        if x not in self.models:
            return NEVER
        if self.models[x] == ("empty",):
            return NEVER if items else 0
        return self.least(items, self.models[x], most)

    def least(self, items, model, most):
        key = (items, model, most)
        if key not in self.found:
            self.found[key] = min(self.with_first(items, model, most), self.with_new(items, model, most))
        return self.found[key]

    def with_first(self, items, model, most):
        """Where nothing is inserted before the first item, or round it."""
        if not items:
            return 0 if self.may_end(model) else NEVER
        first, rest = items[0], items[1:]
        if first in ("white", "misc"):
            return self.least(rest, model, most)
        token = first if isinstance(first, str) else first[-1] if first[0] == "!" else first[0]
        after = self.after(model, token)
        if after is None:
            return NEVER
        inside = 0 if first == "data" or first[0] == "!" and first[1] in self.sizes else NEVER
        if not isinstance(first, str) and first[0] != "!":
            inside = self.content(first[1], first[0], most)
        return inside if inside > most else inside + self.least(rest, after, most - inside)

    def with_new(self, items, model, most):
        """Where an element is inserted round the first so many items."""
        best = NEVER
        for x in self.models if most > 0 else []:
            after = self.after(model, x)
            for until in range(len(items) + 1) if after is not None else []:
                inside = self.content(items[:until], x, most - 1)
                if inside < most:
                    best = min(best, 1 + inside + self.least(items[until:], after, most - 1 - inside))
        return best if best <= most else NEVER

    def least_document(self, tree, root):
        return self.least((items_of(tree),), ("children", ("name", root)), MOST)

    def is_live(self, owner, kids, root):
        """Whether some insertions at this level make the list fit its owner."""
        items = tuple(item for kid in kids for item in ([("!", kid[0])] if isinstance(kid, tuple) else units_of(kid)))
        if owner is None:
            return self.least(items, ("children", ("name", root)), MOST) <= MOST
        return owner in self.sizes and self.content(items, owner, MOST) <= MOST

    def is_valid_list(self, owner, kids, root):
        names = [kid[0] if isinstance(kid, tuple) else kid for kid in kids]
        if owner is None:
            return names == [root]
        model = self.models.get(owner, None)
        if model is None or model == ("empty",) and kids:
            return False
        tokens = [token for kid in kids for token in ([kid[0]] if isinstance(kid, tuple) else units_of(kid))]
        for token in tokens:
            model = model if token in ("white", "misc") else self.after(model, token)
            if model is None:
                return False
        return self.may_end(model)


# Documents: elements are (name, kids), other nodes are the text that they are written as.
def units_of(node):
    if node.startswith("<![CDATA["):
        return ["data"]
    if node.startswith("<"):
        return ["misc"]
    return ["data"] if node.startswith("&") else ["white" if char in " \t\n" else "data" for char in node]


def items_of(node):
    name, kids = node
    return (name, tuple(item for kid in kids for item in ([items_of(kid)] if isinstance(kid, tuple) else units_of(kid))))


def lists_of(tree, path=(0,)):
    name, kids = tree
    yield path, name, kids
    for at, kid in enumerate(kids):
        if isinstance(kid, tuple):
            yield from lists_of(kid, path + (at,))


def written(node):
    if isinstance(node, str):
        return node
    name, kids = node
    inner = "".join(map(written, kids))
    return f"<{name}>{inner}</{name}>" if kids or random.random() < 0.5 else f"<{name}/>"


def model(names):
    form = random.choice(["empty", "any", "mixed", "mixed"] + ["children"] * 4)
    if form == "mixed":
        return (form, tuple(random.sample(NAMES, random.randint(0, 2))))
    return (form, random_particle(2, names, FORMS, 3, is_plain=True)) if form == "children" else (form,)


def node(depth, leaves):
    if depth == 0 or random.random() < 0.35:
        return random.choice(leaves)
    return (random.choice(NAMES + NAMES + ["z"]), kids_of(depth - 1, leaves))


def kids_of(depth, leaves):
    return joined([node(depth, leaves) for _ in range(random.choice([0, 0, 1, 1, 2, 3]))])


def word_of(p, depth):
    """Some word of the particle; the shorter, the deeper."""
    form = p[0]
    if form == "name":
        return [p[1]]
    if form == "choice":
        return word_of(random.choice(p[1:]), depth)
    if form == "seq":
        return [x for q in p[1:] for x in word_of(q, depth)]
    most = 2 if depth > 0 else 0
    return [x for _ in range(random.randint(form == "+", max(most, form == "+"))) for x in word_of(p[1], depth)]


def element(models, x, depth, leaves):
    """An element that is valid, if it isn't too deep."""
    content = models.get(x, ("empty",))
    kids = []
    if depth > 0 and content[0] == "children":
        kids = word_of(content[1], depth)
    elif depth > 0 and content[0] != "empty":
        names = content[1] if content[0] == "mixed" else list(models)
        kids = random.choices([*names, "#"], k=random.randint(0, 2))
    return (x, joined([random.choice(leaves) if kid == "#" else element(models, kid, depth - 1, leaves) for kid in kids]))


def joined(nodes):
    """The nodes without what would be read as one with the node before."""
    kept = []
    for each in nodes:
        if not (kept and all(isinstance(k, str) and not k.startswith("<") for k in (each, kept[-1]))):
            kept.append(each)
    return tuple(kept)


def untagged(tree):
    """The tree without the tags of some elements, and at times without an element."""
    x, kids = tree
    nodes = []
    for kid in kids:
        if isinstance(kid, tuple) and random.random() < 0.4:
            nodes.extend(untagged(kid)[1])
        elif isinstance(kid, str) or random.random() < 0.9:
            nodes.append(untagged(kid) if isinstance(kid, tuple) else kid)
    return (x, joined(nodes))


def document(models, declared, leaves):
    if random.random() < 0.3:
        return (random.choice(declared * 3 + NAMES), kids_of(random.randint(0, 2), leaves))
    tree = untagged(element(models, random.choice(declared), random.randint(1, 3), leaves))
    inner = [kid for kid in tree[1] if isinstance(kid, tuple)]
    return random.choice(inner) if inner and random.random() < 0.2 else tree


def write(path, text):
    with open(path, "w", newline="") as file:
        file.write(text)


def dotted(path):
    return ".".join(map(str, path)) or "."


# The nodes of documents, apart from elements: each alone is valid content of ANY.
LEAVES = ["x", "xy", " ", "x ", " \n", "<!--c-->", "<?p i?>", "<![CDATA[]]>", "<![CDATA[x]]>", "&#32;", "&amp;"]


def grammar():
    """Names that are declared, with their content models."""
    declared = random.sample(NAMES, random.randint(2, 4))
    return declared, {x: model(declared * 6 + NAMES) for x in declared}
