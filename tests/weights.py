"""Compares verdicts and least numbers of whole documents with derivations by spans, each with what it costs, on random DTDs.

Words: PROGRAM ROUNDS SEED, and the most seconds, where less is wanted. A round is one DTD and eight documents. The DTDs have many mixed,
starred and recursive models, and in a part of the rounds more than 64 names. Documents are built of lists that can be mended, with texts,
CDATA sections, references, comments and blanks; in some of them a few lists can't, or the root has another name; some have more than 16,000
nodes, so that several threads judge them. The model goes by the rules alone: a name derives itself for nothing, or, where its element is
missing, what its content derives, for one more; content models derive their words by spans, and of each span the least cost is kept, until
none falls. It knows nothing of sets, columns or furthest places. `check` must tell the first impossible list, else how many lists aren't
valid yet; a session's `verdicts` the verdict of each list, and `need` the sum of the costs; what `complete` shows must be valid. Prints
each difference, and how many cases passed; ends with 1 where one failed.
"""
import os
import random
import subprocess
import sys
import tempfile
import time
from typing import NamedTuple

from lib.grammar import NEVER, declaration
from lib.mixed_models import model, particle
from lib.waiting import PATIENCE

TEXTS = ["t", "<![CDATA[]]>", "&#32;", "<![CDATA[ ]]>", "a &amp; b"]
ASIDE = ["<!---->", "<?p?>", " "]


# ---- costs ----

class Costs:
    """The least numbers of missing elements over the spans of a word: of each name, and of each declared name's content. A row of costs has
    one for each pair of places, by `at`."""

    def __init__(self, models, word):
        self.models, self.word, self.places = models, word, range(len(word) + 1)
        self.names = {x: self.kept(x) for x in {*models, *word}}
        self.contents = {}
        while self.falls():
            pass

    def falls(self):
        """Lowers costs by the rules, once for each name."""
        has_fallen = False
        for x in self.models:
            self.contents[x] = self.content(x)
            costs = [min(one, 1 + other) for one, other in zip(self.names[x], self.contents[x])]
            has_fallen |= costs != self.names[x]
            self.names[x] = costs
        return has_fallen

    def at(self, i, j):
        return i * len(self.places) + j

    def row(self, costs):
        """The row that has these costs, and never else."""
        found = [NEVER] * len(self.places) ** 2
        for (i, j), cost in costs.items():
            found[self.at(i, j)] = cost
        return found

    def kept(self, x):
        return self.row({(i, i + 1): 0 for i, token in enumerate(self.word) if token == x})

    def nothing(self):
        return self.row({(i, i): 0 for i in self.places})

    def least(self, rows):
        return [min(costs) for costs in zip(self.row({}), *rows)]

    def joined(self, one, other):
        found = self.row({})
        for i in self.places:
            for k in self.places[i:]:
                cost = one[self.at(i, k)]
                if cost < NEVER:
                    for j in self.places[k:]:
                        found[self.at(i, j)] = min(found[self.at(i, j)], cost + other[self.at(k, j)])
        return found

    def repeated(self, row):
        """One or more of these, one after another."""
        whole = row
        while True:
            more = self.least([whole, self.joined(row, whole)])
            if more == whole:
                return whole
            whole = more

    def of(self, x):
        return self.names.get(x) or self.row({})

    def content(self, x):
        form = self.models[x][0]
        if form == "empty":
            return self.nothing()
        if form == "children":
            return self.particle(self.models[x][1])
        members = self.models[x][1] if form == "mixed" else list(self.models)
        return self.least([self.nothing(), self.repeated(self.least([self.kept("text"), *map(self.of, members)]))])

    def particle(self, p):
        form = p[0]
        if form == "name":
            return self.of(p[1])
        if form == "seq":
            row = self.nothing()
            for member in p[1:]:
                row = self.joined(row, self.particle(member))
            return row
        if form == "choice":
            return self.least(map(self.particle, p[1:]))
        inner = self.particle(p[1])
        if form == "?":
            return self.least([self.nothing(), inner])
        return self.least([self.repeated(inner), self.nothing()] if form == "*" else [self.repeated(inner)])


class Judge:
    """What a list of an owner costs, by its word: nothing where it is valid, never where it is impossible."""

    def __init__(self, models):
        self.models, self.found = models, {}
        empty = self.costs(())
        self.productive = [x for x in models if empty.contents[x][0] < NEVER]

    def costs(self, word):
        if word not in self.found:
            self.found[word] = Costs(self.models, word)
        return self.found[word]

    def are_productive(self, word):
        return all(token == "text" or token in self.productive for token in word)

    def of_list(self, owner, word, is_bare):
        if self.models.get(owner) == ("empty",):
            return 0 if is_bare else NEVER
        if owner not in self.productive or not self.are_productive(word):
            return NEVER
        return self.costs(word).contents[owner][len(word)]

    def of_root(self, name, root):
        """The list of the document node."""
        if name not in self.productive or root not in self.productive:
            return NEVER
        return self.costs((name,)).names[root][1]


# ---- DTDs ----

def wide_model(names):
    """A content model as large DTDs have them: of many names, in any order, or a small particle."""
    form = random.choice(["empty", "any", "mixed", "mixed", "mixed", "many", "many", "children", "children"])
    if form == "mixed":
        return form, random.sample(names, random.randint(0, 30))
    if form == "many":
        group = ("choice", *(("name", x) for x in random.sample(names, random.randint(2, 20))))
        return "children", random.choice([("*", group), ("+", group), ("seq", ("?", ("name", random.choice(names))), ("*", group))])
    return (form, particle(3, random.sample(names, 5))) if form == "children" else (form,)


def dtd():
    """Models by name; a few names are mentioned and not declared."""
    count = random.choice([3, 6, 6, 10, 10, 70])
    names = [f"n{number}" for number in range(count)]
    models = {x: wide_model(names) if count > 10 else model(names) for x in names if random.random() < 0.97}
    return models or {"n0": ("any",)}


# ---- documents ----

class Tree(NamedTuple):
    """An element: its name, its nodes, which are trees and bytes of other nodes, how many nodes it is, and the tokens of its list."""
    name: str
    nodes: tuple
    size: int
    word: tuple


def tree(name, word, kids):
    """An element with these tokens, written in some way: `kids` has elements by name."""
    nodes = []
    for token in word:
        node = random.choice(TEXTS) if token == "text" else random.choice(kids[token])
        is_raw = isinstance(node, str) and node[0] != "<"
        if is_raw and nodes and isinstance(nodes[-1], str) and nodes[-1][0] != "<":
            nodes.append("<!---->")
        nodes.append(node)
        if random.random() < 0.1:
            aside = random.choice(ASIDE)
            nodes.append("<?p?>" if aside == " " and is_raw else aside)
    return Tree(name, tuple(nodes), 1 + sum(it.size if isinstance(it, Tree) else 1 for it in nodes), tuple(word))


def words(judge, names, most):
    """A word of kids that there are, with texts here and there."""
    near = random.sample(names, min(len(names), random.choice([1, 2, 4])))
    return tuple(random.choice([*near, *near, "text"]) for _ in range(random.randint(1, most)))


def grown(judge, number, most):
    """Elements by name, their lists such as can be mended: leaves, and so many that are built of others."""
    kids = {x: [tree(x, (), {})] for x in judge.productive}
    for _ in range(number if kids else 0):
        word = words(judge, list(kids), most)
        costs = judge.costs(word)
        owners = [x for x in kids if judge.models[x] != ("empty",) and costs.contents[x][len(word)] < NEVER]
        unfinished = [x for x in owners if costs.contents[x][len(word)] > 0]
        if owners:
            name = random.choice(unfinished or owners)
            kids[name].append(tree(name, word, kids))
    return kids


def broken(judge, kids, whole):
    """An element of which a list may be impossible, with this one in it."""
    name = random.choice([*judge.models, "none"])
    return tree(name, (whole.name, *words(judge, list(kids), 2)), {**kids, whole.name: [whole]})


def enlarged(judge, kids, whole):
    """An element in any order of these and others, of more than 16,000 nodes, where there is one that takes them."""
    owners = [x for x in kids if judge.models[x] != ("empty",) and judge.costs((whole.name,) * 4).contents[x][4] < NEVER]
    while owners and whole.size < 16_500:
        owners = [x for x in owners if judge.costs((whole.name,) * 4).contents[x][4] < NEVER]
        if not owners:
            break
        whole = tree(random.choice(owners), (whole.name,) * 4, {whole.name: [whole]})
    return whole


def spelled(it):
    if isinstance(it, str):
        return it
    inner = "".join(map(spelled, it.nodes))
    return f"<{it.name}>{inner}</{it.name}>" if inner or it.size % 2 else f"<{it.name}/>"


def lists(judge, it, path):
    """The paths and the costs of the lists at this element and below, in document order."""
    yield path, judge.of_list(it.name, it.word, not it.nodes)
    for number, node in enumerate(it.nodes):
        if isinstance(node, Tree):
            yield from lists(judge, node, f"{path}.{number}")


# ---- comparing ----

def verdict(cost):
    return "valid" if cost == 0 else "impossible" if cost == NEVER else "possible"


def wanted(costs):
    """What `check` prints, and the lines of a session on `verdicts` and `need`."""
    bad = [path for path, cost in costs if cost == NEVER]
    left = sum(0 < cost < NEVER for _, cost in costs)
    check = f"impossible {bad[0]}" if bad else f"possible {left}" if left else "valid"
    missing = sum(cost for _, cost in costs)
    need = f"no impossible {bad[0]}" if bad else f"need {missing}" if missing <= 1_000_000 else "no heavy"
    return check, [f"verdicts {len(costs)}", *(f"{path} {verdict(cost)} 0" for path, cost in costs), need]


def asked(program, *words, given=""):
    ran = subprocess.run([program, *words], input=given, capture_output=True, text=True, timeout=PATIENCE)
    return ran.stdout


def is_right(program, root, check, session):
    """Whether the program answers so; and whether what it completes is valid, where it completes."""
    told = asked(program, "check", "a.dtd", root, "d.xml")
    *rows, last = asked(program, "session", "a.dtd", root, "d.xml", given="verdicts\nneed\ncomplete\n").split("\n", len(session))
    if told != check + "\n" or rows != session:
        return False, (told, rows[:20])
    if not last.startswith("completed "):
        return not session[-1].startswith("need "), last[:200]
    head, body = last.split("\n", 1)
    with open("c.xml", "w") as file:
        file.write(body[:-1])
    is_valid = asked(program, "valid", "a.dtd", root, "c.xml")
    return head.split()[1] == session[-1].split()[1] and is_valid == "valid\n", (head, is_valid)


def document(judge, kids):
    """A document's element and the root's name that is asked for."""
    whole = random.choice(kids[random.choice(list(kids))][-3:])
    form = random.random()
    if form < 0.2:
        whole = broken(judge, kids, whole)
    elif form < 0.25:
        whole = enlarged(judge, kids, whole)
    return whole, whole.name if random.random() < 0.8 else random.choice([*judge.models, "none"])


def count(counts, what):
    counts[what] = counts.get(what, 0) + 1


def round_of(program, counts):
    models = dtd()
    with open("a.dtd", "w") as file:
        file.write("".join(declaration(x, content) for x, content in models.items()))
    judge = Judge(models)
    kids = grown(judge, 12, 3 if len(models) > 10 else 6)
    for _ in range(8 if kids else 0):
        whole, root = document(judge, kids)
        with open("d.xml", "w") as file:
            file.write(spelled(whole))
        costs = [(".", judge.of_root(whole.name, root)), *lists(judge, whole, "0")]
        check, session = wanted(costs)
        holds, got = is_right(program, root, check, session)
        count(counts, check.split()[0] if holds else "failed")
        count(counts, "of more than 16,000 nodes" if whole.size > 16_000 else "small")
        if not holds:
            print("differs:", got, "for", check, session[-1], root, spelled(whole)[:2000], open("a.dtd").read(), flush=True)


def main():
    program = os.path.abspath(sys.argv[1])
    rounds, seed = map(int, sys.argv[2:4])
    end = time.monotonic() + (int(sys.argv[4]) if len(sys.argv) > 4 else NEVER)
    random.seed(seed)
    counts = {"failed": 0}
    with tempfile.TemporaryDirectory() as folder:
        os.chdir(folder)
        for _ in range(rounds):
            if time.monotonic() < end:
                round_of(program, counts)
        os.chdir("/")
    print(", ".join(f"{what}: {number}" for what, number in sorted(counts.items())))
    failed = counts["failed"]
    print(f"weights: {sum(counts.get(it, 0) for it in ('valid', 'possible', 'impossible'))} passed, {failed} failed")
    return failed > 0


if __name__ == "__main__":
    sys.exit(main())
