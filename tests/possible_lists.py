"""Compares `check` with derivations by spans, on random DTDs with many mixed, starred and recursive models, and lists of up to a dozen kids.

Words: PROGRAM ROUNDS SEED. A round is one DTD of up to ten names and 25 lists of one element's kids. The model goes by the rules alone: a
name derives itself, or where its element is missing what its content derives, and content models derive their words by spans, until nothing
changes. It knows nothing of sets, columns or furthest places. `check` must answer `impossible` exactly where the list's owner or a kid isn't
productive, or the word isn't derived. Prints each difference, and how many cases passed; ends with 1 where one failed.
"""
import os
import random
import subprocess
import sys
import tempfile

from lib.grammar import declaration
from lib.mixed_models import model

NAMES = [f"n{number}" for number in range(10)]


class Spans:
    """What a DTD derives over the spans of a word: sets of pairs of places, for each name, content and particle."""

    def __init__(self, models, word):
        self.models, self.word, self.found = models, word, {}
        self.places = range(len(word) + 1)
        self.changed = True
        while self.changed:
            self.changed = False
            for x in models:
                self.put(("content", x), self.content(x))
            for x in NAMES:
                self.put(("name", x), self.kept(x) | (self.of("content", x) if x in models else set()))

    def of(self, *site):
        return self.found.get(site, set())

    def put(self, site, spans):
        if not spans <= self.of(*site):
            self.found[site] = self.of(*site) | spans
            self.changed = True

    def kept(self, x):
        return {(at, at + 1) for at, token in enumerate(self.word) if token == x}

    def joined(self, one, other):
        return {(i, j) for i, k in one for m, j in other if k == m}

    def repeated(self, spans):
        """One or more of these, one after another."""
        whole = set(spans)
        while True:
            more = whole | self.joined(whole, spans)
            if more == whole:
                return whole
            whole = more

    def nothing(self):
        return {(at, at) for at in self.places}

    def content(self, x):
        form = self.models[x][0]
        if form == "empty":
            return self.nothing()
        if form == "children":
            return self.particle(self.models[x][1])
        members = self.models[x][1] if form == "mixed" else list(self.models)
        return self.nothing() | self.repeated(set().union(self.kept("text"), *(self.of("name", y) for y in members)))

    def particle(self, p):
        form = p[0]
        if form == "name":
            return self.of("name", p[1])
        if form == "seq":
            spans = self.nothing()
            for member in p[1:]:
                spans = self.joined(spans, self.particle(member))
            return spans
        if form == "choice":
            return set().union(*map(self.particle, p[1:]))
        inner = self.particle(p[1])
        if form == "?":
            return self.nothing() | inner
        return self.repeated(inner) | (self.nothing() if form == "*" else set())


def is_live(models, owner, word):
    if models.get(owner) == ("empty",):
        return not word
    empty = Spans(models, [])
    productive = {x for x in models if (0, 0) in empty.of("content", x)}
    if owner not in productive or any(token != "text" and token not in productive for token in word):
        return False
    return (0, len(word)) in Spans(models, word).of("content", owner)


def word_of(models, owner):
    """Kids that are likely to be possible: mostly names that the owner's model mentions, or theirs."""
    near = [x for x in models if random.random() < 0.5] or list(models)
    kids = []
    for _ in range(random.choice([0, 1, 2, 3, 4, 6, 12])):
        kid = random.choice([*near, *near, "text"])
        if not (kids and kids[-1] == kid == "text"):
            kids.append(kid)
    return kids


def main():
    program = os.path.abspath(sys.argv[1])
    rounds, seed = map(int, sys.argv[2:4])
    random.seed(seed)
    passed = failed = possible = 0
    with tempfile.TemporaryDirectory() as folder:
        os.chdir(folder)
        for _ in range(rounds):
            names = NAMES[: random.randint(2, len(NAMES))]
            models = {x: model(names) for x in names if random.random() < 0.95}
            if not models:
                continue
            with open("a.dtd", "w") as file:
                file.write("".join(declaration(x, content, is_starred=False) for x, content in models.items()))
            for _ in range(25):
                owner = random.choice(list(models))
                word = word_of(models, owner)
                inner = "".join("t" if token == "text" else f"<{token}/>" for token in word)
                with open("d.xml", "w") as file:
                    file.write(f"<{owner}>{inner}</{owner}>" if inner else f"<{owner}/>")
                ran = subprocess.run([program, "check", "a.dtd", owner, "d.xml"], capture_output=True, text=True)
                live = is_live(models, owner, word)
                want = 0 if live else 1
                if ran.returncode == want:
                    passed += 1
                    possible += live
                else:
                    failed += 1
                    print("differs:", ran.returncode, ran.stdout, owner, word, open("a.dtd").read(), flush=True)
    print(f"{possible} lists were possible")
    print(f"{passed} passed, {failed} failed")
    return failed > 0


if __name__ == "__main__":
    sys.exit(main())
