"""Tries sessions on documents with long lists: what one tells after random moves, against new sessions.

Words: PROGRAM DOCUMENTS SEED, and the most seconds, where less is wanted; of each content model there is one document at least. A document has
lists of 300 to 2,000 kids, two of them with owners of one name. Edits come at the front, in the middle and at the end of these lists, and of
lists as long that come of a wrap; they stay with one list for a while or go back and forth; edits that are refused, alone or several of one list,
offers in the same list and in others, `undo` and `redo` stand between.
At each third line or so a session is begun on the document that `show` gives: all verdicts, the replies to the next edits and the verdicts after them
are to be the same, and `ok` is to tell how many of them are possible and impossible. `check` is to tell the same of the document. The last line
tells how many of these passed.
"""
import io
import os
import random
import re
import subprocess
import sys
import tempfile
import time
from collections import Counter
from collections.abc import Iterator
from itertools import pairwise
from pathlib import Path
from typing import IO, NamedTuple

sys.dont_write_bytecode = True

from lib.counting import Expecting
from lib.search import dotted

# A list of so many kids is long, and the lists of a document have up to `MOST` at first.
LONG, LEAST, MOST = 256, 300, 2_000
LINES, MOST_FAILED = 60, 20


class Element(NamedTuple):
    """An element, by its name and its kids, of which texts are strings."""
    name: str
    kids: "tuple[Element | str, ...]" = ()


class Content(NamedTuple):
    """The content of a list's owner: its declaration, and what words for it are made of, names and `#` for a text: groups, in any order, with what
    stands before and after them. Of some words kids are left out."""
    model: str
    groups: list[str]
    front: str = ""
    back: str = ""
    lacks: bool = False


LARGE = ", ".join(["x?, y"] * 36)
CONTENTS = {
    # Mixed content.
    "m": Content("(#PCDATA | x | y | m)*", ["x", "x", "y", "m", "#", "#"]),
    # Particles that are deterministic: with one that comes once at the front, a choice, and pairs of which the words lack some.
    "h": Content("(head?, p*)", ["p"], "head"),
    "c": Content("(x | y | c)*", ["x", "y", "y", "c"]),
    "s": Content("(x, y)*", ["x y"], lacks=True),
    # One that isn't, one of which a token more shifts all that is after it, and a large one.
    "n": Content("((x, x) | (x, y))*", ["x x", "x y"]),
    "w": Content("((x, x))*", ["x x"]),
    "k": Content(f"({LARGE})*", ["y " * 36, "x y " * 36, "y y x y " * 12]),
    # Content that isn't free, of which words are found to be possible by a table.
    "f": Content("(head, (p, x)*, tail)", ["p x"], "head", "tail", lacks=True),
    # ANY, with an element that isn't productive.
    "v": Content("ANY", ["x", "y", "v", "p", "#"]),
}
OTHERS = {
    "r": "ANY", "x": "(#PCDATA | x | y)*", "p": "(#PCDATA | x | p)*", "head": "(#PCDATA)", "y": "EMPTY", "tail": "EMPTY", "e": "EMPTY", "u": "(u)",
}
# What kids of these names have in them now and then.
HELD: dict[str, list[tuple[Element | str, ...]]] = {"x": [("t",), (Element("y"),)], "p": [("t", Element("x")), (Element("p"),)], "head": [("t",)]}
TEXTS = ["t", "two words", " ", "&amp;"]
# How often an edit goes to another list than the one before.
LEAVING = [0.1, 0.3, 0.8]


def dtd() -> str:
    models = {name: content.model for name, content in CONTENTS.items()} | OTHERS
    return "".join(f"<!ELEMENT {name} {model}>\n" for name, model in models.items())


def names_of(owner: str) -> list[str]:
    """The names that mostly come into a list with this owner."""
    content = CONTENTS.get(owner)
    words = " ".join([content.front, *content.groups, content.back]).split() if content else ["x", "y"]
    return [it for it in dict.fromkeys(words) if it != "#"]


# Documents.
def kid_of(word: str) -> Element | str:
    if word == "#":
        return random.choice(TEXTS)
    return Element(word, random.choice(HELD[word]) if word in HELD and random.random() < 0.05 else ())


def has_joined_texts(kids: tuple[Element | str, ...]) -> bool:
    """Whether two texts stand side by side, which would be one where the document is read again."""
    return any(isinstance(one, str) and isinstance(other, str) for one, other in pairwise(kids))


def apart(kids: list[Element | str]) -> tuple[Element | str, ...]:
    """These kids without a text that stands after another."""
    return tuple(kid for before, kid in pairwise([Element("r"), *kids]) if not (isinstance(before, str) and isinstance(kid, str)))


def listed(owner: str, size: int) -> Element:
    """An element with so many kids or some more, some of them white space."""
    content = CONTENTS[owner]
    words = content.front.split() * (random.random() < 0.8)
    while len(words) < size:
        words += random.choice(content.groups).split()
    words += content.back.split() * (random.random() < 0.8)
    for _ in range(random.randint(1, 5) * (content.lacks and random.random() < 0.8)):
        del words[random.choice([0, -1, random.randrange(len(words))])]
    kids: list[Element | str] = [kid_of(word) for word in words]
    for _ in range(random.randint(0, 3)):
        kids.insert(random.randint(0, len(kids)), " ")
    return Element(owner, apart(kids))


def near(one: Element) -> Element:
    """An element whose list differs from that of this one in few places."""
    kids = list(one.kids)
    for _ in range(random.randint(0, 4)):
        kids.insert(random.randint(0, len(kids)), kid_of(random.choice(names_of(one.name))))
        del kids[random.randrange(len(kids))]
    return Element(one.name, apart(kids))


def odd() -> Element:
    """A long list that is impossible: under EMPTY, a name that isn't declared, and ANY with an element that isn't productive."""
    owner = random.choice("eqv")
    kids = [kid_of(random.choice("xy")) for _ in range(random.randint(LEAST, 600))]
    if owner == "v":
        for at in random.sample([0, len(kids) // 2, len(kids) - 1], random.randint(1, 3)):
            kids[at] = Element("u")
    return Element(owner, tuple(kids))


def document(owner: str) -> Element:
    one = listed(owner, random.randint(LEAST, MOST))
    two = random.choice([near(one), listed(owner, LEAST), listed(owner, random.randint(LEAST, MOST))])
    other = listed(random.choice([it for it in CONTENTS if it != owner]), random.randint(LEAST, 700))
    return Element("r", (one, Element("e"), two, other, *([odd()] if random.random() < 0.4 else [])))


def written(node: Element | str) -> str:
    return node if isinstance(node, str) else f"<{node.name}>{''.join(map(written, node.kids))}</{node.name}>"


# Edits: a line, and the root after it, none where it can't be made.
Edit = tuple[str, Element | None]
Places = tuple[int, ...]


def node_at(root: Element, places: Places) -> Element:
    for place in places:
        kid = root.kids[place]
        assert isinstance(kid, Element)
        root = kid
    return root


def put(root: Element, places: Places, node: Element) -> Element:
    """The root with this element at a place."""
    if not places:
        return node
    first, *rest = places
    kid = root.kids[first]
    assert isinstance(kid, Element)
    return Element(root.name, (*root.kids[:first], put(kid, tuple(rest), node), *root.kids[first + 1:]))


def path(places: Places) -> str:
    return dotted((0, *places))


def place_in(size: int) -> int:
    """A place up to this one: mostly the front, the middle or the end."""
    return min(size, max(0, random.choice([0, 1, size // 2, size // 2 + 1, random.randint(0, size), size - 1, size])))


def name_for(owner: str, others: list[str]) -> str:
    """A name that mostly comes into the list, or one of others, or any."""
    way = random.random()
    return random.choice(names_of(owner) if way < 0.7 else others if way < 0.9 else [*CONTENTS, *OTHERS, "q"])


def run_of(size: int) -> tuple[int, int]:
    """A run of kids: mostly a short one, or about half of the list, nearly all of it, or all."""
    long = random.choice([size // 2, size - 3, size])
    start = place_in(size)
    length = random.choice([0, 1, 1, 1, 2, 2, 3, 10]) if random.random() < 0.85 else long
    start = max(0, min(start, size - length))
    return start, min(size, start + max(0, length))


def replaced(root: Element, places: Places, first: int, last: int, kids: tuple[Element | str, ...]) -> Element:
    """The root with others in place of a run of kids of a list."""
    owner = node_at(root, places)
    return put(root, places, Element(owner.name, (*owner.kids[:first], *kids, *owner.kids[last:])))


def near_place(owner: Element, kind: type) -> int | None:
    """The number of a kid that is a text, or an element, near the front, the middle or the end; none where there is none."""
    wanted = place_in(len(owner.kids))
    found = [at for at, kid in enumerate(owner.kids) if isinstance(kid, kind)]
    return min(found, key=lambda at: abs(at - wanted)) if found else None


def tried(root: Element, places: Places) -> Edit | None:
    """An edit of the list at a path, or none where what was drawn finds nothing there."""
    owner = node_at(root, places)
    size, at = len(owner.kids), place_in(len(owner.kids))
    way = random.choice(["insert"] * 4 + ["wrap"] * 3 + ["unwrap"] * 3 + ["rename"] * 2 + ["addtext"] * 2 + ["deltext"] * 2 + ["owner"])
    if way == "insert":
        name = name_for(owner.name, ["head", "tail", "x", "p", "u"])
        return f"insert {path(places)} {at} {name}", replaced(root, places, at, at, (Element(name),))
    if way == "wrap":
        start, end = run_of(size)
        name = name_for(owner.name, ["x", "p", "c", "m", "v"])
        return f"wrap {path(places)} {start} {end} {name}", replaced(root, places, start, end, (Element(name, owner.kids[start:end]),))
    if way == "addtext":
        text = random.choice(TEXTS)
        return f"addtext {path(places)} {at} {text}", replaced(root, places, at, at, (text,))
    if way == "owner":
        name = random.choice(list(CONTENTS))
        return f"rename {path(places)} {name}", put(root, places, Element(name, owner.kids))
    number = near_place(owner, str if way == "deltext" else Element)
    if number is None:
        return None
    line, kid = f"{way} {path((*places, number))}", owner.kids[number]
    if isinstance(kid, str):
        return line, replaced(root, places, number, number + 1, ())
    if way == "unwrap":
        return line, replaced(root, places, number, number + 1, kid.kids)
    name = name_for(owner.name, ["p", "x", "u"])
    return f"{line} {name}", replaced(root, places, number, number + 1, (Element(name, kid.kids),))


def unmade(root: Element, places: Places) -> Edit:
    """An edit of the list that can't be made."""
    size, at = len(node_at(root, places).kids), path(places)
    return random.choice([f"insert {at} {size + 1} x", f"wrap {at} 2 1 x", f"wrap {at} 0 {size + 1} x", f"unwrap {at}.{size}", f"deltext {at}",
                          f"addtext {at} {size + 1} t", f"addtext {at} 0 <", f"rename {at} 1x"]), None


def edit_at(root: Element, places: Places) -> Edit:
    if random.random() < 0.06:
        return unmade(root, places)
    while True:
        edit = tried(root, places)
        if edit and edit[1] and not has_joined_texts(node_at(edit[1], places).kids):
            return edit


class Lists:
    """The document of a session by its moves, and the list to which the next edit goes."""

    def __init__(self, root: Element) -> None:
        self.root = root
        self.past: list[Element] = []
        self.undone: list[Element] = []
        self.leaving = random.choice(LEAVING)
        self.last: Places = (0,)

    def outer(self) -> Places:
        """The path of one of the lists that were long at first: mostly one of the two whose owners had one name."""
        if random.random() < self.leaving:
            others = [(2 - self.last[0],)] * 4 if self.last[0] in (0, 2) else [(0,), (2,)]
            self.last = random.choice([*others, *((at,) for at in range(3, len(self.root.kids)))])
        return self.last

    def edit(self) -> Edit:
        """An edit of one of the lists, of a long one within it, or of what a kid has."""
        places = self.outer()
        while True:
            kids = node_at(self.root, places).kids
            within = [at for at, kid in enumerate(kids) if isinstance(kid, Element) and len(kid.kids) >= LONG]
            if not within or len(kids) >= LONG and random.random() < 0.6:
                break
            places = (*places, random.choice(within))
        elements = [at for at, kid in enumerate(kids) if isinstance(kid, Element)]
        if elements and random.random() < 0.07:
            places = (*places, random.choice(elements))
        return edit_at(self.root, places)

    def make(self, root: Element) -> None:
        self.past.append(self.root)
        self.undone.clear()
        self.root = root

    def undo(self) -> bool:
        """Whether there is an edit to undo; it is taken back."""
        if self.past:
            self.undone.append(self.root)
            self.root = self.past.pop()
            return True
        return False

    def redo(self) -> bool:
        """Whether there is one to make again; it is made."""
        if self.undone:
            self.past.append(self.root)
            self.root = self.undone.pop()
            return True
        return False


# Sessions.
def reply_from(said: IO[bytes]) -> list[str]:
    """The lines of a reply; of `show` the first one and the document."""
    first = said.readline().decode().rstrip("\n")
    kind, _, number = first.partition(" ")
    if kind == "show":
        return [first, said.read(int(number) + 1)[:-1].decode()]
    more = int(number) if kind in ("verdicts", "offer") else 0
    return [first, *(said.readline().decode().rstrip("\n") for _ in range(more))]


class Asked:
    """A session, asked line by line."""

    def __init__(self, program: str) -> None:
        self.run = subprocess.Popen([program, "session", "a.dtd", "r", "d.xml"], stdin=subprocess.PIPE, stdout=subprocess.PIPE)

    def ask(self, line: str) -> list[str]:
        assert self.run.stdin and self.run.stdout
        self.run.stdin.write(f"{line}\n".encode())
        self.run.stdin.flush()
        return reply_from(self.run.stdout)

    def end(self) -> None:
        self.run.communicate()


def afresh(program: str, lines: list[str]) -> Iterator[list[str]]:
    """What a session that is begun on the file that was shown replies to these lines."""
    script = "".join(f"{line}\n" for line in lines)
    said = io.BytesIO(subprocess.run([program, "session", "a.dtd", "r", "n.xml"], input=script.encode(), capture_output=True).stdout)
    return (reply_from(said) for _ in lines)


def rows(reply: list[str]) -> list[tuple[str, str]]:
    """The paths of all lists and their verdicts, without the stamps."""
    return [(row.split(" ")[0], row.split(" ")[1]) for row in reply[1:]]


def checked(found: list[tuple[str, str]]) -> str:
    """What `check` prints of a document whose lists have these verdicts."""
    impossible = next((at for at, verdict in found if verdict == "impossible"), None)
    if impossible:
        return f"impossible {impossible}"
    left = sum(verdict == "possible" for _, verdict in found)
    return f"possible {left}" if left else "valid"


def differing(one: list[tuple[str, str]], other: list[tuple[str, str]]) -> str:
    pairs = [f"{mine} for {yours}" for mine, yours in zip(one, other) if mine != yours]
    return f"{len(one)} and {len(other)} lists; {', '.join(pairs[:5])}"


class Game:
    """A session on one document."""

    def __init__(self, program: str, told: Expecting, kinds: Counter[str], owner: str) -> None:
        self.program, self.told, self.kinds, self.owner = program, told, kinds, owner
        self.lists = Lists(document(owner))
        Path("d.xml").write_text(written(self.lists.root), encoding="ascii")
        self.session = Asked(program)
        self.made: list[str] = []

    def expect(self, what: str, holds: bool, shown: object = "") -> None:
        self.told.expect(f"list of {self.owner}, left by {self.lists.leaving}: {what}, behind {self.made[-8:]}", holds, shown)

    def edited(self, edit: Edit) -> str:
        """Makes an edit where the session makes it, and gives the reply."""
        line, root = edit
        reply = self.session.ask(line)[0]
        self.kinds[" ".join(reply.split()[:1] if reply.startswith("ok") else reply.split()[:2])] += 1
        if reply.startswith("ok"):
            self.made.append(line)
            self.expect(f"{line}, which can't be made", root is not None, reply)
            self.lists.make(root or self.lists.root)
        return reply

    def compare(self) -> None:
        """Asks something, tries edits that are mostly refused, and makes one, in this session and in a fresh one."""
        shown = self.session.ask("show")[1]
        Path("n.xml").write_text(shown, encoding="ascii")
        self.expect("what is shown", re.sub(r"<(\w+)/>", r"<\1></\1>", shown) == written(self.lists.root))
        before, asked = rows(self.session.ask("verdicts")), self.question()
        names = self.session.ask(asked)
        tried = [(edit[0], self.edited(edit)) for edit in self.refusals()]
        edit = self.lists.edit()
        tried.append((edit[0], self.edited(edit)))
        after = rows(self.session.ask("verdicts"))
        fresh = afresh(self.program, ["verdicts", asked, *(line for line, _ in tried), "verdicts"])
        wanted, wanted_names = rows(next(fresh)), next(fresh)
        self.expect("the verdicts", before == wanted, differing(before, wanted))
        self.expect(asked, names == wanted_names, f"{names} for {wanted_names}")
        for line, reply in tried:
            wanted_reply = next(fresh)[0]
            self.expect(line, reply == wanted_reply, f"{reply} for {wanted_reply}")
        wanted = rows(next(fresh))
        self.expect("the verdicts behind it", after == wanted, differing(after, wanted))
        if reply.startswith("ok"):
            counts = Counter(verdict for _, verdict in after)
            self.expect("its numbers", reply.split()[2:] == [str(counts["possible"]), str(counts["impossible"])], f"{reply} for {counts}")
        for place, verdict in after:
            if place.count(".") == 1:
                self.kinds[f"a list {verdict}"] += 1

    def check(self) -> None:
        """Compares the verdicts with what `check` says of the document."""
        Path("n.xml").write_text(self.session.ask("show")[1], encoding="ascii")
        said = subprocess.run([self.program, "check", "a.dtd", "r", "n.xml"], capture_output=True, text=True).stdout
        wanted = checked(rows(self.session.ask("verdicts")))
        self.expect("check", said.strip() == wanted, f"{said} for {wanted}")

    def place(self) -> Places:
        """The path of the list that is edited, or of another one, long or in one."""
        if random.random() < 0.5:
            return self.lists.last
        places: Places = (random.randrange(len(self.lists.root.kids)),)
        within = [at for at, kid in enumerate(node_at(self.lists.root, places).kids) if isinstance(kid, Element) and kid.kids]
        return (*places, random.choice(within)) if within and random.random() < 0.3 else places

    def question(self) -> str:
        """A question of what may stand in a list, or of nothing."""
        places = self.place()
        start, end = run_of(len(node_at(self.lists.root, places).kids))
        return random.choice([f"offer {path(places)} {start} {end}", f"offer {path(places)}", "history x"])

    def look_around(self) -> None:
        """Asks of some lists what may stand there, and tries edits of them that are mostly refused."""
        for _ in range(random.choice([0, 0, 1, 1, 2, 4])):
            question = self.question()
            reply = self.session.ask(question)[0]
            self.expect(question, reply.startswith(("offer ", "no ")), reply)
            if random.random() < 0.5:
                for edit in self.refusals():
                    self.edited(edit)

    def refusals(self) -> Iterator[Edit]:
        """Edits that are mostly refused: some in one list, and then some in another."""
        for _ in range(random.choice([0, 1, 1, 2])):
            places, root = self.place(), self.lists.root
            for _ in range(random.choice([1, 1, 2, 3, 5])):
                if self.lists.root is root:
                    yield self.unproductive(places)

    def unproductive(self, places: Places) -> Edit:
        """A wrap that can be made only where an impossible list is replaced by another."""
        kids = node_at(self.lists.root, places).kids
        start, end = run_of(len(kids))
        return f"wrap {path(places)} {start} {end} u", replaced(self.lists.root, places, start, end, (Element("u", kids[start:end]),))

    def move(self, number: int) -> None:
        self.look_around()
        way = random.random()
        if way < 0.10:
            self.made.append("undo")
            had = self.lists.undo()
            self.expect("undo", self.session.ask("undo")[0].startswith("ok" if had else "no history"))
        elif way < 0.18:
            self.made.append("redo")
            had = self.lists.redo()
            self.expect("redo", self.session.ask("redo")[0].startswith("ok" if had else "no history"))
        elif number % 3 == 2:
            self.compare()
        else:
            self.edited(self.lists.edit())

    def play(self) -> None:
        for number in range(LINES):
            self.move(number)
        self.check()
        self.session.end()


def main() -> int:
    program, told, kinds = os.path.abspath(sys.argv[1]), Expecting(), Counter[str]()
    documents, seed = map(int, sys.argv[2:4])
    end = time.monotonic() + int(sys.argv[4]) if len(sys.argv) > 4 else float("inf")
    random.seed(seed)
    with tempfile.TemporaryDirectory() as folder:
        os.chdir(folder)
        Path("a.dtd").write_text(dtd(), encoding="ascii")
        owners = list(CONTENTS)
        for number in range(documents):
            if told.failed >= MOST_FAILED or number >= len(owners) and time.monotonic() >= end:
                break
            Game(program, told, kinds, owners[number % len(owners)]).play()
        os.chdir("/")
    print(", ".join(f"{kind} {count}" for kind, count in sorted(kinds.items())))
    print(f"long lists: {told.passed} passed, {told.failed} failed")
    return int(told.failed > 0)


if __name__ == "__main__":
    sys.exit(main())
