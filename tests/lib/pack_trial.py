"""Packs of random documents and of the examples, hostile ones, and some that stand here with their answers."""
import glob
import re
from pathlib import Path

from check_pack import word_of
from lib.counting import Counting, need
from lib.kept import names_in, parts_of
from lib.pack_cases import Case, weights, written
from lib.pack_changes import CHANGES

# How many packs of each sort of change are made from a pack.
TURNS = 2

SMALL = "<!ELEMENT a (b)><!ELEMENT b EMPTY>"
PACK = b"""pvpack 1
total 1
mark 1
body 14
<a><b></b></a>
list 0
c 0 0 0 1
c 1 0 0 0
n 0 0 0 2
n 1 0 0 1
p 0 0 0 1
p 1 0 0 1
s 1 0 0 1
end
"""


def rows(program, make=Case):
    """Each a case of this kind, a pack and its answer."""
    small = make(program, SMALL, "a", "<a/>")
    yield small, PACK, "accepted 1"
    yield small, b"", "pack line 0"
    for old, new, answer in [
            (b"pvpack 1", b"pvpack 2", "pack line 0"), (b"total 1", b"total 1000001", "pack line 1"), (b"total 1", b"total 01", "pack line 1"),
            (b"total 1", b"total 2", "rejected totals"), (b"total 1", b"total 1000000", "rejected totals"), (b"mark 1\n", b"", "rejected kept"),
            (b"mark 1", b"mark 0", "rejected kept"), (b"mark 1", b"mark 2", "rejected marks"), (b"mark 1", b"mark 4294967295", "rejected marks"),
            (b"mark 1", b"mark 4294967296", "pack line 2"), (b"mark 1", b"mark 1\nmark 1", "rejected marks"),
            (b"mark 1", b"mark 1\nmark 0", "rejected marks"), (b"body 14", b"body 9999999", "pack line 3"), (b"body 14", b"body 13", "pack line 3"),
            (b"14\n<a><b></b></a>", b"12\n<a><b></a>\n ", "rejected body"), (b"14\n<a><b></b></a>", b"15\n<a ><b></b></a>", "rejected kept"),
            (b"14\n<a><b></b></a>", b"15\n<a><b ></b></a>", "rejected marks"), (b"14\n<a><b></b></a>", b"15\n<a><b></b ></a>", "accepted 1"),
            (b"14\n<a><b></b></a>", b"11\n<a><b/></a>", "accepted 1"), (b"14\n<a><b></b></a>", b"15\n<a><b></b></a>\n", "rejected kept"),
            (b"14\n<a><b></b></a>", b"14\n<a><a></a></a>", "rejected validity"),
            (b"14\n<a><b></b></a>", b"22\n<a><!--c--><b></b></a>", "rejected kept"),
            (b"list 0", b"list 7", "rejected closure"), (b"list 0", b"list .", "rejected closure"), (b"list 0", b"list 0.0", "rejected closure"),
            (b"list 0", b"list 00", "pack line 4"), (b"list 0\n", b"", "pack line 4"), (b"list 0\n", b"list 0\nlist 0\n", "rejected closure"),
            (b"c 0 0 0 1\n", b"", "rejected closure"), (b"c 0 0 0 1", b"c 0 0 0 2", "rejected closure"),
            (b"c 0 0 0 1", b"c 0 0 0 0", "rejected closure"),
            (b"c 0 0 0 1\nc 1 0 0 0\nn 0 0 0 2", b"c 0 0 0 0\nc 1 0 0 0\nn 0 0 0 1", "rejected totals"),
            (b"c 1 0 0 0\n", b"", "rejected closure"), (b"n 0 0 0 2\n", b"", "rejected closure"), (b"s 1 0 0 1\n", b"", "rejected closure"),
            (b"n 1 0 0 1", b"n 0 0 1 2\nn 1 0 0 1", "rejected closure"), (b"n 1 0 0 1", b"n 0 1 0 2\nn 1 0 0 1", "rejected closure"),
            (b"n 0 0 0 2", b"n 0 0 1 2", "rejected closure"), (b"s 1 0 0 1", b"s 0 0 0 1", "rejected closure"),
            (b"s 1 0 0 1", b"s 1 0 0 1\ns 2 0 0 1", "rejected closure"), (b"s 1 0 0 1", b"s 4294967295 0 0 1", "rejected closure"),
            (b"c 0 0 0 1\nc 1 0 0 0", b"c 1 0 0 0\nc 0 0 0 1", "pack line 6"), (b"p 1 0 0 1", b"p 1 0 0 1000000", "rejected closure"),
            (b"p 1 0 0 1", b"p 1 0 0 1000001", "pack line 10"), (b"end\n", b"end", "pack line 12"), (b"end\n", b"end\n\n", "pack line 13")]:
        need(old in PACK, f"{old!r} isn't in the pack")
        yield small, PACK.replace(old, new), answer
    yield small, PACK.replace(b"end\n", PACK[PACK.index(b"list 0\n"):]), "rejected closure"
    done = make(program, SMALL, "a", "<a><b/></a>")
    yield done, b"pvpack 1\ntotal 0\nbody 11\n<a><b/></a>\nend\n", "accepted 0"
    tables = [(path, weights(done.dtd, word_of(done.dtd, kids))) for path, _, kids in done.document.lists()]
    for chosen in tables, tables[1:2]:
        yield done, written(0, [], done.text.encode(), chosen), "accepted 0"
    for chosen in tables[::-1], tables[2:] * 2:
        yield done, written(0, [], done.text.encode(), chosen), "rejected closure"
    yield done, PACK, "rejected kept"
    deep = make(program, "<!ELEMENT a (a?)>", "a", "<a/>")
    yield deep, written(0, [1], b"<a><a></a></a>", []), "rejected totals"
    yield deep, written(1, [1], b"<a><a></a></a>", []), "rejected totals"
    yield deep, written(19999, range(1, 20000), b"<a>" * 20000 + b"</a>" * 20000, []), "rejected totals"
    yield deep, written(19999, range(1, 20000), b"<a>" * 20000 + b"</a>" * 19999, []), "rejected body"
    doctype = make(program, SMALL, "a", "<!DOCTYPE a><a/>")
    yield doctype, PACK, "rejected kept"
    yield doctype, PACK.replace(b"14\n", b"26\n<!DOCTYPE a>"), "accepted 1"
    yield doctype, PACK.replace(b"14\n", b"26\n<!DOCTYPE b>"), "rejected body"
    wide = make(program, "<!ELEMENT a (b*, c)><!ELEMENT b EMPTY><!ELEMENT c EMPTY>", "a", f"<a>{'<b/>' * 2200}<c/></a>")
    yield wide, wide.pack, "accepted 0"
    yield wide, written(0, [], wide.text.encode(), [((0,), [])]), "limit width 0"


class PackTrial(Counting):
    """Packs of documents, each a case of this kind."""

    def __init__(self, program, make=Case):
        super().__init__(program)
        self.make = make

    def case(self, name, dtd, root, text, others):
        """A document: its pack, and hostile ones; gives the case, where it has a pack."""
        made = []

        def own():
            case = self.make(self.program, dtd, root, text)
            if case.pack:
                case.check_own()
                made.append(case)

        self.tell(name, own)
        for case in made:
            for change in CHANGES * TURNS:
                self.hostile(f"{change.__name__}, {name}", case, change(case))
            for other in others[-2:]:
                self.hostile(f"another's pack, {name}", case, other.pack)
            others.append(case)

    def hostile(self, name, case, pack):
        if pack != case.pack:
            self.count(name, lambda: case.judge(pack))


# A DTD with each form of model, and documents for it.
FORMS = "<!ELEMENT a (c, b+, (d | e)?, (b, d)*)><!ELEMENT b (#PCDATA | d)*><!ELEMENT c ANY><!ELEMENT d EMPTY><!ELEMENT e (f?, b)>"
FORMED = ["<a><b/><b/><d/></a>", "<a>x<b/><b/><e/><b/></a>", "<a><b/>x<b/><b/></a>", "<a><d/>y<!--c-->z<d/></a>"]


def examples():
    for text in FORMED:
        yield FORMS, "a", text
    top = Path(__file__).resolve().parents[2]
    dtds = {names_in(text)[0]: text for text in map(text_of, sorted(glob.glob(f"{top}/examples/*.dtd")))}
    for text in map(text_of, sorted(glob.glob(f"{top}/examples/*.xml"))):
        root = re.match("<([^ \t\r\n/>]+)", parts_of(text)[1][0])[1]
        yield dtds[root], root, text


def text_of(path):
    with open(path, encoding="utf-8", newline="") as file:
        return file.read()
