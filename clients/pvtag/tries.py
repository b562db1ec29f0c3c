"""Lists that the program is asked about: whether insertions can make each fit an element of some name, many in one run.

A try is a list alone: its kids stand in it without content, and a kid without content can be mended whenever an element
of its name can. All tries of a run stand in one document, in an element of a name that isn't in the DTD and is declared
ANY after it. No other model holds that name but those declared ANY, which hold each kid of it as well, so nothing else
changes by it.
"""
import functools
import hashlib
import re
from collections.abc import Mapping, Sequence
from typing import NamedTuple

from .dtd import Dtd
from .program import RUNNING, Running, Trouble, file_of, run


class Kid(NamedTuple):
    """A kid of a list, as far as its owner's content model goes: "element" and its name, "text" with anything but
    literal white space, "white", "cdata" or "misc"."""

    kind: str
    name: str = ""

    @property
    def is_token(self) -> bool:
        """Whether a content model sees it."""
        return self.kind in ("element", "text", "cdata")


class Try(NamedTuple):
    """A list of an element of this name; "" is the document node, whose one kid is the root."""

    owner: str
    kids: Sequence[Kid]


STUBS = {"text": b"x", "white": b" ", "cdata": b"<![CDATA[x]]>", "misc": b"<?x?>"}
ROW = re.compile(rb"^0\.(\d+) (\w+) ", re.M)
# At most so many tries stand in one document; answers about so many kids are kept.
MOST_IN_ONE, MOST_KEPT = 900, 1 << 20


@functools.lru_cache(maxsize=1 << 12)
def stub(kid: Kid) -> bytes:
    return b"<%s/>" % kid.name.encode() if kid.kind == "element" else STUBS[kid.kind]


def written(owner: str, kids: Sequence[Kid]) -> bytes:
    """A list alone."""
    name = owner.encode()
    return b"<%s>%s</%s>" % (name, b"".join(map(stub, kids)), name)


class Judge:
    """Asks the program of tries, under one DTD and ROOT. What it answered is kept."""

    def __init__(self, program: list[str], dtd: Dtd, root: str, runs: Running = RUNNING) -> None:
        self.program, self.dtd, self.root, self.runs = program, dtd, root, runs
        self.known: dict[Try, bool] = {}
        self.kept = 0

    def impossible(self, tries: Sequence[Try]) -> list[bool]:
        """Of each list whether no insertions make it fit."""
        asked = list(dict.fromkeys(each for each in tries if each not in self.known))
        found = {each: self.one(each) for each in asked if not each.owner}
        inside = [each for each in asked if each.owner]
        for at in range(0, len(inside), MOST_IN_ONE):
            found.update(zip(inside[at:], self.many(inside[at:at + MOST_IN_ONE])))
        answers = [found[each] if each in found else self.known[each] for each in tries]
        self.keep(found)
        return answers

    def keep(self, found: Mapping[Try, bool]) -> None:
        self.kept += sum(len(each.kids) + 1 for each in found)
        if self.kept > MOST_KEPT:
            self.known, self.kept = {}, 0
        self.known.update(found)

    def one(self, each: Try) -> bool:
        """By a `check` of its own."""
        document = written(each.owner, each.kids) if each.owner else stub(each.kids[0])
        with file_of(document) as path:
            answer = run(self.program, "check", self.dtd.path, each.owner or self.root, path, runs=self.runs)
        first = b"impossible ." if not each.owner else b"impossible "
        if answer.status > 1:
            raise Trouble(f"a list can't be tried: {answer.line}")
        return answer.output.startswith(first)

    def many(self, tries: Sequence[Try]) -> list[bool]:
        """By the verdicts of one session; one by one where the DTD is too near its limits for one name more."""
        name = "pvtag-" + hashlib.sha256(self.dtd.data).hexdigest()
        dtd = self.dtd.data + b"\n<!ELEMENT %s ANY>" % name.encode()
        document = b"<%s>%s</%s>" % (name.encode(), b"".join(written(*each) for each in tries), name.encode())
        with file_of(dtd, ".dtd") as dtd_path, file_of(document) as path:
            answer = run(self.program, "session", dtd_path, name, path, given=b"verdicts\n", runs=self.runs)
        if answer.status or not answer.output.startswith(b"verdicts "):
            return list(map(self.one, tries))
        verdicts = {int(found[1]): found[2] == b"impossible" for found in ROW.finditer(answer.output)}
        return [verdicts[at] for at in range(len(tries))]
