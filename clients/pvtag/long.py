"""The program `pvlong`, which is asked where a list is too wide: how many elements are missing, or between which numbers, a
document with so many inserted, and whether the document is valid or can be made so.

Where it isn't there, can't be run, takes too long or tells nothing, the answer is none. It looks for bounds for a third of
the time that it may take, so that two numbers come of a list for which there is too little time.
"""
import os
import threading
from typing import NamedTuple

from .program import Answer, Running, Stopped, Trouble, find_long, run

# What other tools may use; each has an example.
__all__ = ("Checked", "Counted", "Inserted")

# The most that a run may take, in seconds.
MOST = 60.0
# The variable that says for how many seconds it looks for bounds.
SECONDS = "PVLONG_SECONDS"
# The status of a document to which fewer insertions might lead.
NOT_LEAST = 11
# One run at a time.
TURN = threading.Lock()


class Counted(NamedTuple):
    """How many elements are missing: at least so many, and so many are enough. Mostly both are the same.

    >>> print(Counted(2, 2).sentence, Counted(15, 17))
    2 elements are missing 15 to 17
    """

    least: int
    most: int

    def __str__(self) -> str:
        return f"{self.least}" if self.least == self.most else f"{self.least} to {self.most}"

    @property
    def sentence(self) -> str:
        return "1 element is missing" if self.least == self.most == 1 else f"{self} elements are missing"


class Checked(NamedTuple):
    """What can become of a document: how many of its lists aren't valid yet, or none where no insertions can make it valid.

    >>> for left in (0, 1, None): print(Checked(left).sentence)
    the document is valid
    1 list isn't valid yet, and inserting elements can make the document valid
    no insertions can make the document valid
    """

    left: int | None

    @property
    def sentence(self) -> str:
        if self.left is None:
            return "no insertions can make the document valid"
        if not self.left:
            return "the document is valid"
        lists = "1 list isn't" if self.left == 1 else f"{self.left} lists aren't"
        return f"{lists} valid yet, and inserting elements can make the document valid"


class Inserted(NamedTuple):
    """A document with elements inserted that make it valid, and whether no fewer could.

    >>> Inserted(b"<p/>", True).is_least
    True
    """

    document: bytes
    is_least: bool


def check(program: list[str], dtd: str, root: str, document: str, runs: Running) -> Checked | None:
    """What can become of a document; the program is that of `pvtag`."""
    answer = asked(program, runs, "check", dtd, root, document)
    match answer.line.split(" ") if answer is not None else ():
        case ["valid"]:
            return Checked(0)
        case ["possible", count]:
            return Checked(int(count))
        case ["impossible", _]:
            return Checked(None)
    return None


def need(program: list[str], dtd: str, root: str, document: str, runs: Running) -> Counted | None:
    """How many elements are missing in a document; the program is that of `pvtag`."""
    return counted(asked(program, runs, "need", dtd, root, document))


def complete(program: list[str], dtd: str, root: str, document: str, runs: Running) -> Inserted | None:
    """The document with what is missing."""
    answer = asked(program, runs, "complete", dtd, root, document)
    if answer is None or answer.status not in (0, NOT_LEAST):
        return None
    return Inserted(answer.output, answer.status == 0)


def counted(answer: Answer | None) -> Counted | None:
    """What an answer to its `need` tells."""
    match answer.line.split(" ") if answer is not None and answer.status == 0 else ():
        case ["need", count]:
            return Counted(int(count), int(count))
        case ["need", least, "to", most]:
            return Counted(int(least), int(most))
    return None


def asked(program: list[str], runs: Running, *words: str) -> Answer | None:
    """What it answers, once no other run is under way. It ends with these runs, also while it waits."""
    found = find_long(program)
    if found is None:
        return None
    while not TURN.acquire(timeout=0.1):
        if runs.stopped:
            raise Stopped
    try:
        return run(found, *words, most=MOST, runs=runs, env=environment(MOST))
    except Trouble:
        return None
    finally:
        TURN.release()


def environment(most: float) -> dict[str, str]:
    """The environment of a run that may take so many seconds. It looks for bounds for a third of them, unless the user's
    environment says how long: the rest is for the list that it is at then, and for those after it."""
    return {SECONDS: str(max(1, int(most) // 3)), **os.environ}
