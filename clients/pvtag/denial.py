"""What `pvtag why` prints: a list that can't be mended, the cause, and a table of places (docs/FORMATS.md, Denials)."""
import re
from typing import NamedTuple

from .program import Trouble

# What other tools may use; each has an example.
__all__ = ("Denial", "read")


class Denial(NamedTuple):
    """A denial: its list's path, the cause ("undeclared", "unproductive", "empty" or "word"), and its rows' bytes.

    >>> from pvtag.program import find, run
    >>> denial = read(run(find(), "why", "examples/letter.dtd", "letter", "examples/letter-swapped.xml").output)
    >>> denial.path, denial.cause, denial.row("c", 0)[0]
    ('0', 'word', 2)
    """

    path: str
    cause: str
    rows: bytes

    def row(self, kind: str, number: int) -> list[int] | None:
        """The places of a site, or none where it has no row."""
        found = re.search(rb"^%s %d ([0-9 ]+)$" % (kind.encode(), number), self.rows, re.M)
        return list(map(int, found[1].split())) if found else None


DENIAL = re.compile(rb"pvdeny 1\nlist ([0-9.]+)\ncause ([a-z]+)\n((?:[cnps] [0-9 ]+\n)*)end\n")


def read(output: bytes) -> Denial:
    r"""The denial that `why` printed.

    >>> read(b"possible\n")
    Traceback (most recent call last):
        ...
    pvtag.program.Trouble: what was read is no denial
    """
    found = DENIAL.fullmatch(output)
    if found is None:
        raise Trouble("what was read is no denial")
    return Denial(found[1].decode(), found[2].decode(), found[3])
