"""The names that a DTD declares, as the program tells them."""
from typing import NamedTuple

from pvtag.program import Trouble, run
from pvtag.session import Ended

# The size of an element that the program tells no number of.
ENDLESS = 1 << 30


class Declared(NamedTuple):
    """A declared name: "empty", "any", "mixed" or "children", and the fewest elements of a valid element of it."""

    name: str
    kind: str
    size: int


def declared_by(program: list[str], dtd: str) -> dict[str, Declared]:
    """The names of a DTD, in order of declaration."""
    answer = run(program, "dtd", dtd)
    if answer.status != 0:
        raise Ended(answer.status, answer.line)
    rows = [line.split(" ") for line in answer.output.decode().splitlines()[:-1]]
    return {name: Declared(name, kind, int(size) if size.isdigit() else ENDLESS) for name, kind, size in rows}


def check_root(declared: dict[str, Declared], root: str, dtd: str) -> None:
    """Refuses a root that the DTD doesn't have."""
    if root in declared:
        return
    names = ", ".join(list(declared)[:40])
    more = f" and {len(declared) - 40} more" if len(declared) > 40 else ""
    raise Trouble(f"{dtd} declares no element {root}; it declares {names}{more}")
