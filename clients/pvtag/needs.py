"""Why no element of a name can be valid: the names that each of them needs, in a ring or down to one not declared.

Asked of the program by small DTDs: one model with some of its names declared EMPTY and the others not at all. It needs
one of those that aren't where no content is left.
"""
import re
from typing import NamedTuple

from .dtd import Dtd
from .program import file_of, run

NAME = re.compile(r"[^\s()|,?*+#]+")
# At most so many names are told.
MOST = 6


class Need(NamedTuple):
    """Each element of this name needs one of these, of which none can be valid."""

    name: str
    names: tuple[str, ...]


def needs(program: list[str], dtd: Dtd, name: str) -> list[Need]:
    """What an unproductive name needs, and so on; nothing where a model isn't found in the file, or it is too much."""
    found: list[Need] = []
    left = [name]
    while left:
        each = left.pop(0)
        if each not in dtd.types or any(each == need.name for need in found):
            continue
        model = dtd.model(each, 1 << 20)
        names = list(dict.fromkeys(NAME.findall(model)))
        if len(found) == MOST or not names or "%" in model:
            return []
        bad = least(program, model, names, [other for other in names if not dtd.is_productive(other)])
        if not bad:
            return []
        found.append(Need(each, tuple(bad)))
        left += bad
    return found


def least(program: list[str], model: str, names: list[str], bad: list[str]) -> list[str]:
    """Names without which no content of a model is left, none of which can be left out; nothing where some is left."""
    if not lacks(program, model, names, bad):
        return []
    for each in bad[:]:
        rest = [other for other in bad if other != each]
        if lacks(program, model, names, rest):
            bad = rest
    return bad


def lacks(program: list[str], model: str, names: list[str], bad: list[str]) -> bool:
    """Whether a model has no content where all of its names but these can be valid."""
    top = max(names, key=len) + "-"
    good = [name for name in names if name not in bad]
    declared = f"<!ELEMENT {top} {model}>" + "".join(f"<!ELEMENT {name} EMPTY>" for name in good)
    with file_of(declared.encode(), ".dtd") as path:
        answer = run(program, "dtd", path)
    return answer.output.startswith(f"{top} children unproductive\n".encode())
