"""Sentences on lists that can't be mended: one of what is so, one of what the declaration says.

A sentence is a row of pieces; a number among them stands for where the kid of that number is.
"""
from collections.abc import Sequence

from .needs import Need
from .tries import Kid

Pieces = tuple[str | int, ...]
COUNTS = "no one two three four five six seven eight nine ten".split()
ORDINALS = "first second third fourth fifth sixth seventh eighth ninth tenth".split()
KINDS = {"text": "the text", "cdata": "the CDATA section", "white": "white space", "misc": "a comment or instruction"}


def named(name: str) -> str:
    return f"`{name}`"


def kid_named(kid: Kid) -> str:
    return named(kid.name) if kid.kind == "element" else KINDS[kid.kind]


def begun(text: str) -> str:
    """A sentence's begin."""
    return text[:1].upper() + text[1:]


def joined(words: Sequence[str], last: str) -> str:
    """Words with commas, and one before the last."""
    return f"{', '.join(words[:-1])} {last} {words[-1]}" if len(words) > 1 else "".join(words)


def declared(name: str, model: str) -> Pieces:
    return (f"{named(name)} is declared `{model}`.",) if model else ()


def mentioned(name: str, at: int | None, rest: str) -> Pieces:
    """A name, at a kid or of the list's own element, and what is said of it."""
    pieces: list[str | int] = [named(name)] if at is None else [named(name), at]
    return (*pieces, rest)


def undeclared(name: str, at: int | None, is_mentioned: bool) -> Pieces:
    return mentioned(name, at, " isn't declared" + (": the DTD only mentions it." if is_mentioned else "."))


def nearest(names: Sequence[str]) -> Pieces:
    if not names:
        return ()
    what = "name" if len(names) == 1 else "names"
    return (f"The declared {what} most like it: {joined(list(map(named, names)), 'and')}.",)


def prefixed(other: str) -> Pieces:
    return (f"The DTD has it as {named(other)}: a prefix is part of the name.",)


def unproductive(name: str, at: int | None, why: Sequence[Need]) -> Pieces:
    known = {need.name for need in why}
    clauses = []
    for need in why:
        bare = [each for each in need.names if each not in known]
        clause = f"each {named(need.name)} needs {joined(list(map(named, need.names)), 'or')}"
        if bare:
            clause += f", and {joined(list(map(named, bare)), 'and')} {'is' if len(bare) == 1 else 'are'}n't declared"
        clauses.append(clause)
    rest = " can't be made valid, whatever is inserted" + (": " + "; ".join(clauses) if clauses else "") + "."
    return mentioned(name, at, rest)


def in_empty(owner: str, kid: Kid, at: int) -> Pieces:
    return (begun(kid_named(kid)), at, f" stands in {named(owner)}, which holds nothing.")


def alone(owner: str, kid: Kid, at: int) -> Pieces:
    return (f"{named(owner)} can't hold {kid_named(kid)}", at, ", and no element between them could.")


def in_root(root: str, kid: Kid, at: int) -> Pieces:
    so = f"The root is to be {named(root)}, which can't hold {kid_named(kid)}"
    return (so, at, ", and no element between them could.")


def too_many(owner: str, kid: Kid, at: Sequence[int]) -> Pieces:
    """So many kids of one name, without which there would be room for the others."""
    count, what = len(at), kid_named(kid)
    room = f": whatever is inserted, {named(owner)} has room for {counted(count - 1)}."
    if count == 2:
        return (f"The second {what}", at[1], " has no place after the first", at[0], room)
    return (f"The {ordinal(count)} {what}", at[-1], " has no place after those before it", *at[:-1], room)


def counted(number: int) -> str:
    return COUNTS[number] if number < len(COUNTS) else str(number)


def ordinal(number: int) -> str:
    if number <= len(ORDINALS):
        return ORDINALS[number - 1]
    last = 0 if number % 100 in (11, 12, 13) else number % 10
    return f"{number}{('th', 'st', 'nd', 'rd')[last] if last < 4 else 'th'}"


def pair(owner: str, kids: Sequence[Kid], at: Sequence[int], has_order: bool) -> Pieces:
    """Two different kids, each of which there would be room for without the other."""
    one, other = map(kid_named, kids)
    if has_order:
        rest = f"; in {named(owner)} they come in the other order."
        return (begun(one), at[0], f" stands before {other}", at[1], rest)
    return (begun(one), at[0], f" and {other}", at[1], f" can't both stand in one {named(owner)}, in whichever order.")


def several(owner: str, kids: Sequence[Kid], at: Sequence[int]) -> Pieces:
    pieces: list[str | int] = []
    for number, (kid, place) in enumerate(zip(kids, at, strict=True)):
        link = "" if number == 0 else " and " if number == len(kids) - 1 else ", "
        pieces += [link + kid_named(kid), place]
    pieces[0] = begun(str(pieces[0]))
    rest = f" can't all stand in one {named(owner)} in this order; without any one of them the others could."
    return (*pieces, rest)
