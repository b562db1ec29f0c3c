"""Content models: how they are written and read, which words they have, and what they need at least.

Content models are ("empty",), ("any",), ("mixed", names) and ("children", particle); particles are ("name", x), ("seq", ..), ("choice", ..),
("?", p), ("*", p), ("+", p), and in a search also ("none",) for the particle without a word. The checkers of packs and denials don't stand on
this: they have readers of their own.
"""
import random
import re
from collections.abc import Callable

NEVER = float("inf")
SIGNS = ("?", "*", "+")
TOKENS = re.compile(r"[()|,?*+]|[^\s()|,?*+]+")


def nothing() -> str:
    return ""


def spelled(p, space: Callable[[], str] = nothing) -> str:
    """A particle as a DTD has it, with white space round its signs."""
    form = p[0]
    if form == "name":
        return p[1]
    if form in SIGNS:
        inner = spelled(p[1], space)
        return (f"({inner})" if p[1][0] in SIGNS else inner) + form
    mark = space() + ("," if form == "seq" else "|") + space()
    return "(" + space() + mark.join(spelled(member, space) for member in p[1:]) + space() + ")"


def specification(content, space: Callable[[], str] = nothing, is_starred: bool = True) -> str:
    """A content model as a DTD has it; a mixed one without names is starred or not."""
    form = content[0]
    if form == "mixed":
        names = "".join(space() + "|" + space() + name for name in content[1])
        return "(" + space() + "#PCDATA" + names + space() + ")" + "*" * bool(content[1] or is_starred)
    if form == "children":
        text = spelled(content[1], space)
        return text if text.startswith("(") else f"({text})"
    return form.upper()


def declaration(x: str, content, is_starred: bool = True) -> str:
    return f"<!ELEMENT {x} {specification(content, is_starred=is_starred)}>\n"


def read_particle(tokens: list[str]):
    """The particle at the front of these tokens, which are taken off; a group of one is a sequence."""
    if tokens[0] != "(":
        found = ("name", tokens.pop(0))
    else:
        tokens.pop(0)
        members, mark = [read_particle(tokens)], ","
        while tokens[0] != ")":
            mark = tokens.pop(0)
            members.append(read_particle(tokens))
        tokens.pop(0)
        found = ("seq" if mark == "," else "choice", *members)
    while tokens and tokens[0] in SIGNS:
        found = (tokens.pop(0), found)
    return found


def read_model(content: str):
    """The content model that a declaration has."""
    if content in ("EMPTY", "ANY"):
        return (content.lower(),)
    if "#PCDATA" in content:
        return ("mixed", re.findall(r"[^\s()|*]+", content)[1:])
    return ("children", read_particle(TOKENS.findall(content)))


def ends(p, word: list[str], begins: set[int]) -> set[int]:
    """The places at which a match of the particle that begins at one of these ends."""
    form = p[0]
    if form == "name":
        return {at + 1 for at in begins if word[at:at + 1] == [p[1]]}
    if form == "seq":
        for member in p[1:]:
            begins = ends(member, word, begins)
        return begins
    if form == "choice":
        return set().union(*(ends(member, word, begins) for member in p[1:]))
    if form == "?":
        return begins | ends(p[1], word, begins)
    found = set(begins) if form == "*" else ends(p[1], word, begins)
    while True:
        more = found | ends(p[1], word, found)
        if more == found:
            return found
        found = more


def has_word(p, word: list[str]) -> bool:
    return len(word) in ends(p, word, {0})


def cost(p, least) -> float:
    """The fewest elements of a word of the particle, with what stands below them."""
    form = p[0]
    if form == "name":
        return least.get(p[1], NEVER)
    if form in ("?", "*"):
        return 0
    if form == "+":
        return cost(p[1], least)
    return (sum if form == "seq" else min)(cost(member, least) for member in p[1:])


def least_of(models) -> dict[str, float]:
    """The fewest elements of a valid element of each name."""
    least = {name: NEVER if content[0] == "children" else 1 for name, content in models.items()}
    while True:
        more = {name: 1 + cost(content[1], least) if content[0] == "children" else 1 for name, content in models.items()}
        if more == least:
            return least
        least = more


def random_particle(depth: int, names: list[str], forms: list[str], most: int, is_plain: bool = False):
    """A particle of these forms, a group of which has so many members at most; in a plain one no sign stands right after another."""
    form = random.choice(forms)
    if depth == 0 or form == "name":
        return ("name", random.choice(names))
    if form in SIGNS:
        inner = random_particle(depth - 1, names, forms, most, is_plain)
        return inner if is_plain and inner[0] in SIGNS else (form, inner)
    return (form, *(random_particle(depth - 1, names, forms, most, is_plain) for _ in range(random.randint(2, most))))
