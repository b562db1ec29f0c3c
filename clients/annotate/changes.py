"""The moves that the page asks for, as the lines of a session that make them."""
import itertools
import re
from typing import Any, NamedTuple

from .moves import ATTRIBUTES, COMMENT
from pvtag.document import CDATA, ELEMENT, MISC, TEXT, Document, Node, escaped
from pvtag.program import Trouble
from .runs import Spot, Stale, Stretch, below, element_of, run_between, run_of, spots_of

ATTRIBUTE = re.compile(r"""([^\s=]+)\s*=\s*("[^"]*"|'[^']*')""")
# A list, its path, and two places in it.
Spots = tuple[Node, str, Spot, Spot]


class Side(NamedTuple):
    """The texts side by side that a stretch is of: their list's path, the number of the first of them, and their
    lengths."""

    path: str
    first: int
    sizes: list[int]

def name_of(move: Any) -> str:
    """The name of a move; a line holds no line end."""
    name = move["name"]
    if not isinstance(name, str) or "\n" in name or "\r" in name:
        raise Stale
    return name


def lines_of(document: Document, move: Any) -> list[str]:
    """The lines of a move."""
    kind = move["kind"]
    if kind in ("wrap", "insert"):
        cuts, path, start, end = run_of(document, move["place"])
        ends = f"{start} {end}" if kind == "wrap" else f"{start}"
        return [*cuts, f"{kind} {path} {ends} {name_of(move)}"]
    node, path = element_of(document, move["node"])
    if kind in ("split", "extend"):
        return (split if kind == "split" else extended)(document, node, spots_of(document, move["place"]))
    if kind in ("join", "delete"):
        return (joined if kind == "join" else deleted)(document, node)
    return [f"unwrap {path}"] if kind == "unwrap" else [f"rename {path} {name_of(move)}"]


def split(document: Document, node: Node, spots: Spots) -> list[str]:
    """Two elements in the place of one, and of each that stands in it round a place there: what is before the place, and
    what is after it. The first has the attributes."""
    inner, path, (at, unit), _ = spots
    lines = [f"split {below(path, at)} {unit}"] if unit is not None else []
    front, size = at + len(lines), len(inner.kids) + len(lines)
    while True:
        owner, number = document.place_of(inner)
        outer, name = document.path_of(owner), inner.name
        lines += [f"unwrap {below(outer, number)}", f"wrap {outer} {number} {number + front} {name}",
                  f"wrap {outer} {number + 1} {number + 1 + size - front} {name}",
                  *attributes_for(below(outer, number), inner.attrs), *comment_for(below(outer, number), inner.note)]
        if inner is node:
            return lines
        if owner is document.top:
            raise Stale
        inner, front, size = owner, number + 1, len(owner.kids) + 1


def joined(document: Document, node: Node) -> list[str]:
    """One element in the place of this one and the next, which has the attributes of both; where both have one, that of the
    first."""
    owner, at = document.place_of(node)
    last = next((number for number in range(at + 1, len(owner.kids)) if owner.kids[number].kind == ELEMENT), None)
    between = owner.kids[at + 1:last]
    if last is None or any(kid.kind == CDATA or kid.kind == TEXT and not kid.is_white for kid in between):
        raise Trouble(f"there is {'text' if last else 'no element'} after ⟨{node.name}⟩, and nothing to be joined with it")
    other, path = owner.kids[last], document.path_of(owner)
    size = len(node.kids) + len(between) + len(other.kids)
    return [f"unwrap {below(path, last)}", f"unwrap {below(path, at)}", f"wrap {path} {at} {at + size} {node.name}",
            *attributes_for(below(path, at), both(node.attrs, other.attrs)), *comment_for(below(path, at), node.note or other.note)]


def deleted(document: Document, node: Node) -> list[str]:
    """Nothing in the place of an element and of all that it holds."""
    owner, at = document.place_of(node)
    if owner is document.top:
        raise Trouble("a document has a root element")
    path = document.path_of(owner)
    todo, lines = [(node, below(path, at), False)], list[str]()
    while todo:
        each, where, is_empty = todo.pop()
        if each.kind in (CDATA, MISC):
            raise Trouble(f"⟨{node.name}⟩ holds a comment, an instruction or a CDATA section, which can't be removed here")
        if each.kind == TEXT or is_empty:
            lines.append(f"{'deltext' if each.kind == TEXT else 'unwrap'} {where}")
        else:
            todo.append((each, where, True))
            todo.extend((kid, below(where, number), False) for number, kid in enumerate(each.kids))
    beside = [kid.kind for kid in (owner.kids[at - 1:at] if at else []) + owner.kids[at + 1:at + 2]]
    return [*lines, f"join {below(path, at - 1)}"] if beside == [TEXT, TEXT] else lines


def extended(document: Document, node: Node, spots: Spots) -> list[str]:
    """The tags of an element round more than before, with its attributes."""
    owner, path, start, end = spots
    if node.owner is not owner:
        raise Stale
    at = owner.kids.index(node)
    first, last = min(order_of(start), (at, 0)), max(order_of(end), (at + 1, 0))
    cuts, path, begin, stop = run_between(path, (first[0], first[1] or None), (last[0], last[1] or None))
    at += first[0] < at and first[1] > 0
    return [*cuts, f"unwrap {below(path, at)}", f"wrap {path} {begin} {stop - 1 + len(node.kids)} {node.name}",
            *attributes_for(below(path, begin), node.attrs), *comment_for(below(path, begin), node.note)]


def order_of(spot: Spot) -> tuple[int, int]:
    return spot[0], spot[1] or 0


def comment_for(path: str, note: str) -> list[str]:
    """The line that puts the comment of another tag before a new one."""
    return [f"{COMMENT}{path} {escaped(note[4:-3])}"] if note else []


def attributes_for(path: str, attrs: str) -> list[str]:
    """The line that gives a new tag the attributes of another."""
    return [f"{ATTRIBUTES}{path} {one_line(attrs)}"] if attrs.strip() else []


def one_line(attrs: str) -> str:
    """A line end in a value is a blank to a reader of XML (3.3.3), and a line of a script holds none."""
    return attrs.replace("\r\n", " ").replace("\n", " ").replace("\r", " ")


def both(attrs: str, more: str) -> str:
    """Attributes, and those of others that they don't have."""
    names = {name for name, _ in ATTRIBUTE.findall(attrs)}
    return attrs.rstrip() + "".join(f" {name}={value}" for name, value in ATTRIBUTE.findall(more) if name not in names)


def side_of(document: Document, stretch: Stretch) -> Side:
    owner, path = element_of(document, stretch.owner)
    texts = itertools.takewhile(lambda kid: kid.kind == TEXT, owner.kids[stretch.first:])
    return Side(path, stretch.first, [len(text.units) for text in texts])


def spot_in(side: Side, unit: int) -> Spot:
    """The place after so many units of these texts."""
    at = side.first
    for size in side.sizes:
        if unit < size:
            break
        at, unit = at + 1, unit - size
    return at, unit or None


def lines_for(side: Side, stretch: Stretch, text: str) -> list[str]:
    """Puts a text, as it is written, in the place of a stretch, and makes it one with the texts beside it."""
    first, last = spot_in(side, stretch.start), spot_in(side, stretch.end)
    cuts, path, start, end = run_between(side.path, first, last)
    has_before = first[1] is not None or first[0] > side.first
    has_behind = last[1] is not None or last[0] < side.first + len(side.sizes)
    lines = [*cuts, *[f"join {below(path, start)}"] * (end - start - 1)]
    if start == end:
        lines.append(f"addtext {path} {start} {text}")
    else:
        lines.append(f"text {below(path, start)} {text}" if text else f"deltext {below(path, start)}")
    if has_before and (text or has_behind):
        lines.append(f"join {below(path, start - 1)}")
    if has_behind and text:
        lines.append(f"join {below(path, start - has_before)}")
    return lines
