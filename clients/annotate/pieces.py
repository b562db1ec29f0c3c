"""The lines or paragraphs of a run, and the move that puts a tag round each of them.

A line ends at a line end in a text of the list itself, a paragraph at a blank line; what an element of the list holds
isn't cut. White space at the ends of a piece stays outside of its tag.
"""
from collections.abc import Iterator
from typing import Any

from .changes import attributes_for, name_of
from .editor import Editor
from .everywhere import MOST, Everywhere
from pvtag.document import ELEMENT, MISC, TEXT, WHITE, Node, Told, shown
from .runs import Spot, below, run_of, spots_of

# So many line ends are between two pieces at least.
APART = {"lines": 1, "paragraphs": 2}
# So much of a piece's text is told.
EXCERPT = 90
# So long other requests wait for it at most, in seconds.
LONG = 0.3
# A node of the run, and the unit there of a text.
Atom = tuple[Node, int | None]


class Pieces:
    def __init__(self, editor: Editor, everywhere: Everywhere) -> None:
        self.editor, self.everywhere = editor, everywhere

    def of(self, ask: Any) -> Told:
        """The pieces of a run that aren't this element already: each with its text, and whether the session would refuse the
        tag there beside the others. Where it isn't told by what the run is cut, by paragraphs if there are several."""
        name = name_of(ask)
        with self.editor.lock:
            owner, _, start, end = spots_of(self.editor.document, ask["place"])
            atoms = list(atoms_of(owner, start, end))
            by = ask.get("by") or ("paragraphs" if len(list(cut(atoms, 2))) > 1 else "lines")
            pieces = [piece for piece in cut(atoms, APART[by]) if not is_one(piece, name)]
            places = [place_of(owner, piece) for piece in pieces[:MOST]]
            refused = self.refused(places, name)
            rows = [{"place": place, "text": text_of(piece), "refused": at in refused}
                    for at, (place, piece) in enumerate(zip(places, pieces))]
            return {"by": by, "pieces": rows, "more": len(pieces) > MOST}

    def refused(self, places: list[Told], name: str) -> set[int]:
        """The numbers of the places where the tag is refused, the others being made; nothing is changed. Where there are so many
        that trying them takes long, the rest is tried when it is made."""
        moves = [self.lines_for(place, name) for place in reversed(places)]
        return {len(places) - 1 - at for at in self.everywhere.tried(moves, LONG)[1]}

    def lines_for(self, place: Any, name: str, attrs: str = "") -> list[str]:
        cuts, path, start, end = run_of(self.editor.document, place)
        return [*cuts, f"wrap {path} {start} {end} {name}", *attributes_for(below(path, start), attrs)]

    def tag(self, ask: Any, attrs: str = "") -> Told:
        """Puts the tag, with these attributes, round these pieces, in one move; one where it is refused is left out, and
        told."""
        name = name_of(ask)
        with self.editor.lock:
            since = self.editor.known(ask)
            # The last one first: what is done there moves no path before it.
            return self.everywhere.make(since, [self.lines_for(place, name, attrs) for place in reversed(ask["places"])])


def atoms_of(owner: Node, start: Spot, end: Spot) -> Iterator[Atom]:
    """What a run of a list holds, each unit of a text by itself."""
    (first, from_), (last, to) = start, end
    for at in range(first, last + (to is not None)):
        kid = owner.kids[at]
        if kid.kind != TEXT:
            yield kid, None
            continue
        for unit in range(from_ or 0 if at == first else 0, to if at == last and to is not None else len(kid.units)):
            yield kid, unit


def cut(atoms: list[Atom], apart: int) -> Iterator[list[Atom]]:
    """The pieces between so many line ends, without the white space round them; comments alone are none."""
    piece: list[Atom] = []
    blank: list[Atom] = []
    for node, unit in atoms:
        if unit is not None and node.units[unit] in WHITE:
            blank.append((node, unit))
            continue
        if sum(each.units[at] == "\n" for each, at in blank if at is not None) >= apart and piece:
            yield from kept(piece)
            piece = []
        piece += [*blank, (node, unit)] if piece else [(node, unit)]
        blank = []
    yield from kept(piece)


def kept(piece: list[Atom]) -> Iterator[list[Atom]]:
    if any(node.kind != MISC for node, _ in piece):
        yield piece


def is_one(piece: list[Atom], name: str) -> bool:
    """Whether a piece is an element of this name already."""
    return len(piece) == 1 and piece[0][0].kind == ELEMENT and piece[0][0].name == name


def place_of(owner: Node, piece: list[Atom]) -> Told:
    """A piece as the page tells places."""
    (first, from_), (last, to) = piece[0], piece[-1]
    return {"list": owner.id, "from": [first.id, from_ or 0], "to": [last.id, 1 if to is None else to + 1]}


def text_of(piece: list[Atom]) -> str:
    parts = (shown(node.units[unit]) if unit is not None else f"⟨{node.name}⟩" if node.kind == ELEMENT else "" for node, unit in piece)
    text = " ".join("".join(parts).split())
    return text if len(text) <= EXCERPT else text[:EXCERPT] + "…"
