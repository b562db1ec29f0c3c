"""Moves, and how they stand in a script. A move is what a user does in one go; it is made whole or not at all, and
taken back whole.

Its lines are those of a session. Where they aren't some cuts of texts and one edit, a line `together K` before them
says that the next K are one move. A line `instead K` says that the next K take the last move back and make another in
its place: all of them count, or none. Attributes, which a session keeps as they are, have a line of their own,
`attributes PATH TEXT`, and its undo another one; so have comments, `comment PATH TEXT`. A session answers all of these with
`no command`, so a script is still one that it plays.
"""
import re
from collections.abc import Callable, Iterable, Sequence
from typing import NamedTuple

from pvtag.document import Document, Told, shown, unescaped, units_of

TOGETHER, INSTEAD, ATTRIBUTES, UNDO, UNDO_ATTRIBUTES = "together ", "instead ", "attributes ", "undo", "undo-attributes"
COMMENT, UNDO_COMMENT = "comment ", "undo-comment"
# The lines that are made in the tree alone, beside the session.
BESIDE = (ATTRIBUTES, COMMENT)
# The edits of a session.
EDITS = ("wrap", "insert", "unwrap", "rename", "split", "join", "text", "addtext", "deltext")
# The longest line of a session, in bytes.
LONGEST = 1_048_576
# The lines of a move that only prepare its edits, and those that only tidy up after them.
CUTS = ("split ", "join ")
# So much of an element's text is told in the history.
EXCERPT = 40


class BadLine(Exception):
    """A line of a script that can't stand there: its number, from 1, and why."""

    def __init__(self, number: int, why: str) -> None:
        super().__init__(why)
        self.number, self.why = number, why


class Line(NamedTuple):
    """A line that makes an edit, how many lines from it on are told to be one move, and its number in the script."""

    text: str
    together: int | None = None
    number: int = 0


class Move:
    """The lines of a move, and their numbers in the script that it was read from; `title` says in words what it did, and
    `backs` take it back in the tree, once it was made there."""

    def __init__(self, lines: list[str], numbers: Sequence[int] = ()) -> None:
        self.lines, self.numbers, self.title = lines, numbers or [0] * len(lines), ""
        self.backs: list[Callable[[], Told]] = []

    @property
    def undoing(self) -> list[str]:
        """The lines that take it back."""
        return [undo_of(line) for line in reversed(self.lines)]

    @property
    def written(self) -> list[str]:
        """Its lines as they stand in a script."""
        is_plain = [len(group) for group in groups_of(map(Line, self.lines))] == [len(self.lines)]
        return self.lines if is_plain else [f"{TOGETHER}{len(self.lines)}", *self.lines]

    @property
    def names(self) -> list[str]:
        """The names of the elements that it made or renamed."""
        edits = (line.split(" ") for line in self.lines)
        return [words[-1] for words in edits if words[0] in ("wrap", "insert", "rename")]


def undo_of(line: str) -> str:
    return UNDO_ATTRIBUTES if line.startswith(ATTRIBUTES) else UNDO_COMMENT if line.startswith(COMMENT) else UNDO


def move_of(group: list[Line]) -> Move:
    return Move([line.text for line in group], [line.number for line in group])


def exchanged(old: list[Move], new: Move | None) -> list[str]:
    """The lines that take these moves back, the last first, and make another one."""
    undoing = [line for move in reversed(old) for line in move.undoing]
    lines = [*undoing, *(new.written if new is not None else [])]
    return [f"{INSTEAD}{len(lines)}", *lines] if undoing and new is not None else lines


def count_in(text: str, word: str, number: int) -> int:
    """The number that a line of these tells."""
    digits = text.removeprefix(word)
    if not (digits.isascii() and digits.isdigit() and len(digits) < 10 and int(digits) > 0):
        raise BadLine(number, f"a number from 1 on stands after `{word.strip()}`")
    return int(digits)


def surviving(lines: Iterable[tuple[int, str]]) -> tuple[list[Line], list[Line]]:
    """The edits of numbered lines that are made and aren't undone, and those that can be made again, the next one
    last."""
    made: list[Line] = []
    undone: list[Line] = []
    together = None
    for number, text in lines:
        if text.startswith(TOGETHER):
            together = count_in(text, TOGETHER, number)
        elif text.startswith(INSTEAD):
            count_in(text, INSTEAD, number)
        elif text in (UNDO, UNDO_ATTRIBUTES, UNDO_COMMENT):
            if not made or undo_of(made[-1].text) != text:
                raise BadLine(number, "there is nothing that this line could take back")
            undone.append(made.pop())
            together = None
        else:
            if text.split(" ", 1)[0] not in (*EDITS, *map(str.strip, BESIDE)):
                raise BadLine(number, "this is no line of a script of annotate")
            is_next = undone[-1:] != [] and undone[-1][:2] == (text, together)
            undone = undone[:-1] if is_next else []
            made.append(Line(text, together, number))
            together = None
    return made, undone


def groups_of(lines: Iterable[Line]) -> list[list[Line]]:
    """What was one move to a user: the lines that are told to stand together, else cuts of texts and the edit that they
    were made for. The last is left out where it isn't whole."""
    groups: list[list[Line]] = []
    group: list[Line] = []
    size = None
    for line in lines:
        size = size if group else line.together
        group.append(line)
        if len(group) == size or size is None and not line.text.startswith("split "):
            groups.append(group)
            group = []
    return groups


def is_edit(line: str) -> bool:
    return not line.startswith(CUTS)


def is_main(line: str) -> bool:
    """Whether a line is an edit by which a move is told: not of attributes or a comment alone."""
    return is_edit(line) and not line.startswith(BESIDE)


def title_of(lines: Sequence[str], document: Document) -> str:
    """What the last edit of a move, which is about to be made, makes of the document, in words."""
    edits = [line for line in lines if is_main(line)] or [line for line in lines if is_edit(line)] or list(lines)
    named = shape_of(edits)
    if named:
        return named
    names = [line.rsplit(" ", 1)[1] for line in edits if line.startswith(("wrap ", "insert "))]
    if len(edits) > 1 and names:
        return f"⟨{names[0]}⟩ in {len(names)} places" if len(set(names)) == 1 else f"{len(names)} new elements"
    word, path, *_ = edits[-1].split(" ")
    if word in ("addtext", "text"):
        typed = edits[-1].split(" ", 3 if word == "addtext" else 2)[-1]
        return f"typed “{short(''.join(map(shown, units_of(typed))))}”"
    if word == "attributes":
        where = f" in {len(edits)} places" if len(edits) > 1 else ""
        return f"attributes of ⟨{document.there(path).name}⟩{where}"
    if word == "comment":
        text = short(unescaped(edits[-1].split(" ", 2)[2]))
        return f"comment “{text}”" if text else "comment away"
    about = document.excerpt(edits[-1], EXCERPT)
    around = f" round “{about}”" if about else ""
    name = f"⟨{edits[-1].split(' ')[-1]}⟩"
    words = {"wrap": f"{name}{around}", "insert": f"new {name}", "rename": f"renamed: {name}{around}",
             "unwrap": f"tags away{around}", "deltext": f"deleted “{about}”"}
    return words.get(word, edits[-1])


# What edits one after another do, by their first words, without those of attributes.
SHAPES = (
    (re.compile(r"(unwrap wrap wrap )+"), "split: ⟨{}⟩"),
    (re.compile(r"unwrap unwrap wrap "), "joined with the next: ⟨{}⟩"),
    (re.compile(r"unwrap wrap "), "extended: ⟨{}⟩"),
    (re.compile(r"((deltext|unwrap) )+unwrap "), "deleted with what it held"),
)


def shape_of(edits: Sequence[str]) -> str:
    """What several edits do together, in words; nothing where they are none of these."""
    words = [line.split(" ") for line in edits if not line.startswith(BESIDE)]
    shape = "".join(f"{word[0]} " for word in words)
    return next((told.format(words[-1][-1]) for form, told in SHAPES if form.fullmatch(shape)), "")


def short(text: str) -> str:
    text = " ".join(text.split())
    return text if len(text) <= EXCERPT else text[:EXCERPT] + "…"
