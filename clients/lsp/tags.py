"""Both tags of an element: renaming them, and editing their names together."""
import contextlib
import re

from . import wire
from .actions import renaming
from .documents import Asked, text_of
from .grammar import Grammar
from .lists import alone_with, kids_of
from .nodes import Element, Tree
from pvtag.program import Trouble
from pvtag.session import Ended, Made, Refused
from pvtag.tries import Kid
from .text import Json
from .wire import Error
from .work import Work

NAME = r"[:A-Z_a-z\u00B7-\uFFFD][-.0-9:A-Z_a-z\u00B7-\uFFFD]*"
# What isn't of this form is no name; of what is, the program tells.
SIGNS = r":A-Z_a-z\u00B7-\uD7FF\uE000-\U0010FFFF"
FORM, NO_NAME = re.compile(f"[{SIGNS}][-.0-9{SIGNS}]*"), "this is no name of XML"


def at_name(tree: Tree, offset: int) -> tuple[Element, tuple[int, int]] | None:
    """The element in whose tag a name has this offset in it or at its end, and where that name stands."""
    tag = tree.tag(offset)
    names = [span for span in tag.element.names() if span[0] <= offset <= span[1]] if tag is not None else []
    return (tag.element, names[0]) if tag is not None and names else None


def prepare(asked: Asked, work: Work) -> Json | None:
    found = at_name(asked.document.tree, asked.offset)
    if found is None:
        return None
    element, span = found
    return {"range": asked.document.text.range(*span), "placeholder": element.label}


def rename(asked: Asked, work: Work) -> Json:
    """Both tags get the new name, where a session would give it to the element, or where there is no DTD to ask by."""
    name, found = text_of(asked.params, "newName"), at_name(asked.document.tree, asked.offset)
    if found is None:
        raise Error(wire.REQUEST_FAILED, "no name of an element stands here")
    element = found[0]
    grammar = None
    with contextlib.suppress(Trouble):
        grammar = asked.grammar
    if not FORM.fullmatch(name):
        raise Error(wire.REQUEST_FAILED, NO_NAME)
    if grammar is not None:
        check(asked, work, grammar, element, name)
    return asked.document.edit(asked.client, renaming(asked.document, element, name))


def check(asked: Asked, work: Work, grammar: Grammar, element: Element, name: str) -> None:
    """Raises an error that says why a session refuses the name."""
    alone = alone_with(element, asked.document.data)
    try:
        with work.session(grammar, alone.root(grammar), alone.data) as session:
            answer = session.rename(alone.kid_path(element.at), name)
    except Ended as ended:
        raise Error(wire.REQUEST_FAILED, f"the list can't be judged: {ended.line}") from None
    if not isinstance(answer, Made):
        raise Error(wire.REQUEST_FAILED, why(asked, work, grammar, element, name, answer))


def why(asked: Asked, work: Work, grammar: Grammar, element: Element, name: str, answer: Refused) -> str:
    """Why a name was refused: by the list that the element stands in, or by its own."""
    if answer.why != "impossible":
        return (
            NO_NAME
            if answer.what == "bad-name"
            else f"`{name}` is refused: {answer.why} {answer.what}"
        )
    data, owner = asked.document.data, element.owner
    assert owner is not None
    kids = kids_of(owner, data)
    kids[element.at] = Kid("element", name)
    reason = work.reason(grammar, "." if owner.owner is None else "0", owner.label, kids) or work.reason(
        grammar, "0", name, kids_of(element, data)
    )
    return reason.sentence() if reason else f"`{name}` can't stand here: nothing that is inserted would make it valid"


def linked(asked: Asked, work: Work) -> Json | None:
    """The names in both tags, which an editor changes together."""
    found = at_name(asked.document.tree, asked.offset)
    if found is None or not found[0].has_end:
        return None
    return {"ranges": [asked.document.text.range(*span) for span in found[0].names()], "wordPattern": NAME}
