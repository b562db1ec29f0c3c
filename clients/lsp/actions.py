"""Code actions: wrapping a selection, renaming and unwrapping an element at one of its tags, and inserting what is
missing."""
from typing import Any

from . import wire
from .documents import Asked, Document, put
from .lists import WHITE, cut, is_too_deep
from .mending import Move, changes_of, moves_of, wraps
from .missing import Completed, completed
from .nodes import Element
from .order import ordered, used
from pvtag.long import Counted
from .text import Json
from .wire import INVALID_PARAMS, Error
from .work import Work

REWRITE, FIX = "refactor.rewrite", "quickfix"
ALL_KINDS = [FIX, REWRITE]
CONTENT_MODIFIED = -32801
# The command of an action that asks for a name, and the most wraps that are actions of their own.
WRAP, MOST_WRAPS = "pvtag.wrap", 20
# So long, in seconds, the judgement of the text is waited for.
PATIENCE = 2.0


def actions(asked: Asked, work: Work) -> list[Json]:
    start, end = asked.span
    context = asked.params.get("context")
    context = context if isinstance(context, dict) else {}
    if asked.client.can("textDocument", "codeAction", "codeActionLiteralSupport") is None:
        return []
    only = context.get("only")
    found: list[Json] = inserting(asked, work, context) if is_wanted(FIX, only) else []
    if is_wanted(FIX, only) or is_wanted(REWRITE, only):
        found += wrapping_first(asked, work, start, end) if is_wanted(REWRITE, only) else []
        found += at_tag(asked, work, start, end)
    return [told(each, context) for each in found if is_wanted(each["kind"], only)]


def told(each: Json, context: Json) -> Json:
    """An action with the errors that it mends, where the editor has told them."""
    known = context.get("diagnostics")
    mended = [it for it in known if isinstance(it, dict) and it.get("code") == "impossible"] if isinstance(known, list) else []
    return each | ({"diagnostics": mended} if mended and each["kind"] == FIX and "diagnostics" not in each else {})


def is_wanted(kind: str, only: Any) -> bool:
    """Whether an editor that asks for these kinds asks for this one."""
    return not isinstance(only, list) or any(
        each == "" or each == kind or kind.startswith(f"{each}.") for each in only if isinstance(each, str)
    )


def action(asked: Asked, title: str, edits: list[Json], is_fix: bool = False) -> Json:
    return {"title": title, "kind": FIX if is_fix else REWRITE, "edit": asked.document.edit(asked.client, edits)}


# A selection.
def wrapping(asked: Asked, work: Work, start: int, end: int) -> list[Json]:
    """The selection, without the blanks at its ends, in an element of each name that is offered."""
    document = asked.document
    # References to entities are masked in what the program is given.
    start, end = trimmed(document.text.data, start, end)
    owner = document.tree.around(start)
    if start >= end or not document.tree.around(end).is_same(owner):
        return []
    found = cut(owner, document.data, start, end)
    if found is None or found.start >= found.end or is_too_deep(owner, start, end, document.data):
        return []
    uses, grammar = used(document, owner.label), asked.grammar
    (offered,) = wraps(work, grammar, owner.label, found.kids, [(found.start, found.end)], uses)
    first, last = document.text.range(start, start), document.text.range(end, end)
    actions_ = []
    for name in (each.name for each in ordered(work, grammar, document, owner.label, offered)):
        new = grammar.new_element(name)
        title = f"Wrap in <{name}>" + (f", which {new.sentence}" if new.lacking else "")
        edits = [put(first, f"<{name}{new.attributes.decode()}>"), put(last, f"</{name}>")]
        actions_.append(action(asked, title, edits))
    return actions_


def wrapping_first(asked: Asked, work: Work, start: int, end: int) -> list[Json]:
    """The first of these, and an action that asks for one of all where there are more."""
    found = wrapping(asked, work, start, end)
    if len(found) <= MOST_WRAPS or not asked.client.can("workspace", "applyEdit"):
        return found
    where = {"uri": asked.document.uri, "version": asked.document.version, "range": asked.params["range"]}
    title = f"Wrap in… ({len(found)} names)"
    more = {"title": title, "kind": REWRITE, "command": {"title": title, "command": WRAP, "arguments": [where]}}
    # Some editors want each action resolved that has no edit.
    return [*found[:MOST_WRAPS], more | {"data": {"uri": where["uri"], "version": where["version"]}}]


def execute(asked: Asked, work: Work) -> None:
    """Asks in the editor for one of all names that a selection may be wrapped in, and makes that wrap there."""
    where = asked.params["arguments"][0]
    asked.params = where
    if asked.params.get("version") != asked.document.version:
        raise Error(CONTENT_MODIFIED, "the document has changed")
    found = {each["title"].removeprefix("Wrap in "): each for each in wrapping(asked, work, *asked.span)}

    def chosen(answer: Any) -> None:
        each = found.get(str(answer.get("title"))) if isinstance(answer, dict) else None
        if each is not None and asked.is_current():
            asked.ask("workspace/applyEdit", {"label": each["title"], "edit": each["edit"]}, lambda _: None)

    asked.ask(
        "window/showMessageRequest",
        {"type": 3, "message": "Wrap in which element?", "actions": [{"title": name} for name in found]},
        chosen,
    )


def trimmed(data: bytes, start: int, end: int) -> tuple[int, int]:
    """A selection with whole references alone, and without the blanks at its ends."""
    start, end = unit_start(data, start), unit_end(data, end)
    while start < end and data[start] in WHITE:
        start += 1
    while start < end and data[end - 1] in WHITE:
        end -= 1
    return start, end


def unit_start(data: bytes, offset: int) -> int:
    """Where the reference starts that an offset is inside of, if it is."""
    start = data.rfind(b"&", 0, offset)
    return start if start >= 0 and is_within(data, start, offset) else offset


def unit_end(data: bytes, offset: int) -> int:
    start = data.rfind(b"&", 0, offset)
    return data.index(b";", start) + 1 if start >= 0 and is_within(data, start, offset) else offset


def is_within(data: bytes, start: int, offset: int) -> bool:
    """Whether an offset is inside of the reference that starts here."""
    end = data.find(b";", start)
    return end >= offset > start and not any(sign in data[start:end] for sign in b"<> \t\r\n")


# A tag.
def at_tag(asked: Asked, work: Work, start: int, end: int) -> list[Json]:
    """Renaming and unwrapping the element in whose tag the cursor or the selection is."""
    document = asked.document
    tag = document.tree.tag(start)
    if tag is None or end > tag.end:
        return []
    element, found = tag.element, list[Json]()
    owner = element.owner.label if element.owner is not None else ""
    changes = changes_of(work, asked.grammar, element, document.data, used(document, owner))
    if changes.is_unwrapped:
        title = f"Unwrap <{element.label}>"
        found.append(action(asked, title, unwrapping(document, element), changes.is_fix))
    found += [moving(asked, element, move) for move in moves_of(work, asked.grammar, element, document.data)] if changes.is_fix else []
    places = [document.text.range(*span) for span in element.names()]
    for name in (each.name for each in ordered(work, asked.grammar, document, owner, changes.names)):
        found.append(action(asked, f"Rename to <{name}>", [put(place, name) for place in places], changes.is_fix))
    return found


def moving(asked: Asked, element: Element, move: Move) -> Json:
    """The element before or after another kid of its list."""
    assert element.owner is not None
    document, other = asked.document, element.owner.kids[move.other]
    name = f"<{other.label}>" if isinstance(other, Element) else "the text"
    title = f"Move <{element.label}> {'after' if move.is_after else 'before'} {name}"
    place = other.end if move.is_after else other.start
    text = document.text.data[element.start : element.end].decode()
    edits = [document.put(element.start, element.end, ""), document.put(place, place, text)]
    return action(asked, title, edits, is_fix=True)


def renaming(document: Document, element: Element, name: str) -> list[Json]:
    return [document.put(*span, name) for span in element.names()]


def unwrapping(document: Document, element: Element) -> list[Json]:
    tags = [(element.start, element.inside), (element.closes, element.end)]
    return [document.put(start, end, "") for start, end in tags if start < end]


# The document.
def inserting(asked: Asked, work: Work, context: Json) -> list[Json]:
    """Inserting what is missing, where something is and the document can be mended."""
    document = asked.document
    document.settled.wait(PATIENCE)
    judged = document.judged
    if judged is None or judged.lists == 0 or judged.bad > 0:
        return []
    found: Json = {"title": title_of(judged.missing), "kind": FIX, "isPreferred": True}
    told = context.get("diagnostics")
    mended = (
        [each for each in told if isinstance(each, dict) and each.get("code") in ("possible", "missing")]
        if isinstance(told, list)
        else []
    )
    if mended:
        found["diagnostics"] = mended
    resolved = asked.client.can("textDocument", "codeAction", "resolveSupport", "properties")
    if isinstance(resolved, list) and "edit" in resolved:
        return [found | {"data": {"uri": document.uri, "version": document.version}}]
    edits = completed(document, asked.grammar, work)
    return (
        [found | {"edit": document.edit(asked.client, edits.edits)}]
        if isinstance(edits, Completed) and edits.edits
        else []
    )


def title_of(missing: Counted | None) -> str:
    if missing is None:
        return "Insert all missing elements"
    if missing.least < missing.most:
        return f"Insert {missing.most} elements, of which {missing.least} or more are missing"
    return f"Insert {missing} missing element{'s' * (missing.most > 1)}"


def uri_of(params: Json) -> str:
    """The document of an action that was offered, or of one that is executed."""
    data = params.get("data")
    arguments = params.get("arguments")
    if params.get("command") == WRAP and isinstance(arguments, list) and len(arguments) == 1:
        data = arguments[0]
    if not isinstance(data, dict) or not isinstance(data.get("uri"), str):
        raise Error(INVALID_PARAMS, "an action that this server didn't offer")
    return str(data["uri"])


def resolve(asked: Asked, work: Work) -> Json:
    """An action with its edits."""
    if asked.params["data"].get("version") != asked.document.version:
        raise Error(CONTENT_MODIFIED, "the document has changed")
    if "command" in asked.params:
        return asked.params
    edits = completed(asked.document, asked.grammar, work)
    if not isinstance(edits, Completed):
        raise Error(wire.REQUEST_FAILED, edits)
    if edits.sentence:
        asked.say(edits.sentence)
    return asked.params | {"edit": asked.document.edit(asked.client, edits.edits)}
