"""Completion: after `<` the names that an element may have that begins here, after `</` the name of the open
element, in a start tag names of attributes and their values."""
import re
from collections.abc import Mapping, Sequence

from . import attributes
from .documents import Asked, Document, put
from .grammar import Grammar, NewElement
from .lists import Cut, cut
from .mending import changes_of, wraps
from .nodes import CDATA, ITEM, MISC, NAME, START, Element
from .order import Named, ordered, used
from .text import Json
from .work import Work

CLOSING, OPENING = re.compile(rb"</(?:" + NAME + rb")?\Z"), re.compile(rb"<(?:" + NAME + rb")?\Z")
HIDING = (b"<!--", b"-->"), (b"<![CDATA[", b"]]>"), (b"<?", b"?>")
# A name of this length and the `</` before it are looked for before the place.
LONGEST = 1024
# An element that begins here may end here, after some of the next kids, or after the last: at most so many are tried,
# fewer in long lists.
NEXT, TRIED = 6, 20_000
PROPERTY, SNIPPET = 10, 2


def complete(asked: Asked, work: Work) -> Json:
    data, offset = asked.document.data, asked.offset
    front = data[max(0, offset - LONGEST) : offset]
    items: list[Json] = []
    if is_hidden(data, offset):
        pass
    elif found := CLOSING.search(front):
        items = closing(asked.document, offset - len(found[0]), offset)
    elif found := OPENING.search(front):
        at = offset - len(found[0])
        element = whole(asked.document, at)
        if element is None:
            items = opening(asked, work, at, offset)
        elif asked.client.replaces_names:
            items = renaming(asked, work, element, offset)
    elif attributes.place_of(asked.document, offset) is not None:
        items = attributes.complete(asked, offset)
    return {"isIncomplete": False, "items": items}


def is_hidden(data: bytes, offset: int, kinds: Sequence[tuple[bytes, bytes]] = HIDING) -> bool:
    """Whether a place is in a comment, a CDATA section or an instruction that ends: no tag stands there."""
    for start, end in kinds:
        at = data.rfind(start, 0, offset)
        if at >= 0 and data.find(end, at + len(start), offset) < 0 and data.find(end, offset) >= 0:
            item, others = ITEM.match(data, at), [each for each in kinds if each[0] != start]
            if item is not None and item.lastindex in (CDATA, MISC) and item.end() > offset and not is_hidden(data, at, others):
                return True
    return False


def without(document: Document, start: int, offset: int) -> tuple[bytes, int]:
    """The text without what is being typed, with a `>` that the editor has put after it, and where that ends."""
    end = offset + (document.data[offset : offset + 1] == b">")
    return document.data[:start] + document.data[end:], end


def closing(document: Document, start: int, offset: int) -> list[Json]:
    """The end tag of the innermost open element."""
    rest, end = without(document, start, offset)
    owner = document.tree_of(rest).around(start)
    if owner.owner is None:
        return []
    text = owner.label + ("" if end > offset else ">")
    return [
        {
            "label": owner.label,
            "kind": PROPERTY,
            "filterText": owner.label,
            "textEdit": document.put(start + 2, offset, text),
        }
    ]


def whole(document: Document, start: int) -> Element | None:
    """The element whose whole start tag stands here, where it has an end tag or needs none."""
    item = ITEM.match(document.data, start)
    if item is None or item.lastindex != START:
        return None
    tag = document.tree.tag(start)
    is_closed = tag is not None and tag.start == start and (tag.element.has_end or tag.element.is_short(document.data))
    return tag.element if tag is not None and is_closed else None


def renaming(asked: Asked, work: Work, element: Element, offset: int) -> list[Json]:
    """Other names for an element whose start tag this is. Its end tag gets the name too."""
    document, grammar = asked.document, asked.grammar
    (start, end), *others = element.names()
    if asked.client.shifts_edits and others and b"\n" not in document.data[start : others[0][0]]:
        return []
    place, places = document.text.range(start, max(end, offset)), [document.text.range(*other) for other in others]
    items = []
    for number, each in enumerate(renames(work, grammar, element, document)):
        item, name = named(grammar, each.name, put(place, each.name), number, each), each.name
        items.append(item | ({"additionalTextEdits": [put(other, name) for other in places]} if places else {}))
    return items


def renames(work: Work, grammar: Grammar, element: Element, document: Document) -> list[Named]:
    """The names that an element may have in their order, its own among them where it may stay."""
    assert element.owner is not None
    owner = element.owner.label
    found = changes_of(work, grammar, element, document.data, used(document, owner))
    offered = found.names if found.is_fix else [*found.names, Named(element.label, False, 0)]
    return ordered(work, grammar, document, owner, offered)


def opening(asked: Asked, work: Work, start: int, offset: int) -> list[Json]:
    """The names of elements that may be inserted here, and of those that may begin here and take in what follows."""
    document, grammar = asked.document, asked.grammar
    if grammar.attributes.declares_any:
        # It is wanted at the end.
        grammar.declared.read_attributes()
    rest, end = without(document, start, offset)
    tree = document.tree_of(rest)
    owner = tree.around(start)
    offered = dict[str, bool]()
    costs = dict[str, Named]()
    if owner.owner is None:
        offered = {} if owner.kids or not grammar.root else {grammar.root: True}
    elif (found := cut(owner, rest, start, start)) is not None:
        first, *others = beginning(work, grammar, owner.label, found, used(document, owner.label))
        costs = {each.name: each for run in (first, *others) for each in run}
        are_whole = {each.name for each in first}
        offered = {each.name: each.name in are_whole for each in ordered(work, grammar, document, owner.label, [*costs.values()])}
    is_closed = end > offset
    snippets = bool(asked.client.can("textDocument", "completion", "completionItem", "snippetSupport"))
    place = document.text.range(start + 1, offset)
    items = []
    for number, name in enumerate(offered):
        new = grammar.new_element(name)
        text = tags_of(grammar, name, new, offered[name], snippets)
        item = named(grammar, name, put(place, text[:-1] if is_closed else text), number, costs.get(name))
        if snippets:
            item["insertTextFormat"] = SNIPPET
        if new.lacking:
            item["documentation"] = f"It {new.sentence}, which the DTD requires."
        items.append(item)
    return items


def beginning(
    work: Work, grammar: Grammar, owner: str, place: Cut, uses: Mapping[str, int]
) -> list[list[Named]]:
    """The names of elements that may end where they begin, and then those of others that may begin here."""
    last = len(place.kids)
    ends = [*range(place.start, min(place.start + min(NEXT, TRIED // (last + 1)), last) + 1), last]
    runs = [(place.start, end) for end in dict.fromkeys(ends)]
    return wraps(work, grammar, owner, place.kids, runs, uses)


def tags_of(grammar: Grammar, name: str, new: NewElement, is_whole: bool, snippets: bool) -> str:
    """What is put after `<`: both tags where the element may end here, else its start tag."""
    with_attributes = name + new.attributes.decode()
    shown, begun = (attributes.SPECIAL.sub(r"\\\g<0>", text) if snippets else text for text in (name, with_attributes))
    if not is_whole:
        return f"{begun}>"
    if name in grammar.dtd.types and grammar.dtd.types[name].kind == "empty":
        return f"{begun}/>"
    return f"{begun}>{'$0' if snippets else ''}</{shown}>"


def named(grammar: Grammar, name: str, edit: Json, number: int, cost: Named | None = None) -> Json:
    """An item for a name, with its number in the order, and how many more elements are missing with it."""
    item = {"label": name, "kind": PROPERTY, "sortText": f"{number:05}", "filterText": name, "textEdit": edit}
    more = f"+{cost.cost}" if cost is not None and cost.cost is not None and cost.cost > 0 else ""
    detail = " ".join(filter(None, (more, grammar.model(name))))
    return item | ({"detail": detail} if detail else {})
