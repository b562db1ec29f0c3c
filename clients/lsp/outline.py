"""Symbols: the outline of a document, its elements with the front of their texts."""
import itertools

from .documents import Asked, Document
from .nodes import Element, Leaf
from .text import Json
from .work import Work

FIELD = 8
# At most so many elements are told, the outer ones first, and so many in one another.
MOST, DEEPEST = 10_000, 200
LONGEST = 40


def symbols(asked: Asked, work: Work) -> list[Json]:
    document = asked.document
    tops = [kid for kid in document.tree.top.kids if isinstance(kid, Element)]
    if not asked.client.can("textDocument", "documentSymbol", "hierarchicalDocumentSymbolSupport"):
        return [flat(document, each) for each in outer(tops, work)]
    found = outer(tops, work)
    told = {id(each): symbol(document, each) for each in found}
    for each in found:
        if each.owner is not None and id(each.owner) in told:
            told[id(each.owner)].setdefault("children", []).append(told[id(each)])
    return [told[id(each)] for each in tops if id(each) in told]


def outer(tops: list[Element], work: Work) -> list[Element]:
    """The elements, level by level as far as whole levels are told, but always those of the first."""
    found, level, depth = list[Element](), tops[:MOST], 0
    while level and len(found) + len(level) <= MOST and depth < DEEPEST:
        work.check()
        found, depth = found + level, depth + 1
        below = (kid for each in level for kid in each.kids if isinstance(kid, Element))
        level = [*itertools.islice(below, MOST + 1)]
    return found


def symbol(document: Document, element: Element) -> Json:
    told = {
        "name": element.label,
        "kind": FIELD,
        "range": document.text.range(element.start, element.end),
        "selectionRange": document.text.range(*element.names()[0]),
    }
    text = front(document.text.data, element)
    return told | ({"detail": text} if text else {})


def flat(document: Document, element: Element) -> Json:
    told = {
        "name": element.label,
        "kind": FIELD,
        "location": {"uri": document.uri, "range": document.text.range(element.start, element.end)},
    }
    owner = element.owner
    return told | ({"containerName": owner.label} if owner is not None and owner.owner is not None else {})


def front(data: bytes, element: Element) -> str:
    """The front of the text that stands in an element itself."""
    texts = [
        data[kid.start : min(kid.end, kid.start + 4 * LONGEST)]
        for kid in element.kids[:10]
        if isinstance(kid, Leaf) and kid.kind == "text"
    ]
    words = " ".join(b" ".join(texts).decode(errors="ignore").split())
    return words if len(words) <= LONGEST else words[:LONGEST].rstrip() + "…"
