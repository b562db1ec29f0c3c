"""Where things are: the declaration of a name, its other uses, the other tag, what folds, what a selection grows to, and
the files that a document names."""
import os
import re
import urllib.parse
from bisect import bisect_right
from typing import Any

from .documents import Asked, Document
from .grammar import DOCTYPE, INSTRUCTION, MODEL, PART, Named, files_of, folder_of, located, unquoted
from .nodes import END, ITEM, LITERAL, MISC, SLASH, START, Leaf
from .reading import front
from .tags import at_name
from .text import Json, Text
from .wire import INVALID_PARAMS, Error
from .work import Work

# So many places are told, and so many selections in one another.
MOST, DEEPEST = 10_000, 200
# What in a DTD declares no element, whatever it looks like.
UNREAD = re.compile(rb"<!ENTITY\s(?:[^>\"']|" + LITERAL + rb")*>|<!\[\s*IGNORE\s*\[(?s:.*?)\]\]>")


# ---- the declaration of a name ----

def definition(asked: Asked, work: Work) -> Json | None:
    """Where the name of a tag is declared, in the DTD's file or in one of its modules, by catalogs too."""
    found = at_name(asked.document.tree, asked.offset)
    return declared(asked, found[0].name) if found is not None else None


def declared(asked: Asked, name: bytes) -> Json | None:
    file, unit = asked.grammar.declared.file, asked.document.text.unit
    if file is None:
        (file,) = located([asked.finder.named(asked.document.uri, *front(asked.document.data))[0]])
    wanted = re.compile(rb"<!ELEMENT\s+(" + re.escape(name) + rb")(?=[\s%])[^>]*>")
    told = asked.grammar.dtd.declaration(name.decode(errors="replace"))
    for each, data, plain in files_of(file, located) if file is not None else ():
        if places := [*wanted.finditer(UNREAD.sub(lambda it: b" " * len(it[0]), plain))]:
            # Of several, in sections that are read or aren't, the one that counts is known by its text, as `tools/flatten` writes it.
            place = next((it for it in places if told is not None and bare(it[0]) == bare(told.text.encode())), places[0])
            return {"uri": f"file://{urllib.parse.quote(each)}", "range": Text(data, unit).range(*place.span(1))}
    return None


def bare(declaration: bytes) -> bytes:
    """A declaration without blanks and brackets."""
    return re.sub(rb"[\s()]+", b"", declaration)


# ---- other uses, and the other tag ----

def references(asked: Asked, work: Work) -> list[Json]:
    """The elements of the same name in this document, and its declaration where that is wanted too."""
    document, found = asked.document, at_name(asked.document.tree, asked.offset)
    if found is None:
        return []
    context = asked.params.get("context")
    place = declared(asked, found[0].name) if isinstance(context, dict) and context.get("includeDeclaration") else None
    told = [place] if place is not None else []
    for item in ITEM.finditer(document.data):
        if item.lastindex == START and item[1] == found[0].name and len(told) < MOST:
            told.append({"uri": document.uri, "range": document.text.range(*item.span(1))})
    return told


def highlight(asked: Asked, work: Work) -> list[Json]:
    """Both tags of an element."""
    found = at_name(asked.document.tree, asked.offset)
    return [{"range": asked.document.text.range(*span), "kind": 1} for span in found[0].names()] if found else []


# ---- folding and selecting ----

def folding(asked: Asked, work: Work) -> list[Json]:
    """Elements and comments of several lines, the line of an end tag left to be seen; the outer ones where an editor
    takes no more."""
    data, text = asked.document.data, asked.document.text
    limit = asked.client.can("textDocument", "foldingRange", "rangeLimit")
    opened, found = list[tuple[bytes, int]](), list[tuple[int, Json]]()

    def put(start: int, last: int, kind: str) -> None:
        first = bisect_right(text.starts, start) - 1
        if last > first:
            found.append((len(opened), {"startLine": first, "endLine": last} | ({"kind": kind} if kind else {})))

    for item in ITEM.finditer(data):
        if item.lastindex == START and data[item.end() - 2] != SLASH:
            opened.append((item[1], item.start()))
        elif item.lastindex == END and any(name == item[2] for name, _ in opened[-5:]):
            while opened[-1][0] != item[2]:
                opened.pop()
            _, start = opened.pop()
            put(start, bisect_right(text.starts, item.start()) - 2, "")
        elif item.lastindex == MISC and item[0].startswith(b"<!--"):
            put(item.start(), bisect_right(text.starts, item.end()) - 1, "comment")
    if isinstance(limit, int) and len(found) > limit:
        found = sorted(found, key=lambda each: each[0])[: max(limit, 0)]
    return [each for _, each in found]


def selection(asked: Asked, work: Work) -> list[Json]:
    """Of each place the tag or text that it is in, then what is in the element, then the element, and so on."""
    document, places = asked.document, asked.params.get("positions")
    if not isinstance(places, list):
        raise Error(INVALID_PARAMS, "no list of positions")
    return [selected(document, document.text.offset(place)) for place in places]


def selected(document: Document, offset: int) -> Json:
    spans, node = list[tuple[int, int]](), document.tree.around(offset)
    tag = document.tree.tag(offset)
    if tag is not None and tag.start <= offset < tag.end:
        spans, node = [(tag.start, tag.end), (tag.element.start, tag.element.end)], tag.element.owner or node
    else:
        at = node.kid_at(offset)
        kid = node.kids[at] if at >= 0 else None
        spans = [(kid.start, kid.end)] if isinstance(kid, Leaf) and offset <= kid.end else []
    for each in (node, *node.owners()) if node.owner is not None else ():
        spans += [(each.inside, each.closes), (each.start, each.end)]
    # The inner ones, and at last the document.
    told: Json | None = None
    for start, end in reversed([*dict.fromkeys([*[*dict.fromkeys(spans)][:DEEPEST], (0, len(document.data))])]):
        told = {"range": document.text.range(start, end)} | ({"parent": told} if told is not None else {})
    assert told is not None
    return told


# ---- files ----

def links(asked: Asked, work: Work) -> list[Json]:
    """The files and addresses of a DTD that stand before the root element."""
    document, found, at = asked.document, list[Json](), 0
    data, folder = document.data, folder_of(document.uri)
    while (item := ITEM.match(data, at)) and item.lastindex not in (None, START):
        at = item.end()
        spans = [it.span(2) for form in (INSTRUCTION, MODEL) if (told := form.match(item[0]))
                 for it in PART.finditer(item[0], *told.span(1)) if it[1] in (b"dtd", b"href")]
        if doctype := DOCTYPE.match(item[0]):
            spans += [doctype.span(group) for group in ("system", "address") if doctype[group]]
        for start, end in spans:
            place = Named(unquoted(item[0][start:end]), "", folder)
            is_there = place.file is not None and os.path.isfile(place.file)
            target = f"file://{urllib.parse.quote(os.path.abspath(place.file))}" if is_there and place.file else place.system
            if is_there or "://" in target:
                first = item.start() + start + 1
                found.append({"range": document.text.range(first, item.start() + end - 1), "target": target})
    return found


ANSWERS: dict[str, Any] = {
    "textDocument/definition": definition,
    "textDocument/references": references,
    "textDocument/documentHighlight": highlight,
    "textDocument/foldingRange": folding,
    "textDocument/selectionRange": selection,
    "textDocument/documentLink": links,
}
PROVIDED = {
    "definitionProvider": True,
    "referencesProvider": True,
    "documentHighlightProvider": True,
    "foldingRangeProvider": True,
    "selectionRangeProvider": True,
    "documentLinkProvider": {},
}
