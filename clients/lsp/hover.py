"""Hover on a tag: what the DTD declares, what the list is, and what it still needs."""
from collections import Counter

from . import attributes
from .diagnostics import sentence_of
from .documents import Asked
from .grammar import Grammar
from .lists import Alone, kids_of
from .missing import missing_in
from .nodes import Element
from pvtag.session import Ended
from .text import Json
from .work import Work

# A declaration of more characters is cut, and a list in more bytes isn't judged by itself.
LONGEST, LARGEST = 600, 1_000_000


def hover(asked: Asked, work: Work) -> Json | None:
    document, grammar = asked.document, asked.grammar
    tag = document.tree.tag(asked.offset)
    if tag is None:
        return None
    formats = asked.client.can("textDocument", "hover", "contentFormat")
    is_plain = isinstance(formats, list) and "markdown" not in formats
    name = tag.element.label
    if tag.start == tag.element.start and (found := attributes.hover(asked, name, tag.start, tag.end)):
        return {"contents": {"kind": "plaintext" if is_plain else "markdown", "value": found["value"]}, "range": found["range"]}
    parts = [
        declared(grammar, name, is_plain),
        attributes.listed(grammar, work, name),
        told(asked, grammar, tag.element, work) if name in grammar.dtd.types else "",
    ]
    text = "\n\n".join(part for part in parts if part)
    return {
        "contents": {"kind": "plaintext" if is_plain else "markdown", "value": text},
        "range": document.text.range(tag.start, tag.end),
    }


def declared(grammar: Grammar, name: str, is_plain: bool) -> str:
    """The declaration as its author wrote it."""
    if name not in grammar.dtd.types:
        near = grammar.dtd.nearest(name)
        return f"`{name}` isn't declared." + (
            f" Near it are {', '.join(f'`{each}`' for each in near)}." if near else ""
        )
    found = grammar.dtd.declaration(name)
    if found is None:
        return ""
    text = found.text if len(found.text) <= LONGEST else found.text[:LONGEST] + "…"
    return text if is_plain else f"```dtd\n{text}\n```"


def told(asked: Asked, grammar: Grammar, element: Element, work: Work) -> str:
    """The verdict of an element's list, and what it still needs."""
    if element.closes - element.inside > LARGEST:
        return "Its list is too long to be judged by itself here; the diagnostics have its verdict."
    kids = kids_of(element, asked.document.data)
    alone = Alone(element.label, kids)
    verdict = verdict_of(alone, grammar, work)
    if verdict == "valid":
        return "What it holds is valid, as far as its own kids go."
    if verdict == "impossible":
        reason = work.reason(grammar, "0", element.label, kids)
        return sentence_of(reason, element, asked.document) if reason else "Nothing that is inserted makes it valid."
    if verdict == "possible":
        return needed(missing_in(alone, grammar, work))
    return ""


def verdict_of(alone: Alone, grammar: Grammar, work: Work) -> str:
    """Of the list alone, "" where there is none."""
    try:
        with work.session(grammar, alone.root(grammar), alone.data) as session:
            rows = session.verdicts()
    except Ended:
        return ""
    return next((row.verdict for row in rows if row.path == "0"), "") if isinstance(rows, list) else ""


def needed(names: list[str] | None) -> str:
    if not names:
        return "Not valid yet."
    counted = [f"`{name}`" if count == 1 else f"`{name}` {count} times" for name, count in Counter(names).items()]
    missing = "1 element is missing" if len(names) == 1 else f"{len(names)} elements are missing"
    return f"Not valid yet: {missing} in it, as {', '.join(counted)}."
