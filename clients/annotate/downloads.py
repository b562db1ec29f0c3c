"""The document in other forms: its source, what has changed of it since it was saved, its ranges, a page of HTML, and a table of the
names in it.

The ranges are those of `clients/ranges`. Nothing is written: the page gets them, and hands them to who asked.
"""
import csv
import difflib
import html
import io
import os
import re
import subprocess
import sys
from collections import Counter
from collections.abc import Callable, Iterator
from typing import Any

from .editor import Editor
from .files import read
from pvtag.document import CDATA, ELEMENT, TEXT, Document, Node, Told, shown
from pvtag.program import Trouble, file_of
from .values import text_of

RANGES = os.path.join(os.path.dirname(os.path.dirname(os.path.abspath(__file__))), "ranges")
# So many seconds the ranges may take; so many characters of a source are shown, and so many pieces of it compared.
SECONDS, MOST, PIECES = 60.0, 1 << 20, 40_000
# So many characters are shown beside what has changed.
BESIDE = 60
PIECE = re.compile(r"<[^>]*>|[^<\s]+|\s+")
STYLE = ("body{font:17px/1.6 Georgia,serif;max-width:45rem;margin:2rem auto;padding:0 1rem}span[title]{border-bottom:1px dotted #888}"
         "div,p{margin:.5rem 0}")


class Downloads:
    def __init__(self, editor: Editor, title: str) -> None:
        self.editor, self.title = editor, title

    def source(self, _: Any) -> Told:
        """The document as Save would write it, as far as that is shown."""
        text = self.editor.whole_source().decode()
        return {"text": text[:MOST], "more": len(text) > MOST}

    def changes(self, _: Any) -> Told:
        """What would be written that isn't in the file: pieces that are as they were, new or gone, with what stands beside them."""
        now = self.editor.whole_source().decode()
        before = (read(self.editor.script.document) or b"").decode(errors="replace")
        one, other = PIECE.findall(before), PIECE.findall(now)
        if max(len(one), len(other)) > PIECES:
            raise Trouble("the document is too long to show what has changed in it; History lists the moves")
        return {"changes": list(shortened(compared(one, other)))}

    def download(self, ask: Any) -> Told:
        """A file of this kind: its name, its type and its text."""
        kind = ask["kind"]
        name, _ = os.path.splitext(self.title)
        if kind == "ranges":
            return {"name": f"{name}.ranges", "type": "text/plain", "text": self.ranges()}
        with self.editor.lock:
            document = self.editor.document
            if kind == "html":
                return {"name": f"{name}.html", "type": "text/html", "text": page_of(document, self.title, self.editor.as_read)}
            if kind == "names":
                return {"name": f"{name}-names.csv", "type": "text/csv", "text": table_of(document, self.editor.as_read)}
            return {"name": self.title, "type": "application/xml", "text": self.editor.whole_source().decode()}

    def ranges(self) -> str:
        """A line for each element, by `clients/ranges`, which says of some documents that they hold more than ranges tell."""
        with file_of(self.editor.whole_source()) as path:
            words = [sys.executable, RANGES, "--program", self.editor.program[-1], path]
            try:
                ran = subprocess.run(words, capture_output=True, timeout=SECONDS, check=False)
            except subprocess.TimeoutExpired:
                raise Trouble("the ranges take too long") from None
        if ran.returncode not in (0, 1):
            raise Trouble(f"no ranges: {ran.stderr.decode(errors='replace').strip()}")
        return ran.stdout.decode()


def compared(one: list[str], other: list[str]) -> Iterator[tuple[str, str]]:
    """Stretches of two texts that are in both, in the first alone, or in the second. Pieces that are frequent, as blanks are, are compared
    beside others alone: among themselves they would take hours."""
    for kind, start, end, first, last in difflib.SequenceMatcher(None, one, other).get_opcodes():
        if kind == "equal":
            yield "", "".join(one[start:end])
            continue
        if start < end:
            yield "gone", "".join(one[start:end])
        if first < last:
            yield "new", "".join(other[first:last])


def shortened(stretches: Iterator[tuple[str, str]]) -> Iterator[tuple[str, str]]:
    """These stretches, but of what is in both only what stands beside the rest."""
    rows = list(stretches)
    if all(not kind for kind, _ in rows):
        return
    for at, (kind, text) in enumerate(rows):
        if kind or len(text) <= 2 * BESIDE:
            yield kind, text
            continue
        yield "", ("" if at == 0 else text[:BESIDE]) + " … " + ("" if at == len(rows) - 1 else text[-BESIDE:])


def page_of(document: Document, title: str, as_read: Callable[[str], str]) -> str:
    """The document as a page of HTML: an element with text in it is a paragraph, one in a text a part of it, others are divisions. Their
    names are classes; an entity is shown by its name."""
    out, root = list[str](), document.top.kids[0]
    todo: list[tuple[Node, bool] | str] = [(root, False)]
    while todo:
        item = todo.pop()
        if isinstance(item, str):
            out.append(item)
            continue
        node, is_inside = item
        if node.kind == TEXT:
            out.append(html.escape(as_read("".join(map(shown, node.units))), quote=False))
        elif node.kind == CDATA:
            out.append(html.escape(node.source[9:-3], quote=False))
        elif node.kind == ELEMENT:
            has_text = any(kid.kind == CDATA or kid.kind == TEXT and not kid.is_white for kid in node.kids)
            tag = "span" if is_inside else "p" if has_text else "div"
            told = f' title="{html.escape(f"{node.name}{as_read(node.attrs)}".strip())}"' if is_inside or node.attrs.strip() else ""
            out.append(f'<{tag} class="{html.escape(node.name)}"{told}>')
            todo.append(f"</{tag}>" + ("" if is_inside else "\n"))
            todo.extend((kid, is_inside or has_text) for kid in reversed(node.kids))
    return (f'<!DOCTYPE html>\n<html lang="">\n<meta charset="utf-8">\n<title>{html.escape(title)}</title>\n<style>{STYLE}</style>\n'
            f"<body>\n{''.join(out)}</body>\n</html>\n")


def table_of(document: Document, as_read: Callable[[str], str]) -> str:
    """A table, in CSV, of the elements that stand in a text and hold no others: each name with its words and its attributes, and how
    often it stands there."""
    counts = Counter[tuple[str, str, str]]()
    for node in document.elements():
        if node.owner is None or node.owner.owner is None or any(kid.kind == ELEMENT for kid in node.kids):
            continue
        if any(kid.kind == TEXT and not kid.is_white for kid in node.owner.kids) and (words := text_of(node)):
            counts[node.name, as_read(words), as_read(node.attrs).strip()] += 1
    out = io.StringIO()
    writer = csv.writer(out, lineterminator="\n")
    writer.writerow(["element", "words", "attributes", "count"])
    writer.writerows([*row, count] for row, count in sorted(counts.items()))
    return out.getvalue()
