"""A report as one HTML page: counts, and a table that can be sorted. It asks for nothing from the network."""
import html
import os
import urllib.parse
from collections import Counter
from collections.abc import Callable, Iterable, Iterator

from .rows import Head, Row, shown
from .summary import documents

TITLES = (("Document", "text"), ("DTD", "text"), ("Bytes", "number"), ("Verdict", "text"), ("Open", "number"), ("Missing", "number"), ("Place", "place"),
          ("What stands there", "text"), ("Seconds", "number"), ("Attributes", "text"), ("Faults", "number"))
STYLE = """
:root { color-scheme: light dark; }
body { font: 15px/1.45 system-ui, sans-serif; margin: 1.5rem; }
table { border-collapse: collapse; width: 100%; }
th, td { padding: .25rem .6rem; text-align: left; vertical-align: top; border-bottom: 1px solid #8886; }
th button { font: inherit; font-weight: 600; border: 0; background: none; color: inherit; padding: 0; cursor: pointer; }
th[aria-sort=ascending] button::after { content: " \\2191"; }
th[aria-sort=descending] button::after { content: " \\2193"; }
td.number { text-align: right; font-variant-numeric: tabular-nums; }
td.path { overflow-wrap: anywhere; min-width: min(14rem, 30vw); }
.valid { color: light-dark(#14632e, #7ddc9a); }
.possible { color: light-dark(#7a4d00, #f0c060); }
.impossible, .invalid, .refused, .unreadable, .failed, .no-dtd { color: light-dark(#a01818, #ff9a9a); }
@media (max-width: 40rem) { body { margin: .5rem; } th, td { padding: .2rem .3rem; } }
"""
SCRIPT = """
const body = document.querySelector("tbody");
const value = (row, at, kind) => {
  const text = row.cells[at].textContent;
  if (kind === "text") return text;
  const [line, column] = text === "" ? [-1] : text.split(":").map(parseFloat);
  return kind === "place" ? line * 2 ** 27 + (column ?? 0) : line;
};
document.querySelectorAll("th button").forEach((button, at) => button.addEventListener("click", () => {
  const head = button.parentElement;
  const down = head.getAttribute("aria-sort") === "ascending";
  document.querySelectorAll("th").forEach((other) => other.removeAttribute("aria-sort"));
  head.setAttribute("aria-sort", down ? "descending" : "ascending");
  const rows = [...body.rows].map((row) => [value(row, at, head.dataset.kind), row]);
  rows.sort(([one], [other]) => (one < other ? -1 : one > other ? 1 : 0) * (down ? -1 : 1));
  const sorted = document.createDocumentFragment();
  rows.forEach(([, row]) => sorted.append(row));
  body.append(sorted);
}));
"""


def parts(head: Head, rows: Callable[[], Iterable[Row]], folder: str = ".") -> Iterator[str]:
    """The page piece by piece, with links as from a file in this folder; the rows are gone over twice, so that none of them is kept."""
    counts, missing, is_exact, attributes, faults = Counter[str](), 0, True, Counter[str | None](), 0
    for row in rows():
        counts[row.verdict] += 1
        missing += row.missing or 0
        attributes[row.attributes] += 1
        faults += row.faults or 0
        is_exact = is_exact and (row.verdict != "possible" or row.missing is not None and not row.range)
    told = ", ".join(f"{count} {verdict}" for verdict, count in counts.most_common()) or "no documents"
    yield "<!DOCTYPE html>\n<html lang=en><meta charset=utf-8><meta name=viewport content='width=device-width'><title>Report</title>"
    yield f"<style>{STYLE}</style>\n<h1>{documents(sum(counts.values()))}</h1>\n<p>{told}"
    yield f"; elements that are missing: {'' if is_exact else 'at least '}{missing}" if head.need else ""
    yield f"; {attributes_in_words(head, attributes, faults)}. Elements are the proved program's part, attributes libxml2's"
    yield f". {'By the DTDs that the documents name' if head.by_doctype else f'Root: <code>{html.escape(head.root)}</code>'}.</p>\n<table><thead><tr>"
    yield "".join(f"<th scope=col data-kind={kind}><button type=button>{title}</button></th>" for title, kind in TITLES)
    yield "</tr></thead>\n<tbody>\n"
    for row in rows():
        yield row_of(row, folder)
    yield f"</tbody></table>\n<script>{SCRIPT}</script>\n</html>\n"


def attributes_in_words(head: Head, attributes: Counter[str | None], faults: int) -> str:
    """How many documents have attributes that are missing or wrong."""
    if not head.attributes:
        return "attributes weren't looked at"
    invalid, valid = attributes["invalid"], attributes["valid"]
    return f"attributes: {valid} valid, {documents(invalid)} with {faults} missing or wrong" if invalid else f"attributes: {valid} valid"


def link_to(path: str, folder: str) -> str:
    """The address of a file as from another in a folder; `./` keeps a `:` in the name from being that of a scheme."""
    return "./" + urllib.parse.quote(os.fsencode(os.path.relpath(path, folder)))


def row_of(row: Row, folder: str) -> str:
    place = "" if row.line is None else f"{row.line}:{row.column}"
    dtd = f"{row.dtd} ({row.root})" if row.dtd is not None else ""
    link = f'<a href="{link_to(row.path, folder)}">{html.escape(shown(row.path))}</a>'
    cells = [f"<td class=path>{link}", f"<td>{html.escape(shown(dtd))}", number(row.size), f"<td class={row.verdict}>{row.verdict}", number(row.open),
             number(row.range or row.missing), f"<td>{place}", f"<td>{html.escape(shown(row.sentence or ''))}", number(row.seconds),
             f"<td class={row.attributes or 'none'}>{row.attributes or ''}", number(row.faults)]
    return "<tr>" + "".join(cells) + "\n"


def number(value: float | str | None) -> str:
    return f"<td class=number>{'' if value is None else value}"
