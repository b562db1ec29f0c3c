"""Puts a table into a page of docs, between the comments `<!-- NAME -->` and `<!-- end of NAME -->`, each a line of its own."""
import textwrap

WIDTH = 120


def fitted(line):
    """A line of prose in lines of a page's width; a table's row as it is."""
    if line.startswith("|") or len(line) <= WIDTH:
        return [line]
    return textwrap.wrap(line, WIDTH, break_long_words=False, break_on_hyphens=False)


def put(top, name, lines, page="SPEED.md"):
    """Replaces what stands between the comments of this name by these lines."""
    path = f"{top}/docs/{page}"
    with open(path, encoding="utf-8") as file:
        text = file.read()
    begin, end = f"<!-- {name} -->\n", f"<!-- end of {name} -->\n"
    before, found, rest = text.partition(begin)
    _, closed, after = rest.partition(end)
    if not found or not closed:
        raise SystemExit(f"{path} has no lines {begin.strip()} and {end.strip()}")
    with open(path, "w", encoding="utf-8") as file:
        file.write(before + begin + "\n".join(part for line in lines for part in fitted(line)) + "\n" + end + after)
