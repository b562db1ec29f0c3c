"""The page of `clients/annotate`: what it draws of a document, after moves and of a large one. Cases of
`annotate.py`."""
import itertools
import random

from .browser import Page
from .fixture import ARTICLE, Server, need, soon
from selenium.webdriver.common.keys import Keys

# The page's tree, as the program tells one; and the boxes without what passes by.
TREE = """
return import('./app.js').then(({ app }) => {
    const depth = (node) => node.owner ? depth(node.owner) + 1 : 0
    return [...app.tree.all()].slice(1).map((node) => [node.id, depth(node), node.kind, node.name ?? node.text, Object.entries(node.refs ?? {}), node.verdict ?? 'valid'])
})
"""
BOXES = """
const copy = document.getElementById('document').cloneNode(true)
for (const node of copy.querySelectorAll('*')) {
    node.removeAttribute('style')
    node.classList.remove('made', 'chosen')
}
return copy.innerHTML
"""


def tree_told(server):
    rows = server.ask("state")["tree"]
    return [[row["id"], row["depth"], row["kind"], row.get("name", row.get("text")), [list(ref) for ref in row.get("refs", {}).items()],
             row.get("verdict", "valid")] for row in rows]


def told_short(row):
    return [f"{word[:30]}.. of {len(word)}" if isinstance(word, str) and len(word) > 30 else word for word in row or []]


def random_move(server):
    state = server.ask("state")
    rows, version = state["tree"], {"version": state["version"]}
    kind = random.choice(["wrap"] * 6 + ["insert", "insert", "unwrap", "rename", "undo", "undo", "redo"])
    if kind in ("undo", "redo"):
        return server.ask(kind, version)
    name = random.choice(["sec", "p", "em", "br", "title", "list", "item"])
    node = random.choice([row for row in rows if row["kind"] == "element"])
    if kind in ("unwrap", "rename"):
        return server.ask("move", {**version, "kind": kind, "node": node["id"], "name": name})
    at = rows.index(node)
    kids = []
    for row in rows[at + 1:]:
        if row["depth"] <= node["depth"]:
            break
        kids += [row] if row["depth"] == node["depth"] + 1 else []
    if not kids:
        return None
    ends = sorted((at, random.randint(0, len(kid["text"]) if kid["kind"] == "text" else 1)) for at, kid in random.choices(list(enumerate(kids)), k=2))
    start, end = ([kids[at]["id"], unit] for at, unit in (ends if kind == "wrap" else ends[:1] * 2))
    return server.ask("move", {**version, "kind": kind, "place": {"list": node["id"], "from": start, "to": end}, "name": name})


def draws_what_changed(driver, program):
    """After random moves the page has the tree that the program has, and its boxes are those of a page that is loaded
    anew."""
    text = "<doc><head>Head</head>" + "".join(f"Some text {k} &amp; more 𐀀 of it, " + ("long " * 1500 if k == 3 else "") for k in range(5)) + "</doc>"
    with Server(program, text, ARTICLE, "doc") as server:
        page = Page(driver, server.url)
        for _ in range(8):
            for _ in range(12):
                random_move(server)
            page.js("return import('./app.js').then((page) => page.catchUp())")
            for got, want in itertools.zip_longest(page.js(TREE), tree_told(server)):
                need(got == want, f"a node: {told_short(got)} for {told_short(want)}")
            page.rest()
            boxes = page.js(BOXES)
            page = Page(driver, server.url)
            soon(lambda: page.js(BOXES) == boxes, True, f"the boxes: {page.written()!r}")
        need(page.moves() > 5, "some moves were made")


def draws_what_is_seen(driver, program):
    """Of a document of some 100,000 nodes; its times are told by a measure."""
    sections = "".join(f"<sec><title>Section {k}</title><p>Text of section {k}, <em>with</em> emphasis.</p></sec>" for k in range(12500))
    with Server(program, f"<doc><head>Big</head>{sections}</doc>", ARTICLE, "doc") as server:
        page = Page(driver, server.url)
        need(page.drawn() < 5000, f"what is seen is drawn, and not all: {page.drawn()}")
        page.wrap("em", "section 2,")
        page.keys(Keys.CONTROL, "z")
        soon(page.moves, 0, "undo")
        need(page.drawn() < 5000, f"a move and its undo draw no more: {page.drawn()}")
        page.js("const all = document.getElementById('document'); all.scrollTop = all.scrollHeight / 2")
        soon(lambda: len([text for text in page.texts("#document .text") if text.startswith("Section")]), lambda count: count > 10, "the middle is drawn")
        page.js("const all = document.getElementById('document'); all.scrollTop = all.scrollHeight")
        soon(lambda: page.texts("#document .text")[-3:-2], ["Text of section 12499, "], "so is the end")
        soon(page.drawn, lambda drawn: drawn < 5000, "and what is out of sight isn't any more")


CASES = [draws_what_changed, draws_what_is_seen]
