"""Lists whose numbers are known, which are too wide for a session, and how soon `pvlong` tells them."""
import os
from collections.abc import Callable

from lib.counting import need, same
from lib.search import write
from lib.wide_trial import Programs, judge

# The most seconds of a processor for one list of some seventy kids.
SOON = 5
# Lists that are too wide for a session, under names that hold themselves: a DTD, its root, the kids, and how many elements are missing.
OPERATIONS = "<!ELEMENT expr (num|(expr,op?,expr))><!ELEMENT num EMPTY><!ELEMENT op EMPTY>"
ROWS = [
    ("<!ELEMENT s (s?,w)><!ELEMENT w EMPTY>", "s", "<w/>" * 66, 65),
    ("<!ELEMENT x (y,x?)><!ELEMENT y EMPTY>", "x", "<y/>" * 66, 65),
    ("<!ELEMENT t ((t,t)?)>", "t", "<t/>" * 66, 64),
    (OPERATIONS, "expr", "<num/>" * 70, 138),
    (OPERATIONS, "expr", "<num/>" + "<op/><num/>" * 69, 138),
    ("<!ELEMENT a (b*)><!ELEMENT b (c|d)+><!ELEMENT c EMPTY><!ELEMENT d (e,c)><!ELEMENT e EMPTY>", "a", "<e/><c/><b><c/></b>" * 60, 120),
    # One missing element has 1,200 of the kids, and another one the others.
    ("<!ELEMENT r (x,y)><!ELEMENT x (s+)><!ELEMENT y (b+)><!ELEMENT s (a,a)><!ELEMENT a EMPTY><!ELEMENT b EMPTY>", "r", "<a/>" * 1_200 + "<b/>" * 900, 602),
]


def try_row(both: Programs, dtd: str, root: str, kids: str, least: int) -> None:
    write("row.dtd", dtd)
    text = f"<{root}>{kids}</{root}>"

    def judged() -> str:
        told = judge(both, "row.dtd", root, text)
        same((told.least, told.most), (least, least), "the number")
        return "exact"

    both.case("rows", judged, lambda: text)


def soon(both: Programs, what: str, tried: Callable[[], None]) -> None:
    """Tries something, and counts as a case that it took a few seconds of a processor at most."""
    before = os.times()
    tried()
    after = os.times()
    took = after.children_user + after.children_system - before.children_user - before.children_system
    both.case("rows", lambda: need(took <= SOON * both.times, f"{took:.1f} s of a processor") or "soon", lambda: what)


def try_again(both: Programs) -> None:
    """A wide list that stands in a document many times."""
    dtd = f"<!ELEMENT d (expr*)>{OPERATIONS}"
    soon(both, "one list many times", lambda: try_row(both, dtd, "d", f"<expr>{'<num/>' * 70}</expr>" * 300, 300 * 138))


def try_mixed(both: Programs) -> None:
    """A list of texts and names, of which few may stand where they do, under mixed contents with 150 names. It is told soon."""
    contents = {"m": (0, 1, 2), "p": (0, 1, 2), "e": (0, 1, 2)}
    contents.update((f"n{x}", sorted({(7 * x + y * y) % 150 for y in range(24)})) for x in range(150))
    models = "".join(f"<!ELEMENT {name} (#PCDATA|{'|'.join(f'n{y}' for y in kids)})*>" for name, kids in contents.items())
    kids = "".join(f"words <n{11 * x % 150}/>" for x in range(34))
    soon(both, "mixed contents", lambda: try_row(both, f"<!ELEMENT r ((m|p)*,e)>{models}", "r", kids, 16))


def try_heavy(both: Programs) -> None:
    """Lists that lack more than 1,000,000 elements: a session says so as well."""
    doubling = "".join(f"<!ELEMENT t{at} (t{at + 1}, t{at + 1})>" for at in range(20)) + "<!ELEMENT t20 EMPTY>"
    write("heavy.dtd", f"<!ELEMENT a (t20*, t0)>{doubling}")
    for root, kids in (("t0", 0), ("a", 10)):
        def judged(root=root, kids=kids) -> str:
            told = judge(both, "heavy.dtd", root, f"<{root}>{'<t20/>' * kids}</{root}>")
            same((told.line, both.session_need("heavy.dtd", root, "d.xml")), ("no heavy\n", "no heavy"), "what is said of it")
            return "heavy"

        both.case("heavy lists", judged, lambda root=root, kids=kids: f"{root}: {kids}")


def try_rows(both: Programs) -> None:
    """All of them."""
    for row in ROWS:
        try_row(both, *row)
    try_again(both)
    try_mixed(both)
    try_heavy(both)
