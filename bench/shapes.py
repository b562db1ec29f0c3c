"""The shapes that a hostile author would try: DTDs, documents, scripts, ranges, packs and denials that cost much for their size. `worst.py` measures
each command on them, and `tests/worst.py` holds what it took against bounds.

A shape is made in a size, and in ten times that size. Its document may be as wide, deep, long or many-named as the limits of `docs/FORMATS.md` let
it be; where the size isn't told in bytes, what is counted stands beside it.
"""
from collections.abc import Callable, Iterator
from pathlib import Path
from typing import NamedTuple

ANY = "<!ELEMENT a ANY><!ELEMENT b EMPTY>"
TEXT = "<!ELEMENT a (#PCDATA)>"
ARTICLE = Path(__file__).resolve().parent.parent / "examples" / "article.dtd"
MB = 1_000_000


class Doc(NamedTuple):
    """A DTD, a root and a document."""
    dtd: str
    root: str
    text: str


class Shape(NamedTuple):
    """What is run: a command, or a session with a script; on what, in how many of which unit; what else it is given, which may be made of the
    document's by another command; the most addresses in MB, where there is a limit on them; and how many seconds `pvlong` looks for bounds, where
    that is told."""
    command: str
    title: str
    size: int
    unit: str
    made: Callable[[int], Doc]
    script: Callable[[int], str] | None = None
    files: Callable[[int], list[str]] | None = None
    by: str = ""
    changed: Callable[[bytes, int], bytes] | None = None
    addresses: int | None = None
    seconds: int | None = None

    @property
    def name(self) -> str:
        return f"{self.command}, {self.title}"

    @property
    def program(self) -> str:
        """Which program is run."""
        return "pvlong" if self.command.startswith("`pvlong ") else "pvtag"


def on(commands: str, title: str, size: int, unit: str, made: Callable[[int], Doc]) -> Iterator[Shape]:
    """The same under several commands; `need`, `complete` and the like are those of a session where they stand after a colon."""
    for command in commands.split():
        name, _, line = command.partition(":")
        told = f"a session's `{line}`" if line else f"`{name}`" if name != "session" else "an opening"
        yield Shape(told, title, size, unit, made, (lambda _, line=line: f"{line}\n") if line else None)


def wide(kid: str, dtd: str = ANY) -> Callable[[int], Doc]:
    return lambda size: Doc(dtd, "a", f"<a>{kid * size}</a>")


def lists(kids: str, dtd: str) -> Callable[[int], Doc]:
    """So many lists with these kids, below one root."""
    return lambda size: Doc(f"<!ELEMENT r (a*)>{dtd}", "r", f"<r>{f'<a>{kids}</a>' * size}</r>")


# ---- documents ----

LEFT = "<!ELEMENT a (b, c?)><!ELEMENT b (a?)><!ELEMENT c EMPTY>"
RIGHT = "<!ELEMENT a (c?, b)><!ELEMENT b (a?)><!ELEMENT c EMPTY>"
MIDDLE = "<!ELEMENT a (c?, b?, c?)><!ELEMENT b (a)><!ELEMENT c EMPTY>"
ROW = "<!ELEMENT a (b, c)*><!ELEMENT b EMPTY><!ELEMENT c EMPTY>"


def through_a_chain(size: int) -> Doc:
    """Left recursion through a hundred names."""
    names = "".join(f"<!ELEMENT d{at} (d{at + 1})>" for at in range(100))
    return Doc(f"<!ELEMENT a (d0, c?)>{names}<!ELEMENT d100 (a?)><!ELEMENT c EMPTY>", "a", f"<a>{'<c/>' * size}</a>")


def nested_stars(size: int) -> Doc:
    return Doc(f"<!ELEMENT a {'(' * 60}b{'*)' * 59}*)*><!ELEMENT b EMPTY>", "a", f"<a>{'<b/>' * size}</a>")


def towers(size: int) -> Doc:
    return Doc("<!ELEMENT a (a*)>", "a", f"<a>{('<a>' * 511 + '</a>' * 511) * size}</a>")


def unknown_names(size: int) -> Doc:
    return Doc(ANY, "a", "<a>" + "".join(f"<x{at}/>" for at in range(size)) + "</a>")


def long_names(size: int) -> Doc:
    """Names of 256 bytes that differ in the last ones."""
    names = ["n" * 250 + f"{at:06}" for at in range(1000)]
    declared = "".join(f"<!ELEMENT {name} EMPTY>" for name in names)
    return Doc(f"<!ELEMENT a ANY>{declared}", "a", "<a>" + "".join(f"<{names[at % 1000]}/>" for at in range(size)) + "</a>")


def broken_at_its_end(size: int) -> Doc:
    return Doc(ANY, "a", f"<a>{'<b/>' * size}</b>")


def of_documents() -> Iterator[Shape]:
    plain = "valid check session"
    yield from on(plain, "a wide list, ANY", 100_000, "kids", wide("<b/>"))
    yield from on("valid check session session:need", "a wide list, (b or c)*", 100_000, "kids", wide("<b/>", "<!ELEMENT a (b|c)*><!ELEMENT b EMPTY><!ELEMENT c EMPTY>"))
    yield from on("check session", "every other kid missing, (b, c)*", 20_000, "kids", wide("<b/>", ROW))
    for title, dtd in (("left recursion", LEFT), ("right recursion", RIGHT), ("recursion in the middle", MIDDLE)):
        yield from on("check session", title, 20_000, "kids", wide("<c/>", dtd))
    yield from on("check", "left recursion through 100 names", 5_000, "kids", through_a_chain)
    yield from on("valid check", "60 nested stars", 20_000, "kids", nested_stars)
    yield from on(plain, "towers of 511 elements", 200, "towers", towers)
    yield from on(plain, "texts beside comments", 100_000, "texts", wide("x<!---->", TEXT))
    yield from on(plain, "a text of references", 200_000, "references", wide("&amp;", TEXT))
    yield from on(plain, "CDATA sections", 100_000, "sections", wide("<![CDATA[]]>", TEXT))
    yield from on(plain, "comments", 200_000, "comments", wide("<!---->"))
    yield from on(plain, "attributes of one element", 200_000, "attributes", lambda size: Doc(ANY, "a", "<a" + " b=''" * size + "/>"))
    yield from on(plain, "one attribute", 2 * MB, "bytes", lambda size: Doc(ANY, "a", f"<a b='{'x' * size}'/>"))
    yield from on("valid check", "names that aren't declared", 50_000, "names", unknown_names)
    yield from on("valid check", "names of 256 bytes", 5_000, "kids", long_names)
    yield from on("valid check", "a fault at the end", 100_000, "kids", broken_at_its_end)
    yield from on("check session session:need", "short lists, one kid missing in each", 2_000, "lists", lists("<b/>", ROW.replace(")*", ")")))
    yield Shape("`check`", "18 MB, 600 MB of addresses allowed", 40_000, "kids", wide("<b>" + "x" * 38 + "</b>", "<!ELEMENT a (b*)><!ELEMENT b (#PCDATA)>"),
                addresses=600)


# ---- content models and names ----

def names_of(size: int, first: str = "n") -> list[str]:
    return [f"{first}{at}" for at in range(size)]


def chain(size: int, turned: bool = False, times: int = 1, last: str = "EMPTY") -> str:
    """Names each of which is declared to hold the next, in this order or from the last one."""
    lines = [f"<!ELEMENT n{at} ({', '.join([f'n{at + 1}', *[f'n{at + 1}?'] * (times - 1)])})>" for at in range(size - 1)]
    lines.append(f"<!ELEMENT n{size - 1} {last}>")
    return "".join(reversed(lines) if turned else lines)


def chained(turned: bool = False, times: int = 1) -> Callable[[int], Doc]:
    return lambda size: Doc(chain(size, turned, times), "n0", "<n0/>")


def below_a_choice(turned: bool = False, times: int = 1) -> Callable[[int], Doc]:
    def made(size: int) -> Doc:
        return Doc(f"<!ELEMENT big ({'|'.join(names_of(size))})>{chain(size, turned, times)}", "big", "<big/>")
    return made


def chain_with_kids(turned: bool) -> Callable[[int], Doc]:
    """A chain of names, at whose end stands what the document has fifty of."""
    def made(size: int) -> Doc:
        return Doc(f"{chain(size, turned, 1, '(b, c)*')}<!ELEMENT b EMPTY><!ELEMENT c EMPTY>", "n0", f"<n0>{'<b/>' * 50}</n0>")
    return made


def mixed(size: int) -> Doc:
    names = names_of(size)
    declared = "".join(f"<!ELEMENT {name} EMPTY>" for name in names)
    return Doc(f"<!ELEMENT a (#PCDATA|{'|'.join(names)})*>{declared}", "a", f"<a>{f'<{names[-1]}/>' * size}</a>")


def in_order(size: int) -> Doc:
    """A sequence of optional names, and a kid of each."""
    names = names_of(size)
    declared = "".join(f"<!ELEMENT {name} EMPTY>" for name in names)
    return Doc(f"<!ELEMENT a ({', '.join(f'{name}?' for name in names)})>{declared}", "a", "<a>" + "".join(f"<{name}/>" for name in names) + "</a>")


def same_in_order(size: int) -> Doc:
    """A model that isn't deterministic: one optional name again and again, and as many kids."""
    return Doc(f"<!ELEMENT a ({', '.join(['b?'] * size)})><!ELEMENT b EMPTY>", "a", f"<a>{'<b/>' * size}</a>")


def after_a_star(size: int) -> Doc:
    """A model whose deterministic form is exponential: a b, and so many of either after it."""
    rest = ", (b|c)" * size
    return Doc(f"<!ELEMENT a ((b|c)*, b{rest})><!ELEMENT b EMPTY><!ELEMENT c EMPTY>", "a", f"<a>{'<b/><c/>' * size}</a>")


def each_with_all(size: int) -> Doc:
    """Names each of which may hold sixty others."""
    some = "|".join(names_of(60))
    return Doc("".join(f"<!ELEMENT n{at} ({some})*>" for at in range(size)), "n0", f"<n0>{''.join(f'<n{at % 60}/>' for at in range(size))}</n0>")


def round_and_round(size: int) -> Doc:
    """Names each of which needs the next, in a circle: none has a finite tree."""
    return Doc("<!ELEMENT a ANY>" + "".join(f"<!ELEMENT n{at} (n{(at + 1) % size})>" for at in range(size)), "a", "<a/>")


def own_names(size: int) -> Doc:
    """As many lists as names, each of another name."""
    declared = "".join(f"<!ELEMENT n{at} (b, c)><!ELEMENT m{at} EMPTY>" for at in range(size // 2))
    return Doc(f"<!ELEMENT a ANY><!ELEMENT b EMPTY><!ELEMENT c EMPTY>{declared}", "a", "<a>" + "".join(f"<n{at}><b/></n{at}>" for at in range(size // 2)) + "</a>")


def under_a_large_model(size: int) -> Doc:
    """Lists of one kid under a model of 32,001 parts, of which a kid is missing."""
    return lists("<b/>", f"<!ELEMENT a (b, c, {', '.join(['b?'] * 16_000)})><!ELEMENT b EMPTY><!ELEMENT c EMPTY>")(size)


def under_many_optional(size: int) -> Doc:
    """Lists of one kid under one optional name 32,701 times: the kid may stand at each place."""
    return lists("<b/>", f"<!ELEMENT a ({', '.join(['b?'] * 32_701)})><!ELEMENT b EMPTY>")(size)


def in_a_ring(size: int) -> Doc:
    """Names each of which may hold the next, in a circle, and a list of each that is possible by it."""
    declared = "".join(f"<!ELEMENT n{at} (n{(at + 1) % size}?, c?)>" for at in range(size))
    return Doc(f"<!ELEMENT a ANY><!ELEMENT c EMPTY>{declared}", "a", "<a>" + "".join(f"<n{at}><c/><c/></n{at}>" for at in range(size)) + "</a>")


def any_of_many(kids: int) -> Callable[[int], Doc]:
    """Names with content ANY, and a list that lacks one."""
    return lambda size: Doc("<!ELEMENT a (b, c)>" + "".join(f"<!ELEMENT n{at} ANY>" for at in range(size)) + "<!ELEMENT b ANY><!ELEMENT c EMPTY>", "a",
                            f"<a>{'<n0/>' * kids}</a>")


def doubling(size: int) -> Doc:
    """Names each of which needs two of the next."""
    return Doc("".join(f"<!ELEMENT t{at} (t{at + 1}, t{at + 1})>" for at in range(size)) + f"<!ELEMENT t{size} EMPTY>", "t0", "<t0/>")


def of_models() -> Iterator[Shape]:
    for turned, order in ((False, "from the top"), (True, "from the end")):
        yield from on("dtd check session:need", f"a chain of names, declared {order}", 400, "names", chained(turned))
        yield from on("dtd check session:need", f"a chain below a choice of all, declared {order}", 400, "names", below_a_choice(turned))
        yield from on("session:need session:complete", f"50 kids at the end of a chain, declared {order}", 40, "names", chain_with_kids(turned))
    yield from on("check", "a chain below a choice, each name mentioned 14 times", 180, "names", below_a_choice(False, 14))
    yield from on("valid check", "a mixed model of names, a list of the last", 400, "names and kids", mixed)
    yield from on("valid check", "optional names in order, one of each", 400, "names and kids", in_order)
    yield from on("valid check", "one optional name again and again", 300, "parts and kids", same_in_order)
    yield from on("valid check", "a name, and many of two after it", 200, "parts and kids", after_a_star)
    yield from on("dtd check session:need", "names that may hold 60 others", 100, "names", each_with_all)
    yield from on("dtd check", "names in a circle", 400, "names", round_and_round)
    yield from on("check session:need", "a list of each of many names", 400, "names and lists", own_names)
    yield from on("valid check", "short lists under a model of 32,001 parts", 10, "lists", under_a_large_model)
    yield from on("check", "lists of one kid under 32,701 optional parts", 1_000, "lists", under_many_optional)
    yield from on("check", "a possible list of each name of a ring", 100, "names and lists", in_a_ring)
    yield from on("session:need", "30 kids under names with content ANY", 20, "names", any_of_many(30))
    yield from on("dtd session:need", "names each of which needs two of the next", 400, "names", doubling)


# ---- DTDs ----

def dtd_only(text: Callable[[int], str]) -> Callable[[int], Doc]:
    return lambda size: Doc(text(size), "a", "<a/>")


def of_dtds() -> Iterator[Shape]:
    for title, size, unit, text in (
        ("comments", 50_000, "comments", lambda size: "<!---->" * size),
        ("declarations that are skipped", 30_000, "declarations", lambda size: "<!ATTLIST a>" * size),
        ("types", 400, "types", lambda size: "".join(f"<!ELEMENT {name} EMPTY>" for name in names_of(size))),
        ("parts of one model", 6_500, "parts", lambda size: f"<!ELEMENT a ({'|'.join(names_of(size))})>"),
        ("names of a mixed model", 6_500, "names", lambda size: f"<!ELEMENT a (#PCDATA|{'|'.join(names_of(size))})*>"),
        ("nested groups", 100, "models of 60 groups", lambda size: "".join(f"<!ELEMENT n{at} {'(' * 60}b{')' * 60}>" for at in range(size))),
        ("references to one entity", 6_000, "references", lambda size: "<!ENTITY % e '<!-- -->'>" + "%e;" * size),
        ("nested entities", 6_000, "entities", lambda size: "<!ENTITY % e0 ''>" + "".join(
            f"<!ENTITY % e{at} '&#37;e{at - 1};'>" for at in range(1, size)) + f"%e{size - 1};"),
        ("many entities, the last one used", 3_000, "entities and references", lambda size: "".join(
            f"<!ENTITY % e{at} ''>" for at in range(size)) + f"%e{size - 1};" * size),
        ("an entity's text put in place", MB, "bytes", lambda size: f"<!ENTITY % e '{'x' * 1000}'><!ENTITY % f '<!--%e;-->'>" + "%f;" * (size // 1000)),
    ):
        yield Shape("`dtd`", title, size, unit, dtd_only(text))


# ---- scripts ----

SMALL = Doc("<!ELEMENT a (#PCDATA|b|c)*><!ELEMENT b (#PCDATA|b|c)*><!ELEMENT c EMPTY>", "a", "<a>Hello<b>x</b></a>")
DEEP = Doc("<!ELEMENT a (#PCDATA|a)*>", "a", "<a>" * 511 + "x" + "</a>" * 511)
BIG = 1 << 20


def in_session(title: str, size: int, unit: str, script: Callable[[int], str], doc: Callable[[int], Doc] | Doc = SMALL) -> Shape:
    return Shape("a session", title, size, unit, doc if callable(doc) else lambda _: doc, script)


def optional_others(size: int) -> Doc:
    """Names whose content is a name and five others, all optional."""
    names = names_of(size)
    some = [", ".join(f"{names[(at * 7 + step * 13) % size]}?" for step in range(5)) for at in range(size)]
    declared = "".join(f"<!ELEMENT {name} (b?, {others})>" for name, others in zip(names, some))
    return Doc(f"<!ELEMENT r (n0|b)><!ELEMENT b EMPTY>{declared}", "r", "<r><b/></r>")


def groups(size: int) -> Doc:
    """A sequence of 99 groups, and a long list."""
    names = names_of(99)
    parts = ",".join(f"({name}?,({names[at * 7 % 99]}|{names[at * 5 % 99]}|{name}))*" for at, name in enumerate(names))
    inner = ",".join(f"{name}?" for name in names[:8])
    return Doc(f"<!ELEMENT root ({parts})>" + "".join(f"<!ELEMENT {name} ({inner})>" for name in names), "root", f"<root>{'<n0/>' * size}</root>")


def of_sessions() -> Iterator[Shape]:
    yield in_session("lines that are no commands", 2 * MB, "bytes", lambda size: "not a command at all\n" * (size // 21))
    yield in_session("empty lines", 200_000, "lines", lambda size: "\n" * size)
    yield in_session("lines of 1 MB", 10, "lines", lambda size: ("x" * BIG + "\n") * size)
    yield in_session("CR at the end of lines", 10, "lines of 1 MB", lambda size: ("undo" + "\r" * (BIG - 4) + "\n") * size)
    yield in_session("paths of 500,000 numbers", 4, "lines", lambda size: ("unwrap 0" + ".0" * 500_000 + "\n") * size)
    yield in_session("edits, undo and redo", 30_000, "of each", lambda size: "rename 0.1 b\n" * size + "undo\n" * size + "redo\n" * size)
    yield in_session("edits, and their history", 50_000, "edits", lambda size: "rename 0.1 b\n" * size + "history\n")
    yield in_session("an edit and its undo", 50_000, "of each", lambda size: "wrap 0 0 1 b\nundo\n" * size)
    yield in_session("refused edits", 50_000, "edits", lambda size: "wrap 0 0 1 c\n" * size)
    yield in_session("edits 511 deep", 1_000, "edits", lambda size: f"deltext {'.'.join('0' * 512)}\nundo\n" * (size // 2), DEEP)
    yield in_session("texts of 1 MB, kept by their history", 10, "texts", lambda size: f"text 0.0 {'x' * (BIG - 9)}\n" * size)
    yield in_session("verdicts of 1,000 lists", 50, "lines", lambda size: "verdicts\n" * size, wide("<b/>", SMALL.dtd)(1_000))
    yield in_session("documents shown", 50, "lines", lambda size: "show\n" * size, wide("<b/>", SMALL.dtd)(5_000))
    yield in_session("insertions at a list's end", 300, "kids", lambda size: "".join(f"insert 0 {at} c\n" for at in range(2, size)))
    yield in_session("cuts of a text from its front", 300, "cuts", lambda size: "".join(f"split 0.{at} 1\n" for at in range(size)), wide("x" * 4_000, TEXT)(1))
    yield in_session("cuts of a text from its back", 300, "cuts",
                     lambda size: "".join(f"split 0.0 {4_000 - at}\n" for at in range(1, size)), wide("é" * 4_000, TEXT)(1))
    yield in_session("offers", 500, "lines", lambda size: "offer 0 0 1\n" * size)
    yield Shape("`offer`", "names with six optional others", 40, "names", optional_others, lambda _: "offer 0 0 1\n")
    yield Shape("`offer`", "100 names, a sequence of 99 groups", 100, "kids", groups, lambda size: f"offer 0 {size // 2} {size // 2 + 1}\n")
    yield Shape("an edit", "under a chain below a choice of all", 400, "names", below_a_choice(), lambda _: "insert 0 0 n0\nundo\n" * 3)


# ---- ranges ----

def ranged(title: str, size: int, unit: str, text: Callable[[int], str], lines: Callable[[int], Iterator[str]]) -> Shape:
    return Shape("`standoff`", title, size, unit, lambda _: Doc("<!ELEMENT a (#PCDATA|b)*><!ELEMENT b (#PCDATA|b)*>", "a", ""),
                 files=lambda count: [text(count), "".join(f"{line}\n" for line in lines(count))])


def shuffled(size: int) -> list[int]:
    """The numbers below the size in an order that isn't theirs."""
    return [at * 7_919 % size for at in range(size)] if size % 7_919 else list(range(size))


def of_ranges() -> Iterator[Shape]:
    def letters(size: int) -> str:
        return "x" * (size + 1)

    yield ranged("side by side", 20_000, "ranges", letters, lambda size: (f"{at} {at + 1} 0 b" for at in range(size)))
    yield ranged("side by side, shuffled", 20_000, "ranges", letters, lambda size: (f"{at} {at + 1} 0 b" for at in shuffled(size)))
    yield ranged("500 round each letter", 20_000, "ranges", letters, lambda size: (f"{at // 500} {at // 500 + 1} {at % 500} b" for at in range(size)))
    yield ranged("one in another, 500 deep", 20_000, "ranges", letters,
                 lambda size: (f"{at // 500 * 500 + 0} {at // 500 * 500 + 500 - at % 500} 0 b" for at in range(size)))
    yield ranged("the first one twice", 20_000, "ranges", letters, lambda size: (f"{at % (size - 1)} {at % (size - 1) + 1} 0 b" for at in range(size)))
    yield ranged("each crosses the next", 20_000, "ranges", letters, lambda size: (f"{at} {at + 2} 0 b" for at in range(size - 1)))
    yield ranged("a text of references", 50_000, "references", lambda size: "&amp;" * size, lambda size: iter([f"0 {size} 0 b", f"{size - 1} {size} 1 b"]))


# ---- packs and denials ----

ONE_OF = "<!ELEMENT a (b, c)*><!ELEMENT b EMPTY><!ELEMENT c EMPTY>"


def all_spans(pack: bytes, size: int) -> bytes:
    """A pack that lists two sites over all spans, at no cost."""
    head = pack[: pack.index(b"list ")] if b"list " in pack else pack[: pack.rindex(b"end")]
    spans = [b"%d %d" % (at, to) for at in range(size + 1) for to in range(at, size + 1)]
    return head + b"list 0\n" + b"".join(b"%s 0 %s 0\n" % (kind, span) for kind in (b"c", b"n") for span in spans) + b"end\n"


def larger_body(unit: bytes) -> Callable[[bytes, int], bytes]:
    """A pack whose body has so many of these after its root's start."""
    def changed(pack: bytes, size: int) -> bytes:
        lines = pack.split(b"\n")
        body = b"<a>" + unit * size + b"</a>"
        return b"\n".join([lines[0], b"total 0", b"body %d" % len(body), body, b"end", b""])
    return changed


def of_packs() -> Iterator[Shape]:
    one, short = wide("<b/>", ONE_OF), lists("<b/>", "<!ELEMENT a (b, c)><!ELEMENT b EMPTY><!ELEMENT c EMPTY>")
    for title, size, unit, made in (("one list", 40, "kids", one), ("short lists", 2_000, "lists", short),
                                    ("30 kids under names with content ANY", 12, "names", any_of_many(30)),
                                    ("kids under 30 names with content ANY", 6, "kids", lambda kids: any_of_many(kids)(30))):
        yield Shape("`complete`", title, size, unit, made)
        yield Shape("`verify`", title, size, unit, made, by="complete")
    yield Shape("a session's `need`", "one list", 100, "kids", one, lambda _: "need\n")
    any_doc = wide("<b/>")
    yield Shape("`verify`", "sites over all spans, ANY", 40, "kids", any_doc, by="complete", changed=all_spans)
    yield Shape("`verify`", "a body of blanks", 2 * MB, "bytes", lambda _: Doc(ANY, "a", "<a/>"), by="complete", changed=larger_body(b" "))
    yield Shape("`verify`", "a body of elements", 50_000, "elements", lambda _: Doc(ANY, "a", "<a/>"), by="complete", changed=larger_body(b"<b/>"))
    wrong = lambda size: Doc("<!ELEMENT a (b*, c)><!ELEMENT b EMPTY><!ELEMENT c EMPTY>", "a", f"<a><c/>{'<b/>' * size}</a>")  # noqa: E731
    yield Shape("`why`", "a wide list", 20_000, "kids", wrong)
    yield Shape("`deny`", "a wide list", 20_000, "kids", wrong, by="why")
    blank = lambda size: Doc("<!ELEMENT r (a*, e)><!ELEMENT a (#PCDATA)><!ELEMENT e EMPTY>", "r", f"<r>{'<a>x</a>' * size}<e> </e></r>")  # noqa: E731
    yield Shape("`why`", "an EMPTY element at the end", 50_000, "elements", blank)
    yield Shape("`deny`", "an EMPTY element at the end", 50_000, "elements", blank, by="why")


# ---- wide lists ----

PAIRS = "<!ELEMENT t ((t, t)?)>"
OPERATIONS = "<!ELEMENT expr (num|(expr, op?, expr))><!ELEMENT num EMPTY><!ELEMENT op EMPTY>"


def in_turn(root: str, dtd: str, *kids: str) -> Callable[[int], Doc]:
    """So many kids, these in turn."""
    return lambda size: Doc(dtd, root, f"<{root}>{''.join(kids[at % len(kids)] for at in range(size))}</{root}>")


def nest_of_groups(size: int) -> Doc:
    """Thirty optional groups, each in the one before it, which begin with a name each; the names aren't in that order."""
    names, model = names_of(30), ""
    for name in reversed(names):
        model = f"({name}?, {model}?)" if model else f"({name}?)"
    declared = "".join(f"<!ELEMENT {name} EMPTY>" for name in names)
    return Doc(f"<!ELEMENT a (g*)><!ELEMENT g {model}>{declared}", "a", f"<a>{''.join(f'<{names[at * 7 % 30]}/>' for at in range(size))}</a>")


def of_wide_lists() -> Iterator[Shape]:
    """What `pvlong` counts and judges; where it may take long, also if it has a second to look for bounds, and none."""
    left, turns = in_turn("a", LEFT, "<c/>"), in_turn("doc", ARTICLE.read_text(encoding="utf-8"), "<item/>", "<p/>")
    for title, made in (("right recursion", in_turn("a", RIGHT, "<c/>")), ("recursion in the middle", in_turn("a", MIDDLE, "<c/>")),
                        ("pairs of pairs", in_turn("t", PAIRS, "<t/>")), ("operations", in_turn("expr", OPERATIONS, "<num/>"))):
        yield Shape("`pvlong need`", title, 1_000, "kids", made)
    yield Shape("`pvlong need`", "left recursion", 200, "kids", left)
    yield Shape("`pvlong need`", "two names in turn", 100, "kids", turns)
    yield Shape("`pvlong need`", "a nest of optional groups", 200, "kids", nest_of_groups)
    for seconds, told in ((1, "a second"), (0, "no time")):
        yield Shape("`pvlong need`", f"left recursion, in {told}", 200, "kids", left, seconds=seconds)
        yield Shape("`pvlong need`", f"two names in turn, in {told}", 200, "kids", turns, seconds=seconds)
    yield Shape("`pvlong check`", "every other kid missing, (b, c)*", 20_000, "kids", wide("<b/>", ROW))
    yield Shape("`pvlong check`", "left recursion", 20_000, "kids", wide("<c/>", LEFT))


def catalogue() -> list[Shape]:
    """All shapes."""
    return [*of_documents(), *of_models(), *of_dtds(), *of_sessions(), *of_ranges(), *of_packs(), *of_wide_lists()]
