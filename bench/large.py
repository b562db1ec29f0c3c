"""Times `check`, edits and `need` under large DTDs, and prints a table for each DTD.

Words: the repository's folder, how many rounds, and `--write`, which puts the tables into docs/SPEED.md. The DTDs are a made one in the shape
of DocBook, of 400 names and some 15,000 parts, DocBook itself where it is installed with lxml, and the largest within the limits, of 4,096
names and 65,536 parts. Under each: a document of some twenty paragraphs that is checked, and one of 10 KB that a session opens, for the DTD's
reading and laying out; a document of 18 MB whose lists are within the limit of their width, valid and without every tenth pair of tags (of
8 MB under the largest DTD, where more is too wide); an edit in a list of 20 and of 2,000 kids (900 under the largest DTD), by an owner
whose content is free and by one whose content isn't; `need` of a draft of 300 kB with short lists, of one of 300 kB in which little more
than lists and words is tagged, and of one of 3 MB with short lists, each at first and after an edit or its undo; and of one list of 40
tokens (20 under the largest), whose kids' lists are valid. The runs are interleaved; told are the least processor time of each, without
the opening for an edit and for `need`, the memory at the peak, and the time that is aimed at under DocBook. PVTAG names another build of
the program.
"""
import math
import os
import random
import sys
import tempfile
from typing import NamedTuple

sys.path.insert(0, os.path.join(os.path.dirname(os.path.dirname(os.path.abspath(__file__))), "tests"))
import published as tests  # noqa: E402
from check import without_tags  # noqa: E402
from page import put  # noqa: E402
from timing import program_of, run, told_time  # noqa: E402

EDITS = 2_000
# Each is followed by a `need`.
MOVES = 40

# The kids of short lists.
FEW = 4


class Form(NamedTuple):
    """The documents under a DTD: the root's name, their begin and end; the names of blocks, one in another, of paragraphs and of inline
    elements; a block whose texts want elements, and the inline elements among these; an owner whose content isn't free, a kid of it, and the
    name of an element that may be inserted before all kids; the owner and the kids, in turn, of the list that is weighed, and how many; the
    kids of the longer list of an edit, and the megabytes of the large document."""
    root: str
    begin: str
    end: str
    outer: str
    block: str
    para: str
    inline: str
    listing: str
    inlines: tuple
    owner: str
    kid: str
    insert: str
    weighed: str
    kids: tuple
    width: int
    most: int
    size: int


class Case(NamedTuple):
    """A measure: its words and its script, of so many lines, or 0 where the whole run is told; the seconds that are aimed at, if any; and
    the lines before the script, whose time is taken off."""
    title: str
    words: list
    script: str = ""
    lines: int = 0
    aim: float = None
    before: str = ""


BOOK = (
    "book", "<book><title>t</title><b0>", "</b0></book>", "b2", "b4", "para", "i1", "b5", ("i1", "i2", "i3", "i4"), "book", "<b0/>", "b0",
    "book", ("b4", "para", "i1"),
)
SHAPED, LARGEST = Form(*BOOK, 40, 2_000, 18), Form(*BOOK, 20, 900, 8)
DOCBOOK = Form(
    "section", "<section><title>t</title>", "</section>", "blockquote", "blockquote", "para", "emphasis", "itemizedlist",
    ("emphasis", "literal", "command", "filename"), "refentry", "<refsect1/>", "refnamediv", "book", ("title", "para", "emphasis", "xref"), 40,
    2_000, 18,
)


# Names in four layers: blocks hold blocks and paragraphs in any order, most with a title in front, and paragraphs hold inline names.
def shaped(inlines, blocks, most):
    lines, words = [], [f"i{number}" for number in range(inlines)]
    for number, name in enumerate(words):
        more = "" if number % 4 == 0 else "|" + "|".join(words[(number + step) % inlines] for step in range(1, most))
        lines.append(f"<!ELEMENT {name} (#PCDATA{more}){'*' if more else ''}>")
    lines.append(f"<!ELEMENT para (#PCDATA|{'|'.join(words[:most])})*>")
    lines.append("<!ELEMENT title (#PCDATA)>")
    names = [f"b{number}" for number in range(blocks)]
    for number, name in enumerate(names):
        kids = "|".join(["para", *(names[(number + step) % blocks] for step in range(1, most))])
        lines.append(f"<!ELEMENT {name} ({'title?,' if number % 3 else 'title,'}({kids})+)>" if number % 2 else f"<!ELEMENT {name} ({kids})*>")
    lines.append(f"<!ELEMENT book (title,b0+,b1*,b2?,({'|'.join(names[3:12])})*,b13?)>")
    return "\n".join(lines) + "\n"


# So many paragraphs in blocks, which stand in further ones, each paragraph with inline elements.
def text_of(form, bytes):
    para = f"<{form.para}>one <{form.inline}>two</{form.inline}> three <{form.inline}>four</{form.inline}></{form.para}>"
    per, blocks = 20, 100
    text = f"<{form.block}>{para * per}</{form.block}>"
    whole, rest = divmod(bytes // 80 // per, blocks)
    outer = [f"<{form.outer}>{text * count}</{form.outer}>" for count in [blocks] * whole + [rest]]
    return form.begin + "".join(outer) + form.end


# The same with short lists: four paragraphs in a block, and four blocks in each further one.
def short_lists(form, bytes):
    para = f"<{form.para}>one <{form.inline}>two</{form.inline}> three <{form.inline}>four</{form.inline}></{form.para}>"
    return nested(form, [f"<{form.block}>{para * FEW}</{form.block}>"] * (bytes // 80 // FEW))


# Blocks in further ones, few in each.
def nested(form, blocks):
    while len(blocks) > FEW:
        blocks = [f"<{form.outer}>{''.join(blocks[at:at + FEW])}</{form.outer}>" for at in range(0, len(blocks), FEW)]
    return form.begin + "".join(blocks) + form.end


# A draft in which little more than lists and words is tagged: in each list stand one to nine texts and inline elements in turn, for which
# elements are missing.
def few_tags(form, bytes):
    def kid(at):
        inline = random.choice(form.inlines)
        return f"<{inline}>word</{inline}>" if at % 2 else "words "

    def listing():
        begin = random.randrange(2)
        return f"<{form.listing}>{''.join(map(kid, range(begin, begin + random.randint(1, 9))))}</{form.listing}>"

    blocks = []
    while bytes > 0:
        blocks.append(f"<{form.block}>{''.join(listing() for _ in range(FEW))}</{form.block}>")
        bytes -= len(blocks[-1])
    return nested(form, blocks)


# Writes a document that a process of its own makes: the peak of a process counts from that of the one which starts it.
def document(name, make):
    child = os.fork()
    if not child:
        tests.write(name, make())
        os._exit(0)
    os.waitpid(child, 0)
    return name


def cases(program, dtd, form):
    """The measures under a DTD."""
    def words(command, name, root=form.root):
        return [program, command, dtd, root, name]

    def file(name, make):
        return document(f"{dtd}.{name}", make)

    yield Case("a document of 1.6 kB checked", words("check", file("one", lambda: text_of(form, 1_600))), aim=0.009)
    yield Case("the same, without every tenth pair of tags", words("check", file("one.tagless", lambda: without_tags(text_of(form, 1_600)))))
    yield Case("a document of 10 kB opened", words("session", file("ten", lambda: text_of(form, 10_000))), aim=0.04)
    bytes = form.size * 1_000_000
    yield Case(f"{form.size} MB checked, valid", words("check", file("whole", lambda: text_of(form, bytes))))
    tagless = file("tagless", lambda: without_tags(text_of(form, bytes)))
    yield Case(f"{form.size} MB checked, without every tenth pair of tags", words("check", tagless))
    yield from edits(form, words, file)
    yield from drafts(form, words, file)
    kids = "".join(f"<{form.kids[at % len(form.kids)]}/>" for at in range(form.width))
    weighed = file("weighed", lambda: f"<{form.weighed}>{kids}</{form.weighed}>")
    yield Case(f"one list of {form.width} tokens weighed", words("session", weighed, form.weighed), "need\n", 1, 0.045)


def drafts(form, words, file):
    """`need` of drafts, at first and after an edit."""
    moves = f"wrap 0.{form.begin.count('</')} 0 1 {form.block}\nneed\nundo\nneed\n" * (MOVES // 2)
    for title, name, make, first, later in (
        ("300 kB of short lists", "draft", lambda: without_tags(short_lists(form, 300_000)), 0.35, 0.005),
        ("300 kB with few tags", "few", lambda: few_tags(form, 300_000), 2, 0.01),
        ("3 MB of short lists", "large", lambda: without_tags(short_lists(form, 3_000_000)), None, 0.03),
    ):
        draft = words("session", file(name, make))
        yield Case(f"a draft of {title}, `need`", draft, "need\n", 1, first)
        yield Case("the same draft, `need` after an edit or its undo", draft, moves, MOVES, later, "need\n")


def edits(form, words, file):
    """An edit and its undo in a short and in a long list, by an owner whose content is free and by one whose content isn't."""
    path = f"0.{form.begin.count('</')}"
    for count, aim in ((20, 20e-6), (form.most, 1e-3)):
        kids = f"<{form.block}>" + f"<{form.para}>a</{form.para}>" * count + f"</{form.block}>"
        name = file(count, lambda: form.begin + kids + form.end)
        script = f"wrap {path} 0 1 {form.block}\nundo\n" * (EDITS // 2)
        yield Case(f"an edit, {count:,} kids", words("session", name), script, EDITS, aim)
        name = file(f"{count}.owner", lambda: f"<{form.owner}>" + form.kid * count + f"</{form.owner}>")
        script = f"insert 0 0 {form.insert}\nundo\n" * (EDITS // 20)
        yield Case(f"an edit, {count:,} kids, not free", words("session", name, form.owner), script, EDITS // 10, aim)


def dtds(python):
    """The title, the file and the form of each DTD."""
    tests.write("shaped.dtd", shaped(200, 196, 40))
    yield "a DTD in the shape of DocBook", "shaped.dtd", SHAPED
    if python and os.path.exists(tests.MANUALS):
        tests.write("docbook.dtd", tests.run(python, tests.TOOL, tests.MANUALS).stdout)
        yield "DocBook 4.5", "docbook.dtd", DOCBOOK
    tests.write("largest.dtd", shaped(2_048, 2_044, 16))
    yield "the largest DTD", "largest.dtd", LARGEST


def measured(rows, rounds):
    """Of each case the least seconds, those without its script, the memory, and the status and the output of the last run."""
    best = {row: (math.inf, math.inf, math.inf, None) for row in rows}
    for _ in range(rounds):
        for at in rows:
            seconds, bare, memory, _ = best[at]
            before = rows[at].before
            ran = run(rows[at].words, (before + rows[at].script).encode(), keep=True)
            if rows[at].lines:
                bare = min(bare, run(rows[at].words, before.encode()).seconds)
            best[at] = min(seconds, ran.seconds), bare, min(memory, ran.memory), ran
    return best


def table(rows, best):
    yield from ("| Measure | Took | Memory | Aim, under DocBook |", "|---|---|---|---|")
    for at, row in rows.items():
        seconds, bare, memory, ran = best[at]
        took = max(seconds - bare, 1e-9) / row.lines if row.lines else seconds
        wrong = "" if ran.status in (0, 1) else f", status {ran.status}"
        wrong += f", {ran.output.decode().splitlines()[0]}" if ran.output.startswith(b"no ") else ""
        yield f"| {row.title} | {told_time(took)}{wrong} | {memory / 1024:.0f} MB | {told_time(row.aim) if row.aim else ''} |"


def main():
    words = [it for it in sys.argv[1:] if it != "--write"]
    top, rounds = os.path.abspath(words[0]), int(words[1])
    program, lines = program_of(top), []
    random.seed(1)
    with tempfile.TemporaryDirectory() as folder:
        os.chdir(folder)
        for title, dtd, form in dtds(tests.python_with_lxml()):
            rows = dict(enumerate(cases(program, dtd, form)))
            load = os.getloadavg()[0]
            best = measured(rows, rounds)
            lines += ["", f"Under {title}, the best of {rounds} rounds, on {os.cpu_count()} processors under a load of {load:.0f}:", ""]
            lines += table(rows, best)
        os.chdir("/")
    print(*lines[1:], sep="\n")
    if "--write" in sys.argv:
        put(top, "bench/run large", lines[1:])


if __name__ == "__main__":
    sys.exit(main())
