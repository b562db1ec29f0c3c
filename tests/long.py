"""Tries `pvlong` against `pvtag`, searches and derivations on small documents, and on lists that are too wide for `pvtag` to count.

Words: PVLONG PVTAG SEED SECONDS; a third of the seconds goes to each kind. Small documents are the examples, those of `completions.py`, with its
search that inserts elements, and those of `weights.py`, with its costs of derivations. There `pvlong need` tells the number that `need` tells in
a session, or two numbers with this one between them; what is impossible is told with the same path. Wide ones are documents under the DTDs of
examples/, under DocBook and XHTML where they are installed, and under made DTDs, of which many tags were taken away: no more elements may be
missing than were taken. What `pvlong complete` prints is `valid`, for xmllint too where it is installed; it keeps all texts and tags in their order,
has as many elements more as `need` tells at most, and its status tells whether that is the least number. At least as many are missing as `check`
counts lists, and a valid document is printed as it is. A list that stands in a document many times is told soon. Files in fault are
refused as `check` refuses them. Where no time is left, the same holds, and the numbers may be further apart. Prints each difference, how often the
number was exact, and how many cases passed; ends with 1 where one failed.
"""
import os
import random
import sys
import tempfile
import time
from collections.abc import Callable

sys.dont_write_bytecode = True

import published  # noqa: E402
import weights  # noqa: E402
from lib.counting import need, same  # noqa: E402
from lib.editing import document_of  # noqa: E402
from lib.grammar import NEVER, declaration  # noqa: E402
from lib.kept import productive_grammar  # noqa: E402
from lib.search import MOST, write  # noqa: E402
from lib.trees import items_of  # noqa: E402
from lib.wide_drafts import published_dtds, try_made, try_one_list, try_wide  # noqa: E402
from lib.wide_late import try_late  # noqa: E402
from lib.wide_rows import try_rows  # noqa: E402
from lib.wide_trial import EXAMPLES, Programs, by_session, judge, try_example  # noqa: E402


def try_search(both: Programs) -> None:
    """One made DTD, and documents whose least numbers a search finds."""
    models, search = productive_grammar()
    dtd = "".join(declaration(x, models[x]) for x in models)
    write("a.dtd", dtd)
    for _ in range(6):
        document, named = document_of(models, list(models))
        root = named or random.choice([document.root.name] * 6 + list(models) * 2)

        def judged(document=document, root=root) -> str:
            told = judge(both, "a.dtd", root, document.written())
            least = search.least((*items_of(document.root),), ("children", ("name", root)), MOST)
            if least <= MOST:
                need(told.least <= least <= told.most, f"{told.line!r}, and the least number is {least}")
            else:
                need(told.most > MOST, f"{told.line!r}, and the search finds none so few")
            return by_session(told, both.session_need("a.dtd", root, "d.xml"))

        both.case("search", judged, lambda document=document, root=root: f"root {root}\n{dtd}{document.written()}")


def try_derivations(both: Programs) -> None:
    """One made DTD with many mixed, starred and recursive models, and documents whose least numbers are sums of costs."""
    models = weights.dtd()
    dtd = "".join(declaration(x, content) for x, content in models.items())
    write("a.dtd", dtd)
    costs = weights.Judge(models)
    kids = weights.grown(costs, 8, 3 if len(models) > 10 else 6)
    for _ in range(4 if kids else 0):
        whole = random.choice(kids[random.choice(list(kids))][-3:])
        text = weights.spelled(whole)

        def judged(whole=whole, text=text) -> str:
            told = judge(both, "a.dtd", whole.name, text)
            least = sum(cost for _, cost in [(".", costs.of_root(whole.name, whole.name)), *weights.lists(costs, whole, "0")])
            if least < NEVER:
                need(told.least <= least <= told.most, f"{told.line!r}, and the least number is {least}")
            else:
                need(told.line.startswith("no impossible "), f"{told.line!r}, and it is impossible")
            return by_session(told, both.session_need("a.dtd", whole.name, "d.xml"))

        both.case("derivations", judged, lambda text=text: dtd + text)


def try_refusals(both: Programs) -> None:
    """Words and files in fault, as `check` tells them."""
    for name, text in (("good.dtd", "<!ELEMENT a (b)><!ELEMENT b EMPTY>"), ("bad.dtd", "<!ELEMENT a (b><!ELEMENT b EMPTY>"), ("param.dtd", "%x;"),
                       ("good.xml", "<a/>"), ("bad.xml", "<a></b>"), ("other.xml", "<b>x</b>"), ("deep.xml", "<a>" * 513 + "</a>" * 513)):
        write(name, text)
    for files in (["good.dtd", "a", "bad.xml"], ["bad.dtd", "a", "bad.xml"], ["param.dtd", "a", "good.xml"], ["none.dtd", "a", "good.xml"],
                  ["good.dtd", "a", "none.xml"], ["good.dtd", "1", "good.xml"], ["good.dtd", "a", "deep.xml"], ["good.dtd", "a"]):
        wanted = both.run([both.pvtag, "check", *files])
        for question in ("need", "complete"):
            both.case("refusals", lambda question=question, files=files, wanted=wanted: same(both.long(question, *files), wanted, question) or "same",
                      lambda question=question, files=files: f"{question} {files}")
    for words in ([], ["need"], ["valid", "good.dtd", "a", "good.xml"], ["need", "good.dtd", "a", "good.xml", "more"]):
        both.case("refusals", lambda words=words: same(both.long(*words), (2, b"usage\n"), "no request") or "usage", lambda words=words: str(words))
    for files, path in ((["good.dtd", "a", "other.xml"], "0"), (["good.dtd", "c", "good.xml"], ".")):
        wanted = 1, f"no impossible {path}\n".encode()
        both.case("refusals", lambda files=files, wanted=wanted: same(both.long("need", *files), wanted, "need") or "impossible",
                  lambda files=files: str(files))


def until(seconds: float, *tries: Callable[[], None]) -> None:
    """Tries one after another, again and again for so long, each once at least."""
    end = time.monotonic() + seconds
    at = 0
    while at < len(tries) or time.monotonic() < end:
        tries[at % len(tries)]()
        at += 1


def main() -> int:
    pvlong, pvtag = (os.path.abspath(word) for word in sys.argv[1:3])
    random.seed(int(sys.argv[3]))
    share = float(sys.argv[4]) / 3
    os.environ["XML_CATALOG_FILES"] = published.CATALOGS
    os.environ.pop("PVLONG_SECONDS", None)
    both = Programs(pvlong, pvtag)
    with tempfile.TemporaryDirectory() as folder:
        os.chdir(folder)
        try_refusals(both)
        for dtd, (root, names) in EXAMPLES.items():
            for name in names:
                try_example(both, dtd, root, name)
        try_rows(both)
        try_late(both)
        until(share, lambda: try_search(both), lambda: try_derivations(both))
        until(share, lambda: try_made(both), lambda: try_one_list(both))
        tries = [lambda it=it, room=room: try_wide(both, os.path.basename(it.original), it.flat, it.models, it.least, room, it.original)
                 for it in published_dtds() for room in (100, 600)]
        if tries:
            until(share, *tries)
        os.chdir("/")
    for what, count in sorted(both.counts.items()):
        print(f"{what}: {count}")
    print(f"wide lists: {both.passed} passed, {both.failed} failed")
    return int(both.failed > 0)


if __name__ == "__main__":
    sys.exit(main())
