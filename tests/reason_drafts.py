"""Tries the reasons of drafts by DocBook and XHTML whose kids were swapped, doubled or moved, and their time.

Words: PROGRAM SEED SECONDS. Of each impossible list that `clients/why --all` tells, the kids are checked by force, as
in tests/reasons.py; the first kid that no insertion makes room for is that of the table which `why` prints. A list of
1,000 kids under DocBook takes a few runs of `check` and Python's start. Needs lxml and the packages of DTDs; skipped
where they are missing. Prints each difference, and how many cases passed; ends with 1 where one failed.
"""
import functools
import os
import random
import re
import resource
import subprocess
import sys
import tempfile
import time

sys.dont_write_bytecode = True

import published  # noqa: E402
from lib.annotate.fixture import need, run_cases, same  # noqa: E402
from lib.reasons_fixture import CLIENTS, Checks, check_reason  # noqa: E402

from pvtag import denial  # noqa: E402
from pvtag.dtd import Dtd  # noqa: E402
from pvtag.layout import Layout  # noqa: E402
from pvtag.program import file_of, run  # noqa: E402
from pvtag.reasons import Reasons, kids_of  # noqa: E402
from pvtag.session import Session  # noqa: E402


def swapped(tree):
    """Swaps, doubles or moves kids of a made document, in one list or two."""
    lists = [each[1] for each in published.elements(tree)]
    for _ in range(random.choice([1, 2, 4, 8])):
        kids = random.choice([kids for kids in lists if kids] or [[]])
        if not kids:
            return
        at, form = random.randrange(len(kids)), random.choice(["swap", "double", "move"])
        if form == "swap":
            other = random.randrange(len(kids))
            kids[at], kids[other] = kids[other], kids[at]
        elif form == "double":
            kids.insert(random.randint(0, len(kids)), [kids[at][0], []] if isinstance(kids[at], list) else kids[at])
        else:
            kid = kids.pop(at)
            if isinstance(kid, list):
                kid = [kid[0], []]
            other = random.choice(lists)
            other.insert(random.randint(0, len(other)), kid)


def explains_drafts(program, folder, dtd, name, until):
    """Reasons of all impossible lists of made documents, as `why --all` tells them."""
    flat = os.path.join(folder, name)
    text = published.run(published.python_with_lxml(), published.TOOL, dtd).stdout
    published.write(flat, text)
    models = published.models_of(text)
    least = published.least_of(models)
    able = [each for each in models if least[each] < published.NEVER]
    told = 0
    while time.monotonic() < until:
        tree = published.element(models, least, random.choice(able), [random.choice([10, 40])])
        swapped(tree)
        data = published.document(tree).encode()
        with file_of(data) as path:
            is_possible = run([program], "check", flat, tree[0], path).status == 0
        # Most drafts that are still possible are left out.
        if not is_possible or random.random() < 0.1:
            told += explains_all(program, flat, tree[0], data)
    return told


def explains_all(program, dtd, root, data):
    with file_of(data) as path:
        ran = subprocess.run(
            [sys.executable, os.path.join(CLIENTS, "why"), dtd, root, path, "--all", "--program", program],
            capture_output=True,
        )
        with Session([program], dtd, root, path) as session:
            bad = [row.path for row in session.verdicts() if row.verdict == "impossible"]
        same(ran.returncode, 0 if bad else 1, f"the status of why --all: {ran}")
        lines = ran.stdout.decode().replace("\n  ", " ").splitlines()
        if not bad:
            return same(lines, ["possible"], "what why --all says") or 0
        reasons, checks = Reasons([program], Dtd([program], dtd), root), Checks(program, dtd, root)
        layout = Layout(data)
        found = reasons.of_document(data, bad)
        same([reason.path for reason in found], bad, "the lists with reasons")
        for reason, line in zip(found, lines, strict=True):
            node = layout.node(reason.path)
            check_reason(checks, node.name, kids_of(node.kids), reason)
            need(
                re.match(re.escape(path) + r":\d+:\d+: ", line) and said(line) == reason.sentence(),
                f"{line} for {reason.sentence()}",
            )
        first = denial.read(run([program], "why", dtd, root, path).output)
        same(first.path, bad[0], "the list that `why` names")
        check_denial(first, found[0], layout, list(reasons.dtd.types))
        return len(found)


def said(line):
    """The sentences of a line, without places."""
    return re.sub(r" \(line \d+(, column \d+)?\)", "", line.split(": ", 1)[1])


def check_denial(first, reason, layout, names):
    """The first kid that can't be reached is that of the table."""
    if first.cause != "word" or first.path == ".":
        return
    node = layout.node(first.path)
    row = first.row("c", names.index(node.name))
    tokens = [at for at, kid in enumerate(kids_of(node.kids)) if kid.is_token]
    same(tokens[row[0] if row else 0], reason.first, f"the first kid that can't be reached in {node.source[:500]!r}")


def explains_published_drafts(program, seconds):
    os.environ["XML_CATALOG_FILES"] = published.CATALOGS
    dtds = [path for path in (published.STRICT, published.MANUALS) if os.path.exists(path)]
    if not published.python_with_lxml() or not dtds:
        print("skipped: drafts by published DTDs (no python3-lxml, or no DTDs of w3c-sgml-lib and docbook-xml)")
        return
    with tempfile.TemporaryDirectory() as folder:
        for at, dtd in enumerate(dtds):
            told = explains_drafts(program, folder, dtd, f"{at}.dtd", time.monotonic() + seconds / len(dtds))
            print(f"{told} reasons of drafts by {os.path.basename(dtd)}")


WIDE = [
    "para",
    "itemizedlist",
    "programlisting",
    "note",
    "figure",
    "table",
    "example",
    "simpara",
    "orderedlist",
    "variablelist",
]


def takes_little_time(program):
    """A list of 1,000 kids under DocBook takes a few runs of `check`, and Python's start."""
    os.environ["XML_CATALOG_FILES"] = published.CATALOGS
    if not published.python_with_lxml() or not os.path.exists(published.MANUALS):
        print("skipped: the time under DocBook (no python3-lxml, or no docbook-xml)")
        return
    kids = random.choices(WIDE, k=999)
    kids.insert(700, "chapter")
    flat = published.run(published.python_with_lxml(), published.TOOL, published.MANUALS).stdout.encode()
    with file_of(flat, ".dtd") as dtd, file_of(
        "<section>\n{}</section>".format("".join(f"<{kid}/>\n" for kid in kids)).encode()
    ) as path:
        # On a busy machine a single measure strays.
        need(any(is_quick(program, dtd, path) for _ in range(10)), "a reason takes too long")


def is_quick(program, dtd, path):
    """Whether a reason takes a few runs of `check`, and Python's start."""
    checked, said = taken([program, "check", dtd, "section", path])
    same(said, "impossible 0\n", "a list of 1,000 kids")
    told, said = taken([sys.executable, os.path.join(CLIENTS, "why"), dtd, "section", path, "--program", program])
    need(
        f"{path}:702:1: `section` can't hold `chapter` (line 702), and no element between them could." in said,
        f"its reason: {said}",
    )
    idle, _ = taken([sys.executable, os.path.join(CLIENTS, "why"), "--help"])
    print(f"why: {told:.3f} s of processor time, check {checked:.3f} s, Python's start {idle:.3f} s")
    return told <= 5 * checked + 2 * idle


def taken(words):
    """The processor time that a command takes, with those that it runs, and what it prints."""
    before = resource.getrusage(resource.RUSAGE_CHILDREN)
    ran = subprocess.run(words, capture_output=True, encoding="utf-8")
    after = resource.getrusage(resource.RUSAGE_CHILDREN)
    return after.ru_utime + after.ru_stime - before.ru_utime - before.ru_stime, ran.stdout


def main():
    program, seed, seconds = os.path.abspath(sys.argv[1]), int(sys.argv[2]), int(sys.argv[3])
    random.seed(seed)
    cases = [
        functools.partial(explains_published_drafts, program, seconds),
        functools.partial(takes_little_time, program),
    ]
    for case in cases:
        case.__name__ = case.func.__name__
    sys.exit(run_cases("reasons of drafts", cases))


if __name__ == "__main__":
    main()
