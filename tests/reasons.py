"""Tries the reasons that `clients/pvtag` gives for lists that can't be mended, by force.

Words: PROGRAM ROUNDS SEED. A round is a random DTD and lists of its names, texts, comments and names that it doesn't
have. Of each reason the kids alone are impossible, as `check` says of a document that has nothing else, and possible
without any of them, all proper parts being tried where they are few; what the sentence says beyond them is tried too.
A list gets a reason exactly where it is impossible. The list of a refused edit is that of a session which allows all.
Prints each difference, and how many cases passed; ends with 1 where one failed.
"""
import functools
import os
import random
import subprocess
import sys

sys.dont_write_bytecode = True

import possible_lists  # noqa: E402
from lib.annotate.fixture import DRAFT, EXAMPLES, need, run_cases, same  # noqa: E402
from lib.reasons_fixture import CLIENTS, FOREIGN, Checks, check_reason, spelled  # noqa: E402

from pvtag.document import Document  # noqa: E402
from pvtag.dtd import Dtd  # noqa: E402
from pvtag.needs import needs  # noqa: E402
from pvtag.program import file_of  # noqa: E402
from pvtag.reasons import Reasons, kids_of  # noqa: E402
from pvtag.search import search  # noqa: E402
from pvtag.session import Made, Session  # noqa: E402
from pvtag.tries import Kid  # noqa: E402


# ---- random DTDs ----


def any_kids(models, owner):
    """A list of kids that is likely to be nearly possible."""
    word = possible_lists.word_of(models, owner)
    kids = [Kid("text") if token == "text" else Kid("element", token) for token in word]
    for _ in range(random.choice([0, 0, 1, 2])):
        kids.insert(
            random.randint(0, len(kids)),
            random.choice([Kid("misc"), Kid("white"), Kid("cdata"), Kid("element", FOREIGN)]),
        )
    return [
        kid for kid, before in zip(kids, [None, *kids]) if not (before and {kid.kind, before.kind} <= {"text", "white"})
    ]


def live(models, owner, kids):
    """Whether insertions can mend the list, by the model of tests/possible_lists.py."""
    if models.get(owner) == ("empty",):
        return not kids
    return possible_lists.is_live(models, owner, [kid.name or "text" for kid in kids if kid.is_token])


def explains_random_lists(program, rounds):
    told = 0
    for _ in range(rounds):
        names = possible_lists.NAMES[: random.randint(2, 10)]
        models = {x: possible_lists.model(names) for x in names if random.random() < 0.95}
        if not models:
            continue
        declared = "".join(possible_lists.declaration(x, content) for x, content in models.items())
        with file_of(declared.encode(), ".dtd") as path:
            root = random.choice(list(models))
            checks, reasons = Checks(program, path, root), Reasons([program], Dtd([program], path), root)
            lists = [(owner, any_kids(models, owner)) for owner in random.choices([*models, FOREIGN], k=12)]
            found = reasons.of_lists([("0", owner, kids) for owner, kids in lists])
            for (owner, kids), reason in zip(lists, found, strict=True):
                same(
                    reason is None,
                    live(models, owner, kids),
                    f"whether {spelled(owner, kids)!r} is possible under {declared}",
                )
                if reason is not None:
                    check_reason(checks, owner, kids, reason)
                    told += 1
            explains_roots(checks, reasons, models)
            explains_needs(program, reasons.dtd, models)
    need(told > 3 * rounds, f"too few lists were impossible: {told}")


def explains_roots(checks, reasons, models):
    for name in [*models, FOREIGN]:
        kid = Kid("element", name)
        reason = reasons.of_list(".", "", [kid])
        same(reason is not None, checks.is_impossible("", [kid]), f"whether {name} is a root for {checks.root}")
        if reason is not None:
            check_reason(checks, "", [kid], reason)


def explains_needs(program, dtd, models):
    """Each content of a name holds one of those that it needs, and not without any of these; and none can be valid."""
    for name, kind in dtd.types.items():
        if kind.is_productive:
            continue
        told = needs([program], dtd, name)
        need(not told or told[0].name == name, f"what {name} needs: {told}")
        for each in told:
            need(not any(map(dtd.is_productive, each.names)), f"what {name} needs can be valid: {each}")
            need(not avoids(models[each.name][1], each.names), f"{each} in {models}")
            for one in each.names:
                need(avoids(models[each.name][1], set(each.names) - {one}), f"{each} without {one} in {models}")
            need(
                all(one in {other.name for other in told} or one not in dtd.types for one in each.names),
                f"the end of {told}",
            )


def avoids(particle, names):
    """Whether a particle has a word without these names."""
    form = particle[0]
    if form == "name":
        return particle[1] not in names
    if form == "seq":
        return all(avoids(member, names) for member in particle[1:])
    if form == "choice":
        return any(avoids(member, names) for member in particle[1:])
    return form in "?*" or avoids(particle[1], names)


# Lists in which only three or more kids stand in each other's way, or one of very many.
LONG = (
    "<!ELEMENT r ((a,a,b?)|(c,d,e)|(d,e,c)|(c,e))><!ELEMENT a EMPTY><!ELEMENT b EMPTY><!ELEMENT c EMPTY>"
    "<!ELEMENT d EMPTY><!ELEMENT e EMPTY>"
    "<!ELEMENT s ((x|y|z)*,(a,b,c,d,e)?)><!ELEMENT x EMPTY><!ELEMENT y EMPTY><!ELEMENT z EMPTY>"
    f"<!ELEMENT q ({','.join('a' * 22)})>"
)


def explains_long_lists(program):
    with file_of(LONG.encode(), ".dtd") as path:
        checks, reasons = Checks(program, path, "r"), Reasons([program], Dtd([program], path), "r")
        cases = [
            ("r", "aaa", 2),
            ("r", "aabb", 3),
            ("r", "ab", None),
            ("r", "de", None),
            ("r", "dec", None),
            ("s", "xyzabcde", None),
            ("r", "aaba", 3),
            ("r", "aaaba", 2),
            ("r", "cdea", 3),
            ("r", "ced", 2),
            ("s", "xyz" * 60 + "acde" + "x" + "yz" * 90, 184),
            ("s", "xyz" * 60 + "b" + "yz" * 20 + "a", 181),
        ]
        for owner, word, first in cases:
            kids = [Kid("element", name) for name in word]
            reason = reasons.of_list("0", owner, kids)
            same(reason and reason.first, first, f"the first kid of {word}")
            if reason:
                check_reason(checks, owner, kids, reason)
        reason = reasons.of_list("0", "q", [Kid("element", "a")] * 23)
        need(reason and "The 23rd `a` has" in reason.sentence() and "room for 22." in reason.sentence(), reason)
        words = ["".join(random.choices("abcde", k=random.randint(1, 9))) for _ in range(60)]
        words += [
            "".join(random.choices("xyz", k=40))
            + "".join(random.choices("abcdexyz", k=6))
            + "".join(random.choices("xyz", k=40))
            for _ in range(20)
        ]
        for word in words:
            owner, kids = random.choice("rs"), [Kid("element", name) for name in word]
            reason = reasons.of_list("0", owner, kids)
            same(reason is not None, checks.is_impossible(owner, kids), f"whether {owner} takes {word}")
            if reason:
                check_reason(checks, owner, kids, reason)


def searches_by_any_rule(rounds):
    """The search alone, by rules of its own: a list is impossible where it holds one of some rows of names."""
    for _ in range(rounds):
        rows = [random.choices("abcdefgh", k=random.randint(1, 5)) for _ in range(random.randint(1, 4))]
        rows += [[str(at), str(at)] for at in range(60)] if random.random() < 0.3 else []

        def is_bad(kids, rows=rows):
            return any(holds([kid.name for kid in kids], row) for row in rows)

        names = random.choices("abcdefgh", k=random.choice([5, 30, 300]))
        names += random.sample([*map(str, range(60))] * 2, 90) if len(rows) > 4 else []
        kids = [Kid("element", name) for name in names]
        found = answered(search("r", kids), is_bad)
        same(found is not None, is_bad(kids), f"whether {names} is impossible by {rows}")
        if found is not None:
            chosen = [kids[at] for at in found.kids]
            parts = [chosen[:at] + chosen[at + 1 :] for at in range(len(chosen))]
            need(is_bad(chosen) and not any(map(is_bad, parts)), f"{found} in {names} by {rows}")
            need(
                is_bad(kids[: found.first + 1]) and not is_bad(kids[: found.first]), f"the first of {found} in {names}"
            )
            same(found.kids[-1], found.first, f"the last of {found}")


def holds(names, row):
    """Whether names have a row among them, in its order."""
    left = iter(names)
    return all(name in left for name in row)


def answered(searching, is_bad):
    """What a search finds, in some runs."""
    runs = 0
    try:
        tries = next(searching)
        while True:
            runs += 1
            need(runs < 60, "a search takes too many runs")
            tries = searching.send([is_bad(each.kids) for each in tries])
    except StopIteration as end:
        return end.value


def explains_under_large_dtds(program):
    """Where the DTD has as many names as it may, lists are tried one by one."""
    filled = "<!ELEMENT r (a,b)>" + "".join(
        f"<!ELEMENT {name} EMPTY>" for name in ["a", "b", *map("n{}".format, range(4093))]
    )
    with file_of(filled.encode(), ".dtd") as path:
        checks, reasons = Checks(program, path, "r"), Reasons([program], Dtd([program], path), "r")
        for word, chosen in (("ba", (0, 1)), ("aab", (0, 1)), ("ab", None)):
            kids = [Kid("element", name) for name in word]
            reason = reasons.of_list("0", "r", kids)
            same(reason and reason.kids, chosen, f"the kids of {word}")
            if reason:
                check_reason(checks, "r", kids, reason)


def explains_far_sets(program):
    """With many different names no pairs are tried; the kids are found by parts of the list."""
    names = [f"n{at}" for at in range(80)]
    declared = f"<!ELEMENT r ({'?,'.join(names)}?)>" + "".join(f"<!ELEMENT {name} EMPTY>" for name in names)
    with file_of(declared.encode(), ".dtd") as path:
        checks, reasons = Checks(program, path, "r"), Reasons([program], Dtd([program], path), "r")
        for _ in range(6):
            word = names[:]
            one, other = sorted(random.sample(range(80), 2))
            word.insert(other, word.pop(one))
            kids = [Kid("element", name) for name in word]
            reason = reasons.of_list("0", "r", kids)
            check_reason(checks, "r", kids, reason)
            same(len(reason.kids), 2, "the kids in each other's way")


# ---- edits ----


def explains_edits(program, rounds):
    """A refused edit's list is that of the document which the same edits make under a DTD that allows all."""
    refused = 0
    for dtd, root, source in (
        ("letter.dtd", "letter", DRAFT),
        ("article.dtd", "doc", open(os.path.join(EXAMPLES, "report.xml")).read()),
    ):
        path = os.path.join(EXAMPLES, dtd)
        names = list(Dtd([program], path).types) + [FOREIGN]
        loose = "".join(f"<!ELEMENT {name} ANY>" for name in names)
        reasons, checks = Reasons([program], Dtd([program], path), root), Checks(program, path, root)
        with file_of(source.encode()) as doc, file_of(loose.encode(), ".dtd") as any_dtd:
            with Session([program], path, root, doc) as session, Session([program], any_dtd, root, doc) as other:
                tree = Document(source.encode())
                for _ in range(rounds):
                    line = random_line(tree, names)
                    reply = session.edit(line)
                    if isinstance(reply, Made):
                        tree.edit(line)
                        other.edit(line)
                    elif reply.why == "impossible":
                        refused += 1
                        explains_edit(reasons, checks, tree, line, reply.what, other)
    need(refused > rounds // 4, f"too few edits were refused: {refused}")


def random_line(tree, names):
    node = random.choice([each for each in tree.elements() if each.owner is not None])
    path, start = tree.path_of(node), random.randint(0, len(node.kids))
    texts = [kid for kid in node.kids if kid.kind == "text" and len(kid.units) > 1]
    if texts and random.random() < 0.3:
        text = random.choice(texts)
        return f"split {tree.path_of(text)} {random.randint(1, len(text.units) - 1)}"
    end, name = random.randint(start, len(node.kids)), random.choice(names)
    return random.choice(
        [
            f"wrap {path} {start} {end} {name}",
            f"insert {path} {start} {name}",
            f"unwrap {path}",
            f"rename {path} {name}",
            f"addtext {path} {start} text",
        ]
    )


def explains_edit(reasons, checks, tree, line, path, other):
    before, numbers = tree.written(), set(tree.nodes)
    found = reasons.of_edit(tree, [line], path)
    same((tree.written(), set(tree.nodes)), (before, numbers), f"the tree behind {line}")
    need(isinstance(other.edit(line), Made), f"{line} where all is allowed")
    shown = other.show()
    need(isinstance(other.undo(), Made), "its undo")
    change, back = tree.edit(line)
    same(tree.written().encode(), shown, f"the document behind {line}")
    owner = tree.node_at(path)
    name, kids, ids = owner.name, kids_of(owner.kids), [kid.id if kid.id in numbers else None for kid in owner.kids]
    back()
    need(found is not None and found.reason.path == path, f"no reason for {line}")
    same((found.ids, found.owner), (ids, owner.id if owner.id in numbers else None), f"the nodes of {line}")
    check_reason(checks, name, kids, found.reason)


# ---- what is shown ----

SHOWN = [
    (
        "article.dtd",
        "doc",
        "<doc><head/><head/><sec/></doc>",
        "The second `head` (line 1, column 13) has no place after the first (line 1, column 6): "
        "whatever is inserted, `doc` has room for one. `doc` is declared `(head, sec+)`.",
    ),
    (
        "article.dtd",
        "doc",
        "<doc><sec/>\n<head/></doc>",
        "`sec` (line 1) stands before `head` (line 2); in `doc` they come in the other order. "
        "`doc` is declared `(head, sec+)`.",
    ),
    (
        "article.dtd",
        "em",
        "<em>\n<list/></em>",
        "`em` can't hold `list` (line 2), and no element between them could. `em` is declared `(#PCDATA|em)*`.",
    ),
    (
        "article.dtd",
        "br",
        "<br> </br>",
        "White space (line 1) stands in `br`, which holds nothing. `br` is declared `EMPTY`.",
    ),
    (
        "article.dtd",
        "doc",
        "<doc><heading/></doc>",
        "`heading` (line 1) isn't declared. The declared name most like it: `head`.",
    ),
    (
        "article.dtd",
        "head",
        "<p/>",
        "The root is to be `head`, which can't hold `p` (line 1), and no element between them could. "
        "`head` is declared "
        "`(#PCDATA)`.",
    ),
    ("article.dtd", "dock", "<doc/>", "`dock` isn't declared. The declared name most like it: `doc`."),
]


def says(program):
    for dtd, root, data, sentence in SHOWN:
        with file_of(data.encode()) as path:
            words = [os.path.join(CLIENTS, "why"), os.path.join(EXAMPLES, dtd), root, path, "--program", program]
            ran = subprocess.run([sys.executable, *words], capture_output=True, encoding="utf-8")
        same(
            ran.stdout.replace("\n  ", " ").split(": ", 1)[-1], sentence + "\n", f"what is said of {data}: {ran.stderr}"
        )
    with file_of(b"<!ELEMENT r (a*)><!ELEMENT a (b|c)><!ELEMENT b (a)><!ELEMENT c (n)>", ".dtd") as dtd, file_of(
        b"<r><a/></r>"
    ) as path:
        ran = subprocess.run(
            [sys.executable, os.path.join(CLIENTS, "why"), dtd, "r", path, "--program", program],
            capture_output=True,
            encoding="utf-8",
        )
    same(
        ran.stdout.split(": ", 1)[-1],
        "`a` (line 1) can't be made valid, whatever is inserted: each `a` needs `b` or `c`; each `b` needs `a`; "
        "each `c` needs `n`, and `n` isn't declared.\n",
        "what is said of a ring",
    )


def main():
    program, rounds, seed = os.path.abspath(sys.argv[1]), int(sys.argv[2]), int(sys.argv[3])
    random.seed(seed)
    cases = [
        functools.partial(says, program),
        functools.partial(explains_random_lists, program, rounds),
        functools.partial(explains_long_lists, program),
        functools.partial(searches_by_any_rule, 5 * rounds),
        functools.partial(explains_far_sets, program),
        functools.partial(explains_under_large_dtds, program),
        functools.partial(explains_edits, program, 4 * rounds),
    ]
    for case in cases:
        case.__name__ = case.func.__name__
    sys.exit(run_cases("reasons", cases))


if __name__ == "__main__":
    main()
