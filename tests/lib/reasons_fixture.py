"""What the tests of `clients/pvtag`'s reasons share: asking `check` of lists, and checking that a reason holds."""
import itertools
import os
import re
import sys

from lib.annotate.fixture import TOP, need, same

CLIENTS = os.path.join(TOP, "clients")
sys.path.insert(0, CLIENTS)

from pvtag.program import file_of, run  # noqa: E402

FOREIGN = "other"
KIDS = {"text": "t", "white": "\n", "cdata": "<![CDATA[t]]>", "misc": "<!--c-->"}


def spelled(owner, kids):
    """A list alone."""
    inner = "".join(f"<{kid.name}/>" if kid.kind == "element" else KIDS[kid.kind] for kid in kids)
    return f"<{owner}>{inner}</{owner}>".encode()


class Checks:
    """Asks `check` of lists, one document each."""

    def __init__(self, program, dtd, root):
        self.program, self.dtd, self.root, self.known = program, dtd, root, {}

    def is_impossible(self, owner, kids):
        """Whether this list is; that of the document node holds the root alone."""
        key = owner, tuple(kids)
        if key not in self.known:
            data = spelled(owner, kids) if owner else spelled(kids[0].name, [])
            with file_of(data) as path:
                ran = run([self.program], "check", self.dtd, owner or self.root, path)
            need(ran.status < 2, f"check of {data!r}: {ran.line}")
            self.known[key] = ran.line.startswith("impossible" if owner else "impossible .")
        return self.known[key]


def check_reason(checks, owner, kids, reason):
    """That the reason holds of its list."""
    what = (
        f"{reason} of {spelled(owner or checks.root, kids)!r} under {open(checks.dtd, encoding='utf-8').read()[:600]}"
    )
    chosen = [kids[at] for at in reason.kids]
    need(list(reason.kids) == sorted(set(reason.kids)), f"the order of {what}")
    if not chosen:
        return same(
            (reason.cause in ("undeclared", "unproductive"), reason.first), (True, None), f"the cause of {what}"
        )
    need(checks.is_impossible(owner, chosen), f"the kids of {what}")
    if owner:
        sizes = range(len(chosen)) if len(chosen) <= 4 else [len(chosen) - 1]
        parts = (part for size in sizes for part in itertools.combinations(chosen, size))
        need(not any(checks.is_impossible(owner, part) for part in parts), f"a part of the kids of {what}")
        need(checks.is_impossible(owner, kids[: reason.first + 1]), f"the first kid of {what}")
        need(not checks.is_impossible(owner, kids[: reason.first]), f"what stands before the first kid of {what}")
        same(reason.first, reason.kids[-1], f"the last of the kids of {what}")
    check_sentence(checks, owner, kids, chosen, reason, what)


def check_sentence(checks, owner, kids, chosen, reason, what):
    """That what is said of the kids is so."""
    text = reason.sentence()
    if "come in the other order" in text:
        need(len(chosen) == 2 and not checks.is_impossible(owner, chosen[::-1]), f"the other order in {what}")
    if "in whichever order" in text:
        need(len(chosen) == 2 and checks.is_impossible(owner, chosen[::-1]), f"whichever order in {what}")
    if "has room for" in text:
        need(len(set(chosen)) == 1 and len(chosen) > 1, f"room in {what}")
        earlier = [kid for kid in kids[: reason.first + 1] if kid == chosen[0]]
        same(len(earlier), len(chosen), f"the number in {what}")
    if "isn't declared" in text and "most like it" not in text:
        need(reason.cause in ("undeclared", "unproductive"), f"the cause of {what}")
    mentions = [piece for piece in reason.so if isinstance(piece, int)]
    same(sorted(mentions), list(reason.kids), f"the kids that are named in {what}")
    need(re.fullmatch(r"[^`].*|`.+", text) and text.endswith((".", ">")), f"the sentence {text!r}")
