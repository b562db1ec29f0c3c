"""Wraps random selections of random documents by the code actions of `clients/lsp`, and by sessions, and compares.

Words: PROGRAM COUNT SEED, and the most seconds. The names that are offered are those with which a session makes the
wrap, and the edited text is what it shows then. What a session misses (`need`) is inserted by an action: the text
after it is valid, and without the new tags it is the old one. Prints each difference, and how many cases passed; ends
with 1 where one failed.
"""
import os
import random
import re
import sys
import tempfile
import time

sys.dont_write_bytecode = True
sys.path.insert(0, os.path.join(os.path.dirname(os.path.dirname(os.path.abspath(__file__))), "clients"))

from lib.lsp_client import EXAMPLES, Client, Fault, edited, edits_of, need, same, uri_of  # noqa: E402
from pvtag.layout import Layout  # noqa: E402
from pvtag.program import run  # noqa: E402
from pvtag.session import Made, Session  # noqa: E402

DTDS = {"letter": "letter.dtd", "doc": "article.dtd"}
TEXTS = ("Delft", " ", "\n", "é ", "\U0001f600", "&amp;", "&#x20;", "\r\n", "]", "a b ")
LEAVES = ("<!-- a <b> -->", "<?pi <b> ?>", "<![CDATA[ <b> ]]>")


def names_of(program, dtd):
    return [line.split(" ")[0] for line in run([program], "dtd", dtd).output.decode().splitlines()[:-1]]


def made(dice, names, depth):
    """A random element's content."""
    parts = []
    for _ in range(dice.randrange(5)):
        kind = dice.random()
        if kind < 0.45:
            parts.append("".join(dice.choice(TEXTS) for _ in range(dice.randrange(1, 4))))
        elif kind < 0.55:
            parts.append(dice.choice(LEAVES))
        elif depth:
            name, attributes = dice.choice(names), dice.choice(("", "", " a='>'"))
            inner = made(dice, names, depth - 1)
            parts.append(
                f"<{name}{attributes}/>"
                if not inner and dice.random() < 0.5
                else f"<{name}{attributes}>{inner}</{name}{dice.choice(('', ' '))}>"
            )
    return "".join(parts)


class Place:
    """A place in a list: its element's path, a kid, and the unit before which a text is cut."""

    def __init__(self, layout, offset):
        owner, self.kid, self.unit = layout.gap(offset)
        self.path = owner.path
        inside = layout.at(offset)
        self.is_in_tag = (
            inside.span.start < offset < inside.inside.start or inside.inside.end < offset < inside.span.end
        )
        self.is_in_tag = (
            self.is_in_tag if inside.kind == "element" else inside.kind != "text" and inside.span.start < offset
        )


def widened(text, start, end):
    """A selection with whole references and without the blanks at its ends."""
    for found in re.finditer("&[^;<]*;", text):
        start = found.start() if found.start() < start < found.end() else start
        end = found.end() if found.start() < end < found.end() else end
    while start < end and text[start] in " \t\r\n":
        start += 1
    while start < end and text[end - 1] in " \t\r\n":
        end -= 1
    return start, end


def wrapped(session, text, names, start, end):
    """What each name makes of a text, by a session that makes the wrap."""
    start, end = widened(text, start, end)
    layout = Layout(text.encode())
    first, last = (Place(layout, len(text[:at].encode())) for at in (start, end))
    if start == end or first.is_in_tag or last.is_in_tag or first.path != last.path:
        return {}
    cuts = 0
    if last.unit:
        need(isinstance(session.split(f"{last.path}.{last.kid}", last.unit), Made), "a cut")
        cuts += 1
    if first.unit:
        need(isinstance(session.split(f"{first.path}.{first.kid}", first.unit), Made), "a cut")
        cuts += 1
    begin = first.kid + bool(first.unit)
    until = last.kid + bool(last.unit) + (bool(first.unit) and (last.kid > first.kid or bool(last.unit)))
    found = {}
    for name in names:
        if isinstance(session.wrap(first.path, begin, until, name), Made):
            found[name] = session.show().decode()
            session.undo()
    for _ in range(cuts):
        session.undo()
    return found


def is_impossible(session, text, start, end):
    """Whether nothing mends the list that a selection is in."""
    path = Place(Layout(text.encode()), len(text[:start].encode())).path
    return any(row.path == path and row.verdict == "impossible" for row in session.verdicts())


def compare(client, program, dice, root, file):
    """One document, and some selections of it. What was compared."""
    dtd = os.path.join(EXAMPLES, DTDS[root])
    names = names_of(program, dtd)
    text = f"<!DOCTYPE {root} SYSTEM '{DTDS[root]}'>\n<{root}>{made(dice, names, 4)}</{root}>\n"
    with open(file, "w", encoding="utf-8", newline="") as out:
        out.write(text)
    uri = uri_of("random.xml")
    client.open(uri, text)
    with Session([program], dtd, root, file) as session:
        for _ in range(8):
            start, end = sorted(dice.randrange(text.index(f"<{root}>"), len(text)) for _ in range(2))
            if "\r" in (text[start - 1], text[end - 1]) and "\n" in (text[start], text[end]):
                continue
            want = wrapped(session, text, names, start, end)
            actions = client.actions(uri, (start, end), ["refactor.rewrite"])
            got = {
                title[len("Wrap in <") : -1]: edited(text, edits_of(each["edit"]))
                for title, each in actions.items()
                if title.startswith("Wrap in")
            }
            if is_impossible(session, text, *widened(text, start, end)):
                # A session counts there, and refuses little.
                need(all(want.get(name) == each for name, each in got.items()), f"{text[start:end]!r} of {text!r}: {got}")
            else:
                same((sorted(got), got), (sorted(want), want), f"the selection {text[start:end]!r} of {text!r}")
        mend(client, program, session.need(), uri, text, dtd, root, file)


def mend(client, program, missing, uri, text, dtd, root, file):
    """Inserts what is missing, where something is."""
    actions = client.actions(uri, (0, 0), ["quickfix"])
    if not isinstance(missing, int) or missing == 0:
        return same(list(actions), [], f"nothing is missing: {text!r}")
    (action,) = actions.values()
    changed = edited(text, edits_of(client.ask("codeAction/resolve", action)["edit"]))
    with open(file, "w", encoding="utf-8", newline="") as out:
        out.write(changed)
    same(run([program], "valid", dtd, root, file).line, "valid", f"{text!r} completed: {changed!r}")
    same(
        changed.count("</") + changed.count("/>") - text.count("</") - text.count("/>"),
        missing,
        f"new elements: {changed!r} of {text!r}",
    )
    rest = iter(changed)
    need(all(char in rest for char in text.replace("/>", ">")), f"something was lost: {changed!r} of {text!r}")
    return None


def main():
    program, count, dice = os.path.abspath(sys.argv[1]), int(sys.argv[2]), random.Random(int(sys.argv[3]))
    until = time.monotonic() + float(sys.argv[4]) if len(sys.argv) > 4 else float("inf")
    passed = failed = 0
    with tempfile.TemporaryDirectory() as folder, Client(program) as client:
        for _ in range(count):
            if time.monotonic() > until:
                break
            try:
                compare(client, program, dice, dice.choice(list(DTDS)), os.path.join(folder, "random.xml"))
                passed += 1
            except Fault as fault:
                failed += 1
                print(f"differs: {fault}", flush=True)
        if client.complaints:
            failed += 1
            print(f"differs: {client.complaints}")
    print(f"{passed} passed, {failed} failed")
    return 1 if failed else 0


if __name__ == "__main__":
    sys.exit(main())
