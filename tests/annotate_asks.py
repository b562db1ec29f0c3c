"""Tries what the page of `clients/annotate` asks for, after random moves: what is missing and taken over, what tags
cost, what is typed, attributes.

Words: PROGRAM SEED. Prints each difference, and how many cases passed; ends with 1 where one failed.
"""
import functools
import os
import random
import re
import sys
import tempfile

sys.dont_write_bytecode = True

from lib.annotate.fixture import ARTICLE, EXAMPLES, FOLDER, LETTER, fault_of, need, run_cases, same  # noqa: E402

sys.path.insert(0, os.path.dirname(FOLDER))

from annotate.attributes import Attributes  # noqa: E402
from annotate.completions import Completions  # noqa: E402
from annotate.costs import Costs  # noqa: E402
from annotate.declared import declared_by  # noqa: E402
from annotate.editor import Editor  # noqa: E402
from annotate.everywhere import Everywhere  # noqa: E402
from pvtag.document import TEXT, shown  # noqa: E402
from pvtag.program import Trouble  # noqa: E402
from annotate.runs import texts_of  # noqa: E402
from annotate.script import Script  # noqa: E402
from annotate.texts import Texts  # noqa: E402

PAGE = os.path.join(EXAMPLES, "page.dtd")
SOURCES = [(LETTER, "letter", "letter.xml"), (ARTICLE, "doc", "article.xml"), (PAGE, "html", "page.xhtml")]
ROUNDS = 6


def editor_on(program, folder, dtd, root, source):
    path = os.path.join(folder, "doc.xml")
    with open(path, "wb") as file:
        file.write(source)
    return Editor([program], dtd, root, Script(path))


def drafts(program):
    """Editors on documents some of whose tags were taken away."""
    for dtd, root, name in SOURCES:
        with open(os.path.join(EXAMPLES, name), "rb") as file:
            source = file.read()
        for _ in range(ROUNDS):
            with tempfile.TemporaryDirectory() as folder:
                editor = editor_on(program, folder, dtd, root, source)
                for _ in range(random.randint(1, 12)):
                    nodes = [node for node in editor.document.elements() if node.owner is not None and node.owner.owner is not None]
                    if nodes:
                        editor.move({"version": editor.version, "kind": "unwrap", "node": random.choice(nodes).id})
                yield editor
                editor.close()


def text_in(source):
    return re.sub(rb"<[^>]*>", b"", source)


def takes_over(program):
    """What is taken over makes the document valid with so many elements as were missing, all at once, one by one and
    list by list."""
    for editor in drafts(program):
        completions, before, missing = Completions(editor), editor.shown(), editor.session.need()
        need(isinstance(missing, int), f"something is missing: {missing}")
        count, moves = sum(1 for _ in editor.document.elements()), len(editor.made)
        same(completions.preview()["new"], missing, "the preview")
        left = completions.take({"version": editor.version})["left"]
        same((editor.session.need(), text_in(editor.shown())), (left, text_in(before)), "all of it, but for what may have several names")
        same(sum(1 for _ in editor.document.elements()) - count, missing - left, "so many are new")
        same(editor.document.written().encode(), editor.shown(), "the tree")
        same(len(editor.made), moves + (left < missing), "one move")
        editor.back({"version": editor.version, "to": moves})
        same(editor.shown(), before, "taken back in one move")
        for left in range(missing, 0, -1):
            same(completions.preview()["new"], left, "one by one")
            new = random.choice(list(completions.news))
            names = completions.choices.get(new, [completions.news[new][1].node.name])
            completions.take({"version": editor.version, "new": new, "name": random.choice(names)})
        same((editor.session.need(), text_in(editor.shown())), (0, text_in(before)), "each of them")
        editor.back({"version": editor.version, "to": moves})
        for _ in range(missing):
            lists = [node for node in editor.document.elements() if node.verdict == "possible"]
            if not lists:
                break
            node, left = random.choice(lists), editor.session.need()
            rows = completions.missing({"node": node.id})["missing"]
            new, names = len(rows), {}
            several = [row for row in rows if "choices" in row]
            if several:
                row = random.choice(several)
                names[str(row["id"])] = random.choice(row["choices"])
            completions.take({"version": editor.version, "node": node.id, "names": names})
            same((node.verdict, editor.session.need()), ("valid", left - new), f"list by list: {node.name}")
        same(editor.session.need(), 0, "all lists")


def counts_costs(program):
    """What a tag costs is the difference of what the whole document misses."""
    counted = 0
    for editor in drafts(program):
        costs, before = Costs(editor, declared_by(editor.program, editor.dtd)), editor.session.need()
        for _ in range(3):
            node = random.choice([node for node in editor.document.elements() if node.kids])
            start, end = sorted(random.choices(range(len(node.kids) + 1), k=2))
            ends = [[node.kids[at].id, 0] if at < len(node.kids) else [None, 0] for at in (start, end)]
            ask = {"list": node.id, "from": ends[0], "to": ends[1]}
            if random.random() < 0.3 and node.owner is not None:
                ask = {"node": node.id}
            offer = costs.offer(ask)
            if "names" not in offer:
                continue
            _, line, _ = costs.edit(ask)
            known, left = {**offer["costs"], **dict.fromkeys(offer["whole"])}, 1
            while left:
                answer = costs.more({"task": offer["task"], "names": random.sample(offer["names"], k=min(2, len(offer["names"]))), "all": True})
                known, left = {**known, **answer["costs"]}, answer["left"]
            same(sorted(known), sorted(offer["names"]), "each name that is offered")
            need("is_gone" not in answer and answer["is_quick"], f"all are told: {answer}")
            told, wanted = {}, random.sample([name for name, cost in known.items() if cost], k=min(3, sum(map(bool, known.values()))))
            while set(told) < set(wanted):
                answer = costs.more({"task": offer["task"], "names": [name for name in wanted if name not in told], "all": False})
                need(answer["names"] and not answer["costs"], f"which elements: {answer}")
                told |= answer["names"]
            for name, cost in known.items():
                more = editor.tried([f"{line} {name}"], editor.session.need) - before
                need(more <= 0 if cost is None else more == cost, f"{line} {name}: {cost} for {more}")
                names = told.get(name)
                need(names is None or "…" in names or count_of(names) >= more, f"{line} {name}: {names} for {more}")
                counted += 1
        costs.close()
    need(counted > 50, f"too few were counted: {counted}")


def count_of(names):
    """How many elements these are, as they are told."""
    return sum(int(name.partition(" ×")[2] or 1) for name in names)


def types(program):
    """What is typed stands where it was typed; what is typed on is one move."""
    for editor in drafts(program):
        texts, made = Texts(editor), 0
        for _ in range(12):
            places = [(node, *each) for node in editor.document.elements() for each in texts_of(node)]
            if not places:
                break
            owner, first, nodes = random.choice(places)
            before = [unit for node in nodes for unit in node.units]
            start, end = sorted(random.choices(range(len(before) + 1), k=2))
            typed = random.choice(["a", "<&>]]>", "é𐀀", "x\ny", ""])
            document, on, count = editor.shown(), random.random() < 0.5, len(editor.made)
            ask = {"version": editor.version, "text": typed, "on": on, "place": {"list": owner.id, **ends_of(nodes, start, end)}}
            answer = texts.type(ask)
            if "no" in answer:
                same(editor.shown(), document, "a refusal changes nothing")
                continue
            now = "".join(shown(unit) for node in owner.kids[first:] for unit in (node.units if node.kind == TEXT else ["\0"])).split("\0")[0]
            same(now, "".join(map(shown, before[:start])) + typed + "".join(map(shown, before[end:])), "the text")
            same(editor.document.written().encode(), editor.shown(), "the tree")
            need(len(editor.made) <= count + 1, "at most one move more")
            side_by_side = next((len(beside) for at, beside in texts_of(owner) if at == first), 0)
            need(side_by_side <= len(nodes), "no more texts stand side by side than before")
            made += 1
        need(made > 0, "something was typed")
        editor.back({"version": editor.version, "to": 0})
        same(editor.shown(), editor.script.source, "all taken back")


def ends_of(nodes, start, end):
    """The places of two units of texts side by side."""
    places = []
    for unit in (start, end):
        at = 0
        while at < len(nodes) - 1 and unit > len(nodes[at].units):
            unit -= len(nodes[at].units)
            at += 1
        places.append([nodes[at].id, unit])
    return {"from": places[0], "to": places[1]}


def survives_cuts(program):
    """Moves of several lines and attributes: wherever a script was cut off, each whole move is there, and no part of
    one."""
    with tempfile.TemporaryDirectory() as folder:
        source = b"<letter><opener><salute>Dear brother,</salute></opener><body><p a='1'>In Delft, Delft and Delft.</p></body></letter>\n"
        editor = editor_on(program, folder, LETTER, "letter", source)
        everywhere, attributes, seen = Everywhere(editor), Attributes(editor), {0: source}
        paragraph = editor.document.there("0.1.0")

        def keep():
            seen[len(editor.made)] = editor.shown()

        places = [row["place"] for row in everywhere.places({"text": "Delft", "name": "place"})["places"]]
        same(everywhere.tag({"version": editor.version, "name": "place", "places": places})["refused"], 0, "all places")
        keep()
        attributes.change({"version": editor.version, "node": paragraph.id, "pairs": [["a", "1"], ["b", "x\"<&\n"]]})
        need(b"""<p a='1' b="x&quot;&lt;&amp;&#10;">""" in editor.shown(), "attributes, those that are as they were in their form")
        keep()
        for pair in (["a b", ""], ["a", "1"], ["", ""], ["x", "\x01"], ["a=\"\" b", "c"]):
            pairs = [["a", "1"], pair]
            fault = fault_of(lambda: attributes.change({"version": editor.version, "node": paragraph.id, "pairs": pairs}))
            need(isinstance(fault, Trouble), f"{pair} is refused: {fault!r}")
        Texts(editor).type({"version": editor.version, "text": "x", "place": {"list": paragraph.id, "from": [None, 0], "to": [None, 0]}})
        keep()
        editor.undo({"version": editor.version})
        editor.undo({"version": editor.version})
        editor.redo({"version": editor.version})
        editor.close()
        path = os.path.join(folder, "doc.xml.pvtag")
        with open(path, "rb") as file:
            script = file.read()
        for size in range(0, len(script) + 1, 3):
            with open(path, "wb") as file:
                file.write(script[:size])
            editor = Editor([program], LETTER, "letter", Script(os.path.join(folder, "doc.xml")))
            same(editor.shown(), seen[len(editor.made)], f"{size} bytes of the script")
            while editor.undone:
                editor.redo({"version": editor.version})
            same(editor.shown(), seen[len(editor.made)], f"what can be made again behind {size} bytes")
            editor.back({"version": editor.version, "to": 0})
            same(editor.shown(), source, "all taken back")
            editor.close()


CASES = [takes_over, counts_costs, types, survives_cuts]


def main():
    program = os.path.abspath(sys.argv[1])
    random.seed(int(sys.argv[2]))
    return run_cases("what the page asks for", [functools.update_wrapper(functools.partial(case, program), case) for case in CASES])


if __name__ == "__main__":
    sys.exit(main())
