"""Tries what makes a letter quick in `clients/annotate`: a tag round each line, the order of what is offered, and the palette.

Words: PROGRAM, and names of cases, all where there are none. Prints each difference, and how many cases passed; ends with 1 where one failed.
"""
import functools
import itertools
import os
import subprocess
import sys
import tempfile
import threading
import time

sys.dont_write_bytecode = True

from lib.annotate.fixture import FOLDER, LETTER, fault_of, need, run_cases, same  # noqa: E402
from lib.annotate.letter import DTD, PLAIN, WHOLE  # noqa: E402

sys.path.insert(0, os.path.dirname(FOLDER))

from annotate.attributes import Attributes  # noqa: E402
from annotate.comments import Comments  # noqa: E402
from annotate.completions import Completions  # noqa: E402
from annotate.costs import Costs  # noqa: E402
from annotate.declared import declared_by  # noqa: E402
from annotate.downloads import Downloads  # noqa: E402
from annotate.editor import Editor  # noqa: E402
from annotate.everywhere import Everywhere  # noqa: E402
from annotate.explain import Explainer  # noqa: E402
from annotate.neighbours import Neighbours  # noqa: E402
from annotate.palette import Palette  # noqa: E402
from annotate.pieces import Pieces  # noqa: E402
from pvtag.program import Trouble  # noqa: E402
from annotate.runs import Stale  # noqa: E402
from annotate.script import Script  # noqa: E402
from annotate.suggest import Suggestions  # noqa: E402
from annotate.uses import Uses  # noqa: E402
from annotate.values import Names, Values  # noqa: E402

LINES = "<letter><opener><salute>Dear</salute></opener><body>\n  One <lb/> here,\n\tTwo.\n\n<!-- no -->\n<p>Three.</p>\nFour &#10;five\n \n Six</body></letter>\n"


class Place:
    """A folder with a document, and what is marked up in it."""

    def __init__(self, program, source, dtd=LETTER, root="letter", **others):
        self.kept = tempfile.TemporaryDirectory()
        self.program, self.folder, self.root = program, self.kept.name, root
        for name, text in {"doc.xml": source, **others}.items():
            with open(os.path.join(self.folder, name), "w", encoding="utf-8", newline="") as file:
                file.write(text)
        self.dtd = dtd if os.path.isabs(dtd) else os.path.join(self.folder, dtd)
        self.editor = Editor([program], self.dtd, root, Script(os.path.join(self.folder, "doc.xml")))

    def __enter__(self):
        return self

    def __exit__(self, *_):
        self.editor.close()
        self.kept.cleanup()

    def run_of(self, words, until=None, nth=0):
        """A run from words up to the end of others, in the list that holds the first and the last."""
        document = self.editor.document
        texts = [node for node in document.nodes.values() if node.kind == "text" and is_there(document, node)]
        order = {node.id: at for at, node in enumerate(in_order(document))}
        texts.sort(key=lambda node: order[node.id])
        places = [(node, at) for node in texts for at in all_in(whole(node), words)]
        first, at = places[nth]
        if until is None:
            last, to = first, at + len(words)
        else:
            last, to = next((node, whole(node).index(until) + len(until)) for node in texts
                            if until in whole(node) and order[node.id] >= order[first.id])
        ones, others = line_of(first), line_of(last)
        depth = next(at for at, (one, other) in enumerate(zip(ones, others)) if one is not other or one is first)
        one, other = ones[depth], others[depth]
        return {"list": one.owner.id, "from": [one.id, at if one is first else 0], "to": [other.id, to if other is last else 1]}

    def wrap(self, name, place):
        return self.editor.move({"version": self.editor.version, "kind": "wrap", "place": place, "name": name})


def whole(node):
    return "".join(unit if len(unit) == 1 else "\0" for unit in node.units)


def all_in(text, words):
    at = text.find(words)
    while at >= 0:
        yield at
        at = text.find(words, at + 1)


def line_of(node):
    line = []
    while node is not None:
        line.insert(0, node)
        node = node.owner
    return line


def in_order(document):
    todo = [document.top]
    while todo:
        node = todo.pop()
        yield node
        todo.extend(reversed(node.kids))


def is_there(document, node):
    return any(node is each for each in in_order(document))


def element(editor, name, nth=0):
    return [node for node in editor.document.elements() if node.name == name][nth]


def tags_each_line(program):
    """Each line, or each paragraph, of a run gets a tag, in one move; a line end in an element, and one that is a
    reference, cuts nothing."""
    with Place(program, LINES) as place:
        editor = place.editor
        pieces = Pieces(editor, Everywhere(editor))
        body = element(editor, "body")
        run = {"list": body.id, "from": [body.kids[0].id, 0], "to": [None, 0]}
        told = pieces.of({"place": run, "name": "p"})
        same((told["by"], [row["text"] for row in told["pieces"]]), ("paragraphs", ["One ⟨lb⟩ here, Two.", "⟨p⟩ Four five", "Six"]), "paragraphs")
        same([row["refused"] for row in told["pieces"]], [False, True, False], "one would stand in another")
        told = pieces.of({"place": run, "name": "p", "by": "lines"})
        same([row["text"] for row in told["pieces"]], ["One ⟨lb⟩ here,", "Two.", "Four five", "Six"], "lines, without the one that has the tag")
        same((editor.ahead, len(editor.made)), (0, 0), "nothing was made")
        places = [row["place"] for row in told["pieces"]]
        same(pieces.tag({"version": editor.version, "name": "p", "places": places})["refused"], 0, "all of them")
        want = LINES.replace("One <lb/> here,", "<p>One <lb/> here,</p>").replace("Two.", "<p>Two.</p>").replace("Four &#10;five", "<p>Four &#10;five</p>")
        same(editor.shown().decode(), want.replace("Six", "<p>Six</p>"), "the document")
        same((len(editor.made), editor.made[-1].title), (1, "⟨p⟩ in 4 places"), "one move")
        editor.undo({"version": editor.version})
        same(editor.shown().decode(), LINES, "taken back")
        need(isinstance(fault_of(lambda: pieces.tag({"version": editor.version - 1, "name": "p", "places": places})), Stale), "what isn't there any more")
        same(pieces.tag({"version": editor.version, "name": "salute", "places": places})["refused"], 4, "a tag that is refused everywhere")
        same(len(editor.made), 1 - 1, "makes nothing")
        told = pieces.of({"place": run, "name": "salute", "by": "lines"})
        same([row["refused"] for row in told["pieces"]], [True] * 4 + [True], "which is told")


# Names that nobody wants here, beside those of the letter; all of them stand wherever a name or a date does.
OTHERS = [f"other{number}" for number in range(44)]
WIDE = DTD.replace("|hi)*>", "|hi|" + "|".join(OTHERS) + ")*>").replace("|placeName|date)*>", "|placeName|date|" + "|".join(OTHERS) + ")*>")
WIDE = "".join(f"<!ELEMENT {name} (#PCDATA)>\n" for name in OTHERS) + WIDE
# The moves of the letter: a name, and the words that it goes round.
MOVES = [
    ("title", "Letter to Pieter"), ("text", "Leiden", "know why."), ("opener", "Leiden", "Dear brother,"), ("dateline", "Leiden", "1764"),
    ("placeName", "Leiden"), ("date", "3 May 1764"), ("salute", "Dear brother,"), ("p", "I have", "to Anna."), ("p", "We saw:"),
    ("list", "the Old Church", "the market."), ("item", "the Old Church"), ("item", "the New Church"), ("item", "the market."),
    ("p", "From Delft", "12 May."), ("closer", "Yours, Jan"), ("postscript", "PS Greet", "know why."), ("persName", "Mr Adams"),
    ("placeName", "Delft"), ("persName", "Anna"), ("persName", "Mr Adams", None, 1), ("placeName", "London"), ("date", "12 May"),
    ("persName", "Jan"), ("hi", "Old"), ("hi", "New"), ("hi", "will"), ("hi", "regards"),
]
# What is tagged by the key for the last tag again, without a menu.
AGAIN = ("the New Church", "the market.", "London", "New")


def rows_of(costs, place):
    """The names for a place, in the order in which the menu has them at first: by what they cost, as far as that is quickly
    told, and then as they are offered."""
    offer = costs.offer(place)
    known, is_quick = dict(offer["costs"]) | dict.fromkeys(offer["whole"], 0), False
    while not is_quick:
        answer = costs.more({"task": offer["task"], "names": [], "all": False})
        known, is_quick = known | answer["costs"], answer["is_quick"]
    return sorted(offer["names"], key=lambda name: max(0, known[name]) if known.get(name) is not None else 1 << 30)


def offers_what_is_wanted(program):
    """Under a DTD of 60 names the wanted name is among the first five in nine of ten moves of a letter, where another letter
    lies beside it; without one it is, from its second use on."""
    for others, first in (({"before.xml": WHOLE, "other.xml": "<nothing>", "plain.txt": "x"}, True), ({}, False)):
        with Place(program, f"<TEI>{PLAIN}</TEI>\n", "wide.dtd", "TEI", **{"wide.dtd": WIDE}, **others) as place:
            declared = declared_by([program], place.dtd)
            need(len(declared) >= 60, f"so many names: {len(declared)}")
            around = Neighbours(place.editor.script.document, "TEI")
            around.read.join()
            same(around.count, len(others) and 1, "documents beside it")
            costs = Costs(place.editor, declared, Uses(place.editor, around, ["lb"]))
            seen, ranks = set(), []
            for name, words, *more in MOVES:
                run = place.run_of(words, *more)
                rows = rows_of(costs, run)
                need(name in rows, f"{name} is offered: {rows}")
                parent = place.editor.document.nodes[run["list"]].name
                if words not in AGAIN and (first or (parent, name) in seen):
                    ranks.append((rows.index(name), name, words))
                seen.add((parent, name))
                need("changes" in place.wrap(name, run), f"{name} round {words}")
            good = sum(rank < 5 for rank, *_ in ranks)
            need(good * 10 >= len(ranks) * 9 and len(ranks) > 3, f"{good} of {len(ranks)}: {ranks}")
            p = element(place.editor, "p", 1)
            at_caret = costs.offer({"list": p.id, "from": [p.kids[0].id, 1], "to": [p.kids[0].id, 1]})["names"]
            same(at_caret[0], "lb", "at a caret what is EMPTY comes first")
            costs.close()


TAGS = """# The names of our letters.
#
a  person  key="adams" type='x'  #b3541e
l place
1\tdate\tkey="1 < 2" #abc
"""


def has_a_palette(program):
    """Tags with attributes are read of a file beside the DTD, and written to it; one is put in one move."""
    with open(LETTER, encoding="utf-8") as file:
        dtd = file.read()
    source = "<letter><opener><salute>Dear</salute></opener><body><p>I met Mr Adams.</p></body></letter>"
    with Place(program, source, "own.dtd", "letter", **{"own.dtd": dtd, "tags.txt": TAGS.replace("1 < 2", "1 &lt; 2")}) as place:
        editor, path = place.editor, os.path.join(place.folder, "tags.txt")
        attributes = Attributes(editor)
        palette = Palette(place.dtd, attributes)
        rows = palette.rows()
        same([(row["key"], row["name"], row["pairs"], row["colour"]) for row in rows],
             [("a", "person", [("key", "adams"), ("type", "x")], "#b3541e"), ("l", "place", [], ""), ("1", "date", [("key", "1 < 2")], "#abc")], "the file")
        os.chmod(path, 0o640)
        same(palette.put({"palette": rows})["palette"], rows, "what is written is what is read")
        with open(path, encoding="utf-8") as file:
            text = file.read()
        need(text.startswith("# The names of our letters.\n#\na  person"), f"its notes stay: {text}")
        same(os.stat(path).st_mode & 0o777, 0o640, "its mode")
        for bad in ({"key": "ab"}, {"key": ""}, {"key": "l"}, {"name": "a b"}, {"name": ""}, {"colour": "red"}, {"pairs": [["a b", ""]]}, {"pairs": [["a", "\x01"]]}):
            fault = fault_of(lambda: palette.put({"palette": [{**rows[0], **bad}, rows[1]]}))
            need(isinstance(fault, Trouble), f"{bad}: {fault!r}")
        same(palette.rows(), rows, "nothing is written then")
        for bad in ("a\n", "ab person\n", "a person key=adams\n", "a person\na place\n"):
            with open(path, "w", encoding="utf-8") as file:
                file.write(bad)
            need("tags.txt" in str(fault_of(palette.rows)), f"{bad!r} is told")
        os.unlink(path)
        same((palette.rows(), len(palette.put({"palette": rows})["palette"])), ([], 3), "a file that isn't there is made")
        told = attributes.tag({"version": editor.version, "kind": "wrap", "place": place.run_of("Mr Adams"), "name": "person", "pairs": [["key", "<a>"]]})
        need("changes" in told and b'met <person key="&lt;a>">Mr Adams</person>.' in editor.shown(), f"a tag with its attributes: {editor.shown()}")
        same((len(editor.made), editor.made[0].title), (1, "⟨person⟩ round “Mr Adams”"), "one move, told by its tag")
        editor.undo({"version": editor.version})
        same(editor.shown().decode(), source, "taken back")
        attributes.tag({"version": editor.version, "kind": "insert", "place": {**place.run_of("met"), "to": place.run_of("met")["from"]}, "name": "lb", "pairs": [["n", "1"]]})
        need(b'I <lb n="1"/>met' in editor.shown(), f"at a caret: {editor.shown()}")
        told = attributes.tag({"version": editor.version, "kind": "wrap", "place": place.run_of("Adams"), "name": "body", "pairs": [["n", "1"]]})
        same((told["no"], len(editor.made)), ("impossible", 1), "a tag that is refused")
        attributes.close()


def gives_required_attributes(program):
    """What is taken over has the attributes that it requires, where they have one value; a reference to an entity is shown
    and written as it is."""
    dtd = """<!ELEMENT doc (a, a)><!ELEMENT a (b)><!ELEMENT b EMPTY><!ATTLIST a kind (only) #REQUIRED who CDATA #REQUIRED>
    <!ATTLIST b v CDATA #FIXED "1"><!ATTLIST doc x CDATA #IMPLIED>"""
    with Place(program, "<doc></doc>", "own.dtd", "doc", **{"own.dtd": dtd}) as place:
        editor = place.editor
        attributes = Attributes(editor)
        if attributes.known.why_not:
            print("skipped: required attributes (no lxml, package python3-lxml)")
        else:
            completions = Completions(editor, attributes)
            completions.preview()
            completions.take({"version": editor.version})
            same(editor.shown().decode(), '<doc><a kind="only"><b></b></a><a kind="only"><b></b></a></doc>', "all of it")
            same(len(editor.made), 1, "one move")
            editor.undo({"version": editor.version})
            same(editor.shown().decode(), "<doc></doc>", "taken back")
            completions.missing({"node": element(editor, "doc").id})
            completions.take({"version": editor.version, "node": element(editor, "doc").id})
            need(editor.shown().decode().startswith('<doc><a kind="only"><b></b></a>'), f"those of one list: {editor.shown()}")
        attributes.close()
    source = "<!DOCTYPE doc [<!ENTITY me 'Anna'>]>\n<doc x='&me; &amp;me; b'/>"
    with Place(program, source, "own.dtd", "doc", **{"own.dtd": dtd}) as place:
        editor = place.editor
        attributes, root = Attributes(editor), element(editor, "doc")
        pairs = attributes.of({"node": root.id})["pairs"]
        same(pairs, [("x", "&me; &me; b")], "as it is written")
        attributes.change({"version": editor.version, "node": root.id, "pairs": pairs})
        same(editor.whole_source().decode(), source, "what wasn't changed stays as it was")
        attributes.change({"version": editor.version, "node": root.id, "pairs": [*pairs, ["y", "of &me;"]]})
        same(editor.whole_source().decode(), source.replace("b'/>", "b' y=\"of &me;\"/>"), "another one with a reference")
        attributes.close()


def gives_reasons_one_can_read(program):
    """A long model is told by its first names, with the DTD's entities spelled out; comments are those before a name."""
    with Place(program, "<doc><head>x</head><p>One two</p></doc>", "own.dtd", "doc", **{"own.dtd": READABLE}) as place:
        editor = place.editor
        explainer = Explainer(editor)
        told = place.wrap("head", place.run_of("two"))["later"]()
        same(told["why"], "`p` can't hold `head`, and no element between them could. `p` takes text, `hi`, `foreign` … (14).", "a long one")
        same(told["model"], "(#PCDATA|" + "|".join(INLINE) + ")*", "its whole model")
        told = place.wrap("doc", place.run_of("x"))["later"]()
        same((told["why"].split(". ")[1], "model" in told), ("`head` is declared `(#PCDATA)`.", False), "a short one")
        takes = explainer.takes
        same(takes.comments, {"p": "A paragraph.", "head": "What stands above."}, "comments")
        same(takes.of("none"), ("", ""), "what isn't declared")


INLINE = "hi foreign name date place person abbr num corr sic gap note ref".split()
READABLE = f"""<!ENTITY % inline "{'|'.join(INLINE)}"><!ENTITY % all '#PCDATA | %inline;'>
<!-- ==== A paragraph. ==== -->
<!ELEMENT p (%all;)*>
<!-- Not this one. --> <!ENTITY % x ""> <!ELEMENT doc (head, p+)>
<!-- What
 stands above. --><!ELEMENT head (#PCDATA)>
""" + "".join(f"<!ELEMENT {name} (#PCDATA)>" for name in INLINE)


def suggests_what_was_tagged(program):
    """Exact words that had the same tag three times, in the documents beside or here, where they stand without it."""
    beside = "<letter><opener><salute>x</salute></opener><body><p>{}</p></body></letter>"
    adams, delft = "<person key='adams' id='{}'>Mr Adams</person>", "<place>Delft</place>"
    others = {
        "a.xml": beside.format(adams.format("a") + adams.format("b") + delft + "<place>May</place><date>May</date>"),
        "b.xml": beside.format(adams.format("a") + delft + "<place>May</place><date>May</date><place>Rome</place>"),
        "c.xml": beside.format("<place>May</place><date>May</date><place>Rome</place><person>Tom</person>"), "d.xml": "<other>", "e.xml": "<letter>&",
    }
    source = "<letter><opener><salute>Mr Adams</salute></opener><body><p>Mr Adams of Delft, <place>Delft</place>, Delftware &amp; Mr Adams; May Rome Tom</p></body></letter>"
    with open(LETTER, encoding="utf-8") as file:
        dtd = file.read() + "<!ATTLIST person key CDATA #IMPLIED id ID #IMPLIED>"
    with Place(program, source, "own.dtd", "letter", **{"own.dtd": dtd}, **others) as place:
        editor = place.editor
        around, attributes = Neighbours(editor.script.document, "letter"), Attributes(editor)
        around.read.join()
        same(around.count, 3, "the documents that can be read")
        suggestions = Suggestions(editor, around, Everywhere(editor), attributes)

        def told():
            return [(row["text"], row["name"], row["count"], row["here"], row["before"][-8:]) for row in suggestions.told()["rows"]]

        first = suggestions.told()["rows"][0]
        if attributes.known.why_not:
            print("skipped: identifiers in suggestions (no lxml, package python3-lxml)")
        else:
            same(told(), [("Mr Adams", "person", 3, 2, ""), ("Delft", "place", 3, 1, "Adams of "[-8:]), ("Mr Adams", "person", 3, 2, "tware & ")],
                 "no part of a word, none that has it, none that had two tags as often")
            same(first["pairs"], [("key", "adams")], "its attributes, without the identifier")
            need("changes" in attributes.tag({"version": editor.version, "kind": "wrap", **{key: first[key] for key in ("place", "name", "pairs")}}), "it is taken")
            need(b'<p><person key="adams">Mr Adams</person> of Delft' in editor.shown(), f"the document: {editor.shown()}")
            same([row[:4] for row in told()], [("Delft", "place", 3, 1), ("Mr Adams", "person", 4, 1)], "what is left")
        same((editor.ahead, len(editor.made)), (0, 0 if attributes.known.why_not else 1), "nothing else was made")
        attributes.close()


def keeps_nobody_waiting(program):
    """While suggestions are looked for, which takes long, another has the lock within a moment; where it changes the document
    they are looked for anew."""
    tagged = "".join(f"<place>Town {number}</place> " * 3 for number in range(30))
    body = f"<p>{tagged}</p>" + "".join(f"<p>Town {number % 30} and Town{number}</p>" for number in range(90))
    with Place(program, f"<letter><opener><salute>x</salute></opener><body>{body}</body></letter>") as place:
        editor = place.editor
        around, attributes = Neighbours(editor.script.document, "letter"), Attributes(editor)
        around.read.join()
        everywhere = Everywhere(editor)
        suggestions = Suggestions(editor, around, everywhere, attributes)
        for moves, (name, call, want) in enumerate((("suggestions", suggestions.told, 90), ("places", lambda: everywhere.places({"text": "Town", "name": "person"}), 270)), 1):
            try_one, steps = everywhere.wrapped, itertools.count()

            def slow(*words):
                next(steps)
                time.sleep(0.02)
                return try_one(*words)

            everywhere.wrapped = slow
            # How many steps were made while the lock was waited for: on a busy machine any of them may take long.
            told, waits = [], []
            work = threading.Thread(target=lambda: told.append(call()))
            work.start()
            while work.is_alive():
                start = next(steps)
                with editor.lock:
                    waits.append(next(steps) - start - 1)
                    if len(waits) == 5:
                        need("changes" in place.wrap("place", place.run_of("and", nth=moves)), "a move meanwhile")
                time.sleep(0.005)
            work.join()
            everywhere.wrapped = try_one
            need(len(waits) >= 5 and max(waits) < want / 3, f"{name}: the lock is had within a moment: {len(waits)} times, after {max(waits)} steps")
            rows = told[0]["rows" if name == "suggestions" else "places"]
            same((len(rows), len(editor.made)), (want, moves), f"{name}, of the document as it is then")
        attributes.close()


POINTS = "<!ATTLIST person key CDATA #IMPLIED ref CDATA #IMPLIED id ID #IMPLIED who IDREF #IMPLIED kind (a|b) #IMPLIED><!ATTLIST place n CDATA #IMPLIED>"


def knows_values(program):
    """The values of attributes that name somebody are told: those of the same words first, of the documents beside, of a table of
    names; the form changes all ticked elements of the same words in one move, but for what identifies them."""
    source = ("<letter><opener><salute>x</salute></opener><body><p><person id='p1'>Mr Adams</person>, <person id='p2' key='old' kind='a'>Mr Adams</person>, "
              "<person key='tom'>Tom</person> and <person who='p1'><lb/>Mr  Adams</person>, <place n='1'>Delft</place></p></body></letter>")
    beside = source.replace("key='old'", "key='adams'").replace("tom", "jim")
    with open(LETTER, encoding="utf-8") as file:
        dtd = file.read() + POINTS
    table = "id;name\nadams;Mr Adams;J. Adams\nrix;Mr Rix\n;x\n"
    with Place(program, source, "own.dtd", "letter", **{"own.dtd": dtd, "a.xml": beside, "names.csv": table}) as place:
        editor, path = place.editor, os.path.join(place.folder, "names.csv")
        around, attributes = Neighbours(editor.script.document, "letter"), Attributes(editor)
        around.read.join()
        values = Values(editor, around, attributes, Names(path))
        same(values.names.rows(), [("adams", ["Mr Adams", "J. Adams"]), ("rix", ["Mr Rix"])], "the table")
        first, second, tom, third = (element(editor, "person", at) for at in range(4))
        told = values.of({"node": first.id})
        same([(row["value"], row["about"]) for row in told["known"]["key"]],
             [("adams", "Mr Adams, J. Adams"), ("old", ""), ("tom", ""), ("jim", ""), ("rix", "Mr Rix")], "those of these words first, then of others, then of the table")
        same([row["value"] for row in told["known"]["ref"]][-2:], ["#p1", "#p2"] if not attributes.known.why_not else ["adams", "rix"], "a pointer, to what the document has")
        same(sorted(told["known"]), ["key", "ref"], "no others")
        same(told["ids"], [] if attributes.known.why_not else ["p1", "p2"], "the identifiers")
        same([(row["node"], row["attrs"]) for row in told["others"]], [(second.id, "id='p2' key='old' kind='a'"), (third.id, "who='p1'")], "the others of these words")
        same((told["others"][0]["before"], told["others"][0]["behind"]), ("Mr Adams, ", ", Tom and Mr  Adams, Delft"), "what stands beside them")
        same([list(map(list, row)) for row in values.known({"name": "person", "text": "Mr Adams"})["known"]],
             [[["key", "adams"], ["kind", "a"]], [["key", "old"], ["kind", "a"]], [["who", "p1"]], [["key", "adams"]]], "the tags of these words")
        version = editor.version
        attributes.change({"version": version, "node": second.id, "pairs": [["id", "p9"], ["key", "adams"]], "also": [first.id, third.id]})
        want = source.replace("id='p1'>", "id='p1' key=\"adams\">").replace("id='p2' key='old' kind='a'", "id=\"p9\" key=\"adams\"").replace("who='p1'", "who='p1' key=\"adams\"")
        same((editor.shown().decode(), len(editor.made), editor.made[0].title), (want, 1, "attributes of ⟨person⟩ in 3 places"), "all of them, in one move")
        attributes.change({"version": editor.version, "node": second.id, "pairs": [["id", "p9"]], "also": [first.id, tom.id]})
        same((first.attrs, second.attrs, tom.attrs, len(editor.made)), (" id='p1'", ' id="p9"', "", 2), "what is taken away")
        attributes.change({"version": editor.version, "node": second.id, "pairs": [["id", "p9"]], "also": [first.id]})
        same(len(editor.made), 2, "what changes nothing is no move")
        for at in range(2):
            editor.undo({"version": editor.version})
        same(editor.shown().decode(), source, "taken back")
        fault = fault_of(lambda: attributes.change({"version": editor.version, "node": second.id, "pairs": [], "also": [10 ** 6]}))
        need(isinstance(fault, Stale) and editor.shown().decode() == source, f"one that isn't there: {fault!r}")
        for text, want in (("a,b\n", [("a", ["b"])]), ("\ufeffkey\tname\nx\ty z\t\n", [("x", ["y z"])]), ('"a ""b""","c\nd"\n', [('a "b"', ["c d"])]), ("", [])):
            with open(path, "w", encoding="utf-8", newline="") as file:
                file.write(text)
            same(values.names.rows(), want, f"a table that is {text!r}")
        with open(path, "wb") as file:
            file.write(b"caf\xe9")
        need("isn't UTF-8" in str(fault_of(lambda: values.of({"node": first.id}))), "what isn't UTF-8 is told")
        need("No such file" in str(fault_of(lambda: Names(path + "x"))), "and what isn't there")
        attributes.close()


def keeps_comments(program):
    """A comment is put before an element, changed and taken away beside the session; so is one that stands there. Each is a move, on the
    disk, and written at Save alone."""
    source = '<letter><opener><salute>Dear</salute></opener><body><!-- old\n\\ --><p>I met <place n="1">Delft</place>.</p></body><closer><?pi?>x</closer></letter>\n'
    with Place(program, source) as place:
        editor = place.editor
        comments, salute, old = Comments(editor), element(editor, "salute"), element(editor, "body").kids[0]

        def put(node, text):
            return comments.put({"version": editor.version, "node": node.id, "text": text})

        same([(row["node"], row["text"], row["at"]) for row in comments.all({})["comments"]], [(old.id, "old\n\\", "body")], "the one that is there")
        need("changes" in put(salute, "to check"), "one is put")
        need("changes" in put(salute, "whose?\r\nTom's\\n"), "and changed")
        need("changes" in put(old, "new"), "the one that is there too")
        want = source.replace("<salute>", "<!-- whose?\nTom's\\n --><salute>").replace("<!-- old\n\\ -->", "<!-- new -->")
        same((editor.whole_source().decode(), editor.session.show().decode()), (want, source), "what would be saved, and what the session has")
        same([row["text"] for row in comments.all({})["comments"]], ["whose?\nTom's\\n", "new"], "all of them, in order")
        same([move.title for move in editor.made], ["comment “to check”", "comment “whose? Tom's\\n”", "comment “new”"], "in words")
        editor.move({"version": editor.version, "kind": "extend", "node": element(editor, "place").id, "place": place.run_of("met", "Delft")})
        editor.move({"version": editor.version, "kind": "rename", "node": salute.id, "name": "dateline"})
        need(b"<!-- whose?" in editor.whole_source(), "it stays with a new name")
        editor.undo({"version": editor.version})
        put(element(editor, "place"), "here")
        editor.move({"version": editor.version, "kind": "split", "node": element(editor, "place").id, "place": {**place.run_of("Delft"), "to": place.run_of("Delft")["from"]}})
        need(b'<!-- here --><place n="1">met </place><place>Delft</place>' in editor.whole_source(), f"it goes with the tag: {editor.whole_source()}")
        editor.move({"version": editor.version, "kind": "join", "node": element(editor, "place").id})
        need(b'<!-- here --><place n="1">met Delft</place>' in editor.whole_source(), f"also where two are one: {editor.whole_source()}")
        put(old, "")
        same(b"new" in editor.whole_source(), False, "one that is taken away")
        saved = editor.whole_source()
        editor.save({"version": editor.version})
        with open(os.path.join(place.folder, "doc.xml"), "rb") as file:
            same(file.read(), saved, "the file")
        made = len(editor.made)
        editor.close()
        place.editor = editor = Editor([program], place.dtd, "letter", Script(os.path.join(place.folder, "doc.xml")))
        same((editor.whole_source(), len(editor.made), editor.made == editor.saved), (saved, made, True), "opened again")
        comments = Comments(editor)
        for bad in ("a--b", "\x01", "\ud800"):
            fault = fault_of(lambda: comments.put({"version": editor.version, "node": element(editor, "p").id, "text": bad}))
            need(isinstance(fault, Trouble), f"{bad!r}: {fault!r}")
        put(element(editor, "p"), "ends with -")
        put(element(editor, "letter"), " at  the root ")
        need(editor.whole_source().startswith(b"<!-- at  the root --><letter>") and b"<!-- ends with - --><p>" in editor.whole_source(), f"others: {editor.whole_source()}")
        before, made = editor.document.before, len(editor.made)
        put(element(editor, "letter"), "")
        editor.document.before = "<!-- at  the root -->"
        need("already" in str(fault_of(lambda: put(element(editor, "letter"), "at  the root"))), "one of an earlier script isn't written twice")
        editor.document.before = before
        editor.undo({"version": editor.version})
        same(len(editor.made), made, "as before")
        put(element(editor, "letter"), " ")
        same(editor.whole_source().startswith(b"<letter>"), True, "and away")
        made = len(editor.made)
        put(element(editor, "letter"), "")
        same(len(editor.made), made, "what changes nothing is no move")
        instruction = element(editor, "closer").kids[0]
        for node in (instruction, element(editor, "p").kids[0], editor.document.top):
            need(isinstance(fault_of(lambda: put(node, "x")), Stale), f"a {node.kind} has none")
        editor.back({"version": editor.version, "to": 0})
        same(editor.whole_source().decode(), source, "all taken back")
        number = editor.script.number
        editor.script.append(["comment 0.0 a--b"])
        editor.close()
        fault = fault_of(lambda: Editor([program], place.dtd, "letter", Script(os.path.join(place.folder, "doc.xml"))))
        need("can't stand in a comment" in str(fault), f"a line of a script that is none: {fault!r}, {number}")
        place.editor = type("None", (), {"close": lambda self: None})()


def gives_other_forms(program):
    """The document is had as its source, as ranges, HTML and a table of names, and what has changed of it since it was saved."""
    source = ("<letter><opener><salute>Dear &amp;</salute></opener><body><p>I met <person key='a\"b'>Mr <lb/>Adams</person>, <person>Tom</person> and "
              "<person>Tom</person>, &lt;<![CDATA[<b>]]></p></body></letter>\n")
    with Place(program, source) as place:
        editor = place.editor
        downloads = Downloads(editor, "doc.xml")
        same(downloads.source({}), {"text": source, "more": False}, "the source")
        same(downloads.changes({}), {"changes": []}, "nothing has changed")
        place.wrap("place", place.run_of("met"))
        changes = downloads.changes({})["changes"]
        same([row for row in changes if row[0]], [("new", "<place>"), ("new", "</place>")], "two tags are new")
        need(len("".join(text for _, text in changes)) < 200, f"what is as it was is shortened: {changes}")
        same(downloads.download({"kind": "names"}), {"name": "doc-names.csv", "type": "text/csv", "text": "element,words,attributes,count\nperson,Tom,,2\nplace,met,,1\n"}, "names")
        told = downloads.download({"kind": "html"})
        need(told["name"] == "doc.html" and '<p class="salute">Dear &amp;amp;'.replace("&amp;amp;", "&amp;") in told["text"] and "&lt;&lt;b&gt;</p>" in told["text"], told["text"])
        need('<span class="person" title="person key=&#x27;a&quot;b&#x27;">Mr <span class="lb" title="lb"></span>Adams</span>' in told["text"], told["text"])
        told = downloads.download({"kind": "ranges"})
        with tempfile.NamedTemporaryFile(suffix=".xml") as file:
            file.write(editor.whole_source())
            file.flush()
            ran = subprocess.run([sys.executable, os.path.join(os.path.dirname(FOLDER), "ranges"), "--program", program, file.name], capture_output=True, text=True)
        same((told["name"], told["text"]), ("doc.ranges", ran.stdout), "the ranges of `ranges`")
        need(" place\n" in told["text"], told["text"])
        same(downloads.download({"kind": "xml"})["text"], editor.whole_source().decode(), "as it is")
        editor.save({"version": editor.version})
        same(downloads.changes({}), {"changes": []}, "saved")
    source = ('<!DOCTYPE letter [<!ENTITY auml "&#228;">]>\n<letter><opener><salute>Dear</salute></opener><body><p>I met <person key="&auml;">T&auml;m</person>.</p></body>'
              "</letter>\n")
    with Place(program, source) as place:
        editor = place.editor
        downloads, comments, person = Downloads(editor, "doc.xml"), Comments(editor), element(editor, "person")
        same(downloads.download({"kind": "names"})["text"].splitlines()[1:], ['person,T&auml;m,"key=""&auml;""",1'], "an entity is told by its name")
        need('title="person key=&quot;&amp;auml;&quot;">T&amp;auml;m</span>' in downloads.download({"kind": "html"})["text"], "and on the page")
        comments.put({"version": editor.version, "node": person.id, "text": "with " + next(iter(editor.entities))})
        need(b"<!-- with &auml; --><person" in editor.whole_source(), f"one that was copied into a comment: {editor.whole_source()}")
    words = " ".join(f"w{number}" for number in range(15000))
    with Place(program, f"<letter><opener><salute>Dear</salute></opener><body><p>{words}</p></body></letter>\n") as place:
        for number in (10, 7000, 14000):
            place.wrap("place", place.run_of(f"w{number}"))
        start = time.process_time()
        changes = Downloads(place.editor, "doc.xml").changes({})["changes"]
        same([row for row in changes if row[0]], [("new", "<place>"), ("new", "</place>")] * 3, "what is new in a long text")
        need(time.process_time() - start < 30, f"it is told soon: {time.process_time() - start:.1f} s")


CASES = [gives_other_forms, keeps_comments, knows_values, keeps_nobody_waiting, suggests_what_was_tagged, gives_reasons_one_can_read, tags_each_line, offers_what_is_wanted, has_a_palette, gives_required_attributes]


def main():
    program = os.path.abspath(sys.argv[1])
    wanted = [case for case in CASES if not sys.argv[2:] or case.__name__ in sys.argv[2:]]
    return run_cases("quick letters", [functools.update_wrapper(functools.partial(case, program), case) for case in wanted])


if __name__ == "__main__":
    sys.exit(main())
