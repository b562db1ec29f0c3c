"""Tries what stands behind the page of `clients/annotate`: its session, its tree and its script.

Words: PROGRAM SEED. Prints each difference, and how many cases passed; ends with 1 where one failed.
"""
import contextlib
import functools
import os
import random
import resource
import sys
import tempfile
import threading

sys.dont_write_bytecode = True

from lib.annotate.fixture import DRAFT, EXAMPLES, FOLDER, LETTER, Fault, fault_of, need, run_cases, same  # noqa: E402

sys.path.insert(0, os.path.dirname(FOLDER))

from annotate.attributes import Attributes  # noqa: E402
from annotate.costs import Costs  # noqa: E402
from annotate.declared import declared_by  # noqa: E402
from annotate.editor import Differs, Editor, Stale, Unseen, sum_of  # noqa: E402
from annotate.everywhere import Everywhere  # noqa: E402
from annotate.explain import Explainer  # noqa: E402
from annotate.moves import Move  # noqa: E402
from pvtag.document import ELEMENT, TEXT, Document  # noqa: E402
from pvtag.program import Trouble  # noqa: E402
from pvtag.session import Ended, Made, Refused, Session  # noqa: E402
from annotate.script import Script  # noqa: E402
from annotate.texts import Texts  # noqa: E402


# Sessions.
def speaks_each_line(program):
    with tempfile.TemporaryDirectory() as folder:
        path = os.path.join(folder, "a.xml")
        with open(path, "w", encoding="utf-8") as file:
            file.write(DRAFT)
        with Session([program], LETTER, "letter", path) as session:
            same(session.show(), DRAFT.encode(), "show")
            same(session.wrap("0.0", 0, 1, "p"), Refused("impossible", "0.0"), "a refused wrap")
            same(session.wrap("0.0", 0, 1, "salute"), Made(2, 0, 0), "a wrap")
            same([tuple(row) for row in session.changed(0)], [("0.0", "valid", 1), ("0.0.0", "valid", 1)], "the lists that it changed")
            same(session.need(), 0, "need")
            same(session.insert("0.2.0", 1, "lb"), Made(2, 0, 0), "an insertion")
            same(session.rename("0.0.0", "dateline"), Made(2, 1, 0), "a rename")
            same(session.need(), 1, "need behind it")
            same(session.split("0.2.0.0", 4), Made(1, 1, 0), "a split")
            same(session.join("0.2.0.0"), Made(1, 1, 0), "a join")
            same(session.text("0.2.0.0", "I met Tom &amp; Anna."), Made(1, 1, 0), "a text")
            same(session.addtext("0.2.0", 2, "é𐀀"), Made(1, 1, 0), "an added text")
            same(session.deltext("0.2.0.2"), Made(1, 1, 0), "a text taken away")
            same(session.unwrap("0.0.0"), Made(1, 1, 0), "an unwrap")
            same(session.undo(), Made(2, 1, 0), "its undo")
            same(session.redo(), Made(1, 1, 0), "its redo")
            same(session.redo(), Refused("history"), "another redo")
            same(session.history()[-2:], ["deltext 0.2.0.2", "unwrap 0.0.0"], "the history")
            same(session.edit("unwrap 9"), Refused("shape", "no-node"), "a path without a node")
            same(session.edit("what"), Refused("command"), "no command")
            same(len(session.verdicts()), 6, "the lists")
            completed = session.complete()
            same((completed.new, completed.document.count(b"<salute>")), (1, 1), "a completion")
        for call in (session.show, session.undo):
            need(isinstance(fault_of(call), Ended), "a session that is closed says so")
        with open(path, "w", encoding="utf-8") as file:
            file.write("<letter>")
        fault = fault_of(Session([program], LETTER, "letter", path).show)
        same((fault.status, fault.line), (7, "document syntax 1"), "a session that can't begin")


def offers_names(program):
    with Session([program], LETTER, "letter", os.path.join(EXAMPLES, "letter-draft.xml")) as session:
        same(session.offer("0.0", 0, 1), ["dateline", "place", "date", "salute"], "names round a text")
        same(session.offer("0.0"), ["opener", "dateline", "place", "date", "salute"], "names for the opener")
        same(session.offer("0.2"), ["body"], "names for the body")
        same(session.offer("0.0.0"), Refused("shape", "not-element"), "names for a text")


# Trees.
SOURCES = [
    ("article.dtd", "doc", open(os.path.join(EXAMPLES, "report.xml"), encoding="utf-8").read()),
    ("article.dtd", "doc", "\ufeff<?xml version='1.0'?>\n<!--b--><!DOCTYPE doc>\n<doc a='>/' >Tom &amp; &#x10000;Anna 𐀀é<br/>\r\n<br/ ><?p i?>"
     .replace("<br/ >", "<br />") + "x<![CDATA[<]]>y<!-- c --><em b=\"'\">z</em ></doc>\n<?z?>\n"),
    ("letter.dtd", "letter", DRAFT),
]


def random_edit(document):
    nodes = [node for node in document.nodes.values() if is_there(document, node)]
    node = random.choice(nodes)
    path = document.path_of(node)
    name = random.choice(["p", "em", "head", "sec", "title", "br", "item", "place", "person", "salute"])
    if node.kind == TEXT:
        size = len(node.units)
        return random.choice([f"split {path} {random.randint(1, max(1, size - 1))}", f"join {path}", f"text {path} a&lt;b𐀀", f"deltext {path}"])
    if node.kind != ELEMENT:
        return f"join {path}"
    start = random.randint(0, len(node.kids))
    end = random.randint(start, len(node.kids))
    return random.choice([f"wrap {path} {start} {end} {name}", f"wrap {path} {start} {start} {name}", f"insert {path} {start} {name}", f"unwrap {path}",
                          f"rename {path} {name}", f"addtext {path} {start} &#10;é"])


def is_there(document, node):
    while node.owner is not None:
        if node not in node.owner.kids:
            return False
        node = node.owner
    return node is document.top


def keeps_the_tree(program):
    """What the tree tells is what the session shows, after each edit and each undo."""
    made = 0
    with tempfile.TemporaryDirectory() as folder:
        path = os.path.join(folder, "a.xml")
        for dtd, root, source in SOURCES * 3:
            with open(path, "w", encoding="utf-8", newline="") as file:
                file.write(source)
            with Session([program], os.path.join(EXAMPLES, dtd), root, path) as session:
                made += random_moves(session, Document(source.encode()))
    need(made > 200, f"too few edits were made: {made}")


def random_moves(session, document):
    backs = []
    for _ in range(150):
        if backs and random.random() < 0.2:
            need(isinstance(session.undo(), Made), "an undo")
            backs.pop()()
        else:
            line = random_edit(document)
            if not isinstance(session.edit(line), Made):
                continue
            backs.append(document.edit(line)[1])
        same(document.written().encode(), session.show(), "the document")
        rows = session.verdicts()
        same([row.path for row in rows], [document.path_of(node) for node in document.elements()], "the paths of lists")
        same([document.node_at(row.path) for row in rows], list(document.elements()), "the lists at paths")
    return len(backs)


# Verdicts.
def tells_fresh_verdicts(program):
    """After random moves of each kind, also undone, made again, exchanged and refused, the page has the verdicts that the session then tells; mostly
    the session isn't asked for them."""
    moves = asked = refused = 0
    swapped = open(os.path.join(EXAMPLES, "letter-swapped.xml"), encoding="utf-8").read()
    with tempfile.TemporaryDirectory() as folder:
        path = os.path.join(folder, "doc.xml")
        for dtd, root, source in (*SOURCES, ("letter.dtd", "letter", swapped)):
            put(path, source)
            with contextlib.suppress(FileNotFoundError):
                os.unlink(f"{path}.pvtag")
            editor = Editor([program], os.path.join(EXAMPLES, dtd), root, Script(path))
            try:
                walk = Walk(editor)
                for _ in range(120):
                    walk.go_on()
                moves, asked, refused = moves + walk.moves, asked + walk.asked, refused + walk.refused
            finally:
                editor.close()
    need(moves > 150 and refused > 20 and asked * 2 < moves, f"moves {moves}, refused {refused}, asked {asked}")


class Walk:
    """Random moves of an editor, and the verdicts that a page would have by what it is told."""

    def __init__(self, editor):
        self.editor, self.moves, self.asked, self.refused = editor, 0, 0, 0
        tree = editor.state()["tree"]
        self.shown = {row["id"]: row.get("verdict", "valid") for row in tree if row["kind"] == ELEMENT}
        ask = editor.session.changed

        def counted(after):
            self.asked += 1
            return ask(after)

        editor.session.changed = counted

    def go_on(self):
        """Makes a move, and compares what is shown with what the session tells."""
        editor, since = self.editor, self.editor.version
        told = random.choice((self.move, self.move, self.move, self.together, self.again, self.undo, self.redo, self.back))({"version": since})
        if "no" in told:
            self.refused += 1
            told = editor.state(since)
        self.moves += len(told["changes"])
        for each in told["changes"]:
            for change in each["changes"]:
                self.shown |= {kid["id"]: kid.get("verdict", "valid") for kid in change.get("kids", ()) if isinstance(kid, dict) and kid["kind"] == ELEMENT}
            self.shown |= each["verdicts"]
        fresh = editor.session.verdicts()
        nodes = list(editor.document.elements())
        same([node.verdict for node in nodes], [row.verdict for row in fresh], "the verdicts of the tree")
        same([self.shown[node.id] for node in nodes[1:]], [row.verdict for row in fresh[1:]], "the verdicts on the page")
        same((told["top"], told["open"], told["bad"]), (fresh[0].verdict, *(sum(row.verdict == verdict for row in fresh) for verdict in ("possible", "impossible"))),
             "the numbers")

    def move(self, ask):
        return self.editor.answer(ask["version"], [random_edit(self.editor.document)])

    def together(self, ask):
        return self.editor.answer(ask["version"], [random_edit(self.editor.document) for _ in range(random.randint(2, 3))])

    def again(self, ask):
        """Another move in the place of the last ones."""
        count = min(random.randint(1, 2), len(self.editor.made))
        self.editor.exchange(count, Move([random_edit(self.editor.document)]), [])
        return self.editor.state(ask["version"])

    def undo(self, ask):
        return self.editor.undo(ask)

    def redo(self, ask):
        return self.editor.redo(ask)

    def back(self, ask):
        return self.editor.back({**ask, "to": max(0, len(self.editor.made) + random.randint(-4, 4))})


# Scripts.
def editor_on(program, folder, source=None):
    path = os.path.join(folder, "doc.xml")
    if source is not None:
        with open(path, "w", encoding="utf-8") as file:
            file.write(source)
    script = Script(path)
    try:
        return Editor([program], LETTER, "letter", script)
    except Exception:
        script.close()
        raise


def text_of(node):
    return "".join(node.units)


def place_of(editor, words):
    """The run of these words in the first text that holds them."""
    for node in editor.document.nodes.values():
        if node.kind == TEXT and words in text_of(node) and is_there(editor.document, node):
            at = text_of(node).index(words)
            return {"list": node.owner.id, "from": [node.id, at], "to": [node.id, at + len(words)]}
    raise Fault(f"no text holds {words!r}")


def wrap(editor, name, words):
    return editor.move({"kind": "wrap", "place": place_of(editor, words), "name": name, "version": editor.version})


def state(editor):
    return editor.shown(), [move.lines for move in editor.made], [move.lines for move in editor.undone]


def put(path, text):
    with open(path, "w", encoding="utf-8") as file:
        file.write(text)


def keeps_moves(program):
    """What was made, taken back and made again is there at the next start, in the same moves; a refusal changes
    nothing."""
    with tempfile.TemporaryDirectory() as folder:
        editor = editor_on(program, folder, DRAFT)
        need("changes" in wrap(editor, "person", "Mr Adams"), "a wrap")
        need("changes" in wrap(editor, "place", "Delft"), "another wrap")
        before = state(editor)
        answer = wrap(editor, "lb", "have")
        same((answer["no"], answer["new"]), ("impossible", True), "an element that can't hold it")
        answer = wrap(editor, "body", "Mr")
        same((answer["no"], answer["new"], answer["list"]), ("impossible", False, place_of(editor, "Mr")["list"]), "a list that can't hold the element")
        same(state(editor), before, "what stands behind a refusal")
        editor.undo({"version": editor.version})
        costs = Costs(editor, declared_by([program], LETTER))
        same(costs.offer(place_of(editor, "met"))["names"], ["person", "place", "date"], "an offer")
        costs.close()
        same(len(editor.undone), 1, "an offer leaves what was undone")
        before = state(editor)
        editor.close()
        editor = editor_on(program, folder)
        same(state(editor), before, "the next start")
        editor.redo({"version": editor.version})
        need(b"in <place>Delft</place>." in editor.shown(), "a redo at the next start")
        editor.back({"version": editor.version, "to": 0})
        same(editor.shown(), DRAFT.encode(), "back to the start")
        editor.back({"version": editor.version, "to": 2})
        same(editor.document.written().encode(), editor.shown(), "forth again")
        before = state(editor)
        editor.close()
        editor = editor_on(program, folder)
        same(state(editor), before, "the start behind that")
        need(isinstance(fault_of(lambda: editor.undo({"version": editor.version - 1})), Stale), "a window that is behind")
        need(isinstance(fault_of(lambda: wrap_in_gone(editor)), Stale), "a node that is gone")
        editor.close()


def wrap_in_gone(editor):
    place = place_of(editor, "have")
    wrap(editor, "date", "have")
    editor.move({"kind": "wrap", "place": place, "name": "date", "version": editor.version})


def saves(program):
    """Save writes the document, moves can be taken back after it, also at the next start, and nothing that changed is
    written over."""
    with tempfile.TemporaryDirectory() as folder:
        path = os.path.join(folder, "doc.xml")
        editor = editor_on(program, folder, DRAFT)
        os.chmod(path, 0o640)
        wrap(editor, "person", "Mr Adams")
        need(editor.save({"version": editor.version})["saved"], "it is saved")
        same(open(path, "rb").read(), editor.shown(), "what was saved")
        same(os.stat(path).st_mode & 0o777, 0o640, "its permissions")
        wrap(editor, "place", "Delft")
        editor.save({"version": editor.version})
        editor.undo({"version": editor.version})
        editor.undo({"version": editor.version})
        need(not editor.state()["saved"], "an undo behind a save is to be saved")
        editor.close()
        editor = editor_on(program, folder)
        same(state(editor)[0], DRAFT.encode(), "what was undone behind a save, at the next start")
        same(len(editor.undone), 2, "what can be made again")
        editor.redo({"version": editor.version})
        put(path, "<letter/>")
        need(isinstance(fault_of(lambda: editor.save({"version": editor.version})), Trouble), "a document that has changed isn't written over")
        same(open(path).read(), "<letter/>", "it")
        editor.close()
        need(isinstance(fault_of(lambda: editor_on(program, folder)), Trouble), "nor is it opened with the script of the other")
        put(path, DRAFT)
        editor = editor_on(program, folder)
        need(b"<person>" in editor.shown(), "brought back, it is")
        need(isinstance(fault_of(lambda: Script(path)), Trouble), "two of them on one document")
        editor.close()
        same(sorted(os.listdir(folder)), ["doc.xml", "doc.xml.pvtag", "doc.xml.pvtag.base"], "the files")


def survives_cuts(program):
    """Wherever the machine stopped while a script was written, each whole move is there, and no part of one."""
    with tempfile.TemporaryDirectory() as folder:
        editor = editor_on(program, folder, DRAFT)
        shown = {0: DRAFT.encode()}
        for name, words in (("person", "Mr Adams"), ("place", "Delft")):
            wrap(editor, name, words)
            shown[len(editor.made)] = editor.shown()
        editor.undo({"version": editor.version})
        editor.close()
        path = os.path.join(folder, "doc.xml.pvtag")
        script = open(path, "rb").read()
        for size in range(len(script) + 1):
            with open(path, "wb") as file:
                file.write(script[:size])
            editor = editor_on(program, folder)
            same(editor.shown(), shown[len(editor.made)], f"{size} bytes of the script")
            before = state(editor)
            editor.close()
            editor = editor_on(program, folder)
            same(state(editor), before, f"{size} bytes of the script, at the next start")
            for _ in range(len(editor.undone)):
                editor.redo({"version": editor.version})
            same(editor.shown(), shown[len(editor.made)], f"what can be made again behind {size} bytes")
            editor.close()
        # The machine stops between the line of a Save and the file's renaming.
        with open(path, "ab") as file:
            file.write(b"saved 00\n")
        editor = editor_on(program, folder)
        same(editor.shown(), shown[len(editor.made)], "a save that wasn't made")
        editor.close()
        with open(path, "ab") as file:
            file.write(b"unwrap 0.9\n")
        need("can't be made any more" in str(fault_of(lambda: editor_on(program, folder))), "a move that can't be made is told")


def survives_a_full_disk(program):
    """A move that can't be written down isn't made."""
    with tempfile.TemporaryDirectory() as folder:
        editor = editor_on(program, folder, DRAFT)
        wrap(editor, "person", "Mr Adams")
        before, size = state(editor), os.path.getsize(editor.script.path)
        limits = resource.getrlimit(resource.RLIMIT_FSIZE)
        resource.setrlimit(resource.RLIMIT_FSIZE, (size + 3, limits[1]))
        try:
            need(isinstance(fault_of(lambda: wrap(editor, "place", "Delft")), Trouble), "a wrap")
            need(isinstance(fault_of(lambda: editor.undo({"version": editor.version})), Trouble), "an undo")
            need(isinstance(fault_of(lambda: editor.save({"version": editor.version})), Trouble), "a save")
        finally:
            resource.setrlimit(resource.RLIMIT_FSIZE, limits)
        same((state(editor), os.path.getsize(editor.script.path)), (before, size), "what stands behind it")
        need("changes" in wrap(editor, "place", "Delft"), "where there is room again")
        before = state(editor)
        editor.close()
        editor = editor_on(program, folder)
        same(state(editor), before, "the next start")
        editor.close()


def takes_back_whatever_raises(program):
    """Whatever is raised while a move is made, what was played of it is taken back; what can't be written as UTF-8 is
    refused."""
    with tempfile.TemporaryDirectory() as folder:
        editor = editor_on(program, folder, DRAFT)
        wrap(editor, "person", "Mr Adams")
        before = state(editor)
        half = "\ud800"
        same(wrap(editor, half, "Delft")["no"], "shape", "a name that is half a character")
        same(wrap(editor, "place" + half, "Delft")["no"], "shape", "one that ends with it")
        place = place_of(editor, "Delft")
        texts, everywhere = Texts(editor), Everywhere(editor)
        same(texts.type({"version": editor.version, "text": "a" + half, "place": place})["no"], "shape", "a text")
        stretch = everywhere.places({"text": "Delft", "name": "place"})["places"][0]["place"]
        same(everywhere.tag({"version": editor.version, "name": half, "places": [stretch]})["refused"], 1, "the same tag everywhere")
        need(isinstance(fault_of(lambda: everywhere.tag({"version": editor.version, "name": "place", "places": [stretch, [9999, 0, 0, 1]]})), Stale), "a place that is gone")
        same((state(editor), editor.ahead), (before, 0), "nothing of it is left")
        # Each line of a move, and each line of its undo, raises once.
        for count in range(1, 12):
            fails_at(editor, count)
            before = state(editor)
            fault = fault_of(lambda: wrap(editor, "place", "Delft"))
            unless_raised(editor)
            if fault is None:
                break
            same((state(editor), editor.ahead), (before, 0), f"a move whose line {count} raises")
        need(count > 3, "a move of several lines")
        texts.type({"version": editor.version, "text": "x", "on": True, "place": place_of(editor, "have")})
        for count in range(1, 20):
            fails_at(editor, count)
            before = state(editor)
            node = next(node for node in editor.document.nodes.values() if node.kind == TEXT and "x met" in text_of(node) and is_there(editor.document, node))
            at = text_of(node).index("x met") + 1
            more = {"version": editor.version, "text": "y", "on": True, "place": {"list": node.owner.id, "from": [node.id, at], "to": [node.id, at]}}
            fault = fault_of(lambda: texts.type(more))
            unless_raised(editor)
            if fault is None:
                break
            same((state(editor), editor.ahead), (before, 0), f"what is typed on, whose line {count} raises")
        need(count > 6 and b"I xy met" in editor.shown(), "what was typed on is one move with what it goes on")
        same(len(editor.made), 3, "the moves")
        before = state(editor)
        editor.close()
        editor = editor_on(program, folder)
        same(state(editor), before, "the next start")
        # A machine that stops while the lines are written that take the place of others.
        path = editor.script.path
        editor.close()
        with open(path, "rb") as file:
            script = file.read()
        instead = script.rindex(b"instead ")
        shown = set()
        for size in range(instead, len(script) + 1):
            with open(path, "wb") as file:
                file.write(script[:size])
            editor = editor_on(program, folder)
            shown.add(editor.shown().count(b"I x met") + 2 * editor.shown().count(b"I xy met"))
            same(len(editor.made), 3, f"{size} bytes of the script")
            editor.close()
        same(shown, {1, 2}, "what was typed before is there, or all of it")


def fails_at(editor, count):
    """The session raises at so many lines from now, once."""
    session, edit, undo = editor.session, editor.session.edit, editor.session.undo
    left = [count]

    def one(call):
        def called(*words):
            left[0] -= 1
            if left[0] == 0:
                session.edit, session.undo = edit, undo
                raise KeyError("a fault of a test")
            return call(*words)
        return called

    session.edit, session.undo = one(edit), one(undo)


def unless_raised(editor):
    """What didn't raise by now doesn't any more."""
    for name in ("edit", "undo"):
        editor.session.__dict__.pop(name, None)


class Cut:
    """A pipe from the session in which so many reads from now are cut off by this fault, or by the pipe's end."""

    def __init__(self, pipe, count, fault):
        self.pipe, self.left, self.fault = pipe, count, fault

    def __getattr__(self, name):
        return getattr(self.pipe, name)

    def cut(self, read, *words):
        self.left -= 1
        if self.left > 0:
            return read(*words)
        if self.fault is None:
            return b""
        raise self.fault("a fault of a test")

    def readline(self):
        return self.cut(self.pipe.readline)

    def read(self, size):
        return self.cut(self.pipe.read, size)


def ends_what_is_cut_off(program):
    """Wherever a reply is cut off, also by want of memory or the keyboard, the session is ended, so that what is left of it isn't
    taken for the next one; what was played is gone, and the next session has all that is written down."""
    with tempfile.TemporaryDirectory() as folder:
        editor = editor_on(program, folder, DRAFT)
        wrap(editor, "person", "Mr Adams")
        for fault in (KeyboardInterrupt, MemoryError, OSError, None):
            for count in range(1, 40):
                before, moves = state(editor), len(editor.made)
                session = editor.session
                session.output = Cut(session.output, count, fault)
                # Round it a list stays open: the reply leaves a choice, so that the verdicts are asked for.
                told = None
                try:
                    wrap(editor, "place", "brother")
                except BaseException as raised:
                    told = raised
                is_whole = session.output.left > 0
                if is_whole:
                    session.output = session.output.pipe
                else:
                    need(editor.session is not session or isinstance(fault_of(session.need), Ended), f"{fault}: the session is ended")
                if editor.session is session and not is_whole:
                    editor.begin_again()
                is_made = len(editor.made) > moves
                # What is written down is made, also where it wasn't told any more.
                need(is_made == (told is None) or is_made and fault is KeyboardInterrupt, f"{fault} at read {count}: {told!r}")
                same(editor.document.written().encode(), editor.shown(), f"the tree, {fault} at read {count}")
                same(sum(node.verdict == "possible" for node in editor.document.elements()), editor.open, "the verdicts")
                if is_made:
                    need(b"<place>brother" in editor.shown(), "it is there")
                    editor.undo({"version": editor.version})
                else:
                    same(state(editor), before, f"nothing of it is left, {fault} at read {count}")
                if is_whole:
                    break
            need(count > 4, "a move has several replies")
        editor.close()


def explains_without_a_lock(program):
    """While it is asked why a move was refused, and whether attributes are of the form of XML, other moves go on."""
    with tempfile.TemporaryDirectory() as folder:
        editor = editor_on(program, folder, DRAFT)
        explainer, attributes = Explainer(editor), Attributes(editor)
        told = wrap(editor, "lb", "have")
        seen = []

        def is_free():
            other = threading.Thread(target=lambda: seen.append(editor.lock.acquire(timeout=60) and (editor.lock.release() or True)))
            other.start()
            other.join()

        of_lists, check = explainer.reasons.of_lists, attributes.check
        explainer.reasons.of_lists = lambda lists: (is_free(), of_lists(lists))[1]
        attributes.check = lambda pairs: (is_free(), check(pairs))[1]
        before = state(editor)
        need("why" not in told and "`lb`" in told["later"]()["why"], "why a move was refused")
        same(state(editor), before, "the document")
        explainer.of_lists({"nodes": [editor.document.there("0").id]})
        need("changes" in attributes.change({"version": editor.version, "node": editor.document.there("0").id, "pairs": [["id", "x"]]}), "attributes")
        same(seen, [True] * 3, "the lock is free meanwhile")
        attributes.close()
        editor.close()


def compares_what_it_saves(program):
    """A tree that isn't the session's is never written."""
    with tempfile.TemporaryDirectory() as folder:
        editor = editor_on(program, folder, DRAFT)
        wrap(editor, "person", "Mr Adams")
        before = editor.shown()
        next(node for node in editor.document.nodes.values() if node.kind == TEXT and text_of(node) == "Mr Adams").units = "Mr Adam"
        fault = fault_of(lambda: editor.save({"version": editor.version}))
        need(isinstance(fault, Differs) and "Mr Adam<" in fault.own and "Mr Adams<" in fault.shown, f"both are told: {fault!r}")
        need(isinstance(fault_of(lambda: editor.save_beside({"name": "b.xml"})), Differs), "nor beside it")
        same(open(editor.script.document, "rb").read(), DRAFT.encode(), "the document")
        editor.begin()
        same(editor.shown(), before, "begun anew, it is the one of the script")
        need(isinstance(fault_of(lambda: editor.save({"version": editor.version, "seen": "0" * 64})), Unseen), "a page that shows another one")
        editor.save({"version": editor.version, "seen": sum_of(editor.document)})
        same(open(editor.script.document, "rb").read(), before, "what is saved")
        editor.close()


def begins_again(program):
    """A session that dies is begun again, wherever it was: also after a Save, and where the document was changed by
    another program; the tree's nodes stay."""
    with tempfile.TemporaryDirectory() as folder:
        editor = editor_on(program, folder, DRAFT)
        path = editor.script.document
        place = place_of(editor, "Delft")
        editor.session.process.kill()
        need(isinstance(fault_of(editor.shown), Ended), "it has died")
        editor.begin_again()
        editor.move({"version": editor.version, "kind": "wrap", "place": place, "name": "place"})
        editor.save({"version": editor.version})
        wrap(editor, "person", "Mr Adams")
        before, place = state(editor), place_of(editor, "have")
        for what in (None, "<letter/>"):
            if what:
                put(path, what)
            editor.session.process.kill()
            need(isinstance(fault_of(editor.shown), Ended), "it has died")
            editor.begin_again()
            same(state(editor), before, f"after a Save, the document being {what or 'as it was saved'}")
        editor.move({"version": editor.version, "kind": "wrap", "place": place, "name": "date"})
        need(b"<date>have</date>" in editor.shown(), "a place that was told before")
        editor.close()


CASES = [speaks_each_line, offers_names, keeps_the_tree, tells_fresh_verdicts, keeps_moves, saves, survives_cuts, survives_a_full_disk,
         takes_back_whatever_raises, ends_what_is_cut_off, explains_without_a_lock, compares_what_it_saves, begins_again]


def main():
    program = os.path.abspath(sys.argv[1])
    random.seed(int(sys.argv[2]))
    return run_cases("annotate's parts", [functools.update_wrapper(functools.partial(case, program), case) for case in CASES])


if __name__ == "__main__":
    sys.exit(main())
