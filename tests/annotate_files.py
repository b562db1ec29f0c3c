"""Tries the files of `clients/annotate`: scripts that are read again and made again on a changed document, and what is
kept of a document's mode, owner and links.

Words: PROGRAM SEED. Prints each difference, and how many cases passed; ends with 1 where one failed.
"""
import contextlib
import functools
import os
import random
import resource
import signal
import socket
import subprocess
import sys
import tempfile
import time

sys.dont_write_bytecode = True

from lib.annotate.fixture import DRAFT, FOLDER, LETTER, Fault, fault_of, need, run_cases, same  # noqa: E402
from lib.waiting import PATIENCE  # noqa: E402

sys.path.insert(0, os.path.dirname(FOLDER))

from annotate import files as kept_files  # noqa: E402
from annotate.attributes import Attributes  # noqa: E402
from annotate.editor import Editor  # noqa: E402
from annotate.everywhere import Everywhere  # noqa: E402
from annotate.plain import Across  # noqa: E402
from pvtag.document import TEXT  # noqa: E402
from pvtag.program import Trouble  # noqa: E402
from annotate.script import Changed, Question, Script, hash_of  # noqa: E402
from annotate.texts import Texts  # noqa: E402

BODY = "<p>I have met Mr Adams in Delft, and Mrs Adams in Leiden.</p>\n<p>He lives there.</p>"
WIDE = f"<letter><opener><salute>Dear brother,</salute></opener>\n<body>{BODY}</body></letter>\n"


class Place:
    """A document in a folder of its own."""

    def __init__(self, program, source=DRAFT):
        self.program, self.room = program, tempfile.TemporaryDirectory()
        self.folder, self.path = self.room.name, os.path.join(self.room.name, "doc.xml")
        self.script = self.path + ".pvtag"
        if source is not None:
            self.write(source)

    def __enter__(self):
        return self

    def __exit__(self, *_):
        self.room.cleanup()

    def write(self, text, path=None):
        with open(path or self.path, "wb") as file:
            file.write(text if isinstance(text, bytes) else text.encode())

    def read(self, path=None):
        with open(path or self.path, "rb") as file:
            return file.read()

    def open(self, again=False, path=None):
        script = Script(path or self.path, again)
        try:
            return Editor([self.program], LETTER, "letter", script)
        except BaseException:
            script.close()
            raise

    def fault(self, **how):
        """What is said where it doesn't begin; its script is as it was then."""
        before = self.read(self.script) if os.path.isfile(self.script) else None
        fault = fault_of(lambda: self.open(**how))
        need(isinstance(fault, Trouble), f"a sentence: {fault!r}")
        same(self.read(self.script) if before is not None else None, before, f"the script, where it is said: {fault}")
        return str(fault)

    def mode(self, path=None):
        return os.stat(path or self.path).st_mode & 0o7777


def place_of(editor, words, nth=0):
    """The run of these words in the text that holds them."""
    for node in editor.document.nodes.values():
        if node.kind == TEXT and words in "".join(node.units) and is_there(editor.document, node):
            at = "".join(node.units).index(words)
            if nth == 0:
                return {"list": node.owner.id, "from": [node.id, at], "to": [node.id, at + len(words)]}
            nth -= 1
    raise Fault(f"no text holds {words!r}")


def is_there(document, node):
    while node.owner is not None:
        if node not in node.owner.kids:
            return False
        node = node.owner
    return node is document.top


def wrap(editor, name, words, **which):
    answer = editor.move({"kind": "wrap", "place": place_of(editor, words, **which), "name": name, "version": editor.version})
    need("changes" in answer, f"{name} round {words}: {answer}")


def again(place, change, want, *notes):
    """The moves made again on a document that was changed so: what comes of it, and what is told."""
    place.write(change(place.read().decode()))
    need(isinstance(fault_of(place.open), Changed), "without --again it doesn't begin")
    editor = place.open(again=True)
    same(editor.shown().decode(), want, "the moves that were made again")
    for note in notes:
        need(note in editor.note, f"{note}: {editor.note}")
    need("doc.xml.pvtag.old" in os.listdir(place.folder), "the script before is kept")
    made = [move.lines for move in editor.made]
    editor.close()
    editor = place.open()
    same(([move.lines for move in editor.made], editor.shown().decode()), (made, want), "the next start")
    editor.close()


def makes_moves_again(program):
    """Each move goes with its text: those whose own ends were hit are left out, and told."""
    def tagged(editor):
        for name, words in (("person", "Mr Adams"), ("place", "Delft"), ("person", "Mrs Adams"), ("place", "Leiden"), ("date", "lives"), ("place", "there")):
            wrap(editor, name, words)

    want = WIDE
    for name, words in (("person", "Mr Adams"), ("place", "Delft"), ("person", "Mrs Adams"), ("place", "Leiden"), ("date", "lives"), ("place", "there")):
        want = want.replace(words, f"<{name}>{words}</{name}>", 1)
    for old, new, skipped in (("I have", "I hade", None), ("I have met ", "", None), ("<p>I", "<p>New.</p>\n<p>I", None), ("Mr Adams", "Mr Addams", None),
                              ("Leiden", "Leidem", "⟨place⟩ round “Leiden” (its end has changed)"), ("Mrs Adams", "Mrs Boot", "⟨person⟩ round “Mrs Adams”"),
                              (" lives there", "", "⟨date⟩ round “lives”"), ("in Leiden", "in <place>Leiden</place>", "(it is there already)"),
                              ("Dear brother", "Dear sister", None), ("<salute>Dear brother,</salute>", "Dear brother,", None)):
        with Place(program, WIDE) as place:
            editor = place.open()
            tagged(editor)
            editor.close()
            place.write(WIDE)
            target = want
            if skipped and "already" not in skipped:
                for words in ("Leiden", "Mrs Adams", "lives", "there"):
                    if words in old:
                        target = next((target.replace(f"<{tag}>{words}</{tag}>", words) for tag in ("place", "person", "date") if f"<{tag}>{words}" in target))
            target = target if skipped and "already" in skipped else target.replace(old, new) if old in target else target.replace(
                old.replace("Mr Adams", "<person>Mr Adams</person>"), new.replace("Mr Addams", "<person>Mr Addams</person>"))
            count = {None: 6}.get(skipped, 5 if old != " lives there" else 4)
            again(place, lambda text: text.replace(old, new), target, f"{count} of 6 moves were made again", skipped or "made again")


def makes_all_kinds_again(program):
    """Renames, unwraps, insertions, attributes, what was typed, and the same tag everywhere."""
    with Place(program, WIDE) as place:
        editor = place.open()
        texts, everywhere = Texts(editor), Everywhere(editor)

        def node(name):
            return next(node.id for node in editor.document.elements() if node.name == name)

        places = [row["place"] for row in everywhere.places({"text": "Adams", "name": "person"})["places"]]
        everywhere.tag({"version": editor.version, "name": "person", "places": places})
        Attributes(editor).change({"version": editor.version, "node": node("person"), "pairs": [["key", "a b"]]})
        at = place_of(editor, "in Leiden")
        editor.move({"version": editor.version, "kind": "insert", "place": {**at, "to": at["from"]}, "name": "lb"})
        texts.type({"version": editor.version, "place": place_of(editor, "He"), "text": "She"})
        texts.type({"version": editor.version, "place": place_of(editor, "there"), "text": ""})
        wrap(editor, "date", "lives")
        editor.move({"version": editor.version, "kind": "rename", "node": node("date"), "name": "place"})
        editor.move({"version": editor.version, "kind": "unwrap", "node": node("salute")})
        before = editor.shown().decode()
        editor.close()
        again(place, lambda text: text.replace("met", "seen").replace("<body>", "<body><p>First.</p>"),
              before.replace("met", "seen").replace("<body>", "<body><p>First.</p>"), "8 of 8 moves were made again")


def goes_on_behind_a_save(program):
    """A document that was saved and then changed has its tags already; what was made since is made again."""
    with Place(program, WIDE) as place:
        editor = place.open()
        wrap(editor, "person", "Mr Adams")
        wrap(editor, "place", "Delft")
        editor.save({"version": editor.version})
        wrap(editor, "place", "Leiden")
        shown = editor.shown().decode()
        editor.close()
        again(place, lambda text: text.replace("have met", "saw"), shown.replace("have met", "saw"),
              "it has its tags already, those of 2 moves", "1 of 1 moves since then were made again")
    with Place(program, WIDE) as place:
        editor = place.open()
        wrap(editor, "person", "Mr Adams")
        editor.save({"version": editor.version})
        editor.close()
        place.write(WIDE)
        # The one that it began with is brought back: the moves are made on it.
        editor = place.open()
        need("<person>Mr Adams" in editor.shown().decode(), "the moves")
        editor.close()
        again(place, lambda text: text.replace("have met", "saw"), WIDE.replace("have met", "saw").replace("Mr Adams", "<person>Mr Adams</person>"),
              "1 of 1 moves were made again")


def keeps_the_script(program):
    """A script is renamed only once all went well: a document that can't be opened, and one of other kinds, leave it."""
    with Place(program, WIDE) as place:
        editor = place.open()
        wrap(editor, "person", "Mr Adams")
        editor.close()
        script = place.read(place.script)
        for other in ("<letter>", "", "<letter><nothing/></letter", b"\xff"):
            place.write(other)
            fault = fault_of(lambda: place.open(again=True))
            need(fault is not None, f"it doesn't begin with {other!r}")
            same((place.read(place.script), sorted(os.listdir(place.folder))), (script, ["doc.xml", "doc.xml.pvtag", "doc.xml.pvtag.base"]), f"the files after {other!r}")
        place.write("<letter><opener/>\n<body><p><person/></p></body></letter>\n")
        editor = place.open(again=True)
        need("0 of 1 moves" in editor.note and "⟨person⟩" in editor.note, f"where kinds differ: {editor.note}")
        editor.close()


def finds_characters(program):
    """What became of characters: each that is said to be another is the same, and in order."""
    for _ in range(300):
        old = "".join(random.choice(["ab ", "word ", "Adams ", "é𐀀", "\n", ". "]) for _ in range(random.randint(0, 40)))
        new = list(old)
        for _ in range(random.randint(0, 6)):
            at = random.randint(0, len(new))
            new[at:at + random.randint(0, 3)] = random.choice(["", "x", "word ", "  "])
        across = Across(old, "".join(new))
        found = [(at, across.at(at)) for at in range(len(old)) if across.at(at) is not None]
        need(all(old[at] == across.new[other] for at, other in found), "the same characters")
        need(all(one[1] < other[1] for one, other in zip(found, found[1:])), "in order")
        start = random.randint(0, len(old))
        end = random.randint(start, len(old))
        same(across.first(start, end), next((other for at, other in found if start <= at < end), None), "the first of a part")
        if across.span(start, end) and end > start:
            same(across.new[slice(*across.span(start, end))], old[start:end], "a part that is as it was")


# Lines that can't be played, and what is said of them.
BAD = [
    ("attributes 0.1.0 ><p>", "isn't attributes"), ("attributes 0.1.0  a='1'/><p>", "isn't attributes"), ("attributes 0.1.0  a='1' a='2'", "isn't attributes"),
    ("attributes 0.1.0  a='<'", "isn't attributes"), ("attributes 0.1.0  a='\x01'", "isn't attributes"), ("attributes 0.9  a='1'", "isn't there"),
    ("attributes 0.0.0  a='1'", "isn't there"), ("attributes x  a='1'", "isn't there"), (b"text 0.0.0 \xff", "isn't UTF-8"), ("text 0.0.0 a\r", "carriage return"),
    ("together x", "a number"), ("together 0", "a number"), ("together", "no line"), ("instead x\nundo", "a number"), ("offer 0", "no line"), ("show", "no line"),
    ("verdicts", "no line"), ("what", "no line"), ("", "no line"), ("undo", "nothing that this line"), ("undo-attributes", "nothing that this line"),
    ("wrap 0", "can't be made"), ("wrap a b c d", "can't be made"), ("unwrap 0.9", "can't be made"), ("text 0.0.0 " + "a" * 1_048_600, "at most 1,048,576 bytes"),
    ("wrap 0.0 0 1 p", "can't be made"),
]


def checks_scripts(program):
    """A line that can't stand in a script is told by its number, and nothing is begun or changed."""
    begin = b"document " + hash_of(DRAFT.encode()).encode() + b"\n"
    for line, words in BAD:
        with Place(program) as place:
            place.write(begin + (line if isinstance(line, bytes) else line.encode()) + b"\n", place.script)
            told = place.fault()
            need(words in told and "line 2" in told and "Traceback" not in told, f"{line[:40]!r}: {told}")
    with Place(program) as place:
        for content in (b"x", b"no script\n", b"doc", b"document\n"):
            place.write(content, place.script)
            fault = fault_of(lambda: place.open().close())
            need(fault is None or isinstance(fault, Trouble), f"{content!r}: {fault!r}")
            if not b"document ".startswith(content):
                need("no script of annotate" in str(fault), f"{content!r}: {fault}")
                same(place.read(place.script), content, "another's file is left alone")
    with Place(program, DRAFT.replace("Delft", "Delft &#" + "0" * 5000 + "65; &#x" + "0" * 5000 + "42;")) as place:
        editor = place.open()
        wrap(editor, "person", "Mr Adams")
        need("A B" in "".join(row.get("text", "") for row in editor.document.told()), "a reference with thousands of zeros is one")
        editor.save({"version": editor.version})
        editor.close()


def checks_scripts_that_are_made_again(program):
    """The same of a script that is made again on a changed document, which has the tags of none of its lines then."""
    begin = b"document " + hash_of(DRAFT.encode()).encode() + b"\n"
    for line, words in (("attributes 0.2.0 ><p>", "isn't attributes"), ("attributes 0.2.0  a='1' a='2'", "isn't attributes"), ("wrap 0.9 0 1 p", "isn't there"),
                        ("unwrap 0.0.7", "isn't there"), ("wrap", "isn't there"), ("wrap 0.0 x y p", "isn't there"), ("undo", "nothing that this line"),
                        ("together x\nwrap 0 0 1 p", "a number"), ("attributes 0.0.0  x='1'", "isn't there")):
        with Place(program) as place:
            place.write(begin + line.encode() + b"\n", place.script)
            place.write(DRAFT, place.script + ".base")
            place.write(DRAFT.replace("Adams", "Adam"))
            told = place.fault(again=True)
            need(words in told and "line 2" in told, f"{line[:40]!r}: {told}")
            same(place.read(), DRAFT.replace("Adams", "Adam").encode(), "the document")


def keeps_entities_apart(program):
    """On a document that was changed, what was typed has the entities that it had, whatever others stand before them now; a
    document that was saved has its tags already, also where it has entities and a subset."""
    subset = '<!DOCTYPE letter [<!ENTITY me "Ann"> <!ENTITY you "Tom">]>\n'
    source = subset + "<letter><opener>Dear &you;,</opener>\n<body><p>I have met Mr Adams in Delft.</p></body></letter>\n"
    for change, want, note in (
        (("Dear &you;", "My &me;, dear &you;"), "in &you;Delft", "1 of 1 moves"),
        (("Dear &you;", "My &me;"), "in Delft", "doesn't refer to its entity now"),
        (("&you;,", "&you;!"), "in &you;Delft", "1 of 1 moves"),
    ):
        with Place(program, source) as place:
            editor = place.open()
            at = place_of(editor, "Delft")
            Texts(editor).type({"version": editor.version, "text": next(iter(editor.entities)), "place": {**at, "to": at["from"]}})
            need(b"in &you;Delft" in editor.whole_source(), "typed")
            editor.close()
            place.write(source.replace(*change))
            editor = place.open(again=True)
            need(note in editor.note, editor.note)
            same(editor.whole_source().decode(), source.replace(*change).replace("in Delft", want), "what was typed")
            editor.close()
    with Place(program, source) as place:
        editor = place.open()
        wrap(editor, "person", "Mr Adams")
        editor.save({"version": editor.version})
        editor.close()
        place.write(place.read().decode().replace("have met", "saw"))
        editor = place.open(again=True)
        need("it has its tags already, those of 1 move" in editor.note, editor.note)
        editor.close()


def leaves_no_half(program):
    """A document that is written into and can't be written whole has its own text again; what can't be cut off a script isn't
    gone on with; a folder that can't be waited for is no trouble."""
    with Place(program) as place:
        editor = place.open()
        wrap(editor, "person", "Mr Adams")
        os.link(place.path, place.path + ".other")
        pwrite, ftruncate, fsync = os.pwrite, os.ftruncate, os.fsync
        left = [1]

        def full(number, data, at):
            left[0] -= 1
            if left[0] < 0 and left[0] > -2:
                raise OSError(28, "No space left on device")
            return pwrite(number, data[:30] if left[0] == 0 else data, at)

        os.pwrite = full
        try:
            fault = fault_of(lambda: editor.save({"version": editor.version, "way": "into"}))
        finally:
            os.pwrite = pwrite
        need(isinstance(fault, Trouble) and "No space left" in str(fault), f"{fault!r}")
        same((place.read(), editor.script.is_changed), (DRAFT.encode(), False), "the document")
        editor.save({"version": editor.version, "way": "into"})
        same(place.read(), editor.shown(), "where there is room again")

        def stuck(number, _):
            raise OSError(5, "Input/output error")

        def half(number):
            os.ftruncate = stuck
            raise OSError(5, "Input/output error")

        before = editor.script.content()
        os.fsync = half
        try:
            need(isinstance(fault_of(lambda: wrap(editor, "place", "Delft")), Trouble), "a move that can't be written")
        finally:
            os.fsync, os.ftruncate = fsync, ftruncate
        need(editor.script.content() != before, "it couldn't be cut off")
        wrap(editor, "date", "have")
        same(editor.script.content(), before + b"split 0.2.0.0 6\nsplit 0.2.0.0 2\nwrap 0.2.0 1 2 date\n", "the script")

        def no_folders(number):
            if not kept_files.stat.S_ISREG(os.fstat(number).st_mode):
                raise OSError(22, "Invalid argument")

        os.fsync = no_folders
        try:
            editor.save({"version": editor.version, "way": "replace"})
        finally:
            os.fsync = fsync
        same((place.read(), editor.state()["saved"], editor.script.is_changed), (editor.shown(), True, False), "it is saved")
        editor.close()


def opens_long_names(program):
    """A name is refused at the start, or all files beside it can be made."""
    with Place(program, None) as place:
        for size in range(236, 256):
            path = os.path.join(place.folder, "d" * size)
            place.write(DRAFT, path)
            fault = fault_of(lambda: Script(path).close())
            if fault is not None:
                need(isinstance(fault, Trouble) and size > 244, f"{size} bytes: {fault!r}")
                same([name for name in os.listdir(place.folder) if name.startswith("d" * size)], ["d" * size], "nothing was made")
                os.unlink(path)
                continue
            editor = place.open(path=path)
            wrap(editor, "person", "Mr Adams")
            editor.save({"version": editor.version})
            editor.close()
            place.write(place.read(path) + b"\n", path)
            place.open(again=True, path=path).close()
            for name in os.listdir(place.folder):
                os.unlink(os.path.join(place.folder, name))


def keeps_modes(program):
    """What is kept beside a document is open to no more than it is; a Save keeps mode, owner and attributes."""
    with Place(program) as place:
        os.chmod(place.path, 0o600)
        with contextlib.suppress(OSError):
            os.setxattr(place.path, "user.note", b"kept")
        has_attribute = "user.note" in os.listxattr(place.path)
        if os.geteuid() == 0:
            os.chown(place.path, 1234, 2345)
        old = os.umask(0)
        try:
            editor = place.open()
            wrap(editor, "person", "Mr Adams")
            editor.save({"version": editor.version})
            editor.save_beside({"name": "other.xml"})
            wrap(editor, "place", "Delft")
            editor.close()
            place.write(place.read() + b"\n")
            editor = place.open(again=True)
            wrap(editor, "date", "met")
            editor.close()
        finally:
            os.umask(old)
        names = sorted(os.listdir(place.folder))
        same(names, ["doc.xml", "doc.xml.pvtag", "doc.xml.pvtag.base", "doc.xml.pvtag.old", "other.xml"], "the files")
        for name in names:
            path = os.path.join(place.folder, name)
            same(oct(place.mode(path)), oct(0o600), f"the mode of {name}")
            if os.geteuid() == 0:
                same((os.stat(path).st_uid, os.stat(path).st_gid), (1234, 2345), f"the owner of {name}")
        if has_attribute:
            same(os.getxattr(place.path, "user.note"), b"kept", "an extended attribute")
    with Place(program) as place:
        os.chmod(place.path, 0o640)
        place.write("", place.script)
        os.chmod(place.script, 0o666)
        place.open().close()
        editor = place.open()
        wrap(editor, "person", "Mr Adams")
        same(oct(place.mode(place.script) & ~0o640), "0o0", "a script that was open to more")
        editor.close()


def asks_before_it_replaces(program):
    """A document that may not be written, that is linked, or of which something would be lost isn't replaced unasked."""
    for what, words in (("read", "may not be written"), ("link", "1 more name"), ("attribute", "can't have its attribute"), ("owner", "can't have its owner")):
        with Place(program) as place:
            editor = place.open()
            wrap(editor, "person", "Mr Adams")
            other = os.path.join(place.folder, "other")
            if what == "read":
                os.chmod(place.path, 0o444)
            if what == "link":
                os.link(place.path, other)
            dress, kept_files.has_attribute, kept_files.attributes_of = (kept_files.has_attribute, kept_files.attributes_of), kept_files.has_attribute, kept_files.attributes_of
            chown = os.fchown
            if what == "attribute":
                kept_files.has_attribute, kept_files.attributes_of = lambda *_: False, lambda _: ["user.note"]
            if what == "owner":
                stat = os.stat(place.path)
                os.fchown = refusing
                if os.geteuid() == 0:
                    os.chown(place.path, 1234, 2345)
                elif stat.st_uid == os.geteuid():
                    os.fchown = chown
                    editor.close()
                    continue
            try:
                fault = fault_of(lambda: editor.save({"version": editor.version}))
                need(isinstance(fault, Question) and words in str(fault), f"{what}: {fault!r}")
                same(fault.ways, ["replace"] if what == "read" else ["replace", "into"], "the ways")
                same((place.read(), editor.state()["saved"]), (DRAFT.encode(), False), "nothing was written")
                inode = os.stat(place.path).st_ino
                way = fault.ways[-1]
                editor.save({"version": editor.version, "way": way})
                same((place.read(), editor.state()["saved"]), (editor.shown(), True), "it is written, where that is wanted")
                same(os.stat(place.path).st_ino == inode, way == "into", "into the file that is there, or in its place")
                if what == "link":
                    same(place.read(other), editor.shown(), "its other name has it too")
                if what == "read":
                    same(oct(place.mode()), oct(0o444), "its mode")
            finally:
                os.fchown, (kept_files.has_attribute, kept_files.attributes_of) = chown, dress
            same([name for name in os.listdir(place.folder) if name.startswith(".")], [], "nothing is left beside it")
            editor.close()


def refusing(*_):
    raise PermissionError(1, "a fault of a test")


def opens_files_alone(program):
    """A pipe, a folder, a socket or a dangling link, in the place of a document or of its script, ends in a sentence, and
    nothing is waited for or written through it."""
    def made(path, kind, place):
        if kind == "pipe":
            os.mkfifo(path)
        elif kind == "folder":
            os.mkdir(path)
        elif kind == "socket":
            with socket.socket(socket.AF_UNIX) as one:
                one.bind(path)
        else:
            os.symlink(os.path.join(place.folder, "nowhere"), path)

    for kind in ("pipe", "folder", "socket", "link"):
        with Place(program, None) as place:
            made(place.path, kind, place)
            start = time.monotonic()
            fault = fault_of(lambda: Script(place.path))
            need(isinstance(fault, Trouble | OSError) and time.monotonic() - start < PATIENCE, f"a {kind} for a document: {fault!r}")
            if kind != "socket":
                need(isinstance(fault, Trouble), f"a sentence for a {kind}: {fault!r}")
            words = [sys.executable, os.path.join(FOLDER, "annotate"), LETTER, "letter", place.path, "--program", program, "--from"]
            place.write("text", os.path.join(place.folder, "text"))
            ran = subprocess.run([*words, os.path.join(place.folder, "text")], capture_output=True, text=True, timeout=PATIENCE)
            need(ran.returncode == 1 and ran.stderr.startswith("annotate: ") and "Traceback" not in ran.stderr, f"--from, a {kind}: {ran.stderr}")
            same(sorted(os.listdir(place.folder)), ["doc.xml", "text"], f"nothing was made beside a {kind}, or through it")
        with Place(program) as place:
            made(place.script, kind, place)
            fault = fault_of(lambda: Script(place.path))
            need(isinstance(fault, Trouble | OSError), f"a {kind} for a script: {fault!r}")
            same(sorted(os.listdir(place.folder)), ["doc.xml", "doc.xml.pvtag"], f"a {kind} for a script")
        with Place(program) as place:
            editor = place.open()
            wrap(editor, "person", "Mr Adams")
            os.unlink(place.path)
            made(place.path, kind, place)
            fault = fault_of(lambda: editor.save({"version": editor.version}))
            need(fault is None or isinstance(fault, Trouble), f"a {kind} in its place at Save: {fault!r}")
            same(os.path.exists(os.path.join(place.folder, "nowhere")), False, "nothing is written through a link")
            editor.close()


def puts_back_what_is_removed(program):
    """A script that is removed while its document is open is there again after the next move, for this program alone; one that another
    program put there isn't written to."""
    with Place(program) as place:
        editor = place.open()
        wrap(editor, "place", "Delft")
        mode, saved = place.mode(place.script), place.read(place.script)
        os.unlink(place.script)
        os.unlink(place.script + ".base")
        wrap(editor, "person", "Mr Adams")
        need(place.read(place.script).startswith(saved) and place.read(place.script).count(b"\n") > saved.count(b"\n"), "all moves are there")
        same((place.mode(place.script), place.read(place.script + ".base"), sorted(os.listdir(place.folder))),
             (mode, DRAFT.encode(), ["doc.xml", "doc.xml.pvtag", "doc.xml.pvtag.base"]), "as it was")
        need("is being marked up already" in str(fault_of(place.open)), "nobody else has it")
        os.rename(place.script, place.script + ".mine")
        place.write("x", place.script)
        before = editor.shown()
        fault = fault_of(lambda: editor.undo({"version": editor.version}))
        need(isinstance(fault, Trouble) and "was replaced by another program" in str(fault), f"another one: {fault!r}")
        same((place.read(place.script), editor.shown(), len(editor.made)), (b"x", before, 2), "nothing is written, and nothing done")
        os.unlink(place.script)
        editor.undo({"version": editor.version})
        editor.close()
        editor = place.open()
        same(len(editor.made), 1, "opened again")
        editor.close()
    with Place(program) as place:
        editor = place.open()
        os.unlink(place.script)
        other = place.open()
        editor.close()
        wrap(other, "place", "Delft")
        same(os.path.exists(place.script), True, "one without a move doesn't remove that of another")
        other.close()


def locks_the_file_that_is_there(program):
    """Of many that begin and end at once on a document, one has it at a time."""
    code = ("import sys; sys.dont_write_bytecode = True; sys.path.insert(0, sys.argv[3])\nfrom annotate.script import Script\nfrom pvtag.program import Trouble\nimport os\n"
            "for _ in range(60):\n try: script = Script(sys.argv[1])\n except Trouble: continue\n"
            " path = sys.argv[1] + '.alone'\n os.close(os.open(path, os.O_CREAT | os.O_EXCL)); os.unlink(path); script.close()\n")
    with Place(program) as place:
        words = [sys.executable, "-c", code, place.path, FOLDER, os.path.dirname(FOLDER)]
        runs = [subprocess.Popen(words, stderr=subprocess.PIPE, text=True) for _ in range(6)]
        said = [run.communicate(timeout=PATIENCE)[1] for run in runs]
        same(said, [""] * 6, "never two at once")
        same(os.listdir(place.folder), ["doc.xml"], "the files")


# What a save does, in a process of its own that is killed at any time.
SAVES = """
import sys
sys.dont_write_bytecode = True
sys.path.insert(0, sys.argv[4])
from annotate.editor import Editor
from annotate.script import Script
editor = Editor([sys.argv[1]], sys.argv[5], "letter", Script(sys.argv[2]))
place = next(node for node in editor.document.nodes.values() if node.kind == "text" and "have" in "".join(node.units))
at = "".join(place.units).index("have")
print("begun", flush=True)
for k in range(1000):
    name = ["date", "person", "place"][k % 3]
    node = next((node for node in editor.document.elements() if node.name in ("date", "person", "place")), None)
    ask = {"kind": "rename", "node": node.id, "name": name} if node else {"kind": "wrap", "name": name,
           "place": {"list": place.owner.id, "from": [place.id, at], "to": [place.id, at + 4]}}
    editor.move({**ask, "version": editor.version})
    editor.save({"version": editor.version})
    print(k, flush=True)
"""


def survives_kills(program):
    """A server that is killed before, in or after a Save: the document is one of those that were saved, and the next
    start goes on from it with all moves."""
    for _ in range(12):
        with Place(program) as place:
            words = [sys.executable, "-c", SAVES, program, place.path, FOLDER, os.path.dirname(FOLDER), LETTER]
            run = subprocess.Popen(words, stdout=subprocess.PIPE, text=True, start_new_session=True)
            need(run.stdout.readline() == "begun\n", "it begins")
            time.sleep(random.random() / 4)
            os.killpg(run.pid, signal.SIGKILL)
            done = len(run.communicate()[0].splitlines())
            saved = place.read()
            editor = place.open()
            need(done <= len(editor.made) <= done + 1, f"the moves: {len(editor.made)} of {done}")
            need(saved == DRAFT.encode() or b">have</" in saved, "the document is whole")
            same(editor.shown() == saved, editor.state()["saved"], "whether it is saved")
            editor.save({"version": editor.version})
            same(place.read(), editor.shown(), "the next Save")
            editor.close()
            left = [name for name in os.listdir(place.folder) if name.startswith(kept_files.BESIDE)]
            need(len(left) <= 1, f"what is left: {left}")


def limits_declarations(program):
    """Declarations of attributes that would grow past a limit aren't built."""
    with Place(program, None) as place:
        dtd = os.path.join(place.folder, "big.dtd")
        entities = "".join(f'<!ENTITY % e{k} "{"%e" + str(k - 1) + ";" if k else "a CDATA #IMPLIED "}{("%e" + str(k - 1) + ";") * 9 if k else ""}">' for k in range(20))
        place.write(f"<!ELEMENT letter (#PCDATA)>{entities}<!ATTLIST letter %e19;>", dtd)
        place.write("<letter>x</letter>")
        limit = resource.getrlimit(resource.RLIMIT_AS)
        editor = Editor([program], LETTER, "letter", Script(place.path))
        editor.dtd = dtd
        resource.setrlimit(resource.RLIMIT_AS, (1 << 30, limit[1]))
        try:
            told = Attributes(editor).of({"node": editor.document.top.kids[0].id})
        finally:
            resource.setrlimit(resource.RLIMIT_AS, limit)
        need(told["declared"] is None and "grow past 16 MB" in told["why"], f"it is told: {told}")
        editor.close()


CASES = [puts_back_what_is_removed, makes_moves_again, makes_all_kinds_again, goes_on_behind_a_save, keeps_the_script, finds_characters, checks_scripts, checks_scripts_that_are_made_again,
         keeps_entities_apart, leaves_no_half, opens_long_names, keeps_modes, asks_before_it_replaces, opens_files_alone, locks_the_file_that_is_there, survives_kills, limits_declarations]


def main():
    program = os.path.abspath(sys.argv[1])
    random.seed(int(sys.argv[2]))
    return run_cases("annotate's files", [functools.update_wrapper(functools.partial(case, program), case) for case in CASES])


if __name__ == "__main__":
    sys.exit(main())
