"""Tries the list of a folder's documents in `clients/annotate`: what is told of each, and how one is begun, opened, done and left.

Words: PROGRAM, and names of cases, all where there are none. Prints each difference, and how many cases passed; ends with 1 where one failed.
"""
import contextlib
import functools
import io
import itertools
import json
import os
import subprocess
import sys
import tempfile
import threading
import time

sys.dont_write_bytecode = True

from lib.annotate.fixture import FOLDER, LETTER, Server, fault_of, need, run_cases, same, soon  # noqa: E402
from lib.annotate.thirty import DTD, letters  # noqa: E402

sys.path.insert(0, os.path.dirname(FOLDER))

from annotate import drawer as drawers  # noqa: E402
from annotate_letters import in_order, line_of  # noqa: E402
from annotate.declared import declared_by  # noqa: E402
from annotate.drawer import Drawer, address_of  # noqa: E402
from annotate.listing import Marks  # noqa: E402
from pvtag import program as programs  # noqa: E402
from pvtag.program import Trouble  # noqa: E402
from annotate.work import Refusal  # noqa: E402

VALID = "<letter><opener><salute>Dear</salute></opener><body><p>I met him.</p></body></letter>\n"
FILES = {
    "letter 2.xml": VALID, "letter 10.xml": VALID.replace("<salute>Dear</salute>", "Dear"), "a%41#é.xml": VALID.replace("<opener>", "<closer>x</closer><opener>"),
    "no.xml": "<letter>\n<", "begun.txt": "Dear brother", "letter 2.txt": "Dear", "tags.txt": "a person\n", ".hidden.xml": VALID, "notes": "x",
}


class Folder:
    """A folder of documents, and its list."""

    def __init__(self, program, files):
        self.kept = tempfile.TemporaryDirectory()
        self.program, self.path = program, os.path.join(self.kept.name, "letters")
        os.mkdir(self.path)
        for name, text in files.items():
            self.write(name, text)
        self.drawers = []

    def __enter__(self):
        return self

    def __exit__(self, *_):
        for each in self.drawers:
            each.close()
        # All runs are ended then; others begin in the next case.
        programs.RUNNING.stopped = False
        self.kept.cleanup()

    def write(self, name, text):
        with open(os.path.join(self.path, name), "wb") as file:
            file.write(text.encode())

    def text(self, name):
        with open(os.path.join(self.path, name), encoding="utf-8") as file:
            return file.read()

    def drawer(self):
        self.drawers.append(Drawer([self.program], LETTER, "letter", self.path, declared_by([self.program], LETTER)))
        return self.drawers[-1]


def rows_of(drawer):
    """The list, once all documents are judged."""
    return soon(lambda: drawer.answer("list", {})["rows"], lambda rows: all(row["is_text"] or "verdict" in row for row in rows), "all are judged")


def ask(drawer, path, what=None):
    """What is answered to a request."""
    asked, name = drawer.at(path)
    need(asked.has(name), f"there is such a request: {path}")
    return json.loads(json.dumps(asked.answer(name, {"window": "1", **(what or {})})))


def move(drawer, url, name="person", words="him"):
    """Puts a tag round words of a document."""
    state = ask(drawer, f"{url}/state")
    text = next(row for row in state["tree"] if words in row.get("text", ""))
    at = text["text"].index(words)
    owner = next(row for row in reversed(state["tree"][:state["tree"].index(text)]) if row["depth"] == text["depth"] - 1)
    place = {"list": owner["id"], "from": [text["id"], at], "to": [text["id"], at + len(words)]}
    return ask(drawer, f"{url}/move", {"version": state["version"], "kind": "wrap", "place": place, "name": name})


def lists_documents(program):
    """Documents and plain texts without one, by their names and numbers, each with the verdict that `report` has."""
    with Folder(program, FILES) as folder:
        os.mkdir(os.path.join(folder.path, "folder.xml"))
        os.mkfifo(os.path.join(folder.path, "pipe.xml"))
        with open(os.path.join(os.fsencode(folder.path), b"latin\xe9.xml"), "wb") as file:
            file.write(VALID.encode())
        rows = rows_of(folder.drawer())
        same([row["name"] for row in rows], ["a%41#é.xml", "begun.txt", "latin\ufffd.xml", "letter 2.xml", "letter 10.xml", "no.xml"], "their names")
        same([row["is_text"] for row in rows], [False, True, False, False, False, False], "which are texts")
        report = os.path.join(os.path.dirname(FOLDER), "report")
        paths = [os.path.join(folder.path, row["name"]) for row in rows if not row["is_text"] and "\ufffd" not in row["name"]]
        ran = subprocess.run([sys.executable, report, "--need", "--program", program, LETTER, "letter", *paths], capture_output=True, text=True)
        told = {os.path.basename(row["path"]): row for row in map(json.loads, ran.stdout.splitlines()[1:])}
        same(len(told), 4, f"what report tells: {ran.stderr}")
        for row in rows:
            other = told.get(row["name"])
            if other is not None:
                same((row["verdict"], row["missing"], row["faults"]), (other["verdict"], other.get("missing"), other.get("faults")), row["name"])
                need(other.get("sentence", "") in row["sentence"], f"{row['name']}: {row['sentence']}")
        same({row["name"]: row.get("verdict") for row in rows}["latin\ufffd.xml"], "valid", "a name that isn't UTF-8")


def judges_again(program):
    """What has changed is judged again, and only that; what is gone isn't listed any more."""
    with Folder(program, {"a.xml": VALID, "b.xml": VALID}) as folder:
        drawer = folder.drawer()
        same([row["verdict"] for row in rows_of(drawer)], ["valid", "valid"], "both")
        before = drawer.verdicts.rows[os.path.join(folder.path, "b.xml")]
        folder.write("a.xml", VALID.replace("<salute>Dear</salute>", ""))
        rows = soon(lambda: rows_of(drawer), lambda rows: rows[0]["verdict"] == "possible", "the one that has changed")
        same((rows[0]["missing"], rows[1]["verdict"]), (1, "valid"), "what it misses")
        need(drawer.verdicts.rows[os.path.join(folder.path, "b.xml")] is before, "the other isn't judged again")
        soon(lambda: programs.RUNNING.runs, lambda runs: not runs, "nothing that judged them is left running")
        os.unlink(os.path.join(folder.path, "a.xml"))
        same([row["name"] for row in rows_of(drawer)], ["b.xml"], "one is gone")


def keeps_what_is_done(program):
    """Marks stand in a file beside the folder, for all who have it open; one that isn't such a file is told."""
    with Folder(program, {"a.xml": VALID, "b.xml": VALID, "c.xml": VALID}) as folder:
        one, other = folder.drawer(), folder.drawer()
        same(ask(one, "mark", {"url": "b.xml", "done": True}), {"done": True}, "one is done")
        same([row["done"] for row in ask(other, "list")["rows"]], [False, True, False], "also for another")
        same(ask(one, "a.xml/hello")["drawer"], {"title": "letters", "at": 1, "of": 3, "done": False, "left": 2}, "a document's place")
        same(ask(one, "a.xml/onward"), {"url": "c.xml"}, "the next that isn't done")
        same(ask(one, "c.xml/onward"), {"url": "a.xml"}, "and then from the first on")
        threads = [threading.Thread(target=ask, args=(each, "mark", {"url": url, "done": True})) for each, url in ((one, "a.xml"), (other, "c.xml"))]
        for thread in threads:
            thread.start()
        for thread in threads:
            thread.join()
        with open(folder.path + ".pvtag", encoding="utf-8") as file:
            same(json.load(file), {"done": ["a.xml", "b.xml", "c.xml"]}, "two at once")
        same(ask(one, "c.xml/onward"), {"url": None}, "all others are done")
        same(ask(one, "b.xml/mark", {"done": False}), {"done": False}, "not any more, from the document's page")
        same([row["done"] for row in ask(one, "list")["rows"]], [True, False, True], "the list")
        need("isn't in the folder" in ask(one, "mark", {"url": "x.xml", "done": True})["trouble"], "what isn't there")
        for bad in ("x", "[]", '{"done": 5}'):
            with open(folder.path + ".pvtag", "w", encoding="utf-8") as file:
                file.write(bad)
            need("move it elsewhere" in ask(one, "list")["trouble"], f"a file that holds {bad}")
            need(isinstance(fault_of(lambda: Marks(folder.path).put("a.xml", True)), Trouble), "isn't written over")


def begins_documents(program):
    """A plain text begins a document, by a click or as the next one; of what can't be one nothing is left."""
    with Folder(program, {"a.xml": VALID, "b.txt": "Dear <brother>\r\n", "bad.txt": "x\x01"}) as folder:
        folder.write("latin.txt", "x")
        with open(os.path.join(folder.path, "latin.txt"), "wb") as file:
            file.write(b"caf\xe9")
        drawer = folder.drawer()
        same(ask(drawer, "a.xml/onward"), {"url": "b.xml"}, "the next is begun")
        need("Dear &lt;brother>\n" in folder.text("b.xml").replace("&gt;", ">"), folder.text("b.xml"))
        same([(row["name"], row["is_text"]) for row in ask(drawer, "list")["rows"]], [("a.xml", False), ("b.xml", False), ("bad.txt", True), ("latin.txt", True)], "the list")
        need("isn't UTF-8" in ask(drawer, "begin", {"url": "latin.txt"})["trouble"], "what isn't UTF-8")
        need("no character of XML" in ask(drawer, "begin", {"url": "bad.txt"})["trouble"], "what isn't XML")
        same(ask(drawer, "begin", {"url": "a.xml"}), {"url": "a.xml"}, "what is there is opened")
        for name in ("latin.xml", "bad.xml", "bad.xml.pvtag"):
            need(not os.path.exists(os.path.join(folder.path, name)), f"{name} is left")


def opens_documents(program):
    """Each has a session of its own; moves and saves show in the list, and what another has open is told."""
    with Folder(program, {"a.xml": VALID, "b.xml": VALID, "c.xml": "<letter>"}) as folder, Server(program, None) as server:
        drawer = folder.drawer()
        ask(drawer, "a.xml/hello")
        need("changes" in move(drawer, "a.xml"), "a move")
        row = rows_of(drawer)[0]
        same((row["by"], row["moves"], row["verdict"]), ("here", True, "valid"), "it is open, with a move")
        ask(drawer, "a.xml/save", {"version": ask(drawer, "a.xml/state")["version"]})
        need("<person>him</person>" in folder.text("a.xml"), "it is saved")
        same(rows_of(drawer)[0]["moves"], False, "which the list says")
        need("<" in ask(drawer, "c.xml/hello")["trouble"] or ask(drawer, "c.xml/hello")["closed"], "what can't be opened is told")
        server.words[4] = os.path.join(folder.path, "b.xml")
        server.start()
        server.ask("hello", {"window": "2"})
        same(ask(drawer, "list")["rows"][1]["by"], "you", "another annotate has it")
        told = ask(drawer, "b.xml/hello")
        need(told["closed"] and "already, by another annotate" in told["trouble"], f"which is told: {told}")
        server.stop()
        same(ask(drawer, "b.xml/hello")["title"], "b.xml", "and it is opened once that has ended")
        # The server of another finds it taken then.
        ran = subprocess.run(server.words, capture_output=True, text=True)
        need("already, by another annotate" in ran.stderr, f"as another finds: {ran.stderr}")
        need("<letter" in folder.text("c.xml"), "the other is as it was")


def makes_moves_again(program):
    """A document that was changed outside since is told when it is opened, and its moves can be made again."""
    with Folder(program, {"a.xml": VALID}) as folder:
        drawer = folder.drawer()
        ask(drawer, "a.xml/hello")
        need("changes" in move(drawer, "a.xml"), "a move")
        drawer.entry("a.xml").close()
        same(ask(drawer, "list")["rows"][0]["moves"], True, "its moves are kept")
        folder.write("a.xml", VALID.replace("Dear", "Dear Anna"))
        told = ask(drawer, "a.xml/hello")
        same((told["changed"], told["closed"]), (True, True), "it was changed")
        need("1 of 1 moves were made again" in ask(drawer, "a.xml/hello", {"again": True})["note"], "they are made again")
        names = [row.get("name") for row in ask(drawer, "a.xml/state")["tree"]]
        need("person" in names, f"they are there: {names}")


def closes_what_is_left(program):
    """A document is closed a while after its last window, and opened again with a later version, so that no window takes it for
    what it knew."""
    with Folder(program, {"a.xml": VALID}) as folder:
        drawer = folder.drawer()
        kept, drawers.LEFT = drawers.LEFT, 0.2
        try:
            ask(drawer, "a.xml/hello")
            version = move(drawer, "a.xml")["version"]
            entry = drawer.entry("a.xml")
            ask(drawer, "a.xml/bye")
            ask(drawer, "a.xml/hello")
            time.sleep(0.5)
            need(entry.work is not None, "a window came back")
            ask(drawer, "a.xml/bye")
            soon(lambda: entry.work, lambda work: work is None, "it is closed")
            same(ask(drawer, "list")["rows"][0]["by"], "", "nobody has it")
            state = ask(drawer, "a.xml/state", {"since": version})
            need(state["version"] > version and "tree" in state, f"all of it is told anew: {state['version']} after {version}")
            need("person" in [row.get("name") for row in state["tree"]], "with its moves")
        finally:
            drawers.LEFT = kept


def refuses_nonsense(program):
    """A request of another form than the page's is refused, of the list and of a document, and nothing is printed for it."""
    with Folder(program, {"a.xml": VALID}) as folder, contextlib.redirect_stderr(io.StringIO()) as said:
        drawer = folder.drawer()
        document = drawer.at("a.xml/")[0]
        for asked, names in ((drawer, ("mark", "begin")), (document, ("hello", "bye", "mark"))):
            for name, what in itertools.product(names, ([], "x", 5, None, {}, {"url": 5, "done": "x", "window": []})):
                fault = fault_of(lambda: asked.answer(name, what))
                need(isinstance(fault, Refusal) and fault.status == 400, f"{name} {what}: {fault!r}")
        same(said.getvalue(), "", "what is printed")
        need(document.work is None and not os.path.exists(folder.path + ".pvtag"), "nothing was opened or marked")
        same(ask(drawer, "mark", {"url": "x.xml", "done": True}), {"trouble": "that isn't in the folder any more"}, "a document that isn't there")


def refuses_other_names(program):
    """A path names a document of the list and nothing else."""
    with Folder(program, {"a.xml": VALID, "b b%2f.xml": VALID}) as folder:
        with open(os.path.join(folder.kept.name, "out.xml"), "w", encoding="utf-8") as file:
            file.write(VALID)
        drawer = folder.drawer()
        for path in ("../out.xml/", "%2e%2e%2fout.xml/state", "out.xml/state", "/a.xml/state", "a.txt/", "a.xml%00/", "%ff/", "a.xml.pvtag/state", "notes/"):
            fault = fault_of(lambda: drawer.at(path))
            need(isinstance(fault, Refusal) and fault.status == 404, f"{path}: {fault!r}")
        need(not drawer.at("a.xml/list")[0].has("list") and not drawer.at("x")[0].has("state"), "requests of the other page")
        same(ask(drawer, f"{address_of('b b%2f.xml')}/hello")["title"], "b b%2f.xml", "a name with signs")
        os.unlink(os.path.join(folder.path, "a.xml"))
        os.mkdir(os.path.join(folder.path, "a.xml"))
        need(ask(drawer, "a.xml/hello")["closed"], "what isn't a file any more is told")
        drawer.folder += "x"
        need(isinstance(fault_of(lambda: drawer.at("c.xml/")), Refusal) and "trouble" in ask(drawer, "list"), "and a folder that isn't there")
        with open(folder.path + ".pvtag", "w", encoding="utf-8") as file:
            file.write("garbage")
        drawer.folder = folder.path
        need("isn't what annotate writes there" in ask(drawer, "list")["trouble"], "what is done can't be read")
        same(ask(drawer, f"{address_of('b b%2f.xml')}/hello")["drawer"]["at"], 0, "and a document is shown all the same")
    with Server(program, None) as server:
        os.mkdir(server.path("letters"))
        server.write(VALID, "letters/a.xml")
        server.words[4] = server.path("letters")
        server.start()
        page = f"/{server.token}/"
        same([server.request("GET", page + path)[0] for path in ("", "drawer.js", "a.xml/", "a.xml/main.js", "b.xml/", "a.xml/none.js", "..%2f/")],
             [200, 200, 200, 200, 404, 404, 404], "its pages")
        need(b"drawer.js" in server.request("GET", page)[1] and b"main.js" in server.request("GET", page + "a.xml/")[1], "the list, and a document")
        server.ask("a.xml/hello", {"window": "1"})
        server.ask("state", status=404)
        same(server.stop(), (0, ""), "Ctrl-C")
        same(sorted(os.listdir(server.path("letters"))), ["a.xml"], "what wasn't changed leaves no files")
        for more in (["--again"], ["--from", LETTER]):
            ran = subprocess.run([*server.words, *more], capture_output=True, text=True)
            need(ran.returncode == 1 and "is a folder, and --from and --again are about one document" in ran.stderr, f"{more}: {ran.stderr}")


class User:
    """Marks up a letter of a drawer, by what the page asks for; each letter in the same way."""

    def __init__(self, drawer, letter, url):
        self.url, self.letter, self.drawer = url, letter, drawer
        drawer.entry(url).begin()
        self.work = drawer.entry(url).work
        self.editor = self.work.editor
        self.work.around.read.join()

    def done(self, name, what):
        """Asks for a move of which nothing is refused."""
        told = self.work.answer(name, {"version": self.editor.version, **what})
        need("changes" in told and not told.get("refused"), f"{self.url}, {name} {what}: {told}")

    def take_suggestions(self):
        """All of them that are right, in one move; how many are left out."""
        rows = self.work.answer("suggestions", {})["rows"]
        tags = self.letter.tags | {self.letter.salute: ("salute", [])}
        right = [row for row in rows if tags.get(row["text"]) == (row["name"], [tuple(pair) for pair in row["pairs"]])]
        if right:
            self.done("take-suggestions", {"places": [{key: row[key] for key in ("place", "name", "pairs")} for row in right]})
        return len(rows) - len(right)

    def tag_names(self):
        """The names that have no tag still: each on all its places, in one move."""
        for text, (name, pairs) in self.letter.tags.items():
            rows = self.work.answer("places", {"text": text, "name": name})["places"]
            places = [row["place"] for row in rows if not row["part"] and not row["refused"]]
            if places:
                self.done("tag-places", {"name": name, "places": places, "pairs": pairs})

    def wrap(self, name, words):
        """A tag round a part of the letter, where there is none yet."""
        if not any(node.name == name for node in self.editor.document.elements()):
            self.done("move", {"kind": "wrap", "name": name, "place": self.place_of(words)})

    def place_of(self, words):
        """Where a part of the letter stands, in the list that holds all of it."""
        start = self.letter.plain.index(words)
        end, at, ends = start + len(words), 0, []
        for node in in_order(self.editor.document):
            if node.kind == "text":
                size = len(node.units)
                ends += [(node, start - at)] * (at <= start < at + size) + [(node, end - at)] * (at < end <= at + size)
                at += size
        (first, from_), (last, to) = ends
        depth = next(at for at, (one, other) in enumerate(zip(line_of(first), line_of(last))) if one is not other or one is first)
        one, other = line_of(first)[depth], line_of(last)[depth]
        return {"list": one.owner.id, "from": [one.id, from_ if one is first else 0], "to": [other.id, to if other is last else 1]}

    def mark_up(self):
        """The whole letter; how many suggestions weren't right."""
        letter = self.letter
        left = self.take_suggestions()
        place = self.place_of("\n".join(letter.paragraphs))
        pieces = self.work.answer("pieces", {"place": place, "name": "p", "by": "lines"})["pieces"]
        same(len(pieces), len(letter.paragraphs), "the paragraphs")
        self.done("tag-pieces", {"name": "p", "places": [row["place"] for row in pieces]})
        self.tag_names()
        self.wrap("salute", letter.salute)
        # What is left, opener, dateline, body and closer, is missing.
        need("tree" in self.work.answer("preview", {}), "what is missing")
        self.done("take", {})
        return left


def half_the_moves_for_the_last_ten(program):
    """Thirty letters, each begun of a plain text, marked up in the same way, saved and done: what was tagged before is suggested, so
    that the last ten take at most half the moves of the first ten."""
    thirty = letters()
    files = {f"{number}.txt": letter.plain for number, letter in enumerate(thirty, 1)}
    with Folder(program, files) as folder:
        with open(os.path.join(folder.kept.name, "letters.dtd"), "w", encoding="utf-8") as file:
            file.write(DTD)
        dtd = os.path.join(folder.kept.name, "letters.dtd")
        drawer = Drawer([program], dtd, "letter", folder.path, declared_by([program], dtd))
        folder.drawers.append(drawer)
        counts, wrong, url = [], 0, ask(drawer, "begin", {"url": "1.txt"})["url"]
        for number, letter in enumerate(thirty, 1):
            same(url, f"{number}.xml", "the next letter")
            user = User(drawer, letter, url)
            wrong += user.mark_up()
            counts.append(len(user.editor.made))
            user.done("save", {})
            same(body_of(folder.text(url)), letter.whole, f"letter {number}")
            ask(drawer, f"{url}/mark", {"done": True})
            url = ask(drawer, f"{url}/onward")["url"]
            drawer.entry(f"{number}.xml").close()
        same((url, wrong), (None, 0), "all are done, and no suggestion was wrong")
        first, last = sum(counts[:10]), sum(counts[-10:])
        need(2 * last <= first, f"{last} moves for the last ten, {first} for the first: {counts}")
        same({row["verdict"] for row in rows_of(drawer)}, {"valid"}, "all are valid")


def body_of(text):
    """A document without its declarations."""
    return text[text.index("<letter"):]


CASES = [half_the_moves_for_the_last_ten, lists_documents, judges_again, keeps_what_is_done, begins_documents, opens_documents, makes_moves_again,
         closes_what_is_left, refuses_nonsense, refuses_other_names]


def main():
    program = os.path.abspath(sys.argv[1])
    wanted = [case for case in CASES if not sys.argv[2:] or case.__name__ in sys.argv[2:]]
    return run_cases("a drawer of documents", [functools.update_wrapper(functools.partial(case, program), case) for case in wanted])


if __name__ == "__main__":
    sys.exit(main())
