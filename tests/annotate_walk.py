"""Walks at random through what the page of `clients/annotate` asks for: 2,000 asks, or so many seconds, with half
surrogates, nonsense, writes that fail, documents that change outside, and sessions and servers that are killed.

Words: PROGRAM SEED, and SECONDS, 60 where none are told. After each ask the bytes to be saved are those that the program
shows, with the attributes that were given; what the page is told makes the same tree and text of its copy; and now and
then the script, played anew, makes the same document. Prints each difference, and how many asks passed; ends with 1
where one failed.
"""
import contextlib
import json
import os
import random
import resource
import signal
import sys
import tempfile
import threading
import time
from collections import Counter

sys.dont_write_bytecode = True

from lib.annotate.copy_of_tree import Copy  # noqa: E402
from lib.annotate.fixture import ARTICLE, DRAFT, EXAMPLES, FOLDER, LETTER, Fault, need, same  # noqa: E402

sys.path.insert(0, os.path.dirname(FOLDER))

from annotate.declared import declared_by  # noqa: E402
from annotate.editor import Editor  # noqa: E402
from pvtag.document import ELEMENT, Document  # noqa: E402
from pvtag.program import file_of  # noqa: E402
from pvtag.session import Ended, Session  # noqa: E402
from annotate.script import Changed, Script  # noqa: E402
from annotate.work import Refusal, Work  # noqa: E402

ASKS = 2000
PAGE = os.path.join(EXAMPLES, "page.dtd")
WITH_ALL = ("<?xml version='1.0'?>\n<!--b--><doc a='>/' >Tom &amp; &#x10000;Anna 𐀀é<br/>\r\n<br />x<![CDATA[<]]>y<!-- c --><em b=\"'\">z</em > &#10;"
            "more</doc>\n<?z?>\n")
SOURCES = [(LETTER, "letter", DRAFT), (ARTICLE, "doc", WITH_ALL), (LETTER, "letter", open(os.path.join(EXAMPLES, "letter.xml"), encoding="utf-8").read()),
           (ARTICLE, "doc", open(os.path.join(EXAMPLES, "article.xml"), encoding="utf-8").read()),
           (PAGE, "html", open(os.path.join(EXAMPLES, "page.xhtml"), encoding="utf-8").read())]
NAMES = ["p", "em", "head", "sec", "title", "br", "item", "list", "place", "person", "salute", "date", "li", "b", "nothing", "a b", "", "\ud800", "p\udfff", "x\n", "é"]
TEXTS = ["a", "hi", "", "\n", "x\ny", "<&>]]>", "]]>", "é𐀀", "\ud800", "a\udc00b", "\x01", "\r\n", " ", "&amp;", "word " * 90]


class Walk:
    def __init__(self, program, folder, dtd, root, source):
        self.program, self.dtd, self.root, self.folder = program, dtd, root, folder
        self.path = os.path.join(folder, "doc.xml")
        with open(self.path, "w", encoding="utf-8", newline="") as file:
            file.write(source)
        self.declared, self.counts = declared_by([program], dtd), Counter()
        self.work = None
        self.begin()

    # Beginning and ending.
    def begin(self, again=False):
        self.script = Script(self.path, again)
        try:
            self.editor = Editor([self.program], self.dtd, self.root, self.script)
        except BaseException:
            self.script.close()
            raise
        self.work = Work(self.editor, self.declared, "doc.xml")
        self.copy = Copy()
        self.copy.take(self.told("state", {}))

    def end(self, is_killed=False):
        if self.work is None:
            return
        self.work.stop()
        self.work = None
        if is_killed:
            # What a kill leaves: no line more is written, and nothing is tidied up.
            self.editor.end_session()
            self.script.release()
        else:
            self.editor.close()

    def told(self, name, what):
        """What the page is answered, as it comes out of JSON."""
        return json.loads(json.dumps(self.work.answer(name, json.loads(json.dumps(what)))))

    def ask(self, name, what=None):
        what = {"version": self.copy.version, "window": random.choice(["one", "two"]), **(what or {})}
        if random.random() < 0.03:
            what["version"] = random.choice([-1, None, "x", what["version"] - 1])
        try:
            answer = self.told(name, what)
        except Refusal as refusal:
            need(refusal.status == 400, f"{name}: {refusal.why}")
            answer = {}
        self.counts[name, next((key for key in ("no", "stale", "trouble", "again") if key in answer), "made")] += 1
        if "made" in answer and ("tree" in answer or answer.get("since") == self.copy.version):
            self.copy.take(answer)
        return answer

    # What is asked for.
    def node(self, kinds=(ELEMENT,)):
        """A node that is there, or one that was."""
        if random.random() < 0.04:
            return random.choice([0, 10 ** 6, -1, "x", None])
        rows, todo = [], list(self.copy.nodes[0]["kids"])
        while todo:
            node = todo.pop()
            rows += [node["id"]] if node["kind"] in kinds else []
            todo += node["kids"]
        return random.choice(rows) if rows else 0

    def place(self, is_text=False):
        """A run of a list; of one text."""
        owners = [node for node in self.copy.nodes.values() if node.get("kids") and self.is_there(node)]
        if is_text:
            owners = [node for node in owners if any(kid["kind"] == "text" for kid in node["kids"])]
        if not owners or random.random() < 0.03:
            return {"list": self.node(), "from": random.choice([[None, 0], [3, 1], "x", None]), "to": [None, 0]}
        owner = random.choice(owners)
        kids = [kid for kid in owner["kids"] if not is_text or kid["kind"] == "text"]
        ends = sorted((owner["kids"].index(kid), random.randint(0, len(kid["text"]) if kid["kind"] == "text" else 1)) for kid in
                      ([random.choice(kids)] * 2 if is_text else random.choices(kids, k=2)))
        if random.random() < 0.3:
            ends = ends[:1] * 2
        return {"list": owner["id"], **{word: [owner["kids"][at]["id"], unit] for word, (at, unit) in zip(("from", "to"), ends)}}

    def is_there(self, wanted):
        todo = list(self.copy.nodes[0]["kids"])
        while todo:
            node = todo.pop()
            if node is wanted:
                return True
            todo += node["kids"]
        return False

    def move(self):
        kind = random.choice(["wrap"] * 5 + ["insert", "unwrap", "rename", "split", "join", "delete", "extend", "what"])
        what = {"kind": kind, "name": random.choice(NAMES)}
        if kind in ("wrap", "insert", "split", "extend"):
            what["place"] = self.place()
        if kind not in ("wrap", "insert"):
            what["node"] = self.node()
        if kind in ("split", "extend") and random.random() < 0.9:
            self.place_for(what)
        self.ask("move", what)

    def place_for(self, what):
        """The list of a place is split, or an element that it holds is made to reach further."""
        owner = self.copy.nodes.get(what["place"]["list"])
        if what["kind"] == "split":
            what["node"] = what["place"]["list"]
        elif owner is not None and any(kid["kind"] == "element" for kid in owner["kids"]):
            what["node"] = random.choice([kid["id"] for kid in owner["kids"] if kid["kind"] == "element"])

    def type(self):
        place = self.place(is_text=True)
        for _ in range(random.choice([1, 1, 3])):
            text = random.choice(TEXTS)
            answer = self.ask("type", {"text": text, "place": place, "on": random.random() < 0.7})
            if "caret" not in answer:
                break
            owner, kid, unit = answer["caret"]
            place = {"list": owner, "from": [kid, unit], "to": [kid, unit]}

    def attributes(self):
        node = self.node()
        self.ask("attributes", {"node": node})
        pairs = [[random.choice(["a", "n", "xml:id", "a b", "é", "", "\ud800"]), random.choice(["1", "\"'<&>", "x\ny", "\ud800", "\x01", ""])] for _ in range(random.randint(0, 2))]
        self.ask("set-attributes", {"node": node, "pairs": pairs})

    def everywhere(self):
        name, words = random.choice(NAMES), random.choice(["a", "Delft", "the", " ", "\ud800", "M"])
        places = [row["place"] for row in self.ask("places", {"text": words, "name": name}).get("places", ())]
        if random.random() < 0.2:
            places.append(random.choice([[0, 0, 0, 1], "x", [1, 2], [10 ** 6, 0, 0, 1]]))
        pairs = random.choice([[], [], [["n", "1"]], [["a b", ""]], [["n", "\ud800"]]])
        self.ask("tag-places", {"name": name, "places": random.sample(places, k=min(4, len(places))), "pairs": pairs})

    def found(self):
        """One tag at several places, each a part of a text, or each place with a tag of its own."""
        places = [self.place() for _ in range(random.randint(0, 3))]
        if random.random() < 0.5:
            return self.ask("tag-found", {"name": random.choice(NAMES), "places": places, "pairs": []})
        rows = [{"place": place, "name": random.choice(NAMES), "pairs": random.choice([[], [["n", "x"]]])} for place in places]
        return self.ask("take-suggestions", {"places": rows + random.choice([[], [], [{"place": 5}]])})

    def look(self):
        """What is only shown."""
        self.ask(random.choice(["source", "unsaved", "suggestions", "outside", "view"]), {"path": [0], "caret": "x", "panel": 5})
        self.ask("download", {"kind": random.choice(["html", "names", "xml", "x"])})

    def take(self):
        if random.random() < 0.5:
            node = self.node()
            missing = self.ask("missing", {"node": node}).get("missing", ())
            names = {each["id"]: random.choice(each.get("choices", [each["name"], random.choice(NAMES)])) for each in missing}
            return self.ask("take", {"node": node, "names": names if random.random() < 0.5 else {}})
        new = [row["id"] for row in self.ask("preview").get("tree", ()) if row.get("new")]
        return self.ask("take", {"new": random.choice(new)} if new and random.random() < 0.8 else {})

    def offer(self):
        answer = self.ask("offer", {"node": self.node()} if random.random() < 0.3 else self.place())
        if "task" in answer:
            self.ask("costs", {"task": answer["task"], "names": answer["names"][:3], "all": random.random() < 0.5})

    def back(self):
        self.ask("back", {"to": random.choice([0, random.randint(0, 30), len(self.editor.made) - 2])})

    def save(self):
        source = self.shown()
        answer = self.ask("save", {"way": random.choice(["", "", "", "into", "replace"])})
        if answer.get("saved"):
            with open(self.path, "rb") as file:
                same(file.read(), source, "what was saved")

    def save_beside(self):
        self.ask("save-beside", {"name": random.choice(["b.xml", "../b.xml", "", "\ud800", "x" * 300, "\0"])})
        with contextlib.suppress(FileNotFoundError):
            os.unlink(os.path.join(self.folder, "b.xml"))

    # What happens meanwhile.
    def with_full_disk(self):
        """The next asks find no room for more than some bytes."""
        size, limits = os.fstat(self.script.number).st_size, resource.getrlimit(resource.RLIMIT_FSIZE)
        resource.setrlimit(resource.RLIMIT_FSIZE, (size + random.randint(0, 60), limits[1]))
        try:
            for _ in range(3):
                random.choice([self.move, self.type, self.attributes, self.undo, self.redo, self.save])()
                self.check()
        finally:
            resource.setrlimit(resource.RLIMIT_FSIZE, limits)

    def changes_outside(self):
        """Another program writes the document for a while: nothing is lost, and nothing is written over."""
        with open(self.path, "rb") as file:
            before = file.read()
        other = random.choice([b"<letter/>", before + b"\n", b"", b"\xff\x00"])
        with open(self.path, "wb") as file:
            file.write(other)
        for _ in range(3):
            random.choice([self.move, self.type, self.undo, self.save, self.kill_session])()
            self.check()
        with open(self.path, "rb") as file:
            same(file.read(), other, "what another program wrote")
        with open(self.path, "wb") as file:
            file.write(before)

    def kill_session(self):
        """`pvtag` dies, between two asks or in the middle of one."""
        process = self.editor.session.process
        if random.random() < 0.5:
            os.kill(process.pid, signal.SIGKILL)
            return self.ask("state", {"since": self.copy.version})
        timer = threading.Timer(random.random() / 20, lambda: process.poll() is None and process.kill())
        timer.start()
        random.choice([self.move, self.type, self.back, self.save, self.take, self.everywhere])()
        timer.join()
        return None

    def kill_server(self):
        """The server dies, its script perhaps in the middle of a line; it begins anew."""
        made, source = len(self.editor.made), self.shown()
        is_killed = random.random() < 0.7
        self.end(is_killed)
        self.begin()
        same((len(self.editor.made), self.shown()), (made, source), "the next start")

    def comment(self):
        """A comment at an element, or in place of one."""
        text = random.choice(["to check", "", "a\nb", "x -", "a--b", "\x01", "\ud800", "\\n"])
        self.ask(random.choice(["comment", "comment", "comments"]), {"node": self.node((ELEMENT, "misc")), "text": text})

    def undo(self):
        self.ask("undo")

    def redo(self):
        self.ask("redo")

    def again(self):
        """The document is changed by another program while nobody has it, and the moves are made again on it."""
        self.end()
        with open(self.path, "rb") as file:
            before = file.read().decode()
        at = random.randrange(len(before) + 1)
        other = before[:at] + random.choice(["x", "", "yz "]) + before[at + random.randint(0, 2):]
        with open(self.path, "w", encoding="utf-8", newline="") as file:
            file.write(other)
        try:
            self.begin()
        except Changed:
            with contextlib.suppress(Exception):
                self.begin(again=True)
        except Exception:
            pass
        if self.work is None:
            # What isn't a document of this DTD any more can't be opened; the script is as it was.
            with open(self.path, "w", encoding="utf-8", newline="") as file:
                file.write(before)
            self.begin()

    def shown(self):
        """The bytes to be saved; a session that was killed is begun again."""
        try:
            return self.editor.whole_source()
        except Ended:
            self.editor.begin_again()
            return self.editor.whole_source()

    # What holds after each.
    def check(self):
        editor = self.editor
        self.shown()
        source = editor.session.show()
        same((editor.ahead, editor.is_whole), (0, True), "nothing is played ahead")
        same(editor.given(), source, "the tree's document, without the attributes that were given")
        saved = editor.shown()
        if not editor.document.given:
            same(saved, source, "the bytes to be saved")
        self.copy.take(self.told("state", {"since": self.copy.version}))
        fresh, anew = Copy(), Copy()
        fresh.take(self.told("state", {}))
        same(self.copy.outline(), fresh.outline(), "the copy, by what it was told")
        told = Document(saved).told()
        anew.take({"tree": told, "version": 0})
        # A comment that was put before the root stands in the prolog, which is no part of a tree.
        rows = self.copy.outline()
        ahead = [row[2] for row in rows if row[:2] == (1, "misc")]
        same([row for row in rows if row[:2] != (1, "misc")], anew.outline(), "the copy's text is that of the bytes to be saved")
        same([text for text in ahead if text.encode(errors="surrogatepass") not in saved], [], "a comment before the root is saved")
        rows = editor.session.verdicts()
        same([row.verdict for row in rows], [node.verdict for node in editor.document.elements()], "the verdicts")

    def check_script(self):
        """The script, played by a session as it stands in its file, makes the document, its entities masked."""
        with open(self.script.path, "rb") as file:
            lines = file.read().decode().splitlines()
        with file_of(self.editor.masked.data) as path, Session([self.program], self.dtd, self.root, path) as session:
            for line in lines:
                session.ask(line)
            same(session.show(), self.editor.session.show(), "the script, played by itself")

    def step(self):
        random.choices(*zip((self.move, 30), (self.type, 20), (self.undo, 8), (self.redo, 6), (self.attributes, 6), (self.everywhere, 4), (self.take, 5),
                            (self.offer, 6), (self.back, 3), (self.save, 5), (self.save_beside, 2), (self.with_full_disk, 2), (self.changes_outside, 2),
                            (self.comment, 5), (self.found, 6), (self.look, 2), (self.kill_session, 3), (self.kill_server, 2), (self.again, 1)))[0]()
        self.check()
        if random.random() < 0.05:
            self.check_script()


def main():
    program, seconds = os.path.abspath(sys.argv[1]), float((sys.argv[3:] or ["60"])[0])
    seed = int(sys.argv[2])
    end, most = time.monotonic() + seconds, ASKS if not sys.argv[3:] else 1 << 40
    passed = failed = 0
    counts = Counter()
    # What a request of nonsense prints is no difference.
    sys.stderr = open(os.devnull, "w", encoding="utf-8")
    while passed < most and time.monotonic() < end and failed < 5:
        random.seed(seed)
        with tempfile.TemporaryDirectory() as folder:
            walk = Walk(program, folder, *random.choice(SOURCES))
            steps = 0
            try:
                while steps < 150 and passed < most and time.monotonic() < end:
                    walk.step()
                    steps += 1
            except Exception as fault:
                failed += 1
                import traceback
                print(f"seed {seed}, step {steps}: {fault if isinstance(fault, Fault) else traceback.format_exc()}"[:4000], flush=True)
            finally:
                passed = passed + sum(walk.counts.values())
                counts += walk.counts
                with contextlib.suppress(Exception):
                    walk.end()
        seed += 1
    if "COUNTS" in os.environ:
        for (name, what), count in sorted(counts.items()):
            print(f"{name} {what}: {count}")
    print(f"annotate's walk: {passed} passed, {failed} failed")
    return failed > 0


if __name__ == "__main__":
    sys.exit(main())
