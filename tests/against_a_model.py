"""Compares `session` with a model of a session, on random small DTDs, documents and scripts.

Words: PROGRAM LINES SEED. Scripts are played until so many lines have been answered. The model keeps a tree, makes each edit on a copy of
it, and undoes by making the edits before again on the document that was opened. It accepts an edit where no more lists are impossible than
before, which it decides list by list, over all spans of a list. It also tries all insertions of at most `MOST` elements
(lib/search.py): where some make the document valid, no list may be impossible. The least number of insertions is the reply to
`need`, which isn't asked where they are more than `MOST` and the document can be made valid. The moves of each script are made once more,
and `need` asked after each: after some of them, and at first, it is compared with that of a fresh session on the same document. Documents
are opened whatever their verdicts are. Prints each difference, and how many lines passed; ends with 1 where one failed.
"""
import os
import random
import re
import subprocess
import sys
import tempfile

sys.dont_write_bytecode = True

from lib.editing import BIG, EDITS, MOST, Session, document_of
from lib.grammar import declaration
from lib.search import NAMES, dotted, grammar, write
from lib.trees import Element, Grammar, is_text

# The lines that move a session, and at how many places a fresh session is asked what one that has moved was asked.
MOVES = {*EDITS, "undo", "redo"}
AFRESH = 3
TEXTS = ["x", "Hi &amp; bye", " ", "]", "]]", ">", "]]>", "&#32;", "&#10;", "é", "a\tb", "", "a<b", "&nbsp;", "&", "\x01", "a\rb", " y "]


def places_of(doc):
    """All paths of a document, and how many kids or units stand there."""
    found = [((), 1)]
    todo = [((0,), doc.root)]
    while todo:
        path, node = todo.pop()
        found.append((path, len(node.kids) if isinstance(node, Element) else len(node)))
        if isinstance(node, Element):
            todo.extend((path + (at,), kid) for at, kid in enumerate(node.kids))
    return found


def random_word(form, size, path):
    if form == "p":
        if random.random() < 0.03:
            path = random.choice([path + (0,), path[:-1] + (7,), (1,), (BIG,)])
        return dotted(path)
    if form == "n":
        return str(random.choice([random.randint(0, size)] * 12 + [size + 1, BIG]))
    return random.choice(NAMES * 12 + ["z", "1x", "", "a b", "é"])


def suits(name, node):
    if name == "join":
        return False
    return is_text(node) if name in ("split", "text", "deltext") else isinstance(node, Element)


def joins(places, doc):
    """The paths of texts with a text after them."""
    texts = {path for path, _ in places if path and is_text(doc.node_at(path))}
    return [path for path in texts if path[:-1] + (path[-1] + 1,) in texts]


def is_near(path, near):
    """Whether the path is of the last edit's list, of one of its kids, or of what it stands in."""
    return path == near[:len(path)] or path[:-1] == near


def place_for(doc, near=None):
    """The name of an edit, and a path for it, mostly one that suits. In a run of edits of one list it is near that list, or above it."""
    places = places_of(doc)
    if near is not None:
        places = [(path, size) for path, size in places if is_near(path, near)]
    while True:
        name = random.choice(["wrap"] * 7 + ["insert"] * 3 + ["unwrap"] * 3 + ["rename"] * 2 + ["split", "join", "text", "deltext"] + ["addtext"] * 3)
        if random.random() < 0.08:
            return name, *random.choice(places)
        good = [(path, size) for path, size in places if path and suits(name, doc.node_at(path))]
        good += [(path, 0) for path in joins(places, doc)] if name == "join" else []
        if near is not None and not good:
            return place_for(doc)
        if good:
            return name, *random.choice(good)


def edit_line(doc, near=None):
    name, path, size = place_for(doc, near)
    words = [random_word(form, size, path) for form in EDITS[name][1]]
    if name == "wrap" and random.random() < 0.9 and path:
        start = random.randint(0, size)
        words[1:3] = [str(start), str(random.randint(start, min(size, start + 3)))]
    if name in ("text", "addtext"):
        words[-1] = random.choice(TEXTS if random.random() < 0.5 else ["x", "]", "]]", ">"])
    return " ".join([name, *words])


def broken(line):
    """The line changed in one place."""
    at = random.randint(0, len(line))
    return random.choice([
        line[:at] + " " + line[at:], line.replace(" ", "", 1), line.replace(" ", "  ", 1), " " + line, line + " ", line[:at], line.upper(),
        line.replace(" ", " 0", 1), line.replace("0", "00", 1), line.replace("0", "4294967296", 1), line.replace("0", "4294967295", 1),
        line.replace(".", "..", 1), line.replace("0", ".", 1), line.replace("0", "+0", 1), line + "\r", line.replace(" ", "\t", 1),
        "\r" + line])


def offer_line(doc):
    """A question of a wrap or a rename."""
    while True:
        name, _, rest = edit_line(doc).partition(" ")
        if name in ("wrap", "rename"):
            return "offer " + rest.rsplit(" ", 1)[0]


def script_line(doc, near=None):
    chance = random.random()
    if chance < 0.08:
        return "undo"
    if chance < 0.13:
        return "redo"
    if chance < 0.17:
        return "history"
    if chance < 0.25:
        return "show"
    if chance < 0.33:
        return "verdicts"
    if chance < 0.39:
        return "need"
    if chance < 0.40:
        return random.choice(["", "verdict", "need 1", "Show", "show\r\r", "history ", "undo 1", "wrap", "nothing", "quit ", "offer", "offer "])
    line = offer_line(doc) if chance < 0.48 else edit_line(doc, near)
    return broken(line) if random.random() < 0.08 else line


def play(session, length):
    """A script of so many lines, the replies to it, and the document after each line. In some scripts `need` is asked after each move, so
    that the program is asked it of a session that has moved. In some the edits stay with one list for a while: in it, in what it stands in,
    and back."""
    script, replies, documents, asks = [], [], [], random.random() < 0.3
    stays, near = random.random() < 0.5, None
    for _ in range(length):
        moved = replies and replies[-1].startswith("ok")
        if stays and (near is None or random.random() < 0.1):
            near = random.choice([path for path, _ in places_of(session.document)])
        line = "need" if asks and moved else script_line(session.document, near)
        if line == "need" and not session.impossible(session.document) and session.least() > MOST:
            line = "show"
        script.append(line)
        reply = session.reply(line)
        if reply is None:
            break
        replies.append(reply)
        documents.append(session.document)
    return script, replies, documents


def expected(session, length):
    """A script, the bytes that the program must write, the documents after its lines, and its status."""
    script, replies, documents = play(session, length)
    if random.random() < 0.1:
        script += ["quit", "show"]
    return script, replies, documents, 0


def run(program, root, script, last_feed, document="d.xml"):
    text = "\n".join(script) + ("\n" if last_feed else "")
    ran = subprocess.run([program, "session", "a.dtd", root, document], input=text.encode(), capture_output=True)
    return ran.returncode, ran.stdout


def without_path(reply):
    """A reply to `need` without the path in it: texts side by side are one where the document is read, so that those after have other paths."""
    return reply.rpartition(b" ")[0] if reply.startswith(b"no ") else reply


def needs_afresh(program, root, opened, script, documents):
    """What a session replies to `need` at first and after each move, and what is replied to it by sessions that are begun on some of the
    documents as they are then: the pairs."""
    moves = [(line, document) for line, document in zip(script, documents) if line.rstrip("\r").partition(" ")[0] in MOVES]
    asked = ["need"] + [each for line, _ in moves for each in (line, "need")]
    told = run(program, root, asked, True)[1].split(b"\n")[:-1:2]
    then = [opened] + [document for _, document in moves]
    for at in random.sample(range(len(then)), min(AFRESH, len(then))):
        write("n.xml", then[at].written())
        yield told[at], run(program, root, ["need"], True, "n.xml")[1].rstrip(b"\n")


def first_difference(script, replies, got):
    at = 0
    for line, reply in zip(script, replies):
        whole = reply.encode()
        if got[at:at + len(whole)] != whole:
            return f"line {line!r}: want {reply!r}, got {got[at:at + 200]!r}"
        at += len(whole)
    return f"behind the last line: got {got[at:at + 200]!r}"


def game(program, counts):
    """One document and one script for it."""
    declared, models = grammar()
    write("a.dtd", "".join(declaration(x, models[x]) for x in declared))
    search = Grammar(models)
    for _ in range(4):
        document, named = document_of(models, declared)
        write("d.xml", document.written())
        root = named or random.choice([document.root.name] * 8 + declared)
        session = Session(search, root, document)
        script, replies, documents, status = expected(session, random.randint(20, 60))
        last_feed = script[-1] == "" or random.random() < 0.8
        got = run(program, root, script, last_feed)
        if got == (status, "".join(replies).encode()):
            count(counts, replies)
            wrong = [pair for pair in needs_afresh(program, root, document, script, documents) if without_path(pair[0]) != without_path(pair[1])]
            if not wrong:
                continue
            print(f"need: {wrong[0][0]} in the session, {wrong[0][1]} in a fresh one; root {root}")
        else:
            print(f"status {got[0]} for {status}; {first_difference(script, replies, got[1])}; root {root}")
        counts["failed"] += 1
        print(open("a.dtd").read() + open("d.xml").read() + "\n" + "\n".join(map(repr, script)))


def count(counts, replies):
    for reply in replies:
        kind = reply.split("\n")[0]
        kind = re.sub(r"[ 0-9.]*$", "", kind)
        counts["passed"] += 1
        counts["kinds"][kind] = counts["kinds"].get(kind, 0) + 1


def main():
    program, lines, seed = os.path.abspath(sys.argv[1]), int(sys.argv[2]), int(sys.argv[3])
    random.seed(seed)
    counts = {"passed": 0, "failed": 0, "kinds": {}}
    with tempfile.TemporaryDirectory() as folder:
        os.chdir(folder)
        while counts["passed"] < lines and counts["failed"] < 20:
            game(program, counts)
        os.chdir("/")
    print(", ".join(f"{kind} {number}" for kind, number in sorted(counts["kinds"].items())))
    print(f"against a model: {counts['passed']} passed, {counts['failed']} failed")
    sys.exit(1 if counts["failed"] else 0)


if __name__ == "__main__":
    main()
