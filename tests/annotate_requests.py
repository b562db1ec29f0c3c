"""Tries the server of `clients/annotate` by requests: whom it answers, that it loses nothing, and when it ends.

Words: PROGRAM, and names of cases, all where there are none. Prints each difference, and how many cases passed; ends with 1 where one failed.
"""
import functools
import json
import os
import shutil
import signal
import socket
import subprocess
import sys
import time

sys.dont_write_bytecode = True

from lib.annotate.fixture import DRAFT, FOLDER, LETTER, Server, fault_of, need, run_cases, same, soon  # noqa: E402
from lib.waiting import PATIENCE  # noqa: E402


def refuses_others(program):
    with Server(program, DRAFT) as server:
        page, origin = f"/{server.token}/", f"http://127.0.0.1:{server.port}"
        same(server.request("GET", page)[0], 200, "the page")
        same(server.request("GET", page + "draw.js")[0], 200, "its script")
        for path in ("/", "/favicon.ico", "/draw.js", "/x/", "/" + server.token[:-1] + "/", "/" + server.token + "x/"):
            same(server.request("GET", path)[0], 403, f"without the token: {path}")
        for name in ("../annotate", "%2e%2e/annotate", "..%2fannotate", "/etc/passwd", "page.css/..", "./page.css", "page.css?x", "state", "\\..\\annotate", "x\0"):
            status, text = server.request("GET", page + name.replace("\0", "%00"))
            need(status in (403, 404) and b"import" not in text, f"a path outside: {name}")
        for host in (None, "localhost", "evil.example", f"evil.example:{server.port}", "127.0.0.1", f"127.0.0.1:{server.port}.evil.example"):
            same(server.request("GET", page, Host=host)[0], 403, f"host {host}")
        same(server.request("GET", page, Host=f"localhost:{server.port}")[0], 200, "localhost")
        for other in ("http://evil.example", "null", f"http://127.0.0.1:{int(server.port) - 1}", f"https://127.0.0.1:{server.port}", None):
            server.ask("state", status=403, Origin=other)
            same(server.request("GET", page, Origin=other or "null")[0], 403, f"origin {other}")
        server.ask("state", status=403, Sec_Fetch_Site="cross-site")
        server.ask("state", status=403, Content_Type="text/plain")
        server.ask("nothing", status=404)
        server.ask("state", status=413, Content_Length="99999999999")
        server.ask("state", status=413, Content_Length="-1")
        same(server.request("POST", page + "state", b"{", Origin=origin, Content_Type="application/json")[0], 400, "no JSON")
        same(server.request("PUT", page + "state", b"{}", Origin=origin)[0], 501, "another method")
        server.ask("state")
        for name, value in {"Content-Security-Policy": "default-src 'none'; ", "X-Content-Type-Options": "nosniff", "Cache-Control": "no-store",
                            "Referrer-Policy": "same-origin"}.items():
            need(server.headers[name].startswith(value), f"{name}: {server.headers[name]}")
        same(server.stop(), (0, ""), "Ctrl-C")
        same(server.files(), ["doc.xml"], "a document that wasn't changed leaves no files")


def refuses_nonsense(program):
    """A request of another form than the page's is refused, and the session goes on."""
    with Server(program, DRAFT) as server:
        version = server.ask("state")["version"]
        for what in ([], "x", {}, {"node": "x"}, {"place": 5}, {"list": 2, "from": [3], "to": None}, {"list": 2, "from": [3, "x"], "to": [3, 4]}):
            status, _ = server.request("POST", f"/{server.token}/offer", json.dumps(what).encode(), Origin=f"http://127.0.0.1:{server.port}",
                                       Content_Type="application/json")
            need(status in (200, 400), f"{what}: {status}")
        for name in ("p\nquit", "p\r", 5, None):
            move = {"version": version, "kind": "rename", "node": 1, "name": name}
            same(server.ask("move", move), {"stale": True}, f"the name {name!r}")
        same(server.ask("state")["version"], version, "nothing has changed")
        server.process.send_signal(signal.SIGTERM)
        same(server.wait()[0], 0, "it ends")


def makes_documents(program):
    """Of a plain text; one that can't be opened is taken away again."""
    with Server(program, None) as server:
        server.write("\ufeffAt <Leiden> & Delft\r\n", "plain.txt")
        server.start("--from", server.path("plain.txt"))
        declaration = '<?xml version="1.0" encoding="UTF-8"?>\n'
        same(server.text(), declaration + "<letter>At &lt;Leiden&gt; &amp; Delft\n</letter>\n", "the document")
        same(server.stop(), (0, ""), "Ctrl-C")
        for text in ("\x01", "x"):
            server.write(text, "plain.txt")
            ran = subprocess.run([*server.words, "--from", server.path("plain.txt")], capture_output=True, text=True)
            need(ran.returncode == 1 and ran.stderr.startswith("annotate: "), f"{ran.stderr!r}")
            same(server.files(), ["doc.xml", "plain.txt"], "a document that is there stays")
        os.unlink(server.doc)
        server.write("\x01", "plain.txt")
        ran = subprocess.run([*server.words, "--from", server.path("plain.txt")], capture_output=True, text=True)
        need(ran.returncode == 1 and ran.stderr.endswith("doc.xml:2:9: this is no character of XML, or isn't UTF-8\n"), f"{ran.stderr!r}")
        same(server.files(), ["plain.txt"], "a document that can't be opened")
        names_its_dtd(program, server, declaration)


def names_its_dtd(program, server, declaration):
    """A document that is made names its DTD, where that lies beside it, and is valid by what it names."""
    with open(LETTER, encoding="utf-8") as file:
        dtd = file.read()
    server.write("Dear brother", "plain.txt")
    for name in ("in/down", "in/a b", "in/a[1]", "own"):
        os.makedirs(server.path(name))
    for place, want in (("in/letter.dtd", "letter.dtd"), ("in/down/letter.dtd", "down/letter.dtd"), ("letter.dtd", "../letter.dtd"), ("own/letter.dtd", "../own/letter.dtd"),
                        ("in/a b/letter.dtd", None), ("in/a[1]/letter.dtd", None), ("in/a:b--.dtd", "./a:b--.dtd"), ("../letter.dtd", None)):
        path, doc = (LETTER if place.startswith("..") else server.path(place)), server.path("in/new.xml")
        if not place.startswith(".."):
            server.write(dtd, place)
        server.words[2], server.words[4] = path, doc
        server.start("--from", server.path("plain.txt"))
        same(server.text("in/new.xml"), declaration + (f'<!DOCTYPE letter SYSTEM "{want}">\n' if want else "") + "<letter>Dear brother</letter>\n", f"a DTD at {place}")
        tags_all(server)
        same(server.stop(), (0, ""), "Ctrl-C")
        report = os.path.join(os.path.dirname(FOLDER), "report")
        ran = subprocess.run([sys.executable, report, "--by-doctype", "--program", program, doc], capture_output=True, text=True)
        same(json.loads(ran.stdout.splitlines()[-1])["verdict"], "valid" if want else "no-dtd", f"what `report` says: {ran.stdout}")
        if want and shutil.which("xmllint"):
            ran = subprocess.run(["xmllint", "--noout", "--valid", doc], capture_output=True, text=True)
            same((ran.returncode, ran.stderr), (0, ""), "what xmllint says")
        for name in ("new.xml", "new.xml.pvtag", "new.xml.pvtag.base"):
            os.unlink(server.path(f"in/{name}"))


def tags_all(server):
    """Takes over what is missing, and saves."""
    server.ask("preview")
    version = server.ask("take", {"version": server.ask("state")["version"]})["version"]
    server.ask("save", {"version": version})


def says_what_is_wrong(program):
    """A file that can't be used is named, with the place of its fault, before anything is made."""
    with Server(program, DRAFT) as server:
        def said(*words):
            ran = subprocess.run([*server.words[:2], "--program", program, *words], capture_output=True, text=True, timeout=PATIENCE)
            same((ran.returncode, ran.stdout), (1, ""), f"{words}")
            return ran.stderr.removeprefix("annotate: ").replace(server.folder + "/", "").strip()

        server.stop()
        with open(server.path("latin.txt"), "wb") as file:
            file.write(b"Leiden\nCaf\xe9\n")
        with open(server.path("latin.xml"), "wb") as file:
            file.write(b"<letter>\nCaf\xe9</letter>")
        server.write("<!ELEMENT a (b", "bad.dtd")
        new, latin, doc = server.path("new.xml"), server.path("latin.xml"), server.doc
        need(said(LETTER, "letter", new, "--from", server.path("latin.txt")).startswith("latin.txt isn't UTF-8: the byte 0xe9 in line 2"), "a text")
        need(said(LETTER, "letter", latin).startswith("latin.xml:2:4: "), "a document")
        need(said(server.path("bad.dtd"), "a", doc).startswith("bad.dtd:1:1: "), "a DTD")
        need(said(server.path("no.dtd"), "letter", doc).startswith("no.dtd: "), "a DTD that isn't there")
        need(said(LETTER, "letter", new).startswith("there is no file new.xml; --from"), "a document that isn't there")
        need("leave out --from to go on" in said(LETTER, "letter", doc, "--from", server.path("latin.txt")), "a document that is there")
        need("declares no element lettre; it declares letter, opener," in said(LETTER, "lettre", doc), "a root that isn't declared")
        need("can't be run" in said(LETTER, "letter", doc, "--program", "/nowhere/pvtag"), "a program that isn't there")
        same(said(LETTER, "letter", server.path("no/new.xml"), "--from", LETTER), "no/new.xml: No such file or directory", "a folder that isn't there")
        same(said(LETTER, "letter", server.folder, "--again"), f"{server.folder} is a folder, and --from and --again are about one document", "a folder")
        server.write("a\x01b", "odd.txt")
        need(said(LETTER, "letter", new, "--from", server.path("odd.txt")).startswith("no document can be made of odd.txt: "), "a character")
        os.unlink(server.path("odd.txt"))
        with socket.create_server(("127.0.0.1", 0)) as taken:
            port = taken.getsockname()[1]
            need(f"the port {port} of 127.0.0.1: " in said(LETTER, "letter", doc, "--port", str(port)), "a port that is taken")
        same(server.files(), ["bad.dtd", "doc.xml", "latin.txt", "latin.xml"], "nothing was made")


def ends_while_it_opens(program):
    """Ctrl-C before the address is there ends it without a word, and leaves nothing that it made."""
    with Server(program, DRAFT) as server:
        server.stop()
        server.write("Dear brother", "plain.txt")
        server.write(f'#!/bin/sh\n[ "$1" = "$STOPS_AT" ] && exec sleep 60\nexec {program} "$@"\n', "slow")
        os.chmod(server.path("slow"), 0o755)
        before, new = server.files(), server.path("new.xml")
        for stops_at, waits_for in (("dtd", ""), ("session", "new.xml.pvtag")):
            words = [*server.words[:2], LETTER, "letter", new, "--from", server.path("plain.txt"), "--program", server.path("slow")]
            ran = subprocess.Popen(words, stdout=subprocess.PIPE, stderr=subprocess.PIPE, text=True, env={**os.environ, "STOPS_AT": stops_at})
            soon(lambda: waits_for in server.files() if waits_for else children_of(ran.pid) != "", True, "it waits for the program")
            time.sleep(0.2)
            ran.send_signal(signal.SIGINT)
            out, faults = ran.communicate(timeout=PATIENCE)
            same((ran.returncode, out, faults), (130, "", ""), f"where the program is at `{stops_at}`")
            same(server.files(), before, "nothing was made")


def children_of(number):
    with open(f"/proc/{number}/task/{number}/children", encoding="ascii") as file:
        return file.read().strip()


def makes_moves_again(program):
    """Where another program has changed the document, the moves are made again on it as far as they go."""
    with Server(program, DRAFT) as server:
        def move(kind, words, name):
            state = server.ask("state")
            text = next(row for row in state["tree"] if words in row.get("text", ""))
            at = text["text"].index(words)
            owner = next(row for row in reversed(state["tree"][:state["tree"].index(text)]) if row["depth"] == text["depth"] - 1)
            place = {"list": owner["id"], "from": [text["id"], at], "to": [text["id"], at + len(words)]}
            return server.ask("move", {"version": state["version"], "kind": kind, "place": place, "name": name})

        for words, name in (("Dear brother,", "salute"), ("Mr Adams", "person"), ("Delft", "place")):
            need("changes" in move("wrap", words, name), f"{name} round {words}")
        server.stop()
        server.write(DRAFT.replace("in Delft", "at Delft, too"))
        ran = subprocess.run(server.words, capture_output=True, text=True, timeout=PATIENCE)
        need(ran.returncode == 1 and "--again" in ran.stderr, f"it doesn't begin, and says how: {ran.stderr}")
        server.start("--again")
        note = server.ask("hello", {"window": "1"})["note"]
        need("3 of 3 moves were made again" in note, note)
        need("place" in [row.get("name") for row in server.ask("state")["tree"]], "they are there")
        server.stop()
        server.write(DRAFT.replace("Mr Adams", "Mr Adamo"))
        server.start("--again")
        note = server.ask("hello", {"window": "1"})["note"]
        need("2 of 3 moves were made again" in note and "Not made: ⟨person⟩ round “Mr Adams”" in note, f"but for the one whose end was changed: {note}")
        same(server.files(), ["doc.xml", "doc.xml.pvtag", "doc.xml.pvtag.base", "doc.xml.pvtag.old"], "the script before is kept")
        server.stop()
        server.write("<letter>")
        before = server.text("doc.xml.pvtag")
        ran = subprocess.run([*server.words, "--again"], capture_output=True, text=True, timeout=PATIENCE)
        need(ran.returncode == 1 and ran.stderr.startswith("annotate: doc.xml:1:9: ".replace("doc.xml", server.doc)), f"what is no document: {ran.stderr}")
        same((server.text("doc.xml.pvtag"), server.files()), (before, ["doc.xml", "doc.xml.pvtag", "doc.xml.pvtag.base", "doc.xml.pvtag.old"]),
             "the script stays where it was")


def loses_nothing(program):
    """The server is killed in mid-session; then its session is."""
    with Server(program, DRAFT) as server:
        def rename(name):
            return server.ask("move", {"version": server.ask("state")["version"], "kind": "rename", "node": node("salute", "p"), "name": name})

        def node(*names):
            return next(row["id"] for row in server.ask("state")["tree"] if row.get("name") in names)

        rows = server.ask("state")["tree"]
        text = next(row for row in rows if row.get("text") == "Dear brother,")
        place = {"list": node("opener"), "from": [text["id"], 0], "to": [text["id"], 13]}
        need("changes" in server.ask("move", {"version": 1, "kind": "wrap", "place": place, "name": "salute"}), "a wrap")
        same(server.stop(signal.SIGKILL)[0], -signal.SIGKILL, "a kill")
        server.start()
        need("salute" in [row.get("name") for row in server.ask("state")["tree"]], "it is there at the next start")
        with open(f"/proc/{server.process.pid}/task/{server.process.pid}/children", encoding="ascii") as file:
            for process in file.read().split():
                os.kill(int(process), signal.SIGKILL)
        soon(lambda: server.ask("need"), lambda answer: "it was begun again" in answer.get("again", ""), "a session that was killed is begun again, and told")
        need("salute" in [row.get("name") for row in server.ask("state")["tree"]], "and begun again")
        server.ask("undo", {"version": server.ask("state")["version"]})
        need("salute" not in [row.get("name") for row in server.ask("state")["tree"]], "with its moves")
        same(server.stop()[0], 0, "Ctrl-C")


def ends_behind_the_last_window(program):
    """It ends in a while after the last window, and in no while after another, or one that is loaded again."""
    stay = 1
    while not stays_for_windows(program, stay):
        # A machine so busy that a window can't be loaded again in time.
        stay *= 2
        need(stay < PATIENCE, "a window isn't loaded again in time")


def stays_for_windows(program, stay):
    """The same with so many seconds for a window to come back; whether one came back in time."""
    with Server(program, None) as server:
        server.write(DRAFT)
        server.start("--stay", str(stay))
        server.ask("hello", {"window": "1"})
        server.ask("hello", {"window": "2"})
        server.ask("bye", {"window": "1"})
        time.sleep(2 * stay)
        need(server.process.poll() is None, "a window is open still")
        left = time.monotonic()
        server.ask("bye", {"window": "2"})
        # Where the machine is too busy, the server may have ended by now.
        loaded = fault_of(lambda: server.ask("hello", {"window": "2"}))
        if time.monotonic() - left > stay / 2:
            return False
        need(loaded is None, f"a window that was loaded again: {loaded}")
        time.sleep(2 * stay)
        need(server.process.poll() is None, "it is open still")
        server.ask("bye", {"window": "2"})
        same(server.wait()[0], 0, "the last window was closed")
        return True


CASES = [refuses_others, refuses_nonsense, makes_documents, says_what_is_wrong, ends_while_it_opens, makes_moves_again, loses_nothing, ends_behind_the_last_window]


def main():
    program = os.path.abspath(sys.argv[1])
    # A shell's command in the background ignores it, and so would what is begun here.
    signal.signal(signal.SIGINT, signal.default_int_handler)
    wanted = [case for case in CASES if not sys.argv[2:] or case.__name__ in sys.argv[2:]]
    return run_cases("annotate's requests", [functools.update_wrapper(functools.partial(case, program), case) for case in wanted])


if __name__ == "__main__":
    sys.exit(main())
