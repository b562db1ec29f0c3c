"""Tries how `clients/lsp` keeps to the protocol, by a scripted client: its life, bad messages and requests, where DTDs
are found.

Words: PROGRAM, and the names of cases where not all are wanted. Prints each difference, and how many cases passed;
ends with 1 where one failed.
"""
import contextlib
import ctypes
import os
import random
import re
import shutil
import sys
import tempfile
import time
import types
from concurrent.futures import Future

sys.dont_write_bytecode = True
sys.path.insert(0, os.path.join(os.path.dirname(os.path.dirname(os.path.abspath(__file__))), "clients"))

from lib.lsp_client import (  # noqa: E402
    CAPABILITIES,
    DRAFT,
    EXAMPLES,
    LETTER,
    TOP,
    URI,
    Client,
    edits_of,
    finished,
    need,
    position,
    run_cases,
    same,
    uri_of,
    utf16,
)
from lib.waiting import PATIENCE, until  # noqa: E402

OUTLINE = {"textDocument": {"uri": URI}}


# A DTD in modules.
ALL = '<!ENTITY % part SYSTEM "part.mod">\n%part;\n<!ELEMENT b EMPTY>'


def has_lxml():
    return any(
        not os.system(f"{python} -c 'import lxml' 2>/dev/null") for python in (sys.executable, "/usr/bin/python3")
    )


def has_libxml2():
    with contextlib.suppress(OSError):
        return bool(ctypes.CDLL("libxml2.so.2"))
    return False


# Where the DTD is.
def finds_dtds(program):
    folder = tempfile.mkdtemp()
    try:
        shutil.copy(os.path.join(EXAMPLES, "letter.dtd"), os.path.join(folder, "my letter.dtd"))
        with open(os.path.join(folder, "part.mod"), "w", encoding="utf-8") as file:
            file.write("<!ELEMENT a (b)>")
        with open(os.path.join(folder, "all.dtd"), "w", encoding="utf-8") as file:
            file.write(ALL)
        with open(os.path.join(folder, "alike.dtd"), "w", encoding="utf-8") as file:
            file.write(f"<!-- {ALL.splitlines()[0]} <![IGNORE[ -->\n<!ELEMENT a (b)><!ELEMENT b EMPTY>")
        body = "<letter><opener/></letter>"
        for text, options in (
            ("<!DOCTYPE letter SYSTEM 'my%20letter.dtd'>" + body, None),
            ("<!DOCTYPE letter SYSTEM 'my letter.dtd'>" + body, None),
            (f"<!DOCTYPE letter SYSTEM 'file://{folder}/my%20letter.dtd'>" + body, None),
            ("<?xml version='1.0'?>\n<?pvtag dtd='my letter.dtd' root=\"letter\"?>" + body, None),
            ("<?pvtag dtd='my letter.dtd'?>" + body, None),
            (body, {"dtd": os.path.join(EXAMPLES, "letter.dtd"), "root": "letter"}),
            (body, {"dtd": os.path.join(EXAMPLES, "letter.dtd")}),
            ("<?xml-model href='my letter.dtd'?>" + body, None),
            ("<?xml-model href='my%20letter.dtd' type='application/xml-dtd'?>" + body, None),
            (body, {"associations": [{"pattern": "*.xhtml", "dtd": "none.dtd"}, {"pattern": "d*.xml", "dtd": "my letter.dtd"}]}),
            # A document's own declaration comes first.
            ("<!DOCTYPE letter SYSTEM 'my letter.dtd'>" + body, {"associations": [{"pattern": "*", "dtd": "none.dtd"}]}),
            ("<letter/>", {"associations": [{"pattern": "**/d.xml", "dtd": "my letter.dtd", "root": "letter"}, 5]}),
            *([("<!DOCTYPE a SYSTEM 'all.dtd'><a/>", None)] if has_lxml() else []),
            # It has no modules.
            ("<!DOCTYPE a SYSTEM 'alike.dtd'><a/>", None),
        ):
            with Client(program, options=options) as client:
                uri = uri_of("d.xml", folder)
                client.open(uri, text)
                need(client.diagnostics(uri, finished), text)
        for opened in (folder, "/"):
            with Client(program, options={"dtd": "my letter.dtd"}, folder=opened) as client:
                client.open(uri, body)
                need(client.diagnostics(uri, finished), f"beside the document, where {opened} is open")
    finally:
        shutil.rmtree(folder)


def keeps_no_old_dtds(program):
    """A DTD in modules is made plain anew when one of them is saved, and the old one is let go."""
    if not has_lxml():
        return
    folder = tempfile.mkdtemp()
    try:
        for name, text in (("part.mod", "<!ELEMENT a (b)>"), ("all.dtd", ALL)):
            with open(os.path.join(folder, name), "w", encoding="utf-8") as file:
                file.write(text)
        with Client(program) as client:
            uri = uri_of("d.xml", folder)
            client.open(uri, "<!DOCTYPE a SYSTEM 'all.dtd'><a/>")
            client.diagnostics(uri, finished)
            for model, wanted, is_said in [("(b,b)", "2 elements", False), ("(b)", "1 element", True), ("(b,b,b)", "3 elements", True)] * 3:
                with open(os.path.join(folder, "part.mod"), "w", encoding="utf-8") as file:
                    file.write(f"<!ELEMENT a {model}>")
                if is_said:
                    client.tell("textDocument/didSave", {"textDocument": {"uri": uri_of("part.mod", folder)}})
                else:
                    # An editor needn't tell of files that it has open in another way: the next key is enough.
                    client.change(uri, len(client.documents[uri][0]), len(client.documents[uri][0]), " ")
                told = client.diagnostics(uri, lambda told: any(wanted in each["message"] for each in told))
                need(told, model)
                client.aside.clear()
            need(until(lambda: files_in_memory(client) == 1), f"{files_in_memory(client)} files in memory are open")
    finally:
        shutil.rmtree(folder)


def files_in_memory(client):
    """How many the server has open."""
    folder, links = f"/proc/{client.process.pid}/fd", []
    for name in os.listdir(folder):
        with contextlib.suppress(FileNotFoundError):
            links.append(os.readlink(os.path.join(folder, name)))
    return sum("memfd:" in link for link in links)


def builds_nothing(program):
    """Where the repository has no program yet, the editor is told so at once: no build is begun in its place."""
    folder = tempfile.mkdtemp()
    try:
        for name in ("clients", "tools"):
            shutil.copytree(os.path.join(TOP, name), os.path.join(folder, name))
        script = os.path.join(folder, "pvtag")
        with open(script, "w", encoding="utf-8") as file:
            file.write("#!/bin/sh\ntouch \"$0.begun\"\nexit 2\n")
        os.chmod(script, 0o755)
        server = os.path.join(folder, "clients", "lsp", "pvtag-lsp")
        with Client(None, server=server, environment={"PATH": "/usr/bin:/bin"}) as client:
            told = client.wait(lambda each: each.get("method") == "window/showMessage")
            need("isn't found" in told["params"]["message"] and script in told["params"]["message"], told)
        same(os.path.exists(f"{script}.begun"), False, "the script was run")
        os.mkdir(os.path.join(folder, "build"))
        os.symlink(program, os.path.join(folder, "build", "pvtag"))
        with Client(None, server=server, environment={"PATH": "/usr/bin:/bin"}) as client:
            client.open(URI, DRAFT)
            need(client.diagnostics(URI, finished), "what is built is used")
    finally:
        shutil.rmtree(folder)


def tells_once_what_is_not_found(program):
    with Client(program) as client:
        for text in ("<a/>", "<!DOCTYPE a SYSTEM 'nothing.dtd'><a/>", "<!DOCTYPE a SYSTEM 'letter.xml'><a/>"):
            client.open(URI, text)
            # That no DTD is named is no fault: it stands in the log.
            method = "window/logMessage" if text == "<a/>" else "window/showMessage"
            message = client.wait(lambda each: each.get("method") == method, "a message")
            need(message["params"]["message"].startswith("pvtag: "), message)
            same(client.diagnostics(URI), [], "no diagnostics")
            for count in range(3):
                client.change(URI, len(text) - 2, len(text) - 2, " ")
                client.diagnostics(URI)
                same(client.labels(URI, len(text)), [], "nothing is offered")
                same(client.ask("textDocument/hover", client.about(URI, len(text) - 2)), None, "nothing is shown")
            same([each for each in client.aside if each.get("method", "").startswith("window/")], [], "once")
            need(client.ask("textDocument/documentSymbol", OUTLINE), "the outline needs no DTD")
            same(
                len(edits_of(client.ask("textDocument/rename", client.about(URI, len(text) - 2, newName="b")))),
                1,
                "nor a new name",
            )
    with Client("/nowhere/pvtag") as client:
        client.open(URI, DRAFT)
        client.wait(lambda each: each.get("method") == "window/showMessage", "a message")


# Documents side by side.
SLOW = """#!/bin/sh
case "$*" in
*slow.dtd*) echo $$ >> "$0.pids"; exec sleep 600 ;;
esac
exec '%s' "$@"
"""


@contextlib.contextmanager
def stalling(program):
    """A folder with a DTD, and a program that never comes to an end with it."""
    with tempfile.TemporaryDirectory() as folder:
        script = os.path.join(folder, "slow")
        with open(script, "w", encoding="utf-8") as file:
            file.write(SLOW % program)
        os.chmod(script, 0o755)
        shutil.copy(os.path.join(EXAMPLES, "letter.dtd"), os.path.join(folder, "slow.dtd"))
        yield folder, script


def pids_of(script):
    with contextlib.suppress(FileNotFoundError), open(f"{script}.pids", encoding="utf-8") as file:
        return [int(line) for line in file.read().split()]
    return []


def is_running(pid):
    with contextlib.suppress(FileNotFoundError), open(f"/proc/{pid}/stat", encoding="utf-8") as file:
        return file.read().rpartition(")")[2].split()[0] != "Z"
    return False


def waits_for_no_other_document(program):
    """A DTD that is never read holds up the requests of its own documents alone, which can be cancelled, and none of those
    that it isn't needed for; it is read once for all of them."""
    with stalling(program) as (folder, script), Client(script) as client:
        numbers = []
        for name in ("a.xml", "b.xml"):
            client.open(uri_of(name, folder), DRAFT.replace("letter.dtd", "slow.dtd"))
            numbers += [client.begin("textDocument/hover", client.about(uri_of(name, folder), 60)) for _ in range(6)]
        client.open(URI, DRAFT)
        client.diagnostics(URI, finished)
        need(client.ask("textDocument/hover", client.about(URI, DRAFT.index("<opener>") + 1)), "a hover")
        about = {"textDocument": {"uri": uri_of("a.xml", folder)}}
        for method in ("documentSymbol", "foldingRange", "documentLink"):
            client.ask(f"textDocument/{method}", about)
        # One that waits after others is answered at once, and so are all when their document is closed.
        client.tell("$/cancelRequest", {"id": numbers[5]})
        same(client.answer(numbers.pop(5))["error"]["code"], -32800, "the last of a document's")
        client.tell("textDocument/didClose", about)
        same({client.answer(numbers.pop(0))["error"]["code"] for _ in range(5)}, {-32800}, "those of a closed document")
        for number in numbers:
            client.tell("$/cancelRequest", {"id": number})
        same({client.answer(number)["error"]["code"] for number in numbers}, {-32800}, "what waits is cancelled")
        same(len(pids_of(script)), 1, "runs for one DTD")


def waits_once_for_attributes(_):
    """Where libxml2 doesn't tell what a DTD declares of attributes, all names of a completion together wait a second."""
    from lsp.grammar import NOTHING, SOON, Grammar

    declared = types.SimpleNamespace(program=[], plain=types.SimpleNamespace(path=""), dtd=None, asking=None, read_attributes=Future)
    declared.attributes = types.SimpleNamespace(declares_any=True)
    grammar, begun = Grammar(declared, "a"), time.monotonic()
    same([grammar.new_element(f"n{number}") for number in range(300)], [NOTHING] * 300, "nothing is known")
    need(time.monotonic() < begun + 100 * SOON, "each name has waited")


def ends_all_runs(program):
    """At the end of the server, by `exit` or by a signal, nothing that it began goes on."""
    if shutil.which("setpriv") is None:
        print("skipped: runs that end with the server (no setpriv)")
        return
    for is_killed in (False, True):
        with stalling(program) as (folder, script), Client(script) as client:
            client.open(uri_of("a.xml", folder), DRAFT.replace("letter.dtd", "slow.dtd"))
            need(until(lambda: pids_of(script)), "the DTD is being read")
            if is_killed:
                client.process.kill()
            else:
                client.tell("exit", None)
            client.process.wait(PATIENCE)
            need(until(lambda: not any(map(is_running, pids_of(script)))), f"a run goes on; killed: {is_killed}")


def keeps_no_names_of_roots(program):
    """While the root's name is typed, its DTD is read once."""
    with tempfile.TemporaryDirectory() as folder:
        script = os.path.join(folder, "counting")
        with open(script, "w", encoding="utf-8") as file:
            file.write(f"#!/bin/sh\necho \"$1\" >> \"$0.log\"\nexec '{program}' \"$@\"\n")
        os.chmod(script, 0o755)
        with Client(script, options={"dtd": os.path.join(EXAMPLES, "letter.dtd")}) as client:
            client.open(URI, "<l/>")
            for letter in "etter":
                place = len(client.documents[URI][0]) - 2
                client.change(URI, place, place, letter)
                client.diagnostics(URI)
        with open(f"{script}.log", encoding="utf-8") as file:
            same(file.read().split().count("dtd"), 1, "runs of `dtd`")


def finds_dtds_by_catalogs(program):
    """An address that a catalog rewrites to a folder."""
    if not has_lxml():
        print("skipped: catalogs (no lxml, package python3-lxml)")
        return
    with tempfile.TemporaryDirectory() as folder:
        shutil.copy(os.path.join(EXAMPLES, "letter.dtd"), os.path.join(folder, "letter.dtd"))
        with open(os.path.join(folder, "catalog.xml"), "w", encoding="utf-8") as file:
            file.write(
                "<catalog xmlns='urn:oasis:names:tc:entity:xmlns:xml:catalog'>"
                f"<rewriteSystem systemIdStartString='http://example.org/dtds/' rewritePrefix='file://{folder}/'/></catalog>"
            )
        environment = os.environ | {"XML_CATALOG_FILES": os.path.join(folder, "catalog.xml")}
        with Client(program, environment=environment) as client:
            client.open(URI, text := DRAFT.replace("letter.dtd", "http://example.org/dtds/letter.dtd"))
            need(client.diagnostics(URI, finished), "rewritten")
            found = client.ask("textDocument/definition", client.about(URI, text.index("<opener>") + 1))
            if found is None and not has_libxml2():
                print("skipped: definitions by catalogs (no libxml2.so.2)")
            else:
                same((found["uri"], found["range"]["start"]["line"]), (uri_of("letter.dtd", folder), 1), "a definition by a catalog")


# The protocol.
def keeps_to_its_life(program):
    with Client(program, begins=False) as client:
        same(client.error("textDocument/hover", {}), -32002, "before the start")
        client.tell("textDocument/didOpen", {})
        client.ask("initialize", {"capabilities": {}})
        same(client.error("initialize", {"capabilities": {}}), -32600, "a second start")
        same(client.ask("shutdown", None), None, "shutdown")
        same(client.error("textDocument/hover", {}), -32600, "behind it")
        client.tell("exit", None)
        same(client.process.wait(PATIENCE), 0, "the status")
    for end in ("exit", None):
        with Client(program) as client:
            client.tell(end, None) if end else client.process.stdin.close()
            same(client.process.wait(PATIENCE), 1, "an end without shutdown")


def refuses_nonsense(program):
    with Client(program) as client:
        client.open(URI, DRAFT)
        same(client.error("textDocument/nothing", {}), -32601, "no such request")
        same(client.error("$/nothing", {}), -32601, "no such request")
        client.tell("$/nothing", {})
        client.tell("textDocument/nothing", [])
        for method in (
            "completion",
            "codeAction",
            "hover",
            "documentSymbol",
            "prepareRename",
            "rename",
            "linkedEditingRange",
            "definition",
            "references",
            "documentHighlight",
            "foldingRange",
            "selectionRange",
            "documentLink",
        ):
            for params in (
                None,
                [],
                5,
                {},
                {"textDocument": 5},
                {"textDocument": {"uri": 5}},
                {"textDocument": {"uri": uri_of("closed.xml")}},
            ):
                same(client.error(f"textDocument/{method}", params), -32602, f"{method} {params}")
            if method not in ("documentSymbol", "foldingRange", "documentLink"):
                for place in (
                    None,
                    5,
                    {},
                    {"line": -1, "character": 0},
                    {"line": 0.5, "character": 0},
                    {"line": True, "character": 0},
                    {"line": "0", "character": 0},
                    {"line": 10**30, "character": 0},
                ):
                    params = {
                        "textDocument": {"uri": URI},
                        "position": place,
                        "newName": "x",
                        "positions": [place],
                        "range": {"start": place, "end": place},
                    }
                    same(client.error(f"textDocument/{method}", params), -32602, f"{method} at {place}")
        span = {"start": {"line": 1, "character": 5}, "end": {"line": 0, "character": 5}}
        same(
            client.error("textDocument/codeAction", {"textDocument": {"uri": URI}, "range": span}),
            -32602,
            "a range from its end",
        )
        for action in (
            {},
            {"title": "x"},
            {"data": 5},
            {"data": {"uri": 5}},
            {"data": {"uri": uri_of("closed.xml"), "version": 1}},
        ):
            same(client.error("codeAction/resolve", action), -32602, f"an action {action}")
        for method, params in (
            ("didChange", {}),
            ("didChange", {"textDocument": {"uri": uri_of("closed.xml"), "version": 1}, "contentChanges": []}),
            ("didChange", {"textDocument": {"uri": URI}, "contentChanges": 5}),
            ("didOpen", {}),
            ("didOpen", {"textDocument": {"uri": "x"}}),
            ("didChange", {"textDocument": {"uri": URI}, "contentChanges": [{"text": 5}]}),
            ("didClose", {"textDocument": {"uri": "closed"}}),
        ):
            client.tell(f"textDocument/{method}", params)
            client.wait(lambda each: each.get("method") == "window/logMessage", f"a log of {method}")
        client.open("file://[x", "<a/>")
        told = client.wait(lambda each: each.get("method") == "window/logMessage", "a document of no address")
        need("no DTD is named" in told["params"]["message"], f"a document of no address: {told}")
        need(client.ask("textDocument/documentSymbol", OUTLINE), "it goes on")
        same(client.complaints, [], "nothing unforeseen")


def refuses_bad_messages(program):
    good = (
        b'{"jsonrpc":"2.0","id":"still","method":"textDocument/documentSymbol","params":{"textDocument":{"uri":"%s"}}}'
        % URI.encode()
    )
    bodies = (
        b"",
        b"{",
        b"[]",
        b"5",
        b"null",
        b"\xff",
        b'{"jsonrpc":"2.0"}',
        b'{"jsonrpc":"1.0","id":1,"method":"shutdown"}',
        b'{"id":1,"method":"shutdown"}',
        b'{"jsonrpc":"2.0","id":{},"method":"shutdown"}',
        b'{"jsonrpc":"2.0","id":null,"method":"shutdown"}',
        b'{"jsonrpc":"2.0","id":1.5,"method":"shutdown"}',
        b'{"jsonrpc":"2.0","id":1,"method":5}',
        b"[" * 100_000,
        b'{"a":' * 100_000,
        b"1" * 10_000,
        b"[" + good + b"]",
    )
    framed = [b"Content-Length: %d\r\n\r\n%b" % (len(body), body) for body in bodies]
    framed += [
        b"Content-Length: 99999999999999\r\n\r\n{}",
        b"Content-Length: 9" + b"9" * 100 + b"\r\n\r\n",
        b"Content-Length: -5\r\n\r\n{}",
        b"Content-Length: x\r\n\r\n",
        b"\r\n\r\n",
        b"nonsense\r\n\r\n",
        b"\0" * 10_000,
        b"X" * 10_000 + b"\r\n",
        b"Content-Type: x\r\n\r\n{}",
        b"Content-Length: 3\r\n\r\n{}{}\n",
        b"GET / HTTP/1.1\r\n\r\n",
    ]
    with Client(program) as client:
        client.open(URI, DRAFT)
        for bad in framed:
            client.raw(bad + b"\n" * (b"\0" in bad))
            client.raw(
                b"Content-Length: %d\r\nContent-Type: application/vscode-jsonrpc; charset=utf-8\r\n\r\n%b"
                % (len(good), good)
            )
            error = client.wait(lambda each: each.get("id", 0) is None, f"an error for {bad[:60]!r}")
            need(error["error"]["code"] in (-32700, -32600), error)
            need(client.answer("still")["result"], "it goes on")
        same(client.complaints, [], "nothing unforeseen")


def some_are_cancelled(client):
    numbers = []
    with client.at_once():
        for count in range(20):
            numbers.append(
                client.begin("textDocument/codeAction", client.about(URI, span=(60, 65), context={"diagnostics": []}))
            )
            if count % 2:
                client.tell("$/cancelRequest", {"id": numbers[-1]})
    answers = [client.answer(number) for number in reversed(numbers)]
    need(all("result" in each or each["error"]["code"] == -32800 for each in answers), answers)
    return any(each.get("error", {}).get("code") == -32800 for each in answers)


def cancels(program):
    """Each request has one answer, cancelled or not, and what comes out of order is no matter."""
    with Client(program) as client:
        client.open(URI, DRAFT)
        client.tell("$/cancelRequest", {"id": 999})
        client.tell("$/cancelRequest", {"id": {}})
        client.tell("$/cancelRequest", None)
        # An answer may be there before it is cancelled, so this is tried again.
        need(any(some_are_cancelled(client) for _ in range(10)), "none was cancelled")
        client.send({"jsonrpc": "2.0", "id": 5000, "result": None})
        client.tell("textDocument/didClose", {"textDocument": {"uri": URI}})
        same(client.error("textDocument/hover", client.about(URI, 0)), -32602, "a closed document")
        same(client.complaints, [], "nothing unforeseen")


def answers_whole(program):
    """A token for partial results is passed over: the answer is whole."""
    with Client(program) as client:
        client.open(URI, DRAFT)
        symbols = client.ask("textDocument/documentSymbol", OUTLINE | {"partialResultToken": "t", "workDoneToken": 5})
        same(len(symbols), 1, "the outline")
        same([each for each in client.aside if each.get("method") == "$/progress"], [], "nothing in part")


def writes_no_file(program):
    """Not in the documents' folder, nor where temporary files are."""
    folder = tempfile.mkdtemp()
    try:
        os.environ["TMPDIR"] = folder
        with Client(program) as client:
            for text in (DRAFT, LETTER + "<letter><body/><opener/></letter>", LETTER + "<letter", "<a/>"):
                client.open(URI, text)
                client.diagnostics(URI)
                client.actions(URI, (40, 50))
                client.labels(URI, 50)
        same(os.listdir(folder), [], "temporary files")
        same([name for name in os.listdir(EXAMPLES) if name.startswith("one")], [], "files beside the document")
    finally:
        del os.environ["TMPDIR"]
        os.rmdir(folder)


def withstands_hostile_texts(program):
    """Texts on which a careless reader's answers would never come."""
    with Client(program) as client:
        for front in ("<!--", "<?", "<![CDATA[", "<!DOCTYPE", "<a", '<a b="', "<a>", "</a>", "&", "<a><b></a>", "<p/>"):
            # Long lists cost the program time.
            size = 5_000 if front.endswith(("</a>", "/>")) else 200_000
            text = LETTER + "<letter>" + front * (size // len(front))
            client.open(URI, text)
            client.ask("textDocument/documentSymbol", OUTLINE)
            client.change(URI, len(text), len(text), "<")
            client.labels(URI, len(text) + 1)
            client.actions(URI, (len(text) - 10, len(text)))
        same(client.complaints, [], "nothing unforeseen")


# What random texts are made of: all line ends, characters of one to four bytes, tags that are whole and half typed.
PIECES = ["a", "\u00e9", "\u20ac", "\U0001f600", "\r", "\n", "\r\n", "\t", "\u2028", "<p>", "</p>", "<person>", "</person>", "<lb/>", "<", ">", "</", "&amp;", "&", "<!-- ",
          " -->", "<![CDATA[", "]]>", "<letter>", "<body>", "</body>", " x='1'", "\ud83d", "x" * 3000, "\U0001f600" * 1500]
ABOUT_ALL = ("textDocument/documentSymbol", "textDocument/foldingRange", "textDocument/documentLink")
ABOUT_PLACE = ("textDocument/documentHighlight", "textDocument/linkedEditingRange", "textDocument/hover", "textDocument/completion",
               "textDocument/references", "textDocument/prepareRename", "textDocument/definition")
CODES = (-32800, -32801, -32803)


def keeps_step(program):
    """Many edits at once, of any texts, with requests and cancellations between: each request has one answer, and the server's text is the
    editor's."""
    dice = random.Random(7)
    for encodings in ([], ["utf-8"]):
        width = (lambda part: len(encoded(part))) if encodings else utf16
        with Client(program, CAPABILITIES | {"general": {"positionEncodings": encodings}}) as client:
            for round_ in range(4):
                uri, text, version, numbers = uri_of(f"step-{round_}.xml"), DRAFT, 1, []
                client.open(uri, text)
                with client.at_once():
                    for _ in range(12):
                        changes = []
                        for _ in range(dice.randint(1, 4)):
                            start, end = sorted(between(text, dice.randint(0, len(text))) for _ in range(2))
                            end = end if dice.random() < 0.2 else between(text, min(end, start + dice.randint(0, 6)))
                            new = "".join(dice.choices(PIECES, k=dice.randint(0, 3)))
                            place = {"start": position(text, start, width), "end": position(text, end, width)}
                            changes.append({"range": place, "text": new})
                            text = text[:start] + re.sub("[\ud800-\udfff]", "\ufffd", new) + text[end:]
                        version += 1
                        client.tell("textDocument/didChange", {"textDocument": {"uri": uri, "version": version}, "contentChanges": changes})
                        client.documents[uri] = [text, version]
                        method = dice.choice(ABOUT_ALL + ABOUT_PLACE)
                        at = between(text, dice.randint(0, len(text))) if method in ABOUT_PLACE else None
                        numbers.append(client.begin(method, client.about(uri, at, width=width)))
                        if dice.random() < 0.3:
                            client.tell("$/cancelRequest", {"id": numbers[-1]})
                for number in numbers:
                    answer = client.answer(number)
                    need("result" in answer or answer["error"]["code"] in CODES, answer)
                other = uri_of(f"step-{round_}-again.xml")
                client.open(other, text)
                for method in ABOUT_ALL:
                    one, same_text = (client.ask(method, {"textDocument": {"uri": each}}) for each in (uri, other))
                    same(one, same_text, f"{method} of {text!r}")
                same(client.complaints, [], "nothing unforeseen")
                left = [each for each in client.aside if each.get("id") in numbers and "method" not in each]
                same(left, [], "one answer each")
                client.tell("textDocument/didClose", {"textDocument": {"uri": uri}})
                client.tell("textDocument/didClose", {"textDocument": {"uri": other}})


def encoded(text):
    return text.encode(errors="replace")


def between(text, at):
    """This place, or the one before a CRLF that it is inside of."""
    return at - 1 if text[at - 1 : at + 1] == "\r\n" and at else at


CASES = [
    finds_dtds,
    keeps_no_old_dtds,
    builds_nothing,
    tells_once_what_is_not_found,
    finds_dtds_by_catalogs,
    waits_for_no_other_document,
    waits_once_for_attributes,
    ends_all_runs,
    keeps_no_names_of_roots,
    keeps_to_its_life,
    refuses_nonsense,
    refuses_bad_messages,
    cancels,
    keeps_step,
    answers_whole,
    writes_no_file,
    withstands_hostile_texts,
]


if __name__ == "__main__":
    wanted = [case for case in CASES if case.__name__ in sys.argv[2:]] or CASES
    sys.exit(1 if run_cases(wanted, os.path.abspath(sys.argv[1])) else 0)
