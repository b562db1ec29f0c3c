"""What the tests of `clients/lsp` share: a client that speaks with the server by pipes, and edits made as an editor
makes them."""
import contextlib
import json
import os
import queue
import re
import subprocess
import sys
import threading
import time

from lib.counting import Fault, need, same
from lib.waiting import PATIENCE

TOP = os.path.abspath(os.path.join(__file__, *[os.pardir] * 3))
SERVER = os.path.join(TOP, "clients", "lsp", "pvtag-lsp")
EXAMPLES = os.path.join(TOP, "examples")
LETTER = '<!DOCTYPE letter SYSTEM "letter.dtd">\n'
CAPABILITIES = {
    "workspace": {"workspaceEdit": {"documentChanges": True}},
    "textDocument": {
        "codeAction": {
            "codeActionLiteralSupport": {"codeActionKind": {"valueSet": []}},
            "resolveSupport": {"properties": ["edit"]},
        },
        "completion": {"completionItem": {"snippetSupport": False}},
        "documentSymbol": {"hierarchicalDocumentSymbolSupport": True},
        "publishDiagnostics": {"relatedInformation": True},
        "rename": {"prepareSupport": True},
    },
}


DRAFT = LETTER + "<letter><opener>Dear brother,</opener>\n<body><p>I have met Mr Adams in Delft.</p></body></letter>\n"


def uri_of(name, folder=EXAMPLES):
    return f"file://{folder}/{name}"


URI = uri_of("one.xml")


def codes(told):
    """The codes of diagnostics."""
    return sorted(each["code"] for each in told)


def finished(told):
    """Whether the number of missing elements is told."""
    return "missing" in codes(told)


def utf16(text):
    return len(text.encode("utf-16-le")) // 2


def position(text, at, width=utf16):
    """The position of a character in a text."""
    lines = re.split(r"\r\n|\n|\r", text[:at])
    return {"line": len(lines) - 1, "character": width(lines[-1])}


def at(text, place, width=utf16):
    """The number of the character that stands at a position."""
    starts = [0, *(end.end() for end in re.finditer(r"\r\n|\n|\r", text))]
    start, count = starts[place["line"]], 0
    end = start
    while count < place["character"]:
        count += width(text[end])
        end += 1
    same(count, place["character"], "a position between characters")
    return end


def edited(text, edits, width=utf16):
    """A text after edits, which are of one version of it."""
    spans = [
        (at(text, each["range"]["start"], width), at(text, each["range"]["end"], width), number, each["newText"])
        for number, each in enumerate(edits)
    ]
    for one, other in zip(sorted(spans), sorted(spans)[1:]):
        need(one[1] <= other[0], f"edits overlap: {edits}")
    for start, end, _, new in sorted(spans, reverse=True):
        text = text[:start] + new + text[end:]
    return text


def edits_of(edit):
    """The text edits of a workspace's edit, which is about one document."""
    (change,) = (
        edit["documentChanges"] if "documentChanges" in edit else [{"edits": each} for each in edit["changes"].values()]
    )
    return change["edits"]


class Client:
    """A client of a server of its own."""

    def __init__(
        self,
        program,
        capabilities=CAPABILITIES,
        options=None,
        begins=True,
        seconds=PATIENCE,
        server=SERVER,
        environment=None,
        folder=None,
        name="tests",
    ):
        self.seconds, self.number, self.aside, self.documents, self.together = seconds, 0, [], {}, None
        self.process = subprocess.Popen(
            [sys.executable, server, *(["--program", program] if program else [])],
            stdin=subprocess.PIPE,
            stdout=subprocess.PIPE,
            stderr=subprocess.PIPE,
            env=environment,
        )
        self.messages = queue.Queue()
        threading.Thread(target=self.read, daemon=True).start()
        self.complaints = []
        threading.Thread(target=self.listen, daemon=True).start()
        if begins:
            self.told = self.ask(
                "initialize",
                ({"clientInfo": {"name": name}} if name else {})
                | {"processId": None, "rootUri": folder and f"file://{folder}", "capabilities": capabilities, "initializationOptions": options},
            )
            self.tell("initialized", {})

    def __enter__(self):
        return self

    def __exit__(self, *_):
        self.process.kill()
        self.process.wait()

    def read(self):
        while True:
            length = 0
            while (line := self.process.stdout.readline()) not in (b"\r\n", b""):
                length = int(line.split(b":")[1]) if line.lower().startswith(b"content-length:") else length
            if not line:
                self.messages.put(None)
                return
            self.messages.put(json.loads(self.process.stdout.read(length)))

    def listen(self):
        for line in self.process.stderr:
            self.complaints.append(line.decode())

    def raw(self, data):
        self.process.stdin.write(data)
        self.process.stdin.flush()

    @contextlib.contextmanager
    def at_once(self):
        """All that is sent meanwhile is handed over together, so that no time passes between."""
        self.together = []
        try:
            yield
        finally:
            together, self.together = self.together, None
            self.raw(b"".join(together))

    def send(self, message):
        body = json.dumps(message).encode()
        data = b"Content-Length: %d\r\n\r\n" % len(body) + body
        if self.together is None:
            self.raw(data)
        else:
            self.together.append(data)

    def tell(self, method, params):
        self.send({"jsonrpc": "2.0", "method": method, "params": params})

    def begin(self, method, params):
        self.number += 1
        self.send({"jsonrpc": "2.0", "id": self.number, "method": method, "params": params})
        return self.number

    def wait(self, fits, what="a message"):
        """The first message that fits, also one that came before."""
        for number, message in enumerate(self.aside):
            if fits(message):
                return self.aside.pop(number)
        end = time.monotonic() + self.seconds
        while True:
            try:
                message = self.messages.get(timeout=max(0.01, end - time.monotonic()))
            except queue.Empty:
                raise Fault(f"{what} doesn't come; {self.complaints}") from None
            need(message is not None, f"the server has ended: {self.complaints}")
            if fits(message):
                return message
            self.aside.append(message)

    def answer(self, number):
        return self.wait(lambda message: message.get("id") == number and "method" not in message, "an answer")

    def ask(self, method, params):
        """A request's result."""
        answer = self.answer(self.begin(method, params))
        need("error" not in answer, f"{method}: {answer.get('error')}")
        return answer["result"]

    def error(self, method, params):
        """A request's error: its code."""
        answer = self.answer(self.begin(method, params))
        need("error" in answer, f"{method} {params}: {answer}")
        return answer["error"]["code"]

    # Documents.
    def open(self, uri, text, version=1):
        self.documents[uri] = [text, version]
        self.tell(
            "textDocument/didOpen",
            {"textDocument": {"uri": uri, "languageId": "xml", "version": version, "text": text}},
        )

    def change(self, uri, start, end, new, width=utf16):
        """Puts a text in place of the characters from `start` up to `end`."""
        text, version = self.documents[uri]
        place = {"start": position(text, start, width), "end": position(text, end, width)}
        self.documents[uri] = [text[:start] + new + text[end:], version + 1]
        self.tell(
            "textDocument/didChange",
            {"textDocument": {"uri": uri, "version": version + 1}, "contentChanges": [{"range": place, "text": new}]},
        )

    def about(self, uri, at=None, span=None, width=utf16, **more):
        text = self.documents[uri][0]
        params = {"textDocument": {"uri": uri}, **more}
        if at is not None:
            params["position"] = position(text, at, width)
        if span is not None:
            params["range"] = {"start": position(text, span[0], width), "end": position(text, span[1], width)}
        return params

    def diagnostics(self, uri, until=lambda told: True):
        """The diagnostics of the newest version, once they are so."""
        version = self.documents[uri][1]

        def fits(message):
            params = message.get("params")
            return (
                message.get("method") == "textDocument/publishDiagnostics"
                and params["uri"] == uri
                and params.get("version") == version
                and until(params["diagnostics"])
            )

        return self.wait(fits, f"a list of diagnostics of {uri}")["params"]["diagnostics"]

    def actions(self, uri, span, only=None):
        context = {"diagnostics": []} | ({"only": only} if only else {})
        return {
            each["title"]: each
            for each in self.ask("textDocument/codeAction", self.about(uri, span=span, context=context)) or []
        }

    def labels(self, uri, place):
        answer = self.ask("textDocument/completion", self.about(uri, place))
        return [each["label"] for each in answer["items"]] if answer is not None else []


def run_cases(cases, *words):
    """Runs all, and prints what differs and how many passed."""
    failed = 0
    for case in cases:
        try:
            case(*words)
        except Exception as fault:
            failed += 1
            print(f"differs: {case.__name__}: {type(fault).__name__}: {fault}", flush=True)
    print(f"{len(cases) - failed} passed, {failed} failed")
    return failed
