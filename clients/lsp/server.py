"""The server: its life, its open documents, and which request is answered by what."""
import sys
import threading
from collections.abc import Callable
from concurrent.futures import ThreadPoolExecutor
from typing import Any

from . import actions, completion, hover, navigation, outline, tags, wire
from .diagnostics import Watch
from .documents import Accepted, Asked, Client, Document, text_of
from .grammar import Finder, NoDtd, folder_of
from pvtag.places import Unit
from pvtag.program import Trouble, find
from .text import Json, Text, encoded
from .wire import Error, Message, Reader, Writer
from .work import Cancelled, Work

Answer = Callable[[Asked, Work], Any]
ANSWERS: dict[str, Answer] = {
    "textDocument/completion": completion.complete,
    "textDocument/codeAction": actions.actions,
    "codeAction/resolve": actions.resolve,
    "workspace/executeCommand": actions.execute,
    "textDocument/hover": hover.hover,
    "textDocument/documentSymbol": outline.symbols,
    "textDocument/prepareRename": tags.prepare,
    "textDocument/rename": tags.rename,
    "textDocument/linkedEditingRange": tags.linked,
    **navigation.ANSWERS,
}
# Requests that an editor makes of itself: where no DTD is found that is told once, and nothing is answered.
QUIET = (completion.complete, actions.actions, hover.hover, navigation.definition, navigation.references)
# What is answered by the text alone, and waits for no DTD.
BY_TEXT = {
    outline.symbols, tags.prepare, tags.linked, navigation.highlight, navigation.folding, navigation.selection, navigation.links
}
ERROR, WARNING, INFORMATION = 1, 2, 3
# So many requests about one document are answered at a time, and so many by its text. They wait for no other document.
THREADS, TEXT_THREADS = 4, 2


class Open:
    """An open document: its text now, the thread that judges it, and those that answer requests about it."""

    def __init__(self, document: Document, watch: Watch) -> None:
        self.document, self.watch = document, watch
        self.threads, self.by_text = ThreadPoolExecutor(THREADS), ThreadPoolExecutor(TEXT_THREADS)
        self.works: dict[Work, int | str] = {}


class Server:
    def __init__(self, reader: Reader, writer: Writer, program: str | None) -> None:
        self.reader, self.writer, self.program = reader, writer, program
        self.client: Client | None = None
        self.finder: Finder | None = None
        self.is_over = self.is_shut = False
        self.unit = Unit.UTF16
        self.opened: dict[str, Open] = {}
        self.told: set[str] = set()
        self.lock, self.running = threading.Lock(), dict[int | str, Work]()
        # What the editor was asked for.
        self.asking, self.asked_for = 0, dict[str, Callable[[Any], None]]()

    def run(self) -> int:
        """Serves until `exit` or the end of the input; the status."""
        while not self.is_over and not self.writer.is_closed:
            try:
                message = self.reader.message()
                if message is None:
                    break
                self.take(message)
                # A large one isn't kept until the next one comes.
                del message
            except Error as error:
                self.writer.refuse(None, error)
        for each in [*self.opened.values()]:
            each.watch.end()
        with self.lock:
            for running in self.running.values():
                running.cancel()
        return 0 if self.is_shut else 1

    # Messages.
    def take(self, message: Message) -> None:
        """Deals with a message: a request, a notification, or the editor's answer to a request."""
        value = message.value
        if not isinstance(value, dict) or value.get("jsonrpc") != "2.0":
            raise Error(wire.INVALID_REQUEST, "no message of JSON-RPC 2.0")
        method, params, is_request = value.get("method"), value.get("params"), "id" in value
        number: Any = value.get("id")
        if method is None and is_request and ("result" in value or "error" in value):
            return self.replied(value)
        if not isinstance(method, str):
            raise Error(wire.INVALID_REQUEST, "a message without a method")
        if is_request and (isinstance(number, bool) or not isinstance(number, int | str)):
            raise Error(wire.INVALID_REQUEST, "the id is neither a number nor a text")
        try:
            if is_request:
                self.requested(number, method, params)
            else:
                self.notified(method, params)
        except Exception as fault:
            error = error_of(fault)
            if is_request:
                self.writer.refuse(number, error)
            else:
                self.writer.tell("window/logMessage", {"type": ERROR, "message": f"pvtag: {error}"})

    def requested(self, number: int | str, method: str, params: Any) -> None:
        if method == "initialize" and self.client is None and not self.is_shut:
            self.writer.answer(number, self.initialized(object_of(params)))
        elif method == "initialize" or self.is_shut:
            raise Error(
                wire.INVALID_REQUEST, "the server is shut down" if self.is_shut else "the server is initialized"
            )
        elif self.client is None:
            raise Error(wire.NOT_INITIALIZED, "the server isn't initialized")
        elif method == "shutdown":
            self.is_shut = True
            self.writer.answer(number, None)
        elif method not in ANSWERS:
            raise Error(wire.METHOD_NOT_FOUND, f"no such request: {method[:80]}")
        else:
            self.begin(number, ANSWERS[method], *self.asked(method, object_of(params)))

    def asked(self, method: str, params: Json) -> tuple[Open, Asked]:
        """What a request is about."""
        uri = (
            actions.uri_of(params)
            if method in ("codeAction/resolve", "workspace/executeCommand")
            else text_of(object_of(params.get("textDocument")), "uri")
        )
        if uri not in self.opened:
            raise Error(wire.INVALID_PARAMS, f"the document isn't open: {uri[:200]}")
        assert self.client is not None and self.finder is not None
        opened = self.opened[uri]
        asked = Asked(opened.document, params, self.client, self.finder, Work())
        asked.ask, asked.is_current = self.ask, lambda: opened.document is asked.document
        asked.say = lambda sentence: self.say(uri, sentence, False)
        return opened, asked

    def ask(self, method: str, params: Json, then: Callable[[Any], None]) -> None:
        """Asks the editor; `then` takes its answer, or nothing where it gives none."""
        with self.lock:
            self.asking += 1
            number = f"pvtag-{self.asking}"
            self.asked_for[number] = then
        self.writer.send(id=number, method=method, params=params)

    def replied(self, value: Json) -> None:
        """An answer of the editor."""
        number = value.get("id")
        with self.lock:
            then = self.asked_for.pop(number, None) if isinstance(number, str) else None
        if then is not None:
            then(value.get("result"))

    def begin(self, number: int | str, answer: Answer, opened: Open, asked: Asked) -> None:
        """Answers a request in a thread of its document."""
        with self.lock:
            if number in self.running:
                raise Error(wire.INVALID_REQUEST, "a request with this id is being answered")
            self.running[number] = asked.work
        threads = opened.by_text if answer in BY_TEXT else opened.threads
        asked.work.queued = threads.submit(self.answer, number, answer, asked, asked.work)
        opened.works[asked.work] = number
        asked.work.queued.add_done_callback(lambda _: opened.works.pop(asked.work))

    def answer(self, number: int | str, answer: Answer, asked: Asked, work: Work) -> None:
        try:
            work.check()
            result, error = answer(asked, work), None
            work.check()
        except Exception as fault:
            result, error = None, error_of(Cancelled() if work.is_over else fault)
            if isinstance(fault, Trouble) and not work.is_over and answer in QUIET:
                self.say(asked.document.uri, str(fault), isinstance(fault, NoDtd))
                error = None
        with self.lock:
            del self.running[number]
        if error is not None:
            return self.writer.refuse(number, error)
        try:
            return self.writer.answer(number, result)
        except (ValueError, RecursionError) as fault:
            return self.writer.refuse(number, error_of(fault))

    def notified(self, method: str, params: Any) -> None:
        if method == "exit":
            self.is_over = True
        elif method == "$/cancelRequest":
            self.cancel(object_of(params).get("id"))
        elif self.client is None or self.is_shut:
            return
        elif method in NOTES:
            NOTES[method](self, object_of(params))

    def cancel(self, number: Any) -> None:
        """Ends the work for a request, which is answered with an error then."""
        with self.lock:
            running = self.running.get(number) if isinstance(number, int | str) else None
        if running is not None:
            self.end(number, running)

    def end(self, number: int | str, work: Work) -> None:
        """Ends the work for a request. One that isn't begun yet is answered here."""
        work.cancel()
        if work.queued is not None and work.queued.cancel():
            with self.lock:
                del self.running[number]
            self.writer.refuse(number, error_of(Cancelled()))

    # The start.
    def initialized(self, params: Json) -> Json:
        """What the server can do."""
        self.client = client = Client(params)
        options = params.get("initializationOptions")
        options = options if isinstance(options, dict) else {}
        told = self.program or options.get("program")
        try:
            program = find(told if isinstance(told, str) else None, builds=False)
        except Trouble as trouble:
            program = ["pvtag"]
            self.writer.tell("window/showMessage", {"type": ERROR, "message": f"pvtag: {trouble}"})
        self.finder = Finder(program, options, root_of(params))
        encodings = client.can("general", "positionEncodings")
        if isinstance(encodings, list) and "utf-8" in encodings:
            self.unit = Unit.BYTES
        return {
            "serverInfo": {"name": "pvtag-lsp"},
            "capabilities": {
                "positionEncoding": "utf-8" if self.unit is Unit.BYTES else "utf-16",
                "textDocumentSync": {"openClose": True, "change": 2, "save": True},
                "completionProvider": {"triggerCharacters": ["<", "/", " ", '"', "'"]},
                "codeActionProvider": {"codeActionKinds": actions.ALL_KINDS, "resolveProvider": True},
                "executeCommandProvider": {"commands": [actions.WRAP]},
                "hoverProvider": True,
                "documentSymbolProvider": True,
                "renameProvider": {"prepareProvider": True}
                if client.can("textDocument", "rename", "prepareSupport")
                else True,
                "linkedEditingRangeProvider": True,
                **navigation.PROVIDED,
            },
        }

    def say(self, uri: str, trouble: str, is_quiet: bool) -> None:
        """Tells a trouble of a document in the editor, once; in its log alone where it may be meant so."""
        with self.lock:
            is_new = f"{uri} {trouble}" not in self.told
            self.told.add(f"{uri} {trouble}")
        if is_new:
            kind = INFORMATION if is_quiet else WARNING
            method = "window/logMessage" if is_quiet else "window/showMessage"
            self.writer.tell(method, {"type": kind, "message": f"pvtag: {trouble}"})

    # Documents.
    def did_open(self, params: Json) -> None:
        item = object_of(params.get("textDocument"))
        uri, text = text_of(item, "uri"), text_of(item, "text")
        self.close(uri)
        document = Document(uri, version_of(item), Text(encoded(text), self.unit), Accepted())
        assert self.finder is not None and self.client is not None
        watch = Watch(self.writer, self.finder, self.client, self.say)
        self.opened[uri] = Open(document, watch)
        watch.look(document)

    def did_change(self, params: Json) -> None:
        item = object_of(params.get("textDocument"))
        opened, changes = self.opened_of(item), params.get("contentChanges")
        if not isinstance(changes, list):
            raise Error(wire.INVALID_PARAMS, "no list of changes")
        text = opened.document.text
        for change in changes:
            text = text.changed(change)
        opened.document = Document(opened.document.uri, version_of(item), text, opened.document.accepted)
        opened.watch.look(opened.document, is_typed=True)

    def did_save(self, params: Json) -> None:
        """A DTD may have changed. One that is saved in the editor may be a module of others."""
        assert self.finder is not None
        item = params.get("textDocument")
        if not isinstance(item, dict) or str(item.get("uri")).endswith((".dtd", ".mod", ".ent")):
            self.finder.forget()
        for each in self.opened.values():
            each.watch.look(each.document)

    def did_close(self, params: Json) -> None:
        opened = self.opened_of(object_of(params.get("textDocument")))
        self.close(opened.document.uri)

    def opened_of(self, item: Json) -> Open:
        uri = text_of(item, "uri")
        if uri not in self.opened:
            raise Error(wire.INVALID_PARAMS, f"the document isn't open: {uri[:200]}")
        return self.opened[uri]

    def close(self, uri: str) -> None:
        if uri in self.opened:
            closed = self.opened.pop(uri)
            closed.watch.end()
            for work, number in [*closed.works.items()]:
                self.end(number, work)
            for threads in (closed.threads, closed.by_text):
                threads.shutdown(wait=False)
            with self.lock:
                self.told = {told for told in self.told if not told.startswith(f"{uri} ")}
            self.writer.tell("textDocument/publishDiagnostics", {"uri": uri, "diagnostics": []})


NOTES: dict[str, Callable[[Server, Json], None]] = {
    "textDocument/didOpen": Server.did_open,
    "textDocument/didChange": Server.did_change,
    "textDocument/didSave": Server.did_save,
    "textDocument/didClose": Server.did_close,
    "workspace/didChangeWatchedFiles": Server.did_save,
}


def error_of(fault: Exception) -> Error:
    """What a request is answered where it can't be done."""
    if isinstance(fault, Error):
        return fault
    if isinstance(fault, Cancelled):
        return Error(wire.REQUEST_CANCELLED, "cancelled")
    if isinstance(fault, Trouble):
        return Error(wire.REQUEST_FAILED, str(fault))
    print(f"pvtag-lsp: {type(fault).__name__}: {fault}", file=sys.stderr)
    return Error(wire.INTERNAL_ERROR, f"{type(fault).__name__}: {fault}"[:300])


def object_of(value: Any) -> Json:
    if not isinstance(value, dict):
        raise Error(wire.INVALID_PARAMS, "no object")
    return value


def root_of(params: Json) -> str | None:
    """The folder that is open in the editor."""
    folders = params.get("workspaceFolders")
    first = folders[0] if isinstance(folders, list) and folders else None
    told = params.get("rootUri") or (first.get("uri") if isinstance(first, dict) else None)
    return folder_of(f"{told}/.") if isinstance(told, str) else None


def version_of(item: Json) -> int | None:
    version = item.get("version")
    return version if isinstance(version, int) and not isinstance(version, bool) else None
