"""The page and its requests, on 127.0.0.1 alone.

An address has a random token in front of its path. A request without it, for another host (as a page of another origin
sends that has this machine's address under a name of its own), or from another origin is refused, and so is each path
but those listed here: no file is looked up by a request. What comes is JSON of at most `LONGEST` bytes.
"""
import json
import os
import secrets
import sys
import threading
import traceback
from collections.abc import Callable
from http.server import BaseHTTPRequestHandler, ThreadingHTTPServer
from typing import Any, Protocol

from pvtag.document import Told
from .work import Refusal

FOLDER = os.path.join(os.path.dirname(os.path.abspath(__file__)), "page")
TYPES = {".html": "text/html", ".css": "text/css", ".js": "text/javascript"}
LONGEST = 1 << 20
# So long it waits for a window after the last one, in seconds: a page is loaded again, a machine sleeps.
PATIENCE = 3600.0
HEADERS = {
    "Content-Security-Policy": "default-src 'none'; script-src 'self'; style-src 'self'; connect-src 'self'; "
    "img-src data:; base-uri 'none'; form-action 'none'; frame-ancestors 'none'",
    "Cache-Control": "no-store",
    "Cross-Origin-Opener-Policy": "same-origin",
    "Cross-Origin-Resource-Policy": "same-origin",
    "Referrer-Policy": "same-origin",
    "X-Content-Type-Options": "nosniff",
}


class Asked(Protocol):
    """What answers requests: a document, or a list of them."""

    @property
    def home(self) -> str:
        """The page that is shown where none is named."""

    def has(self, name: str) -> bool:
        """Whether there is such a request."""

    def answer(self, name: str, ask: Any) -> Told:
        """What is answered to it."""


class Place(Protocol):
    """What a server shows: one document, or a drawer of them."""

    is_over: Callable[[], bool]

    def at(self, path: str) -> tuple[Asked, str]:
        """Whom a path after the token asks, and what is asked; a `Refusal` where there is nobody."""

    def close(self) -> None:
        """Ends all that runs for it."""


class Server(ThreadingHTTPServer):
    daemon_threads = True

    def __init__(self, place: Place, port: int, patience: float = PATIENCE) -> None:
        self.place, self.patience = place, patience
        self.token = secrets.token_urlsafe(24)
        self.files = {name: read_page(name) for name in os.listdir(FOLDER) if os.path.splitext(name)[1] in TYPES}
        self.windows: set[str] = set()
        self.lock, self.over, self.byes = threading.Lock(), threading.Event(), 0
        place.is_over = self.over.is_set
        super().__init__(("127.0.0.1", port), Handler)
        self.hosts = {f"127.0.0.1:{self.server_port}", f"localhost:{self.server_port}"}
        self.address = f"http://127.0.0.1:{self.server_port}/{self.token}/"

    def hello(self, window: str) -> None:
        with self.lock:
            self.windows.add(window)

    def bye(self, window: str) -> None:
        """A window was closed; where it was the last, and none comes, the program ends in a while."""
        with self.lock:
            self.windows.discard(window)
            self.byes += 1
            timer = threading.Timer(self.patience, self.end_if_alone, [self.byes])
        timer.daemon = True
        timer.start()

    def end_if_alone(self, byes: int) -> None:
        with self.lock:
            if not self.windows and byes == self.byes:
                self.over.set()

    def handle_error(self, request: Any, client_address: Any) -> None:
        """A browser that goes away in mid-answer is no fault."""
        if not isinstance(sys.exc_info()[1], ConnectionError | TimeoutError):
            super().handle_error(request, client_address)


def read_page(name: str) -> bytes:
    with open(os.path.join(FOLDER, name), "rb") as file:
        return file.read()


class Handler(BaseHTTPRequestHandler):
    protocol_version = "HTTP/1.1"
    server_version, sys_version = "annotate", ""
    timeout = 60

    server: Server

    def do_GET(self) -> None:
        self.handle_with(self.get)

    def do_POST(self) -> None:
        self.handle_with(self.post)

    def handle_with(self, answer: Callable[[str], tuple[str, bytes]]) -> None:
        try:
            status, kind, body = 200, *answer(self.checked_path())
        except Refusal as refusal:
            # What came after the head wasn't read, so the connection is of no more use.
            self.close_connection = True
            status, kind, body = refusal.status, "text/plain", refusal.why.encode() + b"\n"
        except Exception:
            traceback.print_exc()
            self.close_connection = True
            status, kind, body = 500, "text/plain", b"annotate has a fault: the terminal tells it\n"
        self.send_response(status)
        self.send_header("Content-Type", f"{kind}; charset=utf-8")
        self.send_header("Content-Length", str(len(body)))
        if self.close_connection:
            self.send_header("Connection", "close")
        for name, value in HEADERS.items():
            self.send_header(name, value)
        self.end_headers()
        self.wfile.write(body)

    def checked_path(self) -> str:
        """What stands after the token, for a request that may ask."""
        if self.headers.get_all("Host") is None or set(self.headers.get_all("Host")) - self.server.hosts:
            raise Refusal(403, "another host")
        origins = {f"http://{host}" for host in self.server.hosts}
        if set(self.headers.get_all("Origin") or ()) - origins:
            raise Refusal(403, "another origin")
        if self.headers.get("Sec-Fetch-Site", "none") not in ("none", "same-origin"):
            raise Refusal(403, "another origin")
        front, token, name = (self.path.split("/", 2) + ["", ""])[:3]
        if front or not secrets.compare_digest(token.encode(), self.server.token.encode()):
            raise Refusal(403, "the address has no token, or that of another run: take it from the terminal")
        return name

    def get(self, path: str) -> tuple[str, bytes]:
        asked, name = self.server.place.at(path)
        name = name or asked.home
        if name not in self.server.files:
            raise Refusal(404, "there is no such page")
        return TYPES[os.path.splitext(name)[1]], self.server.files[name]

    def post(self, path: str) -> tuple[str, bytes]:
        asked, name = self.server.place.at(path)
        if not asked.has(name):
            raise Refusal(404, "there is no such request")
        if self.headers.get("Origin") is None or self.headers.get_content_type() != "application/json":
            raise Refusal(403, "a request comes from the page, as JSON")
        size = self.headers.get("Content-Length", "")
        if not size.isascii() or not size.isdigit() or int(size) > LONGEST:
            raise Refusal(413, "a request has a length, and isn't long")
        try:
            ask = json.loads(self.rfile.read(int(size)))
        except ValueError:
            raise Refusal(400, "that is no JSON") from None
        if name in ("hello", "bye") and isinstance(ask, dict) and "window" in ask:
            (self.server.hello if name == "hello" else self.server.bye)(str(ask["window"]))
        return "application/json", json.dumps(asked.answer(name, ask)).encode()

    def log_message(self, *_: Any) -> None:
        pass
