"""Messages as they stand in a stream: a header with the length, an empty line, and JSON in UTF-8 (LSP 3.17, "Base
Protocol")."""
import json
import re
import threading
from typing import Any, BinaryIO

# The most bytes of a message, and of a line of a header. A document of 64 MiB fits, however it is escaped.
MOST, MOST_LINE = 512 << 20, 4096
LENGTH = re.compile(rb"content-length:[ \t]*(\d{1,18})[ \t]*\r?\n\Z", re.I)
FIELD = re.compile(rb"[!#$%&'*+.^_`|~0-9A-Za-z-]+:[^\r\n]*\r?\n\Z")

# Codes of errors, of JSON-RPC and of the protocol.
PARSE_ERROR, INVALID_REQUEST, METHOD_NOT_FOUND, INVALID_PARAMS, INTERNAL_ERROR = -32700, -32600, -32601, -32602, -32603
NOT_INITIALIZED, REQUEST_CANCELLED, REQUEST_FAILED = -32002, -32800, -32803


class Error(Exception):
    """What a request is answered in place of a result."""

    def __init__(self, code: int, message: str) -> None:
        super().__init__(message)
        self.code = code


class Reader:
    """Reads messages. After bytes that are no message it goes on at the next header."""

    def __init__(self, stream: BinaryIO) -> None:
        self.stream, self.is_lost = stream, False

    def message(self) -> Any:
        """The next message, whatever JSON it is; none at the end. Raises an `Error` once for bytes that are no
        message."""
        length = self.length()
        if length is None:
            return None
        body = self.stream.read(length)
        if len(body) < length:
            return None
        try:
            text = body.decode()
            del body
            return Message(json.loads(text))
        except (ValueError, RecursionError) as fault:
            self.is_lost = True
            raise Error(PARSE_ERROR, f"no JSON: {fault}"[:200]) from None

    def length(self) -> int | None:
        """The length in the next header; none at the end."""
        length = None
        while line := self.stream.readline(MOST_LINE):
            told = LENGTH.search(line) if self.is_lost else LENGTH.match(line)
            if told:
                length, self.is_lost = self.fitting(int(told[1])), False
            elif line in (b"\r\n", b"\n") and length is not None:
                return length
            elif not self.is_lost and not FIELD.match(line):
                self.lose("a header without Content-Length" if line.isspace() else "no header")
        return None

    def fitting(self, length: int) -> int:
        """A length, or an error where it is more than a message may have."""
        if length > MOST:
            self.lose(f"a message of more than {MOST} bytes")
        return length

    def lose(self, why: str) -> None:
        self.is_lost = True
        raise Error(INVALID_REQUEST, why)


class Message:
    """A message's JSON: an object as it should be, or any other value."""

    __slots__ = ("value",)

    def __init__(self, value: Any) -> None:
        self.value = value


class Writer:
    """Writes messages, whole ones, from any thread. Once the other end is closed nothing is written."""

    def __init__(self, stream: BinaryIO) -> None:
        self.stream, self.lock, self.is_closed = stream, threading.Lock(), False

    def send(self, **parts: Any) -> None:
        body = json.dumps({"jsonrpc": "2.0", **parts}, separators=(",", ":")).encode()
        with self.lock:
            if self.is_closed:
                return
            try:
                self.stream.write(b"Content-Length: %d\r\n\r\n%b" % (len(body), body))
                self.stream.flush()
            except (OSError, ValueError):
                self.is_closed = True

    def answer(self, number: int | str, result: Any) -> None:
        self.send(id=number, result=result)

    def refuse(self, number: int | str | None, error: Error) -> None:
        self.send(id=number, error={"code": error.code, "message": str(error)})

    def tell(self, method: str, params: Any) -> None:
        """A notification."""
        self.send(method=method, params=params)
