"""A document's text as the editor has it: its bytes in UTF-8, its lines, and positions as the protocol writes them."""
import re
from bisect import bisect_right
from typing import Any

from pvtag.places import LINE_END, Unit, front, width
from .wire import INVALID_PARAMS, Error

Json = dict[str, Any]
MOST = 2**31 - 1
# In a line, so many bytes from one place whose column is kept to the next.
NEAR = 2048
Marks = tuple[list[int], list[int]]


def encoded(text: str) -> bytes:
    """UTF-8. Half a pair of UTF-16, which a message may hold, is written as U+FFFD, of the same width."""
    try:
        return text.encode()
    except UnicodeEncodeError:
        return re.sub("[\ud800-\udfff]", "\ufffd", text).encode()


def number_of(value: Any) -> int:
    if not isinstance(value, int) or isinstance(value, bool) or not 0 <= value <= MOST:
        raise Error(INVALID_PARAMS, "a position has two numbers from 0 up")
    return value


class Text:
    """Bytes, and where their lines begin. A text doesn't change: an edit gives another one."""

    __slots__ = ("data", "unit", "starts", "marks")

    def __init__(self, data: bytes, unit: Unit, starts: list[int] | None = None) -> None:
        self.data, self.unit = data, unit
        self.starts = [0, *(end.end() for end in LINE_END.finditer(data))] if starts is None else starts
        self.marks: dict[int, Marks] = {}

    def line_end(self, line: int) -> int:
        """Where a line ends, before its line end."""
        if line + 1 == len(self.starts):
            return len(self.data)
        end = self.starts[line + 1] - 1
        return end - 1 if self.data[end - 1 : end + 1] == b"\r\n" and end > self.starts[line] else end

    def marks_of(self, line: int) -> Marks:
        """Places in a line, and their columns, so that no column is counted from the start of a long line."""
        if line not in self.marks:
            places, columns, end = [self.starts[line]], [0], self.line_end(line)
            while (at := places[-1] + NEAR) < end:
                while at < end and self.data[at] & 0xC0 == 0x80:
                    at += 1
                columns.append(columns[-1] + width(self.data[places[-1] : at], self.unit))
                places.append(at)
            self.marks[line] = places, columns
        return self.marks[line]

    def position(self, offset: int) -> Json:
        line = bisect_right(self.starts, offset) - 1
        offset = min(offset, self.line_end(line))
        places, columns = self.marks_of(line)
        near = bisect_right(places, offset) - 1
        return {"line": line, "character": columns[near] + width(self.data[places[near] : offset], self.unit)}

    def range(self, start: int, end: int) -> Json:
        return {"start": self.position(start), "end": self.position(end)}

    def offset(self, position: Any) -> int:
        """A position's offset: at the end of a line that is shorter, before a character that the position is inside
        of."""
        if not isinstance(position, dict):
            raise Error(INVALID_PARAMS, "no position")
        line, character = number_of(position.get("line")), number_of(position.get("character"))
        if line >= len(self.starts):
            return len(self.data)
        places, columns = self.marks_of(line)
        near = bisect_right(columns, character) - 1
        end = places[near + 1] if near + 1 < len(places) else self.line_end(line)
        return places[near] + front(self.data[places[near] : end], character - columns[near], self.unit)

    def span(self, told: Any) -> tuple[int, int]:
        """The offsets of a range."""
        if not isinstance(told, dict):
            raise Error(INVALID_PARAMS, "no range")
        start, end = self.offset(told.get("start")), self.offset(told.get("end"))
        if start > end:
            raise Error(INVALID_PARAMS, "a range ends before it begins")
        return start, end

    def changed(self, change: Any) -> "Text":
        """The text after a change of the protocol: of a range, or of all."""
        if not isinstance(change, dict) or not isinstance(change.get("text"), str):
            raise Error(INVALID_PARAMS, "a change without a text")
        new = encoded(change["text"])
        if change.get("range") is None:
            return Text(new, self.unit)
        return self.replaced(*self.span(change["range"]), new)

    def replaced(self, start: int, end: int, new: bytes) -> "Text":
        """The text with other bytes from `start` up to `end`. Only the lines that the edit touches are looked at."""
        data = b"".join((self.data[:start], new, self.data[end:]))
        first = bisect_right(self.starts, start) - 1
        # An LF that comes to stand after a CR makes one line end with it.
        if first and self.data[self.starts[first] - 1] == 13:
            first -= 1
        last, more = bisect_right(self.starts, end), len(data) - len(self.data)
        until = self.starts[last] + more if last < len(self.starts) else len(data)
        between = [at.end() for at in LINE_END.finditer(data, self.starts[first], until)]
        behind = [at + more for at in self.starts[last:]] if more else self.starts[last:]
        if between and behind and between[-1] == behind[0]:
            between.pop()
        return Text(data, self.unit, [*self.starts[: first + 1], *between, *behind])
