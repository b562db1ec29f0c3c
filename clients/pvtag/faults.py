"""What the program says of a file that it refuses: which, where in it, and in a sentence (docs/COMMANDS.md, Statuses).

The program tells a kind and a number. What is said beyond them is read off the bytes at that place, and is only what
the format says of such bytes.
"""
import re
from collections.abc import Mapping
from typing import NamedTuple

from .document_fault import document_fault, document_span
from .dtd_fault import dtd_fault, dtd_span
from .layout import Layout
from .places import Place, Remark, Source, Span
from .program import Trouble

# What other tools may use; each has an example.
__all__ = ("Fault", "Refusal", "fault_of")


class Fault(NamedTuple):
    r"""A fault of a file: the file's name, the bytes in fault where they are known, and a sentence. `line` is what the
    program printed, and `status` what it ended with.

    >>> source = Source("letter.xml", b"<p>\n<lb></p>")
    >>> print(fault_of(7, "document mismatch 3", {"document": source}))
    letter.xml:2:5: `</p>` stands where `lb` (line 2) is still open
    """

    file: str
    span: Span | None
    place: Place | None
    sentence: str
    line: str
    status: int

    def __str__(self) -> str:
        """As compilers tell it: `FILE:LINE:COLUMN: SENTENCE`."""
        where = [self.file] * bool(self.file) + [str(self.place)] * (self.place is not None)
        return ": ".join([*[":".join(where)] * bool(where), self.sentence])


class Refusal(Trouble):
    """A file was refused; `fault` tells which and why.

    >>> raise Refusal(fault_of(8, "limit script", {}))
    Traceback (most recent call last):
        ...
    pvtag.faults.Refusal: a script has at most 268,435,456 bytes
    """

    def __init__(self, fault: Fault) -> None:
        super().__init__(str(fault))
        self.fault = fault


STATUSES = {
    2: "these words are no command: ROOT is a name of XML",
    3: "a file or the input couldn't be read",
    4: "the output couldn't be written",
    5: "there was too little memory",
    10: "the program couldn't be begun or built",
}
# How the line begins that refuses a document for a list that is too wide for a session.
TOO_WIDE = "limit width "
LIMITS = {
    "dtd-file": ("dtd", "a DTD has at most 4,194,304 bytes"),
    "document-file": ("document", "a document has at most 67,108,864 bytes"),
    "params": ("dtd", "a DTD has at most 65,536 references to parameter entities, and 16,777,216 bytes by them"),
    "pack-file": ("pack", "a pack has at most 1,073,741,824 bytes"),
    "pack": ("pack", "a pack has at most 8,388,608 entries"),
    "table-file": ("table", "a denial has at most 134,217,728 bytes"),
    "table": ("table", "a denial has at most 8,388,608 values"),
    "text-file": ("text", "a text has at most 67,108,864 bytes"),
    "ranges-file": ("ranges", "a file of ranges has at most 67,108,864 bytes"),
    "ranges": ("ranges", "there are at most 1,048,576 ranges"),
    "weight": ("document", "more than 1,000,000 elements are missing"),
    "tables": ("document", "the tables would be too large"),
    "script": ("", "a script has at most 268,435,456 bytes"),
}
# The word of the file that a line's first word is about.
FILES = {"dtd": "dtd", "document": "document", "text": "text", "pack": "pack", "table": "table", "ranges": "ranges"}


def fault_of(status: int, line: str, files: Mapping[str, Source]) -> Fault:
    """What a status of 2 or more and the line with it mean. `files` are the command's, by their word: "dtd",
    "document", "pack", "table", "text", "ranges"; one that isn't given is told without a place.

    >>> fault_of(7, "document syntax 1", {"document": Source("a.xml", b"<p>")}).place
    Place(line=1, column=4)
    >>> fault_of(3, "", {}).sentence
    "a file or the input couldn't be read"
    """
    words = line.split(" ")
    if status in STATUSES or len(words) < 2:
        sentence = STATUSES.get(status, f"the program ended with status {status}: {line or 'it wrote nothing'}")
        return Fault("", None, None, sentence, line, status)
    word = limited(words) if words[0] == "limit" else FILES.get(words[0], "")
    source = files.get(word)
    span, sentence = told(words, source)
    place = source.place(span.start) if source is not None and span is not None else None
    return Fault(source.name if source is not None else "", span, place, sentence, line, status)


def limited(words: list[str]) -> str:
    """The word of the file that passes a limit."""
    if words[1] == "dtd":
        return "dtd"
    return LIMITS[words[1]][0] if words[1] in LIMITS else "document"


def told(words: list[str], source: Source | None) -> Remark:
    first, kind = words[:2]
    if first == "limit":
        return limit(words, source)
    if first == "dtd":
        return dtd_fault(kind, words[2:], source)
    if first == "document":
        return document_fault(kind, words[2:], source)
    if first == "text":
        return text_fault(kind, int(words[2]), source)
    return ranges_fault(words, source) if kind != "line" else line_fault(first, int(words[2]), source)


# ---- limits ----

def limit(words: list[str], source: Source | None) -> Remark:
    kind = words[1]
    if kind in LIMITS:
        return None, LIMITS[kind][1]
    if kind == "line":
        return None, f"line {words[2]} of the script is longer than 1,048,576 bytes"
    if kind == "dtd":
        span = dtd_span(int(words[2]), source)
        return span, "a limit is passed: of nesting, names, their length or the parts of content models"
    if kind == "width":
        return list_span(words[2], source), "this list has too many kids under this DTD"
    span = document_span(int(words[2]), source) if len(words) > 2 else None
    return span, "at most 512 elements stand one inside another"


def list_span(path: str, source: Source | None) -> Span | None:
    """The tag of a list's element."""
    node = Layout(source.data).node(path) if source is not None else None
    return None if node is None else node.start_tag if node.number else Span(0, 0)


# ---- other files ----

TEXTS = {
    "empty": "a text has at least one character",
    "bad-char": "this is no character of a text, or isn't UTF-8",
    "bad-reference": "`&` begins no reference",
    "entity": "this refers to an entity; `lt`, `gt`, `amp`, `apos` and `quot` alone are read",
    "close-mark": "`]]>` stands in the text",
}
LINES = {
    "pack": "this line can't stand here in a pack",
    "table": "this line can't stand here in a denial",
    "ranges": "this line is no range: FROM TO LEVEL NAME, with one blank between each two",
}


def text_fault(kind: str, at: int, source: Source | None) -> Remark:
    return Span(at, at) if source is not None else None, TEXTS.get(kind, kind)


def line_fault(word: str, number: int, source: Source | None) -> Remark:
    """A line by the number of those before it. A pack's body counts with the line before it as one."""
    if source is None:
        return None, LINES[word]
    skipped = 0
    if word == "pack":
        body = re.compile(rb"^body (\d+)\n", re.M).search(source.data)
        if body is not None and source.data.count(b"\n", 0, body.start()) < number:
            end = min(body.end() + int(body[1]), len(source.data))
            skipped = source.data.count(b"\n", body.end(), end + 1)
    return line_span(source, number, skipped), LINES[word]


def line_span(source: Source, number: int, skipped: int = 0) -> Span:
    """A line by its number from 0, lines being ended by LF alone, after so many that don't count."""
    begin = 0
    for _ in range(number + skipped):
        begin = source.data.find(b"\n", begin) + 1 or len(source.data)
    end = source.data.find(b"\n", begin)
    return Span(begin, end if end >= 0 else len(source.data))


def ranges_fault(words: list[str], source: Source | None) -> Remark:
    kind, numbers = words[1], words[2:]
    if kind == "outside":
        span = line_span(source, int(numbers[0])) if source is not None else None
        return span, "the range is empty, or ends after the text"
    if kind == "twice":
        return None, f"two ranges from {numbers[0]} to {numbers[1]} have the level {numbers[2]}"
    return None, f"the range from {numbers[2]} to {numbers[3]} crosses that from {numbers[0]} to {numbers[1]}"
