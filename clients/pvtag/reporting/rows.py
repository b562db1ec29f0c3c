"""A line of a report, and the head before the lines, as JSON Lines, TSV and CSV. All keep each byte of a file's name."""
import json
import re
from collections.abc import Iterable
from typing import NamedTuple

from pvtag.program import CONTROLS

# How a report is written.
FORMATS = ("json", "tsv", "csv")
# The verdicts, and what stands in their place.
JUDGED = ("valid", "possible", "impossible", "refused")
UNJUDGED = ("unreadable", "failed", "no-dtd")
# The kinds of documents for which a run may fail.
FAILING = ("impossible", "refused", "invalid", "attributes")
CONTROL = re.compile(f"[{CONTROLS}]|[\udc80-\udcff]")
ESCAPED = re.compile(rf"[\\{CONTROLS}]|[\udc80-\udcff]")
UNESCAPED = re.compile(r"\\(?:([\\tnr])|x([0-9a-f]{2})|u([0-9a-f]{4}))")
# What a head begins with, and the version of a report's form.
MARK, VERSION = "pvtag-report", 2
# How a sentence says between which numbers `missing` is.
RANGE = re.compile(r"(\d+ to \d+) elements are missing")
LETTERS = {"\\": "\\", "\t": "t", "\n": "n", "\r": "r"}
PLAIN = {letter: char for char, letter in LETTERS.items()}


class Head(NamedTuple):
    """What the rows of a report rest on: the sums of the DTD and of the program, the root, whether missing elements were counted, whether
    attributes were looked at, and whether each document was judged by the DTD that it names: then the DTD and the root are those of the others,
    "" where none were given."""

    dtd: str
    root: str
    program: str
    need: bool
    attributes: bool
    by_doctype: bool

    def line(self, form: str) -> str | None:
        """The line for it. A table for others, in CSV, has none."""
        if form == "csv":
            return None
        told = {MARK: VERSION, **self._asdict()}
        return json.dumps(told) if form == "json" else f"# {json.dumps(told)}"


class Row(NamedTuple):
    """What was found of a document. `verdict` is "valid", "possible", "impossible", or why there is none: "refused" (no document within the
    limits), "unreadable" (no file, or one that can't be read), "failed" (the program ended otherwise, or took too long), "no-dtd" (its DTD isn't
    found, or can't be read).

    `size` is in bytes, `time` that of the last change in nanoseconds, `sum` the SHA-256 of the bytes; `open` counts the lists that aren't valid
    by themselves, `missing` the elements, where that was asked for and told. `line` and `column` are counted from 1; `sentence` says what stands
    there, or why there is no verdict, or between which numbers `missing` is, which is the least of them; where nothing else is to be said, what
    is wrong with an attribute or an entity, the first one. `seconds` is how long it took. `attributes` is libxml2's verdict on attributes, "valid"
    or "invalid", and `faults` counts those that are missing or wrong; neither is told where they weren't looked at. Where each document is judged by
    the DTD that it names, `dtd` is its file or address, `root` the root, and `dtd_sum` the SHA-256 of the DTD as the program reads it."""

    path: str
    size: int | None = None
    time: int | None = None
    sum: str | None = None
    verdict: str = "failed"
    open: int | None = None
    missing: int | None = None
    line: int | None = None
    column: int | None = None
    sentence: str | None = None
    seconds: float | None = None
    attributes: str | None = None
    faults: int | None = None
    dtd: str | None = None
    root: str | None = None
    dtd_sum: str | None = None

    @property
    def range(self) -> str:
        """Between which numbers `missing` is, as "7 to 9"; "" where it is one number, or none is told."""
        found = RANGE.match(self.sentence or "")
        return found[1] if found else ""

    def text(self, form: str) -> str:
        """The line, without its end."""
        if form == "json":
            # As `json.dumps` writes an object, in half of the time.
            values = [begin + (WORDS.get(value) or QUOTED(value) if type(value) is str else repr(value)) for begin, value in zip(BEGINS, self) if value is not None]
            return f"{{{', '.join(values)}}}".replace("\x7f", "\\u007f")
        if form == "csv":
            return comma_line("" if value is None else no_formula(name, escaped(str(value))) for name, value in zip(NAMES, self))
        return "\t".join("" if value is None else escaped(str(value)) for value in self)


def kinds_of(row: Row) -> set[str]:
    """Of which kinds a document is: impossible, refused, not valid (in its elements or its attributes), with attributes that are missing or wrong."""
    has_faults = row.attributes == "invalid"
    is_invalid = has_faults or row.verdict in ("possible", "impossible", "refused")
    return {row.verdict, *["attributes"] * has_faults, *["invalid"] * is_invalid}


NAMES = list(Row._fields)
# What stands before each value of a JSON object.
QUOTED = json.JSONEncoder().encode
WORDS = {word: f'"{word}"' for word in (*JUDGED, *UNJUDGED, "invalid")}
BEGINS = [f'"{name}": ' for name in NAMES]
KINDS = {name: float if name == "seconds" else int if name in ("size", "time", "open", "missing", "line", "column", "faults") else str for name in NAMES}


def escape(match: re.Match[str]) -> str:
    char = match[0]
    if char in LETTERS:
        return "\\" + LETTERS[char]
    if "\udc80" <= char <= "\udcff":
        return f"\\x{ord(char) - 0xDC00:02x}"
    return f"\\u{ord(char):04x}"


def escaped(text: str) -> str:
    r"""The text in one field: `\\`, `\t`, `\n`, `\r`, `\uHHHH` for another control character, and `\xHH` for a byte that isn't UTF-8."""
    return ESCAPED.sub(escape, text)


def unescaped(text: str) -> str:
    return UNESCAPED.sub(lambda it: PLAIN[it[1]] if it[1] else chr(int(it[3], 16)) if it[3] else chr(0xDC00 + int(it[2], 16)), text)


def no_formula(name: str, text: str) -> str:
    """The same path, where a spreadsheet would take it for a formula."""
    return f"./{text}" if name in ("path", "dtd") and text[:1] in tuple("=+-@") else text


def comma_line(values: Iterable[str]) -> str:
    """A line of CSV, by RFC 4180, without its end."""
    import csv
    import io
    line = io.StringIO()
    csv.writer(line, lineterminator="").writerow(values)
    return line.getvalue()


def head_of(line: str) -> Head | None:
    """The head that a line is, if it is one."""
    try:
        told = json.loads(line.removeprefix("# "))
        if told.pop(MARK) != VERSION:
            return None
        head = Head(**told)
    except (ValueError, KeyError, TypeError, AttributeError, RecursionError):
        return None
    return head if [type(it) for it in head] == [str, str, str, bool, bool, bool] else None


def row_of(line: str, form: str) -> Row | None:
    """The row that a line is, if it is a whole one."""
    try:
        values = json.loads(line) if form == "json" else tabbed(line)
        row = Row(**values)
    except (ValueError, TypeError, RecursionError):
        return None
    of_kind = all(value is None or type(value) is kind for value, kind in zip(row, KINDS.values()))
    return row if of_kind and row.path is not None and row.verdict in (*JUDGED, *UNJUDGED) else None


def tabbed(line: str) -> dict[str, object]:
    """The values of a line of TSV, by their names."""
    parts = line.split("\t")
    if len(parts) != len(NAMES):
        raise ValueError(line)
    return {name: KINDS[name](unescaped(part)) for name, part in zip(NAMES, parts) if part}


def titles(form: str) -> str | None:
    """The line of names: in TSV after the head, in CSV the first one."""
    return "\t".join(NAMES) if form == "tsv" else comma_line(NAMES) if form == "csv" else None


def shown(path: str) -> str:
    """A file's name for people, without what acts on a terminal or a page."""
    return CONTROL.sub(escape, path)
