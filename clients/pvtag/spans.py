"""Ranges beside a text, as taggers write them: lines of `standoff`, tab-separated lines, or JSON; and offsets of several
kinds as numbers of characters.
"""
import bisect
import contextlib
import itertools
import json
import re
from collections.abc import Iterator, Sequence
from typing import Any, NamedTuple

from .program import Trouble, shown_name

# What other tools may use; each has an example.
__all__ = ("Range", "read_ranges", "Offsets")

OFFSETS = ("characters", "utf-16", "bytes")
FIELDS = ("start", "end", "label")
LINE = re.compile(r"([0-9]+) ([0-9]+) ([0-9]+) (\S+)\Z")
# What no line of ranges or of a session can have in a name.
NO_NAME = re.compile(r"[\0\n\r\ud800-\udfff]")
# What no offset and no level is above: the program takes none of more bits.
MOST = (1 << 32) - 1


class Range(NamedTuple):
    """A range: its place in the file, its offsets as they stand there, its name, and which of those with the same offsets
    it is from outside.

    >>> one = Range("found.tsv:1", 25, 33, "person", 0)
    >>> print(one)
    found.tsv:1: `person` from 25 to 33
    """

    where: str
    start: int
    end: int
    name: str
    level: int

    @property
    def words(self) -> str:
        return f"`{shown_name(self.name)}` from {self.start} to {self.end}"

    def __str__(self) -> str:
        return f"{self.where}: {self.words}"


def read_ranges(data: bytes, file: str, fields: Sequence[str] = FIELDS) -> list[Range]:
    r"""The ranges of a file, whose form is told by how it begins. Of several with the same offsets the first is outside,
    but for lines that tell levels.

    >>> [str(one) for one in read_ranges(b"25\t33\tperson\n37\t42\tplace\n", "found.tsv")]
    ['found.tsv:1: `person` from 25 to 33', 'found.tsv:2: `place` from 37 to 42']
    >>> read_ranges(b'[{"from": 3, "to": 5, "is": "date"}]', "found.json", ("from", "to", "is"))[0].words
    '`date` from 3 to 5'
    """
    try:
        text = data.decode("utf-8-sig")
    except UnicodeDecodeError as fault:
        raise Trouble(f"{file}: ranges are UTF-8, and byte {fault.start} isn't") from None
    rows = of_json(text, file, fields) if text.lstrip()[:1] in ("[", "{") else of_lines(text, file, fields)
    seen: dict[tuple[int, int], int] = {}
    made = []
    for where, start, end, name, level in rows:
        if level is None:
            level = seen.get((start, end), -1) + 1
            seen[start, end] = level
        made.append(Range(where, start, end, name, level))
    return made


Row = tuple[str, int, int, str, int | None]


def of_lines(text: str, file: str, fields: Sequence[str]) -> Iterator[Row]:
    """Lines `FROM TO LEVEL NAME`, or with tabs the fields; a first line of names tells which column has which."""
    columns: list[int] = [0, 1, 2]
    for number, line in enumerate(lines_of(text), 1):
        where = f"{file}:{number}"
        if not line.strip():
            continue
        if found := LINE.match(line):
            start, end, level = (number_of(where, field, found[at]) for at, field in enumerate((*fields[:2], "the level"), 1))
            yield where, start, end, found[4], level
            continue
        cells = line.split("\t")
        if number == 1 and set(fields) <= set(cells):
            columns = [cells.index(field) for field in fields]
            continue
        if len(cells) <= max(columns):
            raise Trouble(f"{where}: a line is `FROM TO LEVEL NAME`, or has {', '.join(fields)} with tabs between")
        yield (where, *row_of(where, [cells[at] for at in columns], fields), None)


def of_json(text: str, file: str, fields: Sequence[str]) -> Iterator[Row]:
    """A list of objects or of lists, an object with such a list in it, or an object a line."""
    told = json_of(text, file)
    if isinstance(told, dict) and not set(fields) <= set(told):
        lists = [value for value in told.values() if isinstance(value, list) and value and is_row(value[0], fields)]
        if len(lists) > 1 or not lists and not any(value == [] for value in told.values()):
            raise Trouble(f"{file}: there is no list of ranges with {', '.join(fields)}, or more than one")
        told = lists[0] if lists else []
    for number, row in enumerate(told if isinstance(told, list) else [told], 1):
        where = f"{file}, range {number}"
        if not is_row(row, fields):
            raise Trouble(f"{where}: a range has {', '.join(fields)}")
        yield (where, *row_of(where, [row[field] for field in fields] if isinstance(row, dict) else row[:3], fields), None)


def json_of(text: str, file: str) -> Any:
    """The value that a text is, or the list of those on its lines."""
    try:
        try:
            return json.loads(text)
        except json.JSONDecodeError as fault:
            lines = [line for line in lines_of(text) if line.strip()]
            with contextlib.suppress(json.JSONDecodeError):
                if len(lines) > 1:
                    return [json.loads(line) for line in lines]
            raise Trouble(f"{file}:{fault.lineno}:{fault.colno}: this is no JSON: {fault.msg}") from None
    except RecursionError:
        raise Trouble(f"{file}: this JSON is nested too deep") from None
    except ValueError:
        # Python reads no number of more than some thousand digits.
        raise Trouble(f"{file}: this JSON has a number with too many digits") from None


def lines_of(text: str) -> list[str]:
    """The lines as editors count them: other characters that separate lines stand in texts."""
    return text.replace("\r\n", "\n").split("\n")


def is_row(row: Any, fields: Sequence[str]) -> bool:
    return set(fields) <= set(row) if isinstance(row, dict) else isinstance(row, list) and len(row) >= 3


def row_of(where: str, cells: Sequence[Any], fields: Sequence[str]) -> tuple[int, int, str]:
    """Two offsets and a name."""
    start, end = (number_of(where, field, value) for field, value in zip(fields, cells[:2]))
    name = cells[2]
    if not isinstance(name, str) or not name or NO_NAME.search(name):
        raise Trouble(f"{where}: {fields[2]} is no name: {name!r}")
    return start, end, name


def number_of(where: str, field: str, value: Any) -> int:
    """An offset or a level, which JSON may have as a text."""
    is_number = isinstance(value, int) and not isinstance(value, bool) or isinstance(value, str) and value.isascii() and value.isdigit()
    if not is_number:
        raise Trouble(f"{where}: {field} is no offset: {value!r}")
    is_short = isinstance(value, int) or len(value.lstrip("0")) <= len(str(MOST))
    number = int(value) if is_short else MOST + 1
    if number < 0:
        raise Trouble(f"{where}: {field} is below 0")
    if number > MOST:
        raise Trouble(f"{where}: {field} is above {MOST:,}")
    return number


class Offsets:
    r"""Offsets of a text as numbers of its characters, and back.

    >>> offsets = Offsets("caf\u00e9s", "bytes")
    >>> offsets.character(5), offsets.offset(4)
    (4, 5)
    >>> offsets.character(4) is None
    True
    """

    def __init__(self, text: str, kind: str) -> None:
        sizes = None if kind == "characters" else [2 if kind == "utf-16" and char > "\uffff" else 1 for char in text]
        if kind == "bytes":
            sizes = [len(char.encode(errors="surrogatepass")) for char in text]
        self.count = len(text)
        self.starts = None if sizes is None else list(itertools.accumulate(sizes, initial=0))

    def character(self, offset: int) -> int | None:
        """The number of the character at an offset; none where there is none, or within one."""
        if self.starts is None:
            return offset if offset <= self.count else None
        at = bisect.bisect_left(self.starts, offset)
        return at if at < len(self.starts) and self.starts[at] == offset else None

    def offset(self, character: int) -> int:
        return character if self.starts is None else self.starts[character]
