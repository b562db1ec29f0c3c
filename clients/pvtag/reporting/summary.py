"""A report in a few lines: how many documents have each verdict, and how many are told the same sentence."""
import re
from collections.abc import Iterable, Iterator

from .rows import Row, escaped

QUOTED = re.compile(r"(`[^`]*`)")
# Several names in a row, as a sentence lists them.
NAMES = re.compile(r"`…`(?:(?:, (?:and |or )?| and | or )`…`)+")
# A number by itself: that of UTF-8 is part of a name.
NUMBER = re.compile(r"(?<![\w,.-])\d+(?:,\d{3})*(?![\w-])")


def pattern_of(row: Row) -> str:
    """The sentence of a row without its names and numbers, nor the file that it begins with."""
    sentence = row.sentence or ""
    if row.verdict == "no-dtd" and ": " in sentence:
        sentence = "… " + sentence.partition(": ")[2]
    return NAMES.sub("`…`, ..", "".join(without_name(part) for part in QUOTED.split(sentence)))


def without_name(part: str) -> str:
    """A part of a sentence: what is quoted, or what stands between. Quoted marks, as `-->`, and commands aren't names."""
    if not QUOTED.fullmatch(part):
        return NUMBER.sub("N", part)
    is_kept = part.endswith(" FILE`") or not any(char.isalnum() for char in part)
    return part if is_kept else "`…`"


def documents(count: int) -> str:
    return f"{count} document{'s' * (count != 1)}"


class Summary:
    """Counts of rows, each with the first row as its example."""

    def __init__(self) -> None:
        self.verdicts: dict[str, int] = {}
        self.attributes: dict[str, int] = {}
        self.kinds: dict[tuple[str, str], tuple[int, Row]] = {}

    def add(self, row: Row) -> None:
        self.verdicts[row.verdict] = self.verdicts.get(row.verdict, 0) + 1
        if row.attributes is not None:
            self.attributes[row.attributes] = self.attributes.get(row.attributes, 0) + 1
        key = row.verdict, pattern_of(row)
        count, example = self.kinds.get(key, (0, row))
        self.kinds[key] = count + 1, example

    def lines(self) -> Iterator[str]:
        """The lines: the counts of verdicts, those of attributes, and for each sentence its count, verdict and example, the most frequent first,
        with a tab between each two."""
        yield f"{documents(sum(self.verdicts.values()))}: {counted(self.verdicts)}"
        if self.attributes:
            yield f"attributes: {counted(self.attributes)}"
        for (verdict, sentence), (count, example) in sorted(self.kinds.items(), key=lambda it: (-it[1][0], it[0])):
            place = f":{example.line}:{example.column}" if example.line is not None else ""
            yield "\t".join((str(count), verdict, escaped(sentence), escaped(example.path) + place))


def counted(counts: dict[str, int]) -> str:
    return ", ".join(f"{count} {name}" for name, count in sorted(counts.items(), key=lambda it: (-it[1], it[0])))


def summary_of(rows: Iterable[Row]) -> Summary:
    made = Summary()
    for row in rows:
        made.add(row)
    return made
