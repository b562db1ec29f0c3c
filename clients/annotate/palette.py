"""The palette: tags with their attributes, each put by one key. It stands in `tags.txt` beside the DTD, a line for each tag,
and is written by the page too.

    # key  name  attributes  colour
    a  persName  key="adams"  #b3541e
    l  placeName
"""
import os
import re
from typing import Any

from .attributes import Attributes, pairs_of, written
from .changes import one_line
from .files import put_file, read
from pvtag.document import Told
from pvtag.program import Trouble

NAME = "tags.txt"
LINE = re.compile(r"""(\S)\s+(\S+)((?:\s+[^\s=#]+\s*=\s*(?:"[^"<]*"|'[^'<]*'))*)(?:\s+(#[0-9a-fA-F]{6}|#[0-9a-fA-F]{3}))?""")
COLOUR = re.compile(r"(#[0-9a-fA-F]{6}|#[0-9a-fA-F]{3})?")
# So much is read of it at most, in bytes.
LONGEST = 1 << 18


class Palette:
    def __init__(self, dtd: str, attributes: Attributes) -> None:
        self.path, self.dtd, self.attributes = os.path.join(os.path.dirname(os.path.abspath(dtd)), NAME), dtd, attributes

    def rows(self) -> list[Told]:
        """Its tags; a line that is none is told."""
        text = self.text()
        rows = list[Told]()
        for number, line in enumerate(text.splitlines(), 1):
            if not is_tag(line):
                continue
            found = LINE.fullmatch(line.strip())
            if found is None:
                raise Trouble(f"{NAME}, line {number}: a key, a name, attributes and a colour are expected, as `a persName key=\"adams\" #b3541e`")
            rows.append({"key": found[1], "name": found[2], "pairs": pairs_of(found[3]), "colour": found[4] or ""})
        twice = twice_in([row["key"] for row in rows])
        if twice:
            raise Trouble(f"{NAME}: the key {twice} stands for two tags")
        return rows

    def text(self) -> str:
        data = read(self.path) or b""
        if len(data) > LONGEST:
            raise Trouble(f"{NAME} is too long to be a palette")
        try:
            return data.decode("utf-8-sig")
        except UnicodeDecodeError:
            raise Trouble(f"{NAME} isn't UTF-8") from None

    def told(self, _: Any = None) -> Told:
        return {"palette": self.rows()}

    def put(self, ask: Any) -> Told:
        """Writes these tags to the file, under the notes that it begins with."""
        rows: list[Told] = [{**row, "pairs": [(str(name), str(value)) for name, value in row["pairs"]]} for row in ask["palette"]]
        for row in rows:
            self.check(row)
        twice = twice_in([row["key"] for row in rows])
        if twice:
            raise Trouble(f"the key {twice} stands for two tags")
        lines = self.text().splitlines()
        notes = lines[:next((at for at, line in enumerate(lines) if is_tag(line)), len(lines))] or ["# key  name  attributes  colour"]
        tags = [f"{row['key']}  {row['name']}{one_line(written(row['pairs']))}{'  ' if row['colour'] else ''}{row['colour']}" for row in rows]
        put_file(self.path, "".join(f"{line}\n" for line in [*notes, *tags]).encode(), self.path if os.path.exists(self.path) else self.dtd)
        return {"palette": self.rows()}

    def check(self, row: Any) -> None:
        if len(row["key"]) != 1 or row["key"].isspace() or row["key"] == "#":
            raise Trouble("a key is one character")
        if not row["name"] or re.search(r"""[\s<>&"'=/]""", row["name"]):
            raise Trouble(f"{row['name'] or 'nothing'} is no name of an element")
        if not COLOUR.fullmatch(row["colour"]):
            raise Trouble(f"a colour is written as #b3541e, and not as {row['colour']}")
        self.attributes.check(row["pairs"])


def is_tag(line: str) -> bool:
    """Whether a line isn't empty, or a note."""
    return bool(line.strip()) and not line.lstrip().startswith("# ") and line.strip() != "#"


def twice_in(keys: list[str]) -> str:
    return next((key for at, key in enumerate(keys) if key in keys[:at]), "")
