"""The other documents of a folder: which tags stand below which in them, and round which words.

They are read once, beside all else, by a parser of this language; one that it can't read is left out. No entity is
followed, and so much is read at most.
"""
import os
import stat
import threading
from collections import Counter
from xml.parsers import expat

# So many documents are read at most, and so many bytes in all.
DOCUMENTS, BYTES = 400, 1 << 25
# Words that a tag goes round are at most so long.
LONGEST = 80

# A tag: its name, and its attributes as they were given.
Tag = tuple[str, tuple[tuple[str, str], ...]]


class Neighbours:
    def __init__(self, doc: str, root: str) -> None:
        self.doc, self.root = os.path.abspath(doc), root
        # How often each name stands below each, and how often each text stands in each tag.
        self.below: Counter[tuple[str, str]] = Counter()
        self.tagged: dict[str, Counter[Tag]] = {}
        # How often each attribute of an element has each value.
        self.values: Counter[tuple[str, str, str]] = Counter()
        self.count = 0
        self.read = threading.Thread(target=self.look, daemon=True)
        self.read.start()

    def look(self) -> None:
        left = BYTES
        for path in others(self.doc)[:DOCUMENTS]:
            try:
                with open(path, "rb") as file:
                    data = file.read(left + 1)
                left -= len(data)
                if left < 0:
                    return
                found = Reader(self.root).of(data)
            except (OSError, ValueError, expat.ExpatError, Other):
                continue
            below, values = self.below + found.below, self.values + found.values
            for text, tag in found.tagged:
                self.tagged.setdefault(text, Counter())[tag] += 1
            self.below, self.values, self.count = below, values, self.count + 1

    def values_of(self, name: str, attribute: str) -> list[str]:
        """The values of an attribute, of elements of this name first; the most frequent first."""
        rows = [(other != name, -count, value) for (other, each, value), count in self.values.items() if each == attribute]
        return [value for *_, value in sorted(rows)]


def others(doc: str) -> list[str]:
    """The other files beside a document that have its ending, in order of their names; regular ones alone."""
    folder, name = os.path.split(doc)
    ending = os.path.splitext(name)[1]
    try:
        names = sorted(each for each in os.listdir(folder) if each != name and os.path.splitext(each)[1] == ending)
    except OSError:
        return []
    paths = (os.path.join(folder, each) for each in names)
    return [path for path in paths if is_plain(path)]


def is_plain(path: str) -> bool:
    try:
        return stat.S_ISREG(os.stat(path).st_mode)
    except OSError:
        return False


class Other(Exception):
    """A document of another kind."""


class Reader:
    """What one document has, whose root has this name; another one raises `Other`."""

    def __init__(self, root: str) -> None:
        self.root = root
        self.below: Counter[tuple[str, str]] = Counter()
        self.tagged: list[tuple[str, Tag]] = []
        self.values: Counter[tuple[str, str, str]] = Counter()
        # The elements round a place: the tag, and its text as long as it holds no tag.
        self.open: list[tuple[Tag, list[str] | None]] = []
        self.parser = expat.ParserCreate()
        self.parser.buffer_text = True
        self.parser.ordered_attributes = True
        self.parser.StartElementHandler = self.start
        self.parser.EndElementHandler = self.end
        self.parser.CharacterDataHandler = self.text
        # With it a reference to an entity is told, and not followed.
        self.parser.DefaultHandler = self.other

    def of(self, data: bytes) -> "Reader":
        self.parser.Parse(data, True)
        return self

    def start(self, name: str, attributes: list[str]) -> None:
        if not self.open and name != self.root:
            raise Other
        if self.open:
            tag, _ = self.open[-1]
            self.open[-1] = tag, None
            self.below[tag[0], name] += 1
        pairs = tuple(zip(attributes[::2], attributes[1::2]))
        self.open.append(((name, pairs), []))
        self.values.update((name, key, value) for key, value in pairs)

    def end(self, _: str) -> None:
        tag, text = self.open.pop()
        words = "".join(text or ())
        if self.open and words.strip() and len(words) <= LONGEST:
            self.tagged.append((words, tag))

    def text(self, text: str) -> None:
        if self.open and self.open[-1][1] is not None:
            self.open[-1][1].append(text)

    def other(self, data: str) -> None:
        """A reference to an entity: what stands there isn't known."""
        if self.open and data.startswith("&"):
            self.open[-1] = self.open[-1][0], None
