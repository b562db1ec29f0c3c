"""Attributes, by libxml2: what a DTD declares, and what is wrong with those of a document.

What the program proves is about elements and texts; attributes are libxml2's part, which a process of its own asks
(`libxml`), under the first Python that has `lxml`: this one, or the machine's. Where none has it, `why_not` says so, and
nothing is said of attributes: whoever says "valid" says that too.

    with Attributes(dtd) as attributes:
        attributes.why_not                    # a sentence, or "" where attributes can be looked at
        attributes.of("hi")                   # what is declared for an element, required ones first
        checked = attributes.check(masked)    # the faults of a document, each with its bytes and a sentence

What libxml2 finds decides; names, places and sentences are made here. One thread or several may ask.
"""
import contextlib
import functools
import json
import os
import re
import subprocess
import sys
import threading
from collections.abc import Iterator, Mapping, Sequence
from typing import Any, NamedTuple

from .masks import BLANK, Masked, mask
from .places import BOM, Span, document_items
from .program import RUNNING, Running, Stopped, Trouble, is_ready, run

# What other tools may use; each has an example.
__all__ = ("Attributes", "Attribute", "AttributeFault", "Checked")

WORKER = os.path.join(os.path.dirname(os.path.abspath(__file__)), "libxml.py")
PYTHONS = (sys.executable, "/usr/bin/python3")
MISSING = "lxml is missing for Python (Debian: the package python3-lxml)"
# A tag with an attribute, or what looks like one.
WITH_ATTRIBUTE = re.compile(rb"<[^\s<>/!?=]+\s[^<>]*=")
# The names of elements with required attributes come to so many characters at most, where they are looked for without libxml2.
MOST_NAMES = 4_096
WITH_PREFIX = re.compile(rb"<[^\s<>/!?=:]*:")
PLAIN_FRONT = re.compile(rb"""(?:\xef\xbb\xbf)?(?:<\?xml\s+version\s*=\s*["']1\.0["'](?:\s+encoding\s*=\s*["'][Uu][Tt][Ff]-8["'])?\s*\?>|(?!<\?xml\s))""")
# Says by its status whether a Python has lxml.
HAS_LXML = "try:\n import lxml.etree\nexcept ImportError:\n raise SystemExit(1)"
# The status of `libxml` where lxml is missing.
NO_LXML = 9
# A document takes no longer; a little more than `libxml` gives itself.
SECONDS = 65.0


class Attribute(NamedTuple):
    """A declared attribute. `type` is as the DTD writes it, "CDATA", "ID", "NMTOKEN" and so on, "NOTATION", or "" where
    its `values` are listed; `need` is "required", "implied", "fixed" or "default"; `value` is the default or fixed one.

    >>> one = Attribute("rend", "", ("it", "bf"), "required", None)
    >>> one.is_required, one.declared, one.meaning
    (True, '(it | bf) #REQUIRED', '`it` or `bf`')
    """

    name: str
    type: str
    values: tuple[str, ...]
    need: str
    value: str | None

    @property
    def is_required(self) -> bool:
        return self.need == "required"

    @property
    def only(self) -> str | None:
        """The value that a new element is given: the default or fixed one, or the one that is listed; none otherwise."""
        return self.value if self.value is not None else self.values[0] if len(self.values) == 1 else None

    @property
    def declared(self) -> str:
        """As the DTD declares it, without its name."""
        listed = f"({' | '.join(self.values)})" if self.values else ""
        kind = " ".join(filter(None, (self.type, listed)))
        return f"{kind} {WORDS[self.need]}".strip() + (f' "{self.value}"' if self.value is not None else "")

    @property
    def meaning(self) -> str:
        """What a value must be, in words."""
        if self.need == "fixed":
            return f"`{self.value}`, fixed by the DTD"
        if self.values:
            return listed_in_words(self.values)
        return MEANINGS.get(self.type, "any text")


WORDS = {"required": "#REQUIRED", "implied": "#IMPLIED", "fixed": "#FIXED", "default": ""}
MEANINGS = {
    "CDATA": "any text",
    "ID": "a name that no other element of the document has as its ID",
    "IDREF": "the ID of an element of the document",
    "IDREFS": "IDs of elements of the document, with blanks between them",
    "NMTOKEN": "a token: letters, digits and `.`, `-`, `_`, `:`, no blanks",
    "NMTOKENS": "tokens of letters, digits and `.`, `-`, `_`, `:`, with blanks between them",
    "ENTITY": "the name of an unparsed entity that the DTD declares",
    "ENTITIES": "names of unparsed entities that the DTD declares, with blanks between them",
    "NOTATION": "the name of a notation that the DTD declares",
}


def listed_in_words(values: Sequence[str], most: int = 12) -> str:
    """Listed values for a sentence, not all of many."""
    shown = [f"`{value}`" for value in values[:most]]
    if len(values) > most:
        return f"one of {', '.join(shown)} and {len(values) - most} more"
    return shown[0] if len(shown) == 1 else f"{', '.join(shown[:-1])} or {shown[-1]}"


class AttributeFault(NamedTuple):
    """A fault of an attribute: "missing", "unknown", "value" (not one of those that are listed, or fixed), "type", "blanks"
    (round a value; XML reads over them, not every validator does), "id" (twice), "idref" (no such ID), "entity",
    "notation", "twice" (in one tag), "prefix" (bound to nothing) or "unseen" (it refers to an entity whose text isn't
    known, so that its value isn't).

    `number` is the element's, in document order from 0; `span` the attribute in the document as it is written, or the name
    of the tag that lacks it.

    >>> with Attributes(b"<!ELEMENT p ANY><!ATTLIST p n (a|b) #REQUIRED>") as attributes:
    ...     attributes.check(b"<p n='c'/>").faults[0].sentence
    '`n` of `p` is `c`; it must be `a` or `b`'
    """

    kind: str
    number: int | None
    element: str
    attribute: str
    value: str | None
    span: Span | None
    sentence: str


class Checked(NamedTuple):
    """What was found of a document's attributes: faults in the order of their places, and whether there are more; or why
    they weren't looked at, a sentence, which is "" where they were.

    >>> with Attributes(b"<!ELEMENT p ANY><!ATTLIST p n ID #REQUIRED>") as attributes:
    ...     attributes.check(b"<p/>").sentence
    '1 attribute missing'
    """

    faults: list[AttributeFault]
    has_more: bool = False
    why_not: str = ""

    @property
    def are_valid(self) -> bool:
        """Whether they were looked at, and nothing was found."""
        return not self.faults and not self.why_not

    @property
    def sentence(self) -> str:
        """What this comes to, in a few words."""
        if self.why_not:
            return f"attributes weren't looked at: {self.why_not}"
        return told_in_words(self.faults, self.has_more) or "attributes valid"


def told_in_words(faults: Sequence[AttributeFault], has_more: bool = False) -> str:
    """How many there are: "4 attributes missing, 1 wrong"; "" where there are none."""
    missing = sum(fault.kind == "missing" for fault in faults)
    wrong = len(faults) - missing
    least = "at least " if has_more else ""
    noun = "attribute" if (missing or wrong) == 1 else "attributes"
    if missing:
        return f"{least}{missing} {noun} missing" + (f", {wrong} wrong" if wrong else "")
    return f"{least}{wrong} {noun} wrong" if wrong else ""


def pythons() -> list[str]:
    """The Pythons that may have lxml. Of this one it is known without running it where it has none."""
    from importlib.util import find_spec
    found = [python for python in dict.fromkeys(PYTHONS) if python and os.access(python, os.X_OK)]
    return [python for python in found if python != sys.executable or find_spec("lxml") is not None] or found


@functools.lru_cache(maxsize=1)
def python_with_lxml() -> str | None:
    """A Python that has lxml, if there is one."""
    for python in pythons():
        with contextlib.suppress(Trouble):
            if run([python], "-c", HAS_LXML, most=60.0).status == 0:
                return python
    return None


class Ended(Exception):
    """The process gives no answer: it took too long, or ended."""


class NoLxml(Ended):
    """The Python that it runs under has no lxml."""


class Asking:
    """One process that knows a DTD."""

    def __init__(self, python: str, dtd: bytes, runs: Running) -> None:
        self.runs = runs
        self.process = runs.begin([python, WORKER], ())
        self.told = self.ask("dtd", dtd)

    def ask(self, do: str, data: bytes, subset: bytes = b"") -> dict[str, Any]:
        assert self.process.stdin is not None and self.process.stdout is not None
        ready = True
        try:
            self.process.stdin.write(json.dumps({"do": do, "size": len(data), "subset": len(subset)}).encode() + b"\n" + data + subset)
            self.process.stdin.flush()
            ready = is_ready(self.process.stdout, SECONDS)
            line = self.process.stdout.readline() if ready else b""
        except OSError:
            line = b""
        if not line.endswith(b"\n"):
            with contextlib.suppress(subprocess.TimeoutExpired):
                self.process.wait(1 if ready else 0)
            self.end()
            if self.runs.stopped:
                raise Stopped
            raise NoLxml if self.process.returncode == NO_LXML else Ended
        answer: dict[str, Any] = json.loads(line)
        return answer

    def end(self) -> None:
        self.process.kill()
        for pipe in (self.process.stdin, self.process.stdout):
            with contextlib.suppress(OSError):
                assert pipe is not None
                pipe.close()
        self.process.wait()
        with self.runs.lock:
            self.runs.runs.discard(self.process)


def begun(dtd: bytes, runs: Running) -> Asking:
    """A process under the first Python that has lxml."""
    for python in pythons():
        with contextlib.suppress(NoLxml, Trouble):
            return Asking(python, dtd, runs)
    raise Trouble(MISSING)


class Attributes:
    """The attributes of a DTD. Processes begin at the first need, and end with `close`.

    >>> with Attributes(b"<!ELEMENT p ANY><!ATTLIST p n ID #REQUIRED>") as attributes:
    ...     attributes.check(b"<p n='a'/>").are_valid
    ...     [one.name for one in attributes.of("p")]
    True
    ['n']
    """

    def __init__(self, dtd: bytes, runs: Running = RUNNING) -> None:
        self.dtd, self.runs = dtd, runs
        self.lock, self.idle = threading.Lock(), list[Asking]()
        # What is known of the DTD. Of `functools.cached_property` the lock would be one for all DTDs.
        self.reading, self.known, self.rows = threading.Lock(), dict[str, Any](), dict[str, tuple[Attribute, ...]]()
        self.trying, self.tags = threading.Lock(), list[re.Pattern[bytes] | None]()

    def __enter__(self) -> "Attributes":
        return self

    def __exit__(self, *_: object) -> None:
        self.close()

    def close(self) -> None:
        """Ends what was begun."""
        with self.lock:
            idle, self.idle = self.idle, []
        for each in idle:
            each.end()

    @contextlib.contextmanager
    def asking(self) -> Iterator[Asking]:
        """A process that nobody else asks meanwhile."""
        with self.lock:
            one = self.idle.pop() if self.idle else None
        one = one or begun(self.dtd, self.runs)
        yield one
        with self.lock:
            self.idle.append(one)

    # ---- what is declared ----

    @functools.cached_property
    def declares_any(self) -> bool:
        """Whether the DTD may declare an attribute at all: where its text doesn't, nobody has to be asked."""
        return b"ATTLIST" in self.dtd or b"<!ENTITY" in self.dtd

    @property
    def told(self) -> dict[str, Any]:
        """What is known of the DTD: "declared", or the "fault" why nothing is."""
        with self.reading:
            if not self.known:
                self.known = self.asked()
            return self.known

    def asked(self) -> dict[str, Any]:
        """What libxml2 tells of the DTD."""
        try:
            with self.asking() as one:
                return one.told
        except Trouble as trouble:
            return {"fault": str(trouble)}
        except Ended:
            return {"fault": "reading the DTD takes libxml2 too long, or too much memory"}

    @property
    def why_not(self) -> str:
        """Why attributes can't be looked at, a sentence; "" where they can."""
        return str(self.told.get("fault", ""))

    @property
    def declared(self) -> Mapping[str, tuple[Attribute, ...]]:
        """The attributes of each declared element, required ones first; none where they can't be looked at."""
        found: dict[str, Sequence[Sequence[Any]]] = self.told.get("declared", {})
        with self.reading:
            if not self.rows:
                self.rows = {name: tuple(sorted(map(attribute_of, rows), key=lambda it: not it.is_required)) for name, rows in found.items()}
            return self.rows

    def of(self, element: str) -> tuple[Attribute, ...]:
        """The attributes of an element, required ones first."""
        return self.declared.get(element, ())

    def one(self, element: str, name: str) -> Attribute | None:
        """A declared attribute of an element."""
        return next((each for each in self.of(element) if each.name == name), None)

    def nearest(self, element: str, name: str) -> str | None:
        """The declared attribute whose name is most like this one: the same after another prefix first."""
        from difflib import get_close_matches
        names = [each.name for each in self.of(element)]
        return same_behind_prefix(name, names) or next(iter(get_close_matches(name, names, 1)), None)

    # ---- a document ----

    def check(self, document: bytes | Masked) -> Checked:
        """What is wrong with the attributes of a document that the program reads, as it is written or masked. What its internal
        subset declares of attributes, notations and unparsed entities counts, and before the DTD, as in XML."""
        masked = document if isinstance(document, Masked) else mask(document, self.dtd)
        subset = masked.declarations
        if not self.declares_any and not subset.strip() and not has_attributes(masked.data):
            return Checked([])
        if self.why_not:
            return Checked([], why_not=self.why_not)
        try:
            with self.asking() as one:
                answer = one.ask("faults", blanked(masked.spelled()), subset)
        except Ended:
            return Checked([], why_not="they take libxml2 too long, or too much memory")
        except Trouble as trouble:
            return Checked([], why_not=str(trouble))
        if "fault" in answer:
            return Checked([], why_not=answer["fault"])
        return Checked(self.placed(masked, answer["faults"]), bool(answer["cut"]))

    def placed(self, masked: Masked, found: Sequence[tuple[int | None, str, str]]) -> list[AttributeFault]:
        """What libxml2 finds in a document, with places and sentences."""
        if not found and not masked.unknown:
            return []
        from .attribute_faults import Placing
        return Placing(self, masked).faults(found)

    def are_none(self, data: bytes) -> bool:
        """Whether it is known without libxml2 that nothing is wrong with the attributes of a document, without subset and entities: it has none, nor
        an element with a required one, nor a prefix."""
        if has_attributes(data):
            return False
        if not self.declares_any:
            return True
        tag = self.tag_with_required
        return tag is not None and tag.search(data) is None and not has_prefixes(data) and has_plain_front(data)

    @property
    def tag_with_required(self) -> re.Pattern[bytes] | None:
        """A tag of an element with a required attribute; none where something is wrong with each document, where there are too many such elements, or
        where attributes can't be looked at."""
        with self.trying:
            if not self.tags:
                self.tags.append(self.read_tags())
            return self.tags[0]

    def read_tags(self) -> re.Pattern[bytes] | None:
        """That pattern, by what libxml2 tells of the DTD."""
        found: dict[str, Sequence[Sequence[Any]]] = self.told.get("declared", {})
        names = [name for name, rows in found.items() if any(need == "required" for _, _, need, _, _ in rows)]
        free = next((name for name in found if name not in names and ":" not in name), None)
        if self.why_not or free is None or sum(map(len, names)) > MOST_NAMES:
            return None
        # The DTD's own faults, as of a default value, are found with each document.
        first = self.check(f"<{free}/>".encode())
        return re.compile(b"<(?:%b)" % one_of(names)) if first.are_valid else None


def has_attributes(data: bytes) -> bool:
    """Whether a tag of a document may have an attribute."""
    return b"=" in data and WITH_ATTRIBUTE.search(data) is not None


def has_prefixes(data: bytes) -> bool:
    """Whether the name of an element may have a prefix."""
    return b":" in data and WITH_PREFIX.search(data) is not None


def has_plain_front(data: bytes) -> bool:
    """Whether a document has no XML declaration, or one that says nothing but what is so without it."""
    return not data.startswith((b"<?xml ", b"<?xml\t", b"<?xml\r", b"<?xml\n", BOM)) or PLAIN_FRONT.match(data) is not None


def one_of(names: Sequence[str], most: int = 8) -> bytes:
    """A pattern of a tag's name, one of these, up to what follows it. What they begin with alike is looked at once, of so many characters."""
    if len(names) < 2 or not most:
        return b"|".join(re.escape(name).encode() + rb"[\s/>]" for name in names) or b"(?!)"
    behind = dict[str, list[str]]()
    for name in names:
        behind.setdefault(name[:1], []).append(name[1:])
    return b"|".join(re.escape(first).encode() + b"(?:%b)" % one_of(rest, most - 1 if first else 0) for first, rest in behind.items())


def attribute_of(row: Sequence[Any]) -> Attribute:
    name, kind, need, value, values = row
    word = "" if kind == "enumeration" else kind.upper()
    return Attribute(name, word, tuple(values), "default" if need == "none" else need, value)


def same_behind_prefix(name: str, names: Sequence[str]) -> str | None:
    """The name that differs in its prefix alone."""
    local = name.rpartition(":")[2]
    return next((each for each in names if each != name and each.rpartition(":")[2] == local), None)


DOCTYPE = re.compile(rb"""<!DOCTYPE(?:[^>"'\[]|"[^"]*"|'[^']*')*>""")


def blanked(data: bytes) -> bytes:
    """A document without its document type declaration."""
    for item in document_items(data):
        if item.kind == "doctype":
            return data[:item.start] + data[item.start:item.end].translate(BLANK) + data[item.end:]
        if item.kind in ("start", "empty", "text") and data[item.start:item.end].strip():
            break
    return data
