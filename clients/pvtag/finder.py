"""Which DTD and which root a document names, and that DTD as one plain file.

    named, root = names_in(data, folder)     # by `<?pvtag dtd="letter.dtd" root="letter"?>`, then by the DOCTYPE
    plain = Finder(program).plain(named)     # found in the folder or by catalogs, made plain where it is in modules
"""
import os
import re
import shutil
import sys
import threading
from typing import NamedTuple

from .memory import MemoryFile
from .places import BOM, Source
from .program import TOP, Answer, Stopped, Trouble, is_utf_8, read_file, run, run_tool, seen_of, shown_name

# What other tools may use; each has an example.
__all__ = ("Named", "Plain", "names_in", "Finder")

FLATTEN = os.path.join(TOP, "tools", "flatten")
NAME = rb"[:A-Z_a-z\x80-\xff][-.0-9:A-Z_a-z\x80-\xff]*"
LITERAL = rb"\"[^\"]*\"|'[^']*'"
# What may stand before the first element, and its name.
FRONT = re.compile(rb"\s+|(?P<instruction><\?(?s:.*?)\?>)|<!--(?s:.*?)-->"
                   rb"|(?P<doctype><!DOCTYPE(?>(?:[^<>\"'\[]|" + LITERAL + rb")*)(?:\[(?s:.*?)\]\s*)?>)|<(?P<element>" + NAME + rb")")
DOCTYPE = re.compile(rb"<!DOCTYPE\s+(?P<name>" + NAME + rb")(?:\s+SYSTEM\s+(?P<system>" + LITERAL
                     + rb")|\s+PUBLIC\s+(?P<public>" + LITERAL + rb")\s+(?P<address>" + LITERAL + rb"))?")
INSTRUCTION = re.compile(rb"<\?pvtag\s+(.*?)\s*\?>\Z", re.S)
PART = re.compile(rb"(dtd|root)\s*=\s*(" + LITERAL + rb")")
# What the program doesn't read of XML, and `tools/flatten` does.
MODULES = re.compile(r"dtd param (conditional|external)|dtd parameter \d")


class Named(NamedTuple):
    """What names a DTD: a path or an address, with the public identifier where there is one, and the folder that it
    counts from.

    >>> Named("letter.dtd", "", "examples").file
    'examples/letter.dtd'
    >>> Named("http://example.org/a.dtd", "-//a", ".").file is None
    True
    """

    system: str
    public: str
    folder: str

    @property
    def file(self) -> str | None:
        """The path, where it is none of an address."""
        from urllib.parse import unquote
        scheme, _, rest = self.system.partition(":")
        if scheme == "file":
            return unquote(rest[2:] if rest.startswith("//") else rest)
        if "://" in self.system or scheme == "urn":
            return None
        plain, told = (os.path.join(self.folder, path) for path in (self.system, unquote(self.system)))
        return plain if os.path.exists(plain) else told


class Plain(NamedTuple):
    """A plain DTD: the path by which the program reads it, and the name by which people know it. What is held is there
    for as long as this is.

    >>> from pvtag.program import find
    >>> Finder(find()).plain(Named("letter.dtd", "", "examples"))
    Plain(path='examples/letter.dtd', name='examples/letter.dtd', held=None)
    """

    path: str
    name: str
    held: MemoryFile | None = None


class Told(NamedTuple):
    """What `dtd` answers for a file, and which file that was."""

    seen: tuple[int, ...] | None
    answer: Answer


class Making:
    """A DTD that one thread makes plain, for which others wait: what it comes to, or why there is none."""

    def __init__(self) -> None:
        self.is_over, self.plain, self.fault = threading.Event(), Plain("", ""), Exception()
        self.has_failed = False

    def fails(self, fault: Exception) -> None:
        self.fault, self.has_failed = fault, True

    def told(self) -> Plain:
        self.is_over.wait()
        if self.has_failed:
            raise self.fault.with_traceback(None)
        return self.plain


def unquoted(literal: bytes | None) -> str:
    return os.fsdecode(literal[1:-1]) if literal else ""


def names_in(data: bytes, folder: str) -> tuple[Named | None, str]:
    """The DTD that a document in a folder names, none where it names none, and its root.

    >>> names_in(b'<!DOCTYPE letter SYSTEM "letter.dtd"><letter/>', "examples")
    (Named(system='letter.dtd', public='', folder='examples'), 'letter')
    >>> names_in(b"<letter/>", "examples")
    (None, 'letter')
    """
    told, doctype, first = dict[str, str](), None, ""
    at = len(BOM) if data.startswith(BOM) else 0
    while (item := FRONT.match(data, at)) is not None:
        at = item.end()
        if item["element"]:
            first = item["element"].decode(errors="replace")
            break
        if item["instruction"] and (found := INSTRUCTION.match(item[0])):
            told |= {part[1].decode(): unquoted(part[2]) for part in PART.finditer(found[1])}
        if item["doctype"]:
            doctype = doctype or DOCTYPE.match(item[0])
    root = told.get("root") or (doctype["name"].decode(errors="replace") if doctype else first)
    if told.get("dtd"):
        return Named(told["dtd"], "", folder), root
    if doctype and (doctype["system"] or doctype["address"]):
        return Named(unquoted(doctype["system"] or doctype["address"]), unquoted(doctype["public"]), folder), root
    return None, root


def flatten() -> str:
    """The tool that makes a DTD plain: that of the repository or the package, or on the path."""
    return FLATTEN if os.path.isfile(FLATTEN) else shutil.which("pvtag-flatten") or FLATTEN


class Finder:
    """Finds DTDs, each once: one in modules is made plain, and kept in memory. Several threads may ask at once.

    >>> from pvtag.program import find
    >>> Finder(find()).plain(Named("letter.dtd", "", "examples")).name
    'examples/letter.dtd'
    >>> Finder(find()).plain(Named("none.dtd", "", "examples"))
    Traceback (most recent call last):
        ...
    pvtag.program.Trouble: examples/none.dtd: there is no such DTD
    """

    def __init__(self, program: list[str]) -> None:
        self.program, self.lock = program, threading.Lock()
        self.known: dict[object, Making] = {}
        # What `dtd` answers for the files that are plain as they are.
        self.answers: dict[str, Told] = {}

    def plain(self, named: Named) -> Plain:
        """The DTD as a plain file, or a trouble that says why there is none."""
        file = named.file
        is_there = file is not None and os.path.isfile(file)
        key = os.path.realpath(file) if file is not None and is_there else named
        with self.lock:
            making = self.known.get(key)
            is_new = making is None
            if making is None:
                making = self.known[key] = Making()
        if is_new:
            try:
                making.plain = self.read(file) if file is not None and is_there else self.by_catalog(named)
            except (Trouble, Stopped) as fault:
                making.fails(fault)
            except Exception as fault:  # pylint: disable=broad-except
                making.fails(Trouble(f"{named.system}: {fault}"))
            except BaseException:
                making.fails(Stopped())
                raise
            finally:
                making.is_over.set()
        return making.told()

    def read(self, file: str) -> Plain:
        """A DTD's file, made plain where it needs to be."""
        name, seen = shown_name(file), seen_of(file)
        data = read_file(file)
        # The program takes no words that aren't UTF-8.
        held = None if is_utf_8(file) else MemoryFile(data)
        path = held.path if held is not None else file
        answer = run(self.program, "dtd", path)
        if answer.status == 0:
            self.answers[path] = Told(seen, answer)
            return Plain(path, name, held)
        if MODULES.match(answer.line):
            return self.flattened(file, name)
        from .faults import Refusal, fault_of
        raise Refusal(fault_of(answer.status, answer.line, {"dtd": Source(name, data)}))

    def by_catalog(self, named: Named) -> Plain:
        """A DTD that the catalogs of this machine know by its address or its public identifier."""
        if named.file is not None and not named.public:
            raise Trouble(f"{shown_name(named.file)}: there is no such DTD")
        from urllib.parse import quote
        from xml.sax.saxutils import quoteattr
        system = named.system if named.file is None else f"file://{quote(os.fsencode(named.file))}"
        identifier = f"PUBLIC {quoteattr(named.public)} {quoteattr(system)}" if named.public else f"SYSTEM {quoteattr(system)}"
        whole = MemoryFile(os.fsencode(f"<!ENTITY % all {identifier}>\n%all;\n"))
        try:
            return self.flattened(whole.path, shown_name(named.system))
        finally:
            whole.close()

    def flattened(self, path: str, name: str) -> Plain:
        """What `tools/flatten` makes of a DTD, in memory."""
        said = ""
        for python in dict.fromkeys((sys.executable, "/usr/bin/python3")):
            try:
                ran = run_tool(python, flatten(), path)
            except OSError:
                continue
            if ran.status == 0:
                held = MemoryFile(ran.output)
                return Plain(held.path, name, held)
            said = said if ran.status == 2 and said else ran.errors.decode(errors="replace")
        lines = [line.removeprefix("flatten: ").replace(shown_name(path), name) for line in said.splitlines()]
        raise Trouble(f"{name}: the DTD can't be made plain: " + "; ".join(lines[:3]))
