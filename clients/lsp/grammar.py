"""Which DTD and which root a document has, and that DTD as one plain file."""
import contextlib
import fnmatch
import functools
import hashlib
import os
import re
import subprocess
import sys
import threading
import time
import urllib.parse
import weakref
from collections.abc import Callable, Iterator, Mapping, Sequence
from concurrent.futures import Future
from concurrent.futures import TimeoutError as FutureTimeout
from dataclasses import dataclass
from typing import Any, NamedTuple
from xml.sax.saxutils import quoteattr

from . import memory
from .nodes import LITERAL, NAME
from pvtag import program as programs
from pvtag.attributes import Attributes, pythons
from pvtag.costs import Known
from pvtag.dtd import Dtd
from pvtag.faults import Refusal, fault_of
from pvtag.filling import given_to, lacking_of, text_of
from pvtag.places import Source
from pvtag.program import RUNNING, TOP, Answer, Running, Stopped, Trouble, run
from pvtag.reasons import Reason, Reasons
from pvtag.tries import Kid
from .reading import front

FLATTEN = os.path.join(TOP, "tools", "flatten")
DOCTYPE = re.compile(
    rb"<!DOCTYPE\s+(?P<name>" + NAME + rb")"
    rb"(?:\s+SYSTEM\s+(?P<system>"
    + LITERAL
    + rb")|\s+PUBLIC\s+(?P<public>"
    + LITERAL
    + rb")\s+(?P<address>"
    + LITERAL
    + rb"))?"
)
COMMENT = re.compile(rb"<!--(?s:.*?)-->")
MODULE = re.compile(rb"<!ENTITY\s+%\s+\S+\s+(?:SYSTEM|PUBLIC\s+(" + LITERAL + rb"))\s+(" + LITERAL + rb")")
# So many files of a DTD are looked into.
MOST_FILES = 100
INSTRUCTION = re.compile(rb"<\?pvtag\s+(.*?)\s*\?>\Z", re.S)
MODEL = re.compile(rb"<\?xml-model\s+(.*?)\s*\?>\Z", re.S)
PART = re.compile(rb"(dtd|root|href|type)\s*=\s*(" + LITERAL + rb")")
# What looks like a DTD in modules.
MODULAR = re.compile(rb"<!ENTITY\s+%\s+\S+\s+(?:SYSTEM|PUBLIC)\s|<!\[")
# What the program doesn't read of XML, and `tools/flatten` does.
MODULES = re.compile(r"dtd param (conditional|external)|dtd parameter \d")

# A list: its path, its element's name, its kids; and what tells it from others, its kids as a digest: for the document
# node the name of the root too.
List = tuple[str, str, Sequence[Kid]]
Key = tuple[str, str, bytes]
MOST_KEPT = 500
# So long, in seconds, an insertion waits for what a DTD declares of attributes.
SOON = 1.0
FileKey = tuple[object, int, int]


@dataclass(frozen=True)
class Named:
    """What names a DTD: a path or an address, with the public identifier where there is one, and the folder that it
    counts from."""

    system: str
    public: str
    folder: str

    @property
    def file(self) -> str | None:
        """The path, where it is none of an address."""
        scheme, _, rest = self.system.partition(":")
        if scheme == "file":
            return urllib.parse.unquote(rest[2:] if rest.startswith("//") else rest)
        if "://" in self.system or scheme == "urn":
            return None
        plain, told = (os.path.join(self.folder, path) for path in (self.system, urllib.parse.unquote(self.system)))
        return plain if os.path.exists(plain) else told


class Plain(NamedTuple):
    """The program, and the path of a plain DTD for it. One in memory is there for as long as this is held."""

    program: list[str]
    path: str
    held: memory.MemoryFile | None = None


# Asks libxml2 what its catalogs have for each public identifier and address, two lines each.
LOCATE = """import ctypes, os, sys
os.environ.setdefault("XML_CATALOG_FILES", "file:///etc/xml/catalog")
find = ctypes.CDLL("libxml2.so.2").xmlCatalogResolve
find.restype, find.argtypes = ctypes.c_char_p, [ctypes.c_char_p] * 2
words = [line.rstrip(b"\\n") or None for line in sys.stdin.buffer]
for public, system in zip(words[::2], words[1::2]):
    sys.stdout.buffer.write((find(public, system) or b"") + b"\\n")
"""


def located(wanted: Sequence[Named]) -> list[str | None]:
    """The file of each of these: its own, or that of the catalogs of this machine."""
    files = [each.file if each.file is not None and os.path.isfile(each.file) else None for each in wanted]
    left = [at for at, file in enumerate(files) if file is None]
    if left:
        told = "".join(f"{' '.join(line.split())}\n" for at in left for line in (wanted[at].public, wanted[at].system))
        try:
            _, output, _ = ran([sys.executable, "-c", LOCATE], told.encode())
        except (OSError, Trouble):
            return files
        for at, line in zip(left, output.decode(errors="replace").splitlines(), strict=False):
            file = Named(line, "", "/").file if line else None
            files[at] = file if file is not None and os.path.isfile(file) else None
    return files


class NoDtd(Trouble):
    """No DTD is named."""


class Declared:
    """A DTD that the program reads, whatever the root. Reasons under it are kept."""

    def __init__(self, plain: Plain, answer: Answer) -> None:
        self.program, self.plain = plain.program, plain
        # The file in which it is written, where that is known.
        self.file: str | None = None if plain.held is not None else plain.path
        self.dtd = Dtd(plain.program, plain.path)
        self.dtd.types = self.dtd.types_of(answer)
        # What the DTD declares of attributes. What is asked for it ends with this.
        self.attributes = Attributes(self.dtd.data)
        weakref.finalize(self, self.attributes.close)
        self.reading: Future[Attributes] | None = None
        self.lock, self.kept = threading.Lock(), dict[Key, Reason | None]()
        self.costs = dict[tuple[bytes, str], Known]()
        self.order = {name: at for at, name in enumerate(self.dtd.types)}
        self.models: dict[str, str] = {}
        # So many texts at a time are asked about.
        self.asking = threading.BoundedSemaphore(4)

    def read_attributes(self) -> "Future[Attributes]":
        """The attributes, once libxml2 has told what is declared. It is asked once, in a thread of its own."""
        with self.lock:
            if self.reading is None:
                self.reading = Future()
                threading.Thread(target=self.ask_attributes, args=(self.attributes, self.reading), daemon=True).start()
            return self.reading

    @staticmethod
    def ask_attributes(attributes: Attributes, reading: "Future[Attributes]") -> None:
        with contextlib.suppress(Trouble, Stopped):
            attributes.declared.items()
        reading.set_result(attributes)


class NewElement(NamedTuple):
    """The attributes of a new element: those that the DTD requires and of which one value is possible, as they stand in its
    tag, and the names of those that it lacks, which somebody has to tell."""

    attributes: bytes
    lacking: tuple[str, ...]

    @property
    def sentence(self) -> str:
        """What it lacks, "" where that is nothing."""
        return f"lacks {', '.join(f'`{name}`' for name in self.lacking)}" if self.lacking else ""


NOTHING = NewElement(b"", ())


class Grammar:
    """A DTD that the program reads, and the name of the root, of which nothing is kept."""

    def __init__(self, declared: Declared, root: str) -> None:
        self.declared, self.root = declared, root
        self.program, self.dtd, self.path = declared.program, declared.dtd, declared.plain.path
        self.attributes, self.asking = declared.attributes, declared.asking
        # The time by which it has to be known what the DTD declares of attributes, once that is asked.
        self.until: float | None = None

    def new_element(self, name: str) -> "NewElement":
        """What a new element of this name is given, as far as it is known soon what the DTD declares of attributes: all names
        together wait so long."""
        if not self.attributes.declares_any:
            return NOTHING
        now = time.monotonic()
        self.until = now + SOON if self.until is None else self.until
        try:
            attributes = self.declared.read_attributes().result(max(0.0, self.until - now))
        except FutureTimeout:
            return NOTHING
        return NewElement(text_of(given_to(attributes, name)), lacking_of(attributes, name))

    def order(self) -> dict[str, int]:
        """The declared names, each with its number in the order of declaration."""
        return self.declared.order

    def model(self, name: str) -> str:
        """What a name is declared as, in one line, "" where that isn't found."""
        models = self.declared.models
        if name not in models:
            models[name] = self.dtd.model(name)
        return models[name]

    def key_of(self, each: List) -> Key:
        path, owner, kids = each
        told = b"".join([code_of(kid) for kid in kids])
        return self.root if path == "." else "", owner, hashlib.blake2b(told, digest_size=16).digest()

    def find_reasons(self, lists: Sequence[List], runs: Running = RUNNING) -> None:
        """Finds why these lists are impossible, in runs that end with these. It isn't asked twice of lists with the same
        kids. Nothing waits for it that doesn't ask for it."""
        kept, lock = self.declared.kept, self.declared.lock
        with lock:
            new = [each for each in lists if self.key_of(each) not in kept]
        found = Reasons(self.program, self.dtd, self.root, runs).of_lists(new) if new else []
        with lock:
            if len(kept) > MOST_KEPT:
                kept.clear()
            kept.update({self.key_of(each): reason for each, reason in zip(new, found, strict=True)})

    def known_reason(self, path: str, owner: str, kids: Sequence[Kid]) -> Reason | None:
        return self.declared.kept.get(self.key_of((path, owner, kids)))

    def reason(self, path: str, owner: str, kids: Sequence[Kid], runs: Running = RUNNING) -> Reason | None:
        self.find_reasons([(path, owner, kids)], runs)
        return self.known_reason(path, owner, kids)


@functools.lru_cache(maxsize=1 << 12)
def code_of(kid: Kid) -> bytes:
    """A kid in the bytes that a digest of a list is of."""
    return f"{kid.kind} {kid.name}\0".encode()


def key_of_file(named: Named) -> FileKey:
    """What tells a DTD from others, and from itself before a change of its file."""
    if named.file is not None and os.path.isfile(named.file):
        return named.file, *stamp_of(named.file)
    return named, 0, 0


def stamp_of(file: str) -> tuple[int, int]:
    """What tells a file from itself before a change; zeros where it isn't there."""
    try:
        found = os.stat(file)
    except OSError:
        return 0, 0
    return found.st_mtime_ns, found.st_size


def files_of(file: str, locate: "Callable[[Sequence[Named]], list[str | None]] | None" = None) -> Iterator[tuple[str, bytes, bytes]]:
    """The files of a DTD, their texts, and these with comments as blanks: its own, and those of the modules that are named in
    them; `locate` finds these, where not only those are wanted that are named by paths."""
    todo, seen = [file], set[str]()
    while todo and len(seen) < MOST_FILES:
        each = todo.pop(0)
        if each in seen:
            continue
        seen.add(each)
        try:
            with open(each, "rb") as opened:
                data = opened.read()
        except OSError:
            continue
        plain = COMMENT.sub(lambda it: b" " * len(it[0]), data)
        yield each, data, plain
        found = [Named(unquoted(it[2]), unquoted(it[1]), os.path.dirname(each)) for it in MODULE.finditer(plain)]
        files = locate(found) if locate is not None else [it.file for it in found]
        todo += [it for it in files if it is not None and os.path.isfile(it)]


def unquoted(literal: bytes | None) -> str:
    return literal[1:-1].decode(errors="replace") if literal else ""


def folder_of(uri: str) -> str:
    """The folder of a document, where it is a file."""
    try:
        parts = urllib.parse.urlsplit(uri)
    except ValueError:
        return os.getcwd()
    return os.path.dirname(urllib.parse.unquote(parts.path)) if parts.scheme == "file" else os.getcwd()


class Making:
    """A DTD that is being read: where it is plain, which is known first, and what the program says of it."""

    def __init__(self) -> None:
        self.plain: Future[Plain] = Future()
        self.declared: Future[Declared] = Future()
        # The files of its modules, with what tells each from itself before a change.
        self.modules: dict[str, tuple[int, int]] = {}

    @property
    def is_old(self) -> bool:
        """Whether a module has changed."""
        return any(stamp_of(file) != stamp for file, stamp in self.modules.items())

    def fail(self, fault: Trouble) -> None:
        if not self.plain.done():
            self.plain.set_exception(fault)
        self.declared.set_exception(fault)


class Finder:
    """Finds grammars. Each DTD is read once, in a thread of its own, and made plain there where it is in modules; it is
    kept in memory until its file changes or `forget` is called. The lock is held for look-ups alone."""

    def __init__(self, program: list[str], options: Mapping[str, Any], folder: str | None) -> None:
        self.program, self.folder = program, folder
        self.options = {key: value for key in ("dtd", "root") if isinstance(value := options.get(key), str) and value}
        told = options.get("associations")
        self.associations = [each for each in told if isinstance(each, dict)] if isinstance(told, list) else []
        self.lock = threading.Lock()
        self.made: dict[FileKey, Making] = {}

    def forget(self) -> None:
        """Looks at all files anew. What is in memory stays there for those that use it, and no longer."""
        with self.lock:
            self.made.clear()

    def making(self, uri: str, data: bytes) -> tuple[Making, str]:
        """The DTD of a document, which is read once, and the root."""
        named, root = self.named(uri, *front(data))
        key = key_of_file(named)
        with self.lock:
            making = self.made.get(key)
        # Files aren't looked at under the lock.
        old = making if making is not None and making.is_old else None
        with self.lock:
            making = self.made.get(key)
            if making is None or making is old:
                # Of a file that has changed nothing is kept.
                self.made = {each: it for each, it in self.made.items() if each[0] != key[0]}
                making = self.made[key] = Making()
                threading.Thread(target=self.make, args=(making, named), daemon=True).start()
        return making, root

    def plain(self, uri: str, data: bytes, wait: Callable[[Future[Any]], object]) -> tuple[Plain, str]:
        """Where the DTD of a document is plain, and the root, before it is known what it declares. `wait` waits for a DTD that
        is read."""
        making, root = self.making(uri, data)
        return waited(making.plain, wait), root

    def grammar(self, uri: str, data: bytes, wait: Callable[[Future[Any]], object]) -> Grammar:
        """The grammar of a document, or a trouble that says what can't be found."""
        making, root = self.making(uri, data)
        return Grammar(waited(making.declared, wait), root)

    def make(self, making: Making, named: Named) -> None:
        """Reads a DTD."""
        try:
            file = named.file
            is_there = file is not None and os.path.isfile(file)
            made = self.read(making, file) if file is not None and is_there else self.by_catalog(making, named)
            made.file = file if is_there else made.file
            making.declared.set_result(made)
        except Trouble as trouble:
            making.fail(trouble)
        except Exception as fault:
            making.fail(Trouble(f"{named.system}: {type(fault).__name__}: {fault}"))

    def named(self, uri: str, items: list[bytes], first: str) -> tuple[Named, str]:
        """What the settings tell, then an instruction `<?pvtag dtd="letter.dtd" root="letter"?>`, then the document
        type declaration, then `<?xml-model href="letter.dtd"?>`, then the associations of the settings."""
        folder, told, doctype = folder_of(uri), dict[str, str](), None
        model, associated = "", self.associated(uri)
        for item in items:
            if instruction := INSTRUCTION.match(item):
                told |= {part[1].decode(): unquoted(part[2]) for part in PART.finditer(instruction[1])}
            doctype = doctype or DOCTYPE.match(item)
            if instruction := MODEL.match(item):
                parts = {part[1].decode(): unquoted(part[2]) for part in PART.finditer(instruction[1])}
                href = parts.get("href", "")
                model = model or (href if parts.get("type") == "application/xml-dtd" or href.endswith(".dtd") else "")
        root = (
            self.options.get("root")
            or told.get("root")
            or (doctype["name"].decode(errors="replace") if doctype else associated.get("root") or first)
        )
        if "dtd" in self.options:
            return self.told(self.options["dtd"], folder), root
        if "dtd" in told:
            return Named(told["dtd"], "", folder), root
        if doctype and (doctype["system"] or doctype["address"]):
            return Named(unquoted(doctype["system"] or doctype["address"]), unquoted(doctype["public"]), folder), root
        if model:
            return Named(model, "", folder), root
        if associated:
            return self.told(associated["dtd"], folder), root
        raise NoDtd(
            'no DTD is named: by <!DOCTYPE .. SYSTEM "FILE">, by <?pvtag dtd="FILE" root="NAME"?>, by <?xml-model href="FILE"?>, '
            "or in the settings of the server"
        )

    def associated(self, uri: str) -> dict[str, str]:
        """The DTD, and maybe the root, that the settings tell for documents with such names."""
        try:
            path = urllib.parse.unquote(urllib.parse.urlsplit(uri).path)
        except ValueError:
            return {}
        for each in self.associations:
            pattern, dtd, root = (each.get(key) for key in ("pattern", "dtd", "root"))
            if isinstance(pattern, str) and isinstance(dtd, str) and dtd and is_matched(path, pattern):
                return {"dtd": dtd} | ({"root": root} if isinstance(root, str) and root else {})
        return {}

    def told(self, dtd: str, folder: str) -> Named:
        """The DTD of the settings. It counts from the folder that is open in the editor, or else from the document's:
        some editors open the user's own folder where none is."""
        there, beside = (Named(dtd, "", each) for each in (self.folder or folder, folder))
        is_there, is_beside = (each.file is not None and os.path.isfile(each.file) for each in (there, beside))
        return beside if is_beside and not is_there else there

    def read(self, making: Making, file: str) -> Declared:
        """A DTD's file, made plain where it needs to be. Where it looks like that, it is begun while the program is asked."""
        try:
            with open(file, "rb") as opened:
                data = opened.read()
        except OSError:
            raise Trouble(f"{file}: it can't be read") from None
        flattening = begun(lambda: flattened(file, file)) if MODULAR.search(data) else None
        if flattening is not None:
            making.modules = {each: stamp_of(each) for each, _, _ in files_of(file) if each != file}
        answer = run(self.program, "dtd", file)
        if answer.status == 0:
            return self.declared(making, Plain(self.program, file), lambda: answer)
        if MODULES.match(answer.line):
            return self.of_flat(making, flattening.result() if flattening is not None else flattened(file, file))
        raise Refusal(fault_of(answer.status, answer.line, {"dtd": Source(file, data)}))

    def by_catalog(self, making: Making, named: Named) -> Declared:
        """A DTD that the catalogs of this machine know by its address or its public identifier."""
        if named.file is not None and not named.public:
            raise Trouble(f"{named.file}: there is no such DTD")
        system = named.system if named.file is None else f"file://{urllib.parse.quote(named.file)}"
        identifier = (
            f"PUBLIC {quoteattr(named.public)} {quoteattr(system)}" if named.public else f"SYSTEM {quoteattr(system)}"
        )
        with memory.file_of(f"<!ENTITY % all {identifier}>\n%all;\n".encode()) as path:
            return self.of_flat(making, flattened(path, named.system))

    def of_flat(self, making: Making, data: bytes) -> Declared:
        """A DTD that was made plain, in memory."""
        held = memory.MemoryFile(data)
        return self.declared(making, Plain(self.program, held.path, held), lambda: run(self.program, "dtd", held.path))

    @staticmethod
    def declared(making: Making, plain: Plain, ask: Callable[[], Answer]) -> Declared:
        """What the program says of a plain DTD. Whoever wants to begin a session on it needn't wait for that."""
        making.plain.set_result(plain)
        return Declared(plain, ask())


def waited(future: Future[Any], wait: Callable[[Future[Any]], object]) -> Any:
    """What a DTD comes to, or a trouble of its own."""
    wait(future)
    fault = future.exception()
    if fault is not None:
        raise fault.with_traceback(None)
    return future.result()


def begun(act: Callable[[], bytes]) -> Future[bytes]:
    """What this comes to, in a thread of its own."""
    future: Future[bytes] = Future()

    def run_it() -> None:
        try:
            future.set_result(act())
        except Exception as fault:
            future.set_exception(fault)

    threading.Thread(target=run_it, daemon=True).start()
    return future


def flattened(path: str, name: str) -> bytes:
    """What `tools/flatten` makes of a DTD."""
    said = ""
    for python in pythons():
        try:
            status, output, errors = ran([python, FLATTEN, path])
        except OSError:
            continue
        if status == 0:
            return output
        said = said if status == 2 and said else errors.decode(errors="replace")
    lines = [line.removeprefix("flatten: ").replace(path, name) for line in said.splitlines()]
    raise Trouble(f"{name}: the DTD can't be made plain: " + "; ".join(lines[:3]))


def is_matched(path: str, pattern: str) -> bool:
    """Whether a pattern of names fits a path, or its last part. A `*` stands for any signs, `/` too."""
    return any(fnmatch.fnmatchcase(name, pattern) for name in (path, os.path.basename(path)))


def ran(words: list[str], given: bytes = b"") -> tuple[int, bytes, bytes]:
    """One run to its end, with this input: its status, and what it wrote to either output."""
    begun = programs.popen(
        words, stdin=subprocess.PIPE, stdout=subprocess.PIPE, stderr=subprocess.PIPE, start_new_session=True
    )
    try:
        output, errors = begun.communicate(given, timeout=RUNNING.most)
    except subprocess.TimeoutExpired:
        begun.kill()
        begun.communicate()
        raise Trouble(programs.took_too_long(words[1:], RUNNING.most)) from None
    return begun.returncode, output, errors
