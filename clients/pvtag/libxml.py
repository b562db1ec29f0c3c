"""What libxml2 says of attributes: a process of its own, under a Python that has `lxml`, held to time and memory.

`attributes` begins it and asks. A request is a line of JSON, {"do", "size", "subset"}, and so many bytes, those of a
document's internal subset last; the answer a line of JSON:

    "dtd"      a DTD: {"declared": {element: [[name, type, default, value, [values]], ..]}, ..}
    "faults"   a document: {"faults": [[number of the element in document order or none, kind, message], ..], "cut": bool}

or {"fault": sentence}. Nothing is fetched, no file is read, and entities aren't put in place: the process may open no file
and no connection, whatever a DTD or a document names.
"""
import contextlib
import importlib
import io
import json
import os
import re
import resource
import signal
import sys
from typing import Any

# No catalogs are asked.
os.environ["XML_CATALOG_FILES"] = ""
try:
    etree: Any = importlib.import_module("lxml.etree")
except ImportError:
    # `attributes` knows it.
    raise SystemExit(9) from None

SECONDS, BYTES = 60, 2 << 30
# At most so many faults are told.
MOST = 10_000
LITERAL = rb"""(?:"[^"]*"|'[^']*')"""
# A declaration of an element with its name and its model, and what else one may stand in.
DECLARED = re.compile(
    rb"""(<!ELEMENT\s+[^\s<>%"']+\s)[^<>"']*>|<!--.*?-->|<\?.*?\?>|<![A-Z]+\s(?:[^<>"']|""" + LITERAL + rb""")*>""", re.S)
# Parameter entities of other files.
EXTERNAL = re.compile(rb"""<!ENTITY\s+%\s+\S+\s+(?:SYSTEM|PUBLIC)\s""")
# What a subset may say of attributes, and what a DTD's file may begin with.
OF_ATTRIBUTES = re.compile(rb"<!ATTLIST|<!NOTATION|\sNDATA\s|%")
FRONT = re.compile(rb"\A(?:\xef\xbb\xbf)?(?:<\?xml\s.*?\?>)?", re.S)
# What is a fault of attributes.
KINDS = {
    "DTD_MISSING_ATTRIBUTE", "DTD_UNKNOWN_ATTRIBUTE", "DTD_ATTRIBUTE_VALUE", "DTD_ATTRIBUTE_DEFAULT", "DTD_ID_REDEFINED",
    "DTD_UNKNOWN_ID", "DTD_UNKNOWN_ENTITY", "DTD_ENTITY_TYPE", "DTD_UNKNOWN_NOTATION", "DTD_NOTATION_VALUE",
    "DTD_NO_PREFIX", "DTD_DIFFERENT_PREFIX", "DTD_INVALID_DEFAULT", "DTD_XMLID_VALUE", "DTD_XMLID_TYPE",
}
# What is told of the document's reading.
READING = {"ERR_ATTRIBUTE_REDEFINED", "NS_ERR_UNDEFINED_NAMESPACE", "NS_ERR_ATTRIBUTE_REDEFINED"}


class Worker:
    def __init__(self) -> None:
        self.dtd: Any = None
        self.data = b""

    def parsed(self, data: bytes) -> Any:
        """A DTD, whose models are left out: contents are looked at elsewhere; or a "fault"."""
        if EXTERNAL.search(DECLARED.sub(lambda found: found[0] if found[0].startswith(b"<!ENTITY") else b"", data)):
            return {"fault": "the DTD has modules in other files"}
        data = DECLARED.sub(lambda found: found[1] + b"ANY>" if found[1] else found[0], data)
        try:
            return etree.DTD(io.BytesIO(data))
        except etree.DTDParseError as fault:
            entries = list(fault.error_log)
            where = f" (line {entries[0].line}: {' '.join(entries[0].message.split())})" if entries else ""
            return {"fault": f"libxml2 doesn't read the DTD{where}"}

    def read_dtd(self, data: bytes) -> dict[str, Any]:
        """Reads a DTD, and tells what it declares."""
        self.data, dtd = data, self.parsed(data)
        if isinstance(dtd, dict):
            return dtd
        self.dtd = dtd
        declared = {
            named(element): in_order([[named(it), it.type, it.default, plain(it.default_value), it.values()] for it in element.iterattributes()])
            for element in self.dtd.iterelements()
        }
        return {"declared": declared, "entities": [it.name for it in self.dtd.iterentities()]}

    def with_subset(self, subset: bytes) -> Any:
        """The DTD with the declarations of a document's internal subset, which come first; or a "fault"."""
        parser = etree.XMLParser(load_dtd=False, no_network=True, resolve_entities=False, recover=True)
        with contextlib.suppress(etree.XMLSyntaxError):
            etree.fromstring(b"<!DOCTYPE a [" + subset + b"]><a/>", parser)
        for each in parser.error_log:
            if each.level_name == "FATAL":
                return {"fault": f"libxml2 doesn't read the document's own declarations (their line {each.line}: {each.message})"}
        if OF_ATTRIBUTES.search(subset) is None:
            return self.dtd
        return self.parsed(subset + b"\n" + FRONT.sub(b"", self.data, 1))

    def faults(self, data: bytes, subset: bytes) -> dict[str, Any]:
        """What is wrong with the attributes of a document."""
        dtd = self.with_subset(subset) if subset.strip() else self.dtd
        if isinstance(dtd, dict):
            return dtd
        parser = etree.XMLParser(load_dtd=False, no_network=True, resolve_entities=False, recover=True, huge_tree=True)
        try:
            root = etree.fromstring(data, parser)
        except etree.XMLSyntaxError:
            root = None
        read = [each for each in parser.error_log if each.type_name in READING]
        fatal = [each for each in parser.error_log if each.level_name == "FATAL" and each.type_name not in READING]
        if root is None or fatal:
            first = fatal[0] if fatal else None
            return {"fault": f"libxml2 doesn't read the document (line {first.line}: {first.message})" if first else "it has no root"}
        dtd.validate(root)
        found = [each for each in dtd.error_log if each.type_name in KINDS]
        numbers = Numbers(root) if found else None
        told = [[None, each.type_name, " ".join(each.message.split())] for each in read[:MOST]]
        for each in found[:MOST]:
            number = numbers.of(each.path) if numbers and each.path else None
            told.append([number, each.type_name, each.message])
        return {"faults": told, "cut": max(len(found), len(read)) > MOST}


class Numbers:
    """The elements of a document by their paths, as libxml2 writes these, as numbers in document order."""

    def __init__(self, root: Any) -> None:
        self.root = root
        self.numbers = {element: number for number, element in enumerate(root.iter(etree.Element))}
        self.known: dict[str, Any] = {}
        self.kids: dict[Any, dict[str, list[Any]]] = {}

    def of(self, path: str) -> int | None:
        element = self.element(path)
        return None if element is None else self.numbers[element]

    def element(self, path: str) -> Any:
        if path not in self.known:
            front, _, step = path.rpartition("/")
            name, _, at = step.partition("[")
            owner = self.element(front) if front else None
            among = [self.root] if not front else self.named(owner, name) if owner is not None else []
            place = int(at[:-1]) - 1 if at else 0
            self.known[path] = among[place] if place < len(among) else None
        return self.known[path]

    def named(self, owner: Any, name: str) -> list[Any]:
        """The kids of this name: `*` is each of a default namespace."""
        if owner not in self.kids:
            self.kids[owner] = {}
            for kid in owner.iterchildren(etree.Element):
                local = etree.QName(kid).localname
                key = f"{kid.prefix}:{local}" if kid.prefix else "*" if kid.nsmap.get(None) else local
                self.kids[owner].setdefault(key, []).append(kid)
                if key == "*":
                    continue
                self.kids[owner].setdefault("*", []).append(kid)
        return self.kids[owner].get(name, [])


def named(declared: Any) -> str:
    return f"{declared.prefix}:{declared.name}" if declared.prefix else str(declared.name)


def in_order(rows: list[list[Any]]) -> list[list[Any]]:
    """As they are declared: libxml2 puts each after the first one, and those of namespaces before."""
    bound = [row for row in rows if row[0].startswith("xmlns")]
    others = [row for row in rows if not row[0].startswith("xmlns")]
    return [*others[:1], *others[:0:-1], *bound]


def plain(value: str | None) -> str | None:
    """A default value, in which libxml2 leaves a reference to `&` as it is."""
    return value and value.replace("&#38;", "&")


def serve() -> None:
    worker, input_, output = Worker(), sys.stdin.buffer, os.fdopen(os.dup(1), "w", encoding="utf-8")
    # What libxml2 prints by itself goes nowhere.
    nothing = os.open(os.devnull, os.O_WRONLY)
    os.dup2(nothing, 1)
    os.dup2(nothing, 2)
    most = resource.getrlimit(resource.RLIMIT_AS)[1]
    # Some systems have no such limit.
    with contextlib.suppress(OSError, ValueError):
        resource.setrlimit(resource.RLIMIT_AS, (BYTES if most == resource.RLIM_INFINITY else min(BYTES, most), most))
    # What is open stays so; nothing else opens.
    resource.setrlimit(resource.RLIMIT_NOFILE, (0, 0))
    while line := input_.readline():
        asked = json.loads(line)
        data, subset = input_.read(asked["size"]), input_.read(asked["subset"])
        signal.alarm(SECONDS)
        try:
            answer = worker.read_dtd(data) if asked["do"] == "dtd" else worker.faults(data, subset)
        except MemoryError:
            answer = {"fault": "that takes too much memory"}
        signal.alarm(0)
        output.write(json.dumps(answer) + "\n")
        output.flush()


if __name__ == "__main__":
    serve()
