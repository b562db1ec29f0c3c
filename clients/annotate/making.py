"""Documents that are made of plain texts, and how a document is opened."""
import os
import re
from xml.sax.saxutils import escape

from .editor import Editor
from .files import put_file
from pvtag import long
from pvtag.faults import TOO_WIDE, fault_of
from pvtag.masks import MaskedSource, mask
from pvtag.places import Source
from pvtag.program import RUNNING, Trouble, is_utf_8, read_file, shown_name
from pvtag.session import Ended
from .script import Script

DECLARATION = '<?xml version="1.0" encoding="UTF-8"?>'
# What can't stand in the address of a file as it is.
UNFIT = re.compile(r"""["'%#?&<>\[\\\]^`{|}\s\x00-\x1f\x7f-\U0010ffff]""")


def plain_text(path: str) -> str:
    """A file's text, its line ends LF. What of it is no text of XML, the session refuses."""
    data = read_file(path)
    try:
        return data.decode("utf-8-sig").replace("\r\n", "\n").replace("\r", "\n")
    except UnicodeDecodeError as fault:
        line = data.count(b"\n", 0, fault.start) + 1
        byte = f"the byte {data[fault.start]:#04x} in line {line}"
        raise Trouble(f"{shown_name(path)} isn't UTF-8: {byte}; `iconv -f latin1 -t utf-8` may make it so") from None


def make_document(root: str, text: str, doc: str, dtd: str) -> None:
    """Makes a document of one element round a plain text, where there is none yet. It names the DTD, where that lies beside
    it."""
    if os.path.islink(doc) and not os.path.exists(doc):
        raise Trouble(f"{shown_name(doc)} is a link to what isn't there; remove it, or name another DOC")
    if os.path.exists(doc):
        raise Trouble(f"{shown_name(doc)} is there already: leave out --from to go on with it, or name another DOC")
    source = f"{DECLARATION}\n{doctype(root, doc, dtd)}<{root}>{escape(plain_text(text))}</{root}>\n".encode()
    try:
        put_file(os.path.abspath(doc), source, text, is_new=True)
    except OSError as fault:
        raise Trouble(f"{shown_name(doc)}: {fault.strerror}") from None


def doctype(root: str, doc: str, dtd: str) -> str:
    """The line that names a DTD, where that lies in the document's folder, below it, or in the folder above; else nothing."""
    try:
        path = os.path.relpath(os.path.realpath(dtd), os.path.dirname(os.path.realpath(doc)))
    except ValueError:
        return ""
    if path.startswith(os.path.join(os.pardir, os.pardir)) or not is_utf_8(path) or UNFIT.search(path):
        return ""
    # What stands before a colon would be the scheme of an address.
    return f'<!DOCTYPE {root} SYSTEM "{"./" if ":" in path.partition("/")[0] else ""}{path}">\n'


def open_editor(program: list[str], dtd: str, root: str, doc: str, again: bool = False, version: int = 0) -> Editor:
    """A session on a document. Where the document was changed by another program, that is `Changed`; with `again` the moves
    are made again on it."""
    script = Script(doc, again)
    try:
        return Editor(program, dtd, root, script, version)
    except Ended as ended:
        script.close()
        raise Unopened(told(ended, program, dtd, root, doc)) from None
    except BaseException:
        script.close()
        raise


class Unopened(Trouble):
    """A document that the program doesn't open."""


def told(ended: Ended, program: list[str], dtd: str, root: str, doc: str) -> str:
    """What a program that ended before it began says of the files. A document with a list that is too wide to be tagged may be judged all the same."""
    if ended.status is None or ended.status < 2:
        return str(ended)
    declarations, document = content(dtd), content(doc)
    masked = mask(document, declarations)
    sources = {"dtd": Source(shown_name(dtd), declarations), "document": MaskedSource(shown_name(doc), masked)}
    fault = fault_of(ended.status, ended.line, sources)
    wide = long.check(program, dtd, root, doc, RUNNING) if masked.is_plain and ended.line.startswith(TOO_WIDE) else None
    return f"{fault}; {wide.sentence}" if wide is not None else str(fault)


def content(path: str) -> bytes:
    try:
        return read_file(path)
    except Trouble:
        return b""
