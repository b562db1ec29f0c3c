"""Marks up a document, or those of a folder, in a browser, over a session of pvtag.

Prints an address to open. Each move is written to DOC.pvtag before it is shown, and made again at the next start; Save
writes DOC. Ends with Ctrl-C, or an hour after the last window was closed.
"""
# Before anything else: it keeps Ctrl-C quiet while the rest is loaded.
from pvtag.start import begin as begin_command

import argparse
import os
import signal
import sys
import threading

from pvtag.program import Trouble, add_option, find, read_file, shown_name
from pvtag.session import Ended

from .declared import check_root, declared_by
from .drawer import Drawer
from .editor import Editor
from .making import Unopened, make_document, open_editor, told
from .script import Changed
from .server import PATIENCE, Server
from .values import Names
from .work import Work


def port(word: str) -> int:
    number = int(word)
    if not 0 <= number < 1 << 16:
        raise ValueError
    return number


def words() -> argparse.Namespace:
    reader = argparse.ArgumentParser(description=__doc__, formatter_class=argparse.RawDescriptionHelpFormatter)
    reader.add_argument("dtd", metavar="DTD")
    reader.add_argument("root", metavar="ROOT", help="the name of the document's root element")
    reader.add_argument("doc", metavar="DOC", help="a document, or a folder of documents and plain texts")
    reader.add_argument("--port", type=port, default=0, metavar="N",
                        help="the port on 127.0.0.1; any free one by default")
    reader.add_argument("--from", dest="text", metavar="TEXT",
                        help="makes DOC, which isn't there yet: one element ROOT round this plain text")
    reader.add_argument("--again", action="store_true",
                        help="where DOC was changed by another program: makes the moves again on it, as far as they go")
    reader.add_argument("--names", metavar="FILE",
                        help="a table, in CSV, of values and the names that each stands for: offered as values of key, ref and corresp")
    reader.add_argument("--stay", type=float, default=PATIENCE, metavar="SECONDS",
                        help="ends so long after the last window was closed; an hour")
    add_option(reader)
    return reader.parse_args()


def begin(asked: argparse.Namespace, program: list[str]) -> Editor:
    """The session on the document; one that was made and can't be opened is removed again."""
    try:
        return opened(asked, program)
    except Unopened as fault:
        made = "" if asked.text is None else f"no document can be made of {shown_name(asked.text)}: "
        take_away(asked)
        raise Trouble(f"{made}{fault}") from None
    except BaseException:
        take_away(asked)
        raise


def take_away(asked: argparse.Namespace) -> None:
    if asked.text is not None:
        os.unlink(asked.doc)


def opened(asked: argparse.Namespace, program: list[str]) -> Editor:
    """The session; where the document was changed by another program, the moves may be made again on it."""
    words = program, asked.dtd, asked.root, asked.doc
    try:
        return open_editor(*words, asked.again)
    except Changed as changed:
        if not (sys.stdin.isatty() and sys.stdout.isatty()):
            raise
        print(f"annotate: {changed}.")
        if input("Make the moves again on it, as far as they go? [y/N] ").strip().lower() not in ("y", "yes"):
            raise
    return open_editor(*words, True)


def place_of(asked: argparse.Namespace) -> Work | Drawer:
    """What is shown: a document, or a folder of them."""
    program, names = find(asked.program), Names(asked.names)
    read_file(asked.dtd)
    declared = declared_by(program, asked.dtd)
    check_root(declared, asked.root, shown_name(asked.dtd))
    if os.path.isdir(asked.doc):
        if asked.text is not None or asked.again:
            raise Trouble(f"{shown_name(asked.doc)} is a folder, and --from and --again are about one document")
        return Drawer(program, asked.dtd, asked.root, asked.doc, declared, names)
    if asked.text is not None:
        make_document(asked.root, asked.text, asked.doc, asked.dtd)
    return Work(begin(asked, program), declared, os.path.basename(asked.doc), names)


def serve(asked: argparse.Namespace) -> None:
    place = place_of(asked)
    try:
        server = open_server(place, asked)
        for number in (signal.SIGINT, signal.SIGTERM, signal.SIGHUP):
            signal.signal(number, lambda *_: server.over.set())
        threading.Thread(target=server.serve_forever, daemon=True).start()
        print(f"annotate: open {server.address}", flush=True)
        if place.note:
            print(f"annotate: {place.note}", flush=True)
        server.over.wait()
        server.shutdown()
    finally:
        place.close()


def open_server(place: Work | Drawer, asked: argparse.Namespace) -> Server:
    try:
        return Server(place, asked.port, asked.stay)
    except OSError as fault:
        raise Trouble(f"the port {asked.port} of 127.0.0.1: {fault.strerror}") from None


def main() -> None:
    asked = words()
    try:
        if begin_command():
            raise Trouble("the standard output, for the page's address, is closed")
        serve(asked)
    except Ended as ended:
        sys.exit(f"annotate: {told(ended, find(asked.program), asked.dtd, asked.root, asked.doc)}")
    except Trouble as trouble:
        sys.exit(f"annotate: {trouble}")
    except OSError as fault:
        sys.exit(f"annotate: {shown_name(fault.filename or asked.doc)}: {fault.strerror}")
    except KeyboardInterrupt:
        sys.exit(130)
