"""Measures what a person waits for in an editor, beside the aims that were set for it.

Words: PROGRAM, and --write, which puts the table into docs/SPEED.md. From a key to the diagnostics and from a request to a completion, at
300 kB and 3 MB under examples/article.dtd and at 300 kB under DocBook, where Debian's docbook-xml is; from an opening to the first diagnostics
under DocBook, of a server that has read no DTD yet; a hover in a list of 1,300,000 kids, and what memory the server takes beside the text.
Between each two of ours `xmllint --dtdvalid` validates the same document, so that the ratio says what the machine's load was. Seven of each,
three of the hover; times are middle ones in milliseconds, on the clock and of processors, those of the server and of the runs of the program
that it ended.
"""
import os
import random
import subprocess
import sys
import tempfile
import time

TOP = os.path.dirname(os.path.dirname(os.path.abspath(__file__)))
sys.dont_write_bytecode = True
sys.path.append(os.path.join(TOP, "tests"))

from lib.lsp_client import EXAMPLES, Client, uri_of  # noqa: E402
from lsp import DOCBOOK, article, report, spent  # noqa: E402
from page import put  # noqa: E402

TIMES, HOVERS, KIDS = 7, 3, 1_300_000
ARTICLE = os.path.join(EXAMPLES, "article.dtd")


def middle(values):
    return sorted(values)[len(values) // 2]


class Table:
    """The rows that were measured."""

    def __init__(self):
        self.rows = []

    def add(self, what, document, aim, ours, theirs):
        """A row of rounds of ours, each the clock's time and the processors', and of the peer's times on the clock; in seconds."""
        clock, server, program = (1000 * middle([each[at] for each in ours]) for at in range(3))
        peer = 1000 * middle(theirs)
        row = f"| {what} | {document} | {clock:,.0f} | {aim} | {server:,.0f} + {program:,.0f} | {peer:,.0f} | {clock / peer:.2f} |"
        print(row, flush=True)
        self.rows.append(row)


def validated(dtd, path):
    """The time on the clock that xmllint takes."""
    begun = time.monotonic()
    subprocess.run(["xmllint", "--nonet", "--noout", "--dtdvalid", dtd, path], stderr=subprocess.DEVNULL, check=False)
    return time.monotonic() - begun


def timed(client, act):
    """What it takes: on the clock, of the server's processor time, and of the runs that it has ended."""
    before, begun = spent(client.process), time.monotonic()
    act()
    clock = time.monotonic() - begun
    return (clock, *(now - then for now, then in zip(spent(client.process), before)))


def measure(table, program, name, dtd, text, piece, aim):
    """A key and a completion before a piece in the middle of a document."""
    place, uri = text.index(piece, len(text) // 2), uri_of("large.xml")
    document = f"{len(text.encode()) / 1e6:.1f} MB, {name}"
    with Client(program, seconds=600) as client, tempfile.NamedTemporaryFile("w", suffix=".xml") as file:
        file.write(text)
        file.flush()
        client.open(uri, text)
        client.diagnostics(uri)
        client.ask("textDocument/hover", client.about(uri, place))

        def key():
            client.change(uri, place, place, "a")
            client.diagnostics(uri)

        def complete():
            client.ask("textDocument/completion", client.about(uri, place + TIMES + 1))

        both = [(timed(client, key), validated(dtd, file.name)) for _ in range(TIMES)]
        table.add("diagnostics after a key", document, aim, *zip(*both))
        client.change(uri, place + TIMES, place + TIMES, "<")
        client.diagnostics(uri)
        both = [(timed(client, complete), validated(dtd, file.name)) for _ in range(TIMES)]
        table.add("completion", document, aim, *zip(*both))


def opening(table, program, text):
    """The first diagnostics of a server that knows no DTD."""
    uri, both = uri_of("first.xml"), []
    with tempfile.NamedTemporaryFile("w", suffix=".xml") as file:
        file.write(text)
        file.flush()
        for _ in range(TIMES):
            with Client(program, seconds=600) as client:

                def first():
                    client.open(uri, text)
                    client.diagnostics(uri)

                both.append((timed(client, first), validated(DOCBOOK, file.name)))
    table.add("first opening", f"{len(text.encode()) / 1e6:.1f} MB, DocBook 4.5", 700, *zip(*both))


def wide(table, program):
    """A hover in a list of many kids, and the server's memory at its peak beside the text."""
    text = f"<!DOCTYPE doc SYSTEM 'article.dtd'>\n<doc><head>Head</head><sec><title>Title</title>{'<p>some words</p>' * KIDS}</sec></doc>\n"
    place, uri, size = text.index("<p>", len(text) // 2) + 1, uri_of("wide.xml"), len(text)
    with Client(program, seconds=600) as client, tempfile.NamedTemporaryFile("w", suffix=".xml") as file:
        file.write(text)
        file.flush()
        client.open(uri, text)
        client.diagnostics(uri)

        def hover():
            client.ask("textDocument/hover", client.about(uri, place))

        both = [(timed(client, hover), validated(ARTICLE, file.name)) for _ in range(HOVERS)]
        with open(f"/proc/{client.process.pid}/status", encoding="ascii") as status:
            peak = next(int(line.split()[1]) * 1024 for line in status if line.startswith("VmHWM"))
    table.add("hover", f"{size / 1e6:.1f} MB, {KIDS:,} kids", 1000, *zip(*both))
    return f"Of the document of {KIDS:,} kids the server takes {peak / size:.1f} times the text in memory at its peak (10)."


def main():
    program, dice, table = os.path.abspath(sys.argv[1]), random.Random(1), Table()
    head = ["| What | Document | Clock, ms | Aim, ms | Server + program, ms | `xmllint`, ms | Part of `xmllint`'s |", "|---|---|---|---|---|---|---|"]
    print(*head, sep="\n", flush=True)
    measure(table, program, "article.dtd", ARTICLE, report(dice, 300_000), " <em>", 150)
    if os.path.exists(DOCBOOK):
        measure(table, program, "DocBook 4.5", DOCBOOK, article(dice, 300_000), " <emphasis>", 300)
        opening(table, program, article(dice, 20_000))
    measure(table, program, "article.dtd", ARTICLE, report(dice, 3_000_000), " <em>", 400)
    said = wide(table, program)
    print(said)
    if "--write" in sys.argv[2:]:
        load = f"On {os.cpu_count()} processors under a load of {os.getloadavg()[1]:.0f}."
        put(TOP, "bench/run editors", [load, "", *head, *table.rows, "", said])


if __name__ == "__main__":
    main()
