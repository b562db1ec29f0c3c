"""Measures `clients/lsp`: the time from a key to the diagnostics, and that of a completion.

Words: PROGRAM. 100 kB under DocBook, where Debian's docbook-xml is, and 5 MB under examples/article.dtd. Prints a line
for each: the least and the middle of seven on the clock, and the middle processor time of the server itself, and of the
runs of the program that it has ended, in milliseconds.
"""
import os
import random
import sys
import time

TOP = os.path.dirname(os.path.dirname(os.path.abspath(__file__)))
sys.dont_write_bytecode = True
sys.path.insert(0, os.path.join(TOP, "tests"))

from lib.lsp_client import Client, uri_of  # noqa: E402

DOCBOOK = "/usr/share/xml/docbook/schema/dtd/4.5/docbookx.dtd"
WORDS = "the town keeps its market on the square by the old church and opens early in the morning".split()
TIMES = 7


def words(dice, count):
    return " ".join(dice.choice(WORDS) for _ in range(count))


def article(dice, size):
    """Under DocBook: sections of paragraphs with inline elements, and a list without its items."""
    parts, length = [], 0
    while length < size:
        inline = f"{words(dice, 12)} <emphasis>{words(dice, 2)}</emphasis> {words(dice, 9)} <literal>town</literal>"
        items = "".join(f"<listitem><para>{words(dice, 9)}</para></listitem>\n" for _ in range(3))
        paras = "\n".join(f"<para>{inline}</para>" for _ in range(6))
        parts.append(
            f"<section><title>{words(dice, 4)}</title>\n{paras}\n<itemizedlist>{items}</itemizedlist></section>\n"
        )
        length += len(parts[-1])
    front = f"<!DOCTYPE article SYSTEM '{DOCBOOK}'>\n<article><title>{words(dice, 3)}</title>\n"
    return front + "".join(parts) + "<section><title>Last</title></section></article>\n"


def report(dice, size):
    """Under examples/article.dtd."""
    parts, length = [], 0
    while length < size:
        paras = "\n".join(f"<p>{words(dice, 20)} <em>{words(dice, 2)}</em> {words(dice, 20)}</p>" for _ in range(6))
        parts.append(f"<sec><title>{words(dice, 4)}</title>\n{paras}\n</sec>\n")
        length += len(parts[-1])
    return (
        f"<!DOCTYPE doc SYSTEM 'article.dtd'>\n<doc><head>{words(dice, 3)}</head>\n{''.join(parts)}<sec/><p/></doc>\n"
    )


def spent(process):
    """The processor time of a process, and of those that it has begun and that have ended, in seconds."""
    with open(f"/proc/{process.pid}/stat", encoding="ascii") as file:
        fields = file.read().rsplit(")", 1)[1].split()
    return [sum(map(int, fields[at : at + 2])) / os.sysconf("SC_CLK_TCK") for at in (11, 13)]


def timed(client, act):
    """The least and the middle time of some, and the middle processor times, the server's own and the program's."""
    rows = []
    for _ in range(TIMES):
        before, begun = spent(client.process), time.monotonic()
        act()
        clock = time.monotonic() - begun
        rows.append((clock, *(now - then for now, then in zip(spent(client.process), before))))
    clock, own, runs = (sorted(row[at] * 1000 for row in rows) for at in range(3))
    return f"{clock[0]:6.0f} {clock[TIMES // 2]:6.0f} {own[TIMES // 2]:6.0f} {runs[TIMES // 2]:7.0f}"


def measure(program, name, text, place):
    uri = uri_of("large.xml")
    with Client(program, seconds=600) as client:
        client.open(uri, text)
        client.diagnostics(uri)

        def key():
            client.change(uri, place, place, "a")
            client.diagnostics(uri)

        def complete():
            client.ask("textDocument/completion", client.about(uri, place + TIMES + 1))

        print(f"{name:24} {len(text.encode()) / 1e6:5.2f} MB  diagnostics {timed(client, key)}", flush=True)
        client.change(uri, place + TIMES, place + TIMES, "<")
        client.diagnostics(uri)
        print(f"{name:24} {len(text.encode()) / 1e6:5.2f} MB  completion  {timed(client, complete)}", flush=True)


def main():
    program, dice = os.path.abspath(sys.argv[1]), random.Random(1)
    print("                                    from a key to        least middle server program, ms")
    small = report(dice, 5_000_000)
    measure(program, "article.dtd", small, small.index(" <em>", len(small) // 2))
    if os.path.exists(DOCBOOK):
        text = article(dice, 100_000)
        measure(program, "DocBook 4.5", text, text.index(" <emphasis>", len(text) // 2))


if __name__ == "__main__":
    main()
