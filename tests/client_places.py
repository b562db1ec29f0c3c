"""Tries where `clients/pvtag` says that things stand in a file.

Words: PROGRAM ROUNDS SEED. The offset of each item of random documents and DTDs is compared with what the program
tells when a fault is put there; tags, texts and the like with what expat tells; lines and columns with Python's own
codecs; each offset's place in a list with that of the item that it is in. Prints each difference, and how many cases
passed; ends with 1 where one failed.
"""
import functools
import os
import random
import sys
import tempfile
import xml.parsers.expat

sys.dont_write_bytecode = True

from lib.annotate.fixture import need, run_cases, same  # noqa: E402
from lib.random_files import ANY, document, dtd, write  # noqa: E402

from pvtag.document import Document  # noqa: E402
from pvtag.entities import dtd_items  # noqa: E402
from pvtag.faults import fault_of  # noqa: E402
from pvtag.layout import Layout  # noqa: E402
from pvtag.places import Source, Unit, document_items  # noqa: E402
from pvtag.program import run  # noqa: E402


def places_items_of_documents(program, rounds):
    """At each item's offset a fault is told with the item's number."""
    with tempfile.TemporaryDirectory() as folder:
        flat, path = os.path.join(folder, "a.dtd"), os.path.join(folder, "a.xml")
        write(flat, ANY.encode())
        for _ in range(rounds):
            data, root = document()
            write(path, data)
            ran = run([program], "valid", flat, root, path)
            need(ran.status in (0, 1), f"a document that isn't read: {data!r} {ran.line}")
            items = list(document_items(data))
            same(items[-1].end, len(data), "the end of the last item")
            for number, item in random.sample(list(enumerate(items)), min(6, len(items))):
                broken = data[: item.start] + b"<>" + data[item.start :]
                write(path, broken)
                ran = run([program], "valid", flat, root, path)
                same((ran.status, ran.line), (7, f"document syntax {number}"), f"what is told of {broken!r}")
                fault = fault_of(ran.status, ran.line, {"document": Source("a.xml", broken)})
                same(fault.span.start, item.start, f"the place that is told in {broken!r}")


def places_items_of_dtds(program, rounds):
    with tempfile.TemporaryDirectory() as folder:
        path = os.path.join(folder, "a.dtd")
        for at in range(rounds):
            data = dtd(at % 2 == 1)
            write(path, data)
            items = list(dtd_items(data))
            own = [(number, item) for number, item in enumerate(items) if not data.startswith(b"%", item.start)]
            for number, item in random.sample(own, min(4, len(own))):
                broken = data[: item.start] + b"<>" + data[item.start :]
                write(path, broken)
                ran = run([program], "dtd", path)
                same((ran.status, ran.line), (6, f"dtd syntax {number}"), f"what is told of {broken!r}")
                fault = fault_of(ran.status, ran.line, {"dtd": Source("a.dtd", broken)})
                same(fault.span.start, item.start, f"the place that is told in {broken!r}")


def expat_rows(data):
    """What expat tells: a row for each tag, comment, instruction and CDATA section, with its offset."""
    reader, rows, depth = xml.parsers.expat.ParserCreate(), [], [0]

    def tell(kind, name=""):
        at = reader.CurrentByteIndex
        rows.append((kind, name, at))

    def start(name, _):
        depth[0] += 1
        tell("start", name)

    def end(name):
        depth[0] -= 1
        tell("end", name)

    reader.StartElementHandler, reader.EndElementHandler = start, end
    reader.StartCdataSectionHandler = lambda: tell("cdata")
    reader.CommentHandler = reader.ProcessingInstructionHandler = lambda *_: depth[0] and tell("misc")
    reader.Parse(data, True)
    return rows


def layout_rows(node, rows):
    """The same rows of a layout; an element written `<a/>` has no end tag."""
    if node.kind == "element":
        rows.append(("start", node.name, node.start_tag.start))
        for kid in node.kids:
            layout_rows(kid, rows)
        rows.append(("end", node.name, node.end_tag.start if node.end_tag else None))
    elif node.kind != "text":
        rows.append((node.kind, "", node.span.start))
    return rows


def places_nodes(rounds):
    for _ in range(rounds):
        data, _ = document()
        if b"<!DOCTYPE" in data:
            continue
        layout = Layout(data)
        rows, its = layout_rows(layout.root, []), expat_rows(data)
        same(len(rows), len(its), f"the number of nodes of {data!r}")
        its = [row if mine[2] is not None else (*row[:2], None) for mine, row in zip(rows, its)]
        same(rows, its, f"the nodes of {data!r}")
        tree = Document(data)
        for node, other in zip(layout.elements(), tree.elements(), strict=True):
            same((node.path, node.name), (tree.path_of(other), other.name), "an element")
            same(
                [(kid.kind, kid.is_white) for kid in node.kids],
                [(kid.kind, kid.is_white) for kid in other.kids],
                "its kids",
            )
            same(layout.node(node.path), node, "the node at a path")
            for kid, its in zip(node.kids, other.kids, strict=True):
                same((kid.at, kid.owner), (node.kids.index(kid), node), "a kid's place")
                if kid.kind == "text":
                    units = kid.units()
                    same(
                        [data[one:two].decode() for one, two in zip(units, units[1:])],
                        list(its.units),
                        "a text's units",
                    )
        finds_offsets(data, layout)


def finds_offsets(data, layout):
    """Each offset is in the innermost node that holds it, and its place in a list is the nearest one to it."""
    nodes = [kid for node in layout.elements() for kid in node.kids]
    items = [item for item in document_items(data) if layout.root.span.start <= item.start < layout.root.span.end]
    for item in items:
        units = [item.start, item.end]
        if item.kind == "text":
            units = next(node.units() for node in nodes if node.span.start == item.start)
        for offset in range(item.start, item.end):
            holding = [node for node in nodes if node.span.start <= offset < node.span.end]
            same(layout.at(offset), max(holding, key=lambda node: node.number), f"the node at {offset} of {data!r}")
            last = max(unit for unit in units if unit <= offset)
            nearest = last if item.kind == "text" or offset - item.start <= item.end - offset else item.end
            same(offset_of(layout.gap(offset)), nearest, f"the place in a list at {offset} of {data!r}")
    for offset in {0, layout.root.span.start, layout.root.span.end, len(data)}:
        same(
            layout.gap(offset),
            (layout.top, int(offset > layout.root.span.start), 0),
            f"the place at {offset} of {data!r}",
        )


def offset_of(gap):
    """The offset of a place in a list."""
    owner, at, unit = gap
    if unit:
        return owner.kids[at].units()[unit]
    if at < len(owner.kids):
        return owner.kids[at].span.start
    return owner.inside.end if owner.number else owner.kids[-1].span.end


def counts_columns(rounds):
    for _ in range(rounds):
        made = "".join(random.choices(["a", "é", "€", "𐀀", "\n", "\r\n", "\r"], k=random.randint(0, 30)))
        data = made.encode()
        source = Source("x", data)
        lines = made.replace("\r\n", "\n").replace("\r", "\n").split("\n")
        same(len(source.starts), len(lines), f"lines of {made!r}")
        for at in range(len(made) + 1):
            before = made[:at]
            if before.endswith("\r") and made[at:].startswith("\n"):
                continue
            offset = len(before.encode())
            last = before.replace("\r\n", "\n").replace("\r", "\n").split("\n")
            for unit in Unit:
                width = len(
                    last[-1].encode({"utf-8": "utf-8", "utf-16": "utf-16-le", "utf-32": "utf-32-le"}[unit.value])
                )
                width //= {"utf-8": 1, "utf-16": 2, "utf-32": 4}[unit.value]
                same(source.position(offset, unit), (len(last) - 1, width), f"a position in {made!r}")
                same(source.offset(len(last) - 1, width, unit), offset, f"an offset in {made!r}")
            same(tuple(source.place(offset)), (len(last), len(last[-1]) + 1), "a place")
    marked = Source("x", "\ufeffab\ncd".encode())
    same(
        [tuple(marked.place(at)) for at in (0, 3, 4, 6, 7)],
        [(1, 1), (1, 1), (1, 2), (2, 1), (2, 2)],
        "places behind a byte order mark",
    )
    same(Source("x", b"a\xffb").position(3, Unit.UTF16), (0, 3), "bytes that aren't UTF-8")
    same(
        [Source("x", "𐀀a".encode()).offset(0, column, Unit.UTF16) for column in range(5)],
        [0, 0, 4, 5, 5],
        "a column inside a character",
    )


def main():
    program, rounds, seed = os.path.abspath(sys.argv[1]), int(sys.argv[2]), int(sys.argv[3])
    random.seed(seed)
    cases = [
        functools.partial(places_items_of_documents, program, rounds),
        functools.partial(places_items_of_dtds, program, rounds),
        functools.partial(places_nodes, rounds),
        functools.partial(counts_columns, rounds),
    ]
    for case in cases:
        case.__name__ = case.func.__name__
    sys.exit(run_cases("the places of clients", cases))


if __name__ == "__main__":
    main()
