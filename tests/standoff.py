"""Compares how `pvtag standoff` nests ranges with a model that builds no tree: the document that is printed is read by the standard
library's XML parser, its spans are read off, and compared with the ranges in sorted order.

Words: PROGRAM ROUNDS SEED. A round is one random text, of white space, characters of one to four bytes and references, and random ranges
over it: mostly such that nest, and in part such that cross, stand twice, are empty or end outside, mostly shuffled. Each is tried in two orders,
and what is printed has to be what `check` prints of the document. Then the limits on lines and on depth. Prints each difference, and how
many cases passed; ends with 1 where one failed.
"""
import os
import random
import subprocess
import sys
import tempfile
import xml.parsers.expat

DTD = "<!ELEMENT doc ANY><!ELEMENT p (#PCDATA|em)*><!ELEMENT em (#PCDATA)><!ELEMENT sec (p+)><!ELEMENT \u00e9.b ANY><!ELEMENT br EMPTY>"
NAMES = ["doc", "p", "em", "sec", "\u00e9.b", "br"]
# each unit as it is written, with the character that a parser tells for it
UNITS = [("a", "a"), ("b", "b"), (" ", " "), ("\n", "\n"), ("\t", "\t"), ("]", "]"), (">", ">"), ("\u00e9", "\u00e9"), ("\u20ac", "\u20ac"),
         ("\U00010348", "\U00010348"), ("&amp;", "&"), ("&lt;", "<"), ("&#233;", "\u00e9"), ("&#x1F600;", "\U0001f600"), ("&#13;", "\r"), ("&gt;", ">"),
         ("\u007f", "\u007f"), ("'", "'"), ("&apos;", "'"), ("&#00038;", "&")]

passed = 0
failed = 0


def tell(ok, what):
    global passed, failed
    if ok:
        passed += 1
    else:
        failed += 1
        print(what)


class Run:
    def __init__(self, program, folder):
        self.program = program
        self.folder = folder
        self.dtd = self.file("d.dtd", DTD.encode())

    def file(self, name, data):
        path = os.path.join(self.folder, name)
        with open(path, "wb") as out:
            out.write(data)
        return path

    def standoff(self, text, lines):
        words = [self.program, "standoff", self.dtd, "doc", self.file("t.txt", text), self.file("r.txt", lines)]
        done = subprocess.run(words, capture_output=True)
        return done.returncode, done.stdout

    def check(self, document):
        done = subprocess.run([self.program, "check", self.dtd, "doc", self.file("d.xml", document)], capture_output=True)
        return done.returncode, done.stdout


# The spans of a document's elements but the root, in document order, and its characters.
def spans_of(document):
    spans, opened, characters = [], [], []
    count = 0

    def start(name, attributes):
        opened.append(len(spans))
        spans.append([count, None, name])

    def end(name):
        spans[opened.pop()][1] = count

    def data(text):
        nonlocal count
        characters.append(text)
        count += len(text)

    parser = xml.parsers.expat.ParserCreate("utf-8")
    parser.StartElementHandler = start
    parser.EndElementHandler = end
    parser.CharacterDataHandler = data
    parser.Parse(document, True)
    return [tuple(s) for s in spans[1:]], "".join(characters)


def order(r):
    return (r[0], -r[1], r[2])


# The line that has to be printed where there is no document; None where there is one.
def refusal(ranges, length):
    for number, (begin, end, level, name) in enumerate(ranges):
        if not begin < end <= length:
            return f"ranges outside {number}\n", 9
    ranges = sorted(ranges, key=order)
    for one, other in zip(ranges, ranges[1:]):
        if one[:3] == other[:3]:
            return f"ranges twice {one[0]} {one[1]} {one[2]}\n", 9
    for place, r in enumerate(ranges):
        for q in reversed(ranges[:place]):
            if q[0] < r[0] < q[1] < r[1]:
                return f"ranges cross {q[0]} {q[1]} {r[0]} {r[1]}\n", 9
    deepest = max((sum(q is not r and q[0] <= r[0] and r[1] <= q[1] and order(q) < order(r) for q in ranges) for r in ranges), default=-1)
    if deepest + 2 > 512:
        return "limit depth\n", 8
    return None


def some_text(source):
    units = [source.choice(UNITS) for _ in range(source.randint(1, source.choice([3, 8, 40])))]
    for at in range(len(units) - 2):
        if [u[0] for u in units[at:at + 3]] == ["]", "]", ">"]:
            units[at] = ("x", "x")
    return units


def some_ranges(source, length):
    ranges = []

    def inside(begin, end, depth):
        at = begin
        while at < end and len(ranges) < 12:
            begin = source.randint(at, end - 1)
            upto = source.randint(begin + 1, end)
            level = source.choice([0, 0, 1, 7, 4294967295])
            ranges.append((begin, upto, level, source.choice(NAMES)))
            if depth and source.random() < 0.6:
                inside(begin, upto, depth - 1)
            at = upto if source.random() < 0.7 else end

    if source.random() < 0.95:
        inside(0, length, 3)
    if source.random() < 0.3:
        for _ in range(source.randint(1, 2)):
            ranges.append((source.randint(0, length), source.randint(0, length + 1), source.randint(0, 2), source.choice(NAMES)))
    if source.random() < 0.7:
        source.shuffle(ranges)
    return ranges


def lines_of(source, ranges):
    end = source.choice(["\n", "\n", "\r\n", "\r\r\n"])
    lines = end.join(f"{b} {e} {l} {n}" for b, e, l, n in ranges)
    return (lines + (end if ranges and source.random() < 0.7 else "")).encode()


def one_round(run, source, number):
    units = some_text(source)
    text = "".join(u[0] for u in units).encode()
    ranges = some_ranges(source, len(units))
    status, out = run.standoff(text, lines_of(source, ranges))
    where = f"round {number}: {text!r} {ranges!r}: {status} {out!r}"
    refused = refusal(ranges, len(units))
    if refused:
        tell((out, status) == (refused[0].encode(), refused[1]), f"{where} for {refused}")
    else:
        verdict, shown, rest = out.split(b"\n", 2)
        document = rest[:-1]
        spans, characters = spans_of(document)
        wanted = [(b, e, n) for b, e, l, n in sorted(ranges, key=order)]
        tell(shown == b"show %d" % len(document) and rest.endswith(b"\n"), f"{where}: the length")
        tell(spans == wanted, f"{where}: the spans {spans}")
        tell(characters == "".join(u[1] for u in units), f"{where}: the text")
        bare = document[5:-6]
        for name in NAMES:
            bare = bare.replace(f"<{name}>".encode(), b"").replace(f"</{name}>".encode(), b"")
        tell(bare == text and document.startswith(b"<doc>") and document.endswith(b"</doc>"), f"{where}: the bytes")
        tell(run.check(document) == (status, verdict + b"\n"), f"{where}: the verdict")
    others = list(ranges)
    source.shuffle(others)
    again = run.standoff(text, lines_of(source, others))
    if not (refused and refused[0].startswith("ranges outside")):
        tell(again == (status, out), f"{where}: in another order {again}")


def limits(run):
    many = b"0 1 0 p\n" * 1048576
    tell(run.standoff(b"x", many) == (9, b"ranges twice 0 1 0\n"), "as many lines as may be")
    tell(run.standoff(b"x", many + b"\n") == (8, b"limit ranges\n"), "one more line")
    tell(run.standoff(b"x", b"0 1 0\n" + many) == (9, b"ranges line 0\n"), "a line at fault before too many")
    tell(run.standoff(b"x", many[:-8] + b"x\n" + many) == (9, b"ranges line 1048575\n"), "the last line at fault")
    deep = b"".join(b"0 1 %d em\n" % n for n in range(511))
    status, out = run.standoff(b"x", deep)
    tell(out.endswith(b"\n<doc>" + b"<em>" * 511 + b"x" + b"</em>" * 511 + b"</doc>\n"), "511 ranges, one in another")
    tell(run.standoff(b"x", deep + b"0 1 511 em") == (8, b"limit depth\n"), "512 ranges, one in another")
    for line, wanted in [(b"0 8 p", b"ranges line 0\n"), (b"00 1 0 p", b"ranges line 0\n"), (b"0 1 0 p ", b"ranges line 0\n"),
                         (b"0 4294967296 0 p", b"ranges line 0\n"), (b"0 4294967295 0 p", b"ranges outside 0\n"),
                         (b"0 1 0 p\n\n", b"ranges line 1\n"), (b"0 1 0 \xc3", b"ranges line 0\n")]:
        tell(run.standoff(b"x", line) == (9, wanted), f"{line!r}")
    for text, wanted in [(b"a<b", b"text bad-char 1\n"), (b"a&nbsp;", b"text entity 1\n"), (b"", b"text empty 0\n"), (b"]]>", b"text close-mark 0\n"),
                         (b"a&b", b"text bad-reference 1\n"), (b"\xff", b"text bad-char 0\n")]:
        tell(run.standoff(text, b"") == (7, wanted), f"{text!r}")


def main():
    program, rounds, seed = sys.argv[1], int(sys.argv[2]), int(sys.argv[3])
    source = random.Random(seed)
    with tempfile.TemporaryDirectory() as folder:
        run = Run(os.path.abspath(program), folder)
        for number in range(rounds):
            one_round(run, source, number)
        limits(run)
    print(f"standoff: {passed} passed, {failed} failed")
    return 1 if failed else 0


if __name__ == "__main__":
    sys.exit(main())
