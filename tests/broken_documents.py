"""Cuts, doubles, swaps and flips bytes of real documents, and compares what is read with xmllint.

Words: PROGRAM ROUNDS SEED. A round changes one of the documents below in one to three places. Where `xmllint --noout` reads it, the program
must; where it doesn't, the program must refuse it, but for the differences that `is_known` lists. What the program reads must come back byte
for byte by `show`. Prints each difference, and how many cases passed; ends with 1 where one failed.
"""
import os
import random
import re
import subprocess
import sys
import tempfile
from xml.parsers import expat

from lib.waiting import PATIENCE

WHOLE = """\ufeff<?xml version="1.0" encoding='utf-8' standalone = "yes" ?>
<!-- draft - of spring -->
<!DOCTYPE doc PUBLIC "-//P//DTD Doc//EN" 'doc.dtd' >
<?page  1 of 2?>
<doc id = "d&#49;" class='a "b" &lt;c'>
\t<sec\tn="1"
>Caf\u00e9s &amp; b\u00e4rs &#x2014; ]] &gt; \u65e5\u672c <em/>tea<br /><p ></p
></sec><!----><![CDATA[]]]]><![CDATA[<menu> & ]]>
<\u03bb\u00b7 \u00e9='&quot;&apos;'>\U0001d538</\u03bb\u00b7>\r\n<?x?></doc>
<!-- end --><?y z?>
"""
SMALL = "<doc a='1'>x<b>y</b>&#38;<!--c--></doc>"
BYTES = b"<>&;#x'\"/!?-[]= \t\n\r:A\x00\xc3\x80\xff"


def change(rng, data):
    """One change of the bytes."""
    at, other = sorted((rng.randrange(len(data) + 1), rng.randrange(len(data) + 1)))
    other = min(other, at + rng.choice([1, 2, 5, 40]))
    form = rng.randrange(6)
    if form == 0:
        return data[:at] if rng.random() < 0.5 else data[at:]
    if form == 1:
        return data[:at] + data[other:]
    if form == 2:
        return data[:other] + data[at:other] + data[other:]
    if form == 3:
        start = rng.randrange(len(data) + 1)
        return data[:start] + data[at:other] + data[start:]
    if at == len(data):
        return data
    if form == 4:
        return data[:at] + bytes([data[at] ^ 1 << rng.randrange(8)]) + data[at + 1:]
    return data[:at] + bytes([rng.choice(BYTES)]) + data[at + rng.randrange(2):]


def is_known(data, said, told):
    """Whether the two readers are known to differ on these bytes: `said` is what the program prints, `told` what xmllint does.

    The program has a profile of its own: no internal subset, no entity that isn't predefined, only UTF-8 and US-ASCII by name, and a document
    type of the root's name. It looks only at the form of attributes, so two may have one name, and not at namespaces. xmllint reads other
    encodings, stops at a NUL, and asks names that begin with `xml` and versions other than 1.0 for more.
    """
    if b"\x00" in data or data[:2] in (b"\xfe\xff", b"\xff\xfe"):
        return True
    if said.startswith(b"document subset") or said.startswith(b"document doctype") or said.startswith(b"document entity"):
        return True
    if re.search(rb"encoding|ENCODING", data[:80]) and not re.search(rb"encoding\s*=\s*(['\"])(utf-8|us-ascii)\1", data[:120], re.I):
        return True
    return any(word in told for word in (b"redefined", b"amespace", b"olons are forbidden", b"nsupported version", b"xml:", b"reserved for XML"))


def names_of(data):
    """The names of the document's elements; none where the parser of Python's library refuses it."""
    names = []
    parser = expat.ParserCreate()
    parser.StartElementHandler = lambda name, attributes: names.append(name)
    try:
        parser.Parse(data, True)
    except expat.ExpatError:
        return None
    return names


def is_shown(program, folder, root, doc, data):
    """Whether `show` gives the document back, by a DTD that allows its names everywhere."""
    names = names_of(data)
    if names is None:
        return True
    dtd = os.path.join(folder, "any.dtd")
    with open(dtd, "w", encoding="utf-8") as file:
        file.write("".join(f"<!ELEMENT {name} ANY>" for name in dict.fromkeys([root, *names])))
    return run([program, "session", dtd, root, doc], b"show\n")[:2] == (0, b"show %d\n%s\n" % (len(data), data))


def run(words, script=b""):
    done = subprocess.run(words, input=script, capture_output=True, timeout=PATIENCE)
    return done.returncode, done.stdout, done.stderr


def main():
    program, rounds, seed = sys.argv[1], int(sys.argv[2]), int(sys.argv[3])
    here = os.path.dirname(os.path.abspath(__file__))
    bases = [WHOLE.encode(), SMALL.encode()]
    for name in ("article.xml", "letter.xml", "report.xml"):
        with open(os.path.join(here, "..", "examples", name), "rb") as file:
            bases.append(file.read())
    passed = failed = known = 0
    rng = random.Random(seed)
    with tempfile.TemporaryDirectory() as folder:
        dtd, doc = os.path.join(folder, "a.dtd"), os.path.join(folder, "a.xml")
        with open(dtd, "wb") as file:
            file.write(b"<!ELEMENT doc ANY>")
        for number in range(rounds):
            data = base = bases[number % len(bases)]
            for _ in range(0 if number < len(bases) else rng.choice([1, 1, 2, 3])):
                data = change(rng, data)
            root = "letter" if b"<letter" in base else "doc"
            with open(doc, "wb") as file:
                file.write(data)
            status, said, _ = run([program, "valid", dtd, root, doc])
            peer, _, told = run(["xmllint", "--noout", "--huge", "--nonet", doc])
            if status not in (0, 1, 7, 8) or (status in (0, 1)) != (peer == 0):
                if status in (0, 1, 7, 8) and is_known(data, said, told):
                    known += 1
                    continue
                failed += 1
                print("case", number, "status", status, said, "xmllint", peer, told[:300], data, flush=True)
                continue
            if status in (0, 1) and not is_shown(program, folder, root, doc, data):
                failed += 1
                print("case", number, "isn't given back", data, flush=True)
                continue
            passed += 1
    print(known, "known differences")
    print(f"{passed} passed, {failed} failed")
    sys.exit(1 if failed else 0)


main()
