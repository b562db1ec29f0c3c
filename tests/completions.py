"""Compares `need` and `complete` in a session with a search that inserts elements, on the examples and on random small documents.

Words: PROGRAM ROUNDS SEED, and the most seconds, where not all rounds are wanted. A round is one DTD and a dozen documents, made as in
`against_a_model.py`. `need` must tell the least number that the search of `lib/search.py` finds with at most `MOST` insertions, or
a larger one. What `complete` shows must be `valid`, also by xmllint where it is installed and the DTD is deterministic; it must keep all
texts and tags in their order, and have as many elements more as `need` tells; and it must leave the document as it was. Prints each
difference, and how many cases passed; ends with 1 where one failed.
"""
import glob
import os
import random
import re
import shutil
import subprocess
import sys
import tempfile
import time

sys.dont_write_bytecode = True

from lib.counting import Fault, need
from lib.editing import document_of
from lib.grammar import declaration
from lib.kept import check_kept, kind_of, names_in, parts_of, productive_grammar
from lib.search import write

def check_valid(program, dtd, root, body):
    write("body.xml", body)
    ran = subprocess.run([program, "valid", dtd, root, "body.xml"], capture_output=True, text=True)
    need((ran.returncode, ran.stdout) == (0, "valid\n"), f"the body is {ran.stdout!r}")
    if shutil.which("xmllint"):
        # For xmllint, attributes have to be declared.
        text = open(dtd, encoding="utf-8").read()
        attributes = "".join(f"<!ATTLIST {name} class CDATA #IMPLIED i CDATA #IMPLIED id CDATA #IMPLIED>\n" for name in names_in(text))
        write("declared.dtd", text + attributes)
        ran = subprocess.run(["xmllint", "--noout", "--dtdvalid", "declared.dtd", "body.xml"], capture_output=True, encoding="utf-8", errors="replace")
        need(ran.returncode == 0 or "not determinist" in ran.stderr, f"xmllint says {ran.stderr!r}")


def replies_of(program, dtd, root, doc):
    """The status and the output of a session with `need`, `complete` and `show`."""
    ran = subprocess.run([program, "session", dtd, root, doc], input=b"need\ncomplete\nshow\n", capture_output=True)
    return ran.returncode, ran.stdout


def judge(program, dtd, root, text):
    """What is missing: a number, or that the document is impossible."""
    write("d.xml", text)
    status, out = replies_of(program, dtd, root, "d.xml")
    shown = f"show {len(text.encode())}\n{text}\n".encode()
    if out.startswith(b"no impossible "):
        reply, _, _ = out.partition(b"\n")
        need(status == 0 and re.fullmatch(rb"no impossible [0-9.]+", reply), f"status {status}, the output is {out!r}")
        need(out == (reply + b"\n") * 2 + shown, f"the output is {out!r}")
        return None
    told = re.match(rb"need ([0-9]+)\ncompleted ([0-9]+) ([0-9]+)\n", out)
    need(status == 0 and told, f"status {status}, the output is {out!r}")
    count, inserted, length = map(int, told.groups())
    need(count == inserted, f"{count} elements are missing, and {inserted} were inserted")
    body, rest = out[told.end():told.end() + length], out[told.end() + length:]
    need(rest == b"\n" + shown, f"behind the body stands {rest!r}")
    check_valid(program, dtd, root, body.decode())
    check_kept(text, body.decode(), count)
    return count


def count_case(counts, told, case):
    """Runs the case, which gives how it is counted, and tells of a fault in it."""
    try:
        kind = case()
    except Fault as fault:
        kind = "failed"
        print(f"{fault}\n{told}")
    counts[kind] = counts.get(kind, 0) + 1


def examples(program, counts):
    top = os.path.dirname(os.path.dirname(os.path.abspath(__file__)))
    dtds = sorted(glob.glob(f"{top}/examples/*.dtd"))
    names = {dtd: names_in(open(dtd, encoding="utf-8").read())[0] for dtd in dtds}
    for doc in sorted(glob.glob(f"{top}/examples/*.xml")):
        text = open(doc, encoding="utf-8", newline="").read()
        root = re.match("<([^ \t\r\n/>]+)", parts_of(text)[1][0]).group(1)
        dtd, = [dtd for dtd, name in names.items() if name == root]
        count_case(counts, doc, lambda: "impossible" if judge(program, dtd, root, text) is None else "example")


def round_of(program, counts):
    models, search = productive_grammar()
    declared = list(models)
    dtd = "".join(declaration(x, models[x]) for x in declared)
    write("a.dtd", dtd)
    for _ in range(12):
        document, named = document_of(models, declared)
        text = document.written()
        root = named or random.choice([document.root.name] * 6 + declared * 2)
        count_case(counts, f"root {root}\n{dtd}{text}",
                   lambda: kind_of(search, document.root, root, judge(program, "a.dtd", root, text)))


def main():
    program, rounds, seed = os.path.abspath(sys.argv[1]), int(sys.argv[2]), int(sys.argv[3])
    end = time.monotonic() + int(sys.argv[4]) if len(sys.argv) > 4 else float("inf")
    random.seed(seed)
    counts = {"failed": 0}
    with tempfile.TemporaryDirectory() as folder:
        os.chdir(folder)
        examples(program, counts)
        for _ in range(rounds):
            if time.monotonic() < end:
                round_of(program, counts)
        os.chdir("/")
    print(", ".join(f"{kind} {count}" for kind, count in sorted(counts.items())))
    failed = counts["failed"]
    print(f"completions: {sum(counts.values()) - failed} passed, {failed} failed")
    sys.exit(1 if failed else 0)


if __name__ == "__main__":
    main()
