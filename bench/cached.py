"""The time of an edit, an undo and a refused edit in documents of 10,000 and of 1,000,000 nodes, of opening the larger beside `check`, and of a
drill of 2,000 and of 20,000.

Words: PROGRAM RUNS. Each time is the best of the runs, which take turns; opening the document is taken off.
"""
import os
import subprocess
import sys
import tempfile
import time

DTD = "<!ELEMENT r (s*)><!ELEMENT s (p*)><!ELEMENT p (#PCDATA|b)*><!ELEMENT b (#PCDATA)>"
LINES = 400000
MOVES = {
    "an edit": ["wrap 0.3.5 0 1 b", "unwrap 0.3.5.0"],
    "an edit and its undo": ["wrap 0.3.5 0 1 b", "undo"],
    "a refused edit": ["wrap 0.3.5 0 1 p", "wrap 0.3.5 0 1 s"],
}


def document(sections):
    section = "<s>" + "<p>text</p>" * 49 + "</s>"
    return "<r>" + section * sections + "</r>"


def seconds(*words, text=""):
    began = time.monotonic()
    subprocess.run(words, input=text.encode(), stdout=subprocess.DEVNULL, check=True)
    return time.monotonic() - began


def main():
    program, runs = os.path.abspath(sys.argv[1]), int(sys.argv[2])
    with tempfile.TemporaryDirectory() as folder:
        os.chdir(folder)
        open("r.dtd", "w").write(DTD)
        sizes = {"10,000 nodes": 100, "1,000,000 nodes": 10000}
        for name, sections in sizes.items():
            open(f"{sections}.xml", "w").write(document(sections))
        best = {}

        def note(key, value):
            best[key] = min(best.get(key, value), value)

        for _ in range(runs):
            for name, sections in sizes.items():
                words = (program, "session", "r.dtd", "r", f"{sections}.xml")
                note((name, "opening"), seconds(*words))
                note((name, "check"), seconds(program, "check", *words[2:]))
                for move, pair in MOVES.items():
                    note((name, move), seconds(*words, text="\n".join(pair * (LINES // 2)) + "\n"))
            for n in ("2000", "20000"):
                note(("drill", n), seconds(program, "drill", n))
        small, large = sizes
        for move in MOVES:
            one, other = (1e6 * (best[name, move] - best[name, "opening"]) / LINES for name in sizes)
            print(f"{move}: {one:.1f} us a line at {small}, {other:.1f} at {large}: {other / one:.2f} times")
        one, other = best[large, "opening"], best[large, "check"]
        print(f"opening a document of {large}: {1000 * one:.0f} ms, check {1000 * other:.0f} ms: {one / other:.2f} times")
        one, other = best["drill", "2000"], best["drill", "20000"]
        print(f"drill 2000: {1000 * one:.0f} ms, drill 20000: {1000 * other:.0f} ms: {other / one:.1f} times")
        os.chdir("/")


if __name__ == "__main__":
    main()
