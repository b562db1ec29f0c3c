"""Times `complete`, and `verify` of the pack that it prints. Words: the repository's folder, and how many runs of each.

On one list of 250, 500 and 1,000 tokens that misses an element, as far as its tables are within the limit, and on 20,000 short lists, of which
each does. The runs are interleaved; the best of each is told, in milliseconds of processor time and in megabytes of memory at the peak, with
the size of the pack in megabytes, and the time of `verify` as a part of that of `complete`.
"""
import os
import subprocess
import sys
import tempfile

from need import cases
from timing import program_of, run, written


def main():
    top, rounds = sys.argv[1], int(sys.argv[2])
    pvtag, dtd = program_of(top), f"{top}/examples/article.dtd"
    with tempfile.TemporaryDirectory() as folder:
        doc, pack = (os.path.join(folder, name) for name in ("d.xml", "d.pack"))
        for title, text in cases():
            written(doc, text)
            with open(pack, "wb") as file:
                made = subprocess.run([pvtag, "complete", dtd, "doc", doc], stdout=file)
            if made.returncode != 0:
                with open(pack) as file:
                    print(f"{title}: status {made.returncode}, {file.readline().strip()}")
                continue
            programs = {"complete": [pvtag, "complete", dtd, "doc", doc], "verify": [pvtag, "verify", dtd, "doc", doc, pack]}
            best = {name: (float("inf"), float("inf")) for name in programs}
            for _ in range(rounds):
                for name, words in programs.items():
                    seconds, memory, status = run(words)[:3]
                    if status != 0:
                        sys.exit(f"{title}: {name}: status {status}")
                    best[name] = (min(best[name][0], seconds), min(best[name][1], memory))
            print(f"{title}: a pack of {os.path.getsize(pack) / 1e6:.1f} MB, verify {best['verify'][0] / best['complete'][0]:.2f} of complete's time")
            for name, (seconds, memory) in best.items():
                print(f"  {name}: {seconds * 1000:.0f} ms, {memory / 1024:.0f} MB")


if __name__ == "__main__":
    main()
