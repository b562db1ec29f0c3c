"""Times `why` and `deny`. Words: the repository's folder, and how many runs of each.

On a document of 18 MB that an empty section at its end makes impossible, and so its root's list of many kids; on the same with one impossible
paragraph at its end; and on a list whose denial has as many values as a denial may have. The runs of one document are interleaved; the best
of each is told, in milliseconds of processor time and in kilobytes of memory at the peak, with the status of the last; and then the time of
`why` by that of `check`, and that of `deny` by that of `why`.
"""
import subprocess
import sys
import tempfile

from timing import made, program_of, run, written

# 211 sites, and as many kids as there may be in a denial of 8,388,608 values.
MANY = "<!ELEMENT r (a, b)><!ELEMENT a EMPTY><!ELEMENT b EMPTY>" + "".join(f"<!ELEMENT e{number} EMPTY>" for number in range(100))
MOST_KIDS = 8_388_608 // 211 - 1


def after_all(text):
    """A document of sections with a head after them all: its root's list is impossible."""
    return text.rstrip().removesuffix("</doc>") + "<head/></doc>"


def cases(top, folder):
    """Title, DTD, root and document."""
    with open(f"{top}/examples/article.dtd", encoding="utf-8") as file:
        article = file.read()
    with open(made("nodes", 18_000_000, f"{folder}/plain.xml"), encoding="utf-8") as file:
        text = file.read().rstrip()
    yield "18 MB, a head after all sections", article, "doc", after_all(text)
    yield "18 MB, a blank in an EMPTY element at the end", article, "doc", text.removesuffix("</doc>") + "<sec><p><br> </br></p></sec></doc>"
    yield "the most values", MANY, "r", f"<r>{'<a/>' * MOST_KIDS}</r>"


def main():
    top, rounds = sys.argv[1], int(sys.argv[2])
    program = program_of(top)
    with tempfile.TemporaryDirectory() as folder:
        for title, dtd, root, doc in cases(top, folder):
            files = [written(f"{folder}/a.dtd", dtd), root, written(f"{folder}/d.xml", doc)]
            with open(f"{folder}/t.den", "wb") as file:
                subprocess.run([program, "why", *files], stdout=file, check=True)
            words = {"check": ["check", *files], "why": ["why", *files], "deny": ["deny", *files, f"{folder}/t.den"]}
            best = {name: (float("inf"), float("inf"), 0) for name in words}
            for _ in range(rounds):
                for name in words:
                    seconds, memory, status = run([program, *words[name]])[:3]
                    best[name] = min(best[name][0], seconds), min(best[name][1], memory), status
            print(title)
            for name, (seconds, memory, status) in best.items():
                print(f"  {name:6}{1000 * seconds:10,.1f} ms{memory:12,} kB   {status}")
            print(f"  why by check {best['why'][0] / best['check'][0]:.2f}, deny by why {best['deny'][0] / best['why'][0]:.2f}")


if __name__ == "__main__":
    main()
