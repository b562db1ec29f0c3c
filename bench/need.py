"""Times a session that tells `need` once. Words: the repository's folder, and how many runs of each.

On one list of 250, 500 and 1,000 tokens: sections that miss their head, blocks of which each title misses a section and each text a
paragraph, and paragraphs that miss one section, so that most spans have a weight, both without a head too; and on 20,000 short lists, each of which misses an
element. The runs of `check` stand beside. The best of each is told, in milliseconds of processor time and in kilobytes of memory at the peak,
with what was printed.
"""
import sys
import tempfile

from timing import program_of, run, written


def one_list(count):
    """A list of sections that misses its head."""
    return "<doc>" + "<sec/>" * count + "</doc>"


def blocks(count):
    """A list of a title, a paragraph, a text and a list, in turn."""
    kids = ("<title/>", "<p/>", "x", "<list><item><p/></item><item><p/></item></list>")
    return "<doc>" + "".join(kids[at % len(kids)] for at in range(count)) + "</doc>"


def paragraphs(count):
    """A list of paragraphs."""
    return "<doc>" + "<p/>" * count + "</doc>"


def short_lists(count):
    """Sections each of which misses a paragraph."""
    return "<doc><head/>" + "<sec>t</sec>" * count + "</doc>"


def cases():
    for name, make in (("sections", one_list), ("blocks", blocks), ("paragraphs", paragraphs)):
        for count in (250, 500, 1000):
            yield f"one list of {count} {name}", make(count)
    yield "20,000 short lists", short_lists(20000)


def main():
    top, runs = sys.argv[1], int(sys.argv[2])
    program, dtd = program_of(top), f"{top}/examples/article.dtd"
    with tempfile.TemporaryDirectory() as folder:
        for title, text in cases():
            files = [dtd, "doc", written(f"{folder}/d.xml", text)]
            programs = {"need": [program, "session", *files], "check": [program, "check", *files]}
            best = {}
            for _ in range(runs):
                for name, words in programs.items():
                    ran = run(words, b"need\n", keep=True)
                    best[name] = min(best.get(name, ran), ran)
            for name, ran in best.items():
                print(f"{title}: {name} {1000 * ran.seconds:.0f} ms, {ran.memory} KB, {ran.output.decode().strip()}")


if __name__ == "__main__":
    main()
