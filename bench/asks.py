"""Times what is only asked of a session, in long lists: offers, edits that are refused, `need` where nothing is missing; and edits of two lists in turn.

Words: the repository's folder, and how many rounds. PVTAG names another build of the program, and BEFORE one that is measured beside it. An offer is
asked first in each of some lists of 1,000 paragraphs, under a made DTD in the shape of DocBook of 398 names, and then again in the last of them; a wrap
that is refused is tried in a list of 20,000 and of 200,000 kids, at first and again, and in two lists in turn; kids come into two and three lists of
50,000 in turn; and `need` is asked again where all 1,000,000 lists are valid. The runs are interleaved; told is the least processor time of a line,
without the opening.
"""
import os
import sys
import tempfile

from large import shaped
from timing import program_of, run, told_time, written

ASKED, AGAIN, TRIED = 20, 50, 100
FREE = "<!ELEMENT r (s*)><!ELEMENT s (b|c)*><!ELEMENT b EMPTY><!ELEMENT c EMPTY>"


def sections():
    """Lists of 1,000 paragraphs."""
    return "<book><title>t</title><b0>" + f"<b1><title>t</title>{'<para>a</para>' * 1000}</b1>" * ASKED + "</b0></book>"


def lists(kids, count=1):
    return "<r>" + f"<s>{'<b/><c/>' * (kids // 2)}</s>" * count + "</r>"


def cases(folder):
    """The title, the words, the lines before and those that are timed."""
    def files(dtd, root, text, name):
        return [written(f"{folder}/{name}.dtd", dtd), root, written(f"{folder}/{name}.xml", text)]

    book = files(shaped(200, 196, 40), "book", sections(), "book")
    first = [f"offer 0.1.{at} 500 501" for at in range(ASKED)]
    yield "an offer in 1,000 paragraphs, asked first", book, [], first
    yield "the same, asked again", book, first[-1:], first[-1:] * AGAIN
    for kids in (20_000, 200_000):
        wide, line = files(FREE, "r", lists(kids), f"wide{kids}"), f"wrap 0.0 {kids // 2} {kids // 2 + 1} b"
        yield f"a refused wrap in {kids:,} kids, the first", wide, [], [line]
        yield "the same, another one", wide, [line], [line] * TRIED
    two = files(FREE, "r", lists(50_000, 2), "two")
    yield "insertions in two lists of 50,000 kids in turn", two, ["insert 0.0 25000 b", "insert 0.1 25000 b"] * 2, \
        ["insert 0.0 25000 b", "insert 0.1 25000 b"] * TRIED
    three = files(FREE, "r", lists(50_000, 3), "three")
    yield "insertions in three lists of 50,000 kids in turn", three, [f"insert 0.{at} 25000 b" for at in range(3)] * 2, \
        [f"insert 0.{at} 25000 b" for at in range(3)] * TRIED
    yield "refused wraps in two of them in turn", three, [f"wrap 0.{at} 25000 25001 b" for at in range(2)] * 2, \
        [f"wrap 0.{at} 25000 25001 b" for at in range(2)] * TRIED
    yield "`need` again, 1,000,000 valid lists", files(FREE, "r", lists(1_000_000), "valid"), ["need"], ["need"] * 5


def script(lines):
    return "".join(f"{line}\n" for line in lines).encode()


def main():
    top, rounds = os.path.abspath(sys.argv[1]), int(sys.argv[2])
    programs = [program_of(top), *([os.path.abspath(os.environ["BEFORE"])] if "BEFORE" in os.environ else [])]
    with tempfile.TemporaryDirectory() as folder:
        for title, files, before, lines in cases(folder):
            took = [[] for _ in programs]
            for _ in range(rounds):
                for of, program in zip(took, programs):
                    words = [program, "session", *files]
                    of.append((run(words, script(before + lines), weigh=False).seconds, run(words, script(before), weigh=False).seconds))
            best = [max(min(whole for whole, _ in of) - min(bare for _, bare in of), 0) / len(lines) for of in took]
            print(f"{title}: {', before '.join(map(told_time, best))}", flush=True)


if __name__ == "__main__":
    main()
