"""Times a session's edits at the end of one path of documents of 10,000 and of 1,000,000 nodes. Words: the repository's folder, and how many
runs of each.

An edit of each kind is made and undone on lists of at most three kids, 22,223 times: 400,014 changes. The time of a session without them,
which opens the document, is taken off. The runs are interleaved; the least time that the edits took is told, in microseconds of processor
time for each change, with the ratio of the two documents. Ends with 1 where that is over 1.5.
"""
import math
import sys
import tempfile

from timing import program_of, run, written

DTD = """<!ELEMENT doc (sec*)>
<!ELEMENT sec (#PCDATA|p|q|r)*>
<!ELEMENT p (#PCDATA|em)*>
<!ELEMENT q EMPTY>
<!ELEMENT r EMPTY>
<!ELEMENT em (#PCDATA)>
"""
# A section has three nodes, and the last one has five and stands apart, as the root does.
SIZES = {"10,000 nodes": 3_331, "1,000,000 nodes": 333_331}
# Each can be made in the last section, whose path stands for the braces, once its text is cut.
EDITS = ["wrap {}.0 0 2 em", "insert {} 1 p", "unwrap {}.0", "rename {}.1 r", "split {}.0.1 1", "join {}.0.0", "text {}.0.0 Hi &amp; bye",
         "addtext {} 2 more", "deltext {}.0.1"]
ROUNDS = 22_223
CHANGES = 2 * len(EDITS) * ROUNDS
MOST = 1.5


def document(sections):
    return f"<doc>{'<sec><p>some text</p></sec>' * sections}<sec><p>Hello, you</p><q/></sec></doc>"


def script(sections, rounds):
    """The cut, and so many rounds of edits."""
    last = f"0.{sections}"
    changes = "".join(f"{edit.format(last)}\nundo\n" for edit in EDITS)
    return f"split {last}.0.0 6\n{changes * rounds}".encode()


def try_round(words, sections):
    """Ends the measure where an edit or an undo of one round isn't made."""
    ran = run(words, script(sections, 1), keep=True, weigh=False)
    replies = ran.output.splitlines()
    if ran.status != 0 or len(replies) != 1 + 2 * len(EDITS) or not all(reply.startswith(b"ok ") for reply in replies):
        sys.exit(f"{words}: status {ran.status}, {ran.output.decode(errors='replace').strip()}")


def main():
    top, runs = sys.argv[1], int(sys.argv[2])
    with tempfile.TemporaryDirectory() as folder:
        begin = [program_of(top), "session", written(f"{folder}/d.dtd", DTD), "doc"]
        sessions = {name: [*begin, written(f"{folder}/{sections}.xml", document(sections))] for name, sections in SIZES.items()}
        for name, sections in SIZES.items():
            try_round(sessions[name], sections)
        best = {(name, rounds): math.inf for name in SIZES for rounds in (0, ROUNDS)}
        for _ in range(runs):
            for name, rounds in best:
                ran = run(sessions[name], script(SIZES[name], rounds), weigh=False)
                best[name, rounds] = min(best[name, rounds], ran.seconds)
    times = {name: (best[name, ROUNDS] - best[name, 0]) / CHANGES * 1e6 for name in SIZES}
    for name, time in times.items():
        print(f"{name:16} {time:6.2f} us a change, opened in {1000 * best[name, 0]:6.0f} ms")
    small, large = times.values()
    print(f"ratio {large / small:.2f}")
    return 1 if large > MOST * small else 0


if __name__ == "__main__":
    sys.exit(main())
