"""Times `valid` on lists of elements in large content models. Words: the repository's folder, and how many runs of each.

The runs are interleaved, so that what else the machine does falls on all alike; the best of each is told, in milliseconds of processor
time, and the time of the same list in an ANY element, which is matched in one step a name. A run is ended after a minute.
"""
import resource
import subprocess
import sys
import tempfile
from typing import NamedTuple

from timing import program_of

# The limits of a DTD: 65,536 parts and 4,096 types.
WIDE = 65_000
DECLARED = 4_000
LENGTH = 100_000
# So many optional names have 65,402 parts.
OPTIONAL = 32_701


class Lists(NamedTuple):
    """Many short lists under a large model: what is told of them, the model, how many types a0, a1, .. are declared, one list, and how
    many there are."""
    title: str
    model: str
    declared: int
    kids: str
    count: int = LENGTH


def declarations(count):
    return "".join(f"<!ELEMENT a{number} EMPTY>\n" for number in range(count))


def names(count, spelling="a{}"):
    return [spelling.format(number) for number in range(count)]


def cycle(count, length):
    return "".join(f"<a{number % count}/>" for number in range(length))


# What is told of a case, its content model, how many types a0, a1, .. are declared, and the content of the document.
def cases():
    declared = names(DECLARED)
    yield "ANY", "ANY", DECLARED, cycle(DECLARED, LENGTH)
    yield "mixed of 4,000 names, each in turn", f"(#PCDATA|{'|'.join(declared)})*", DECLARED, cycle(DECLARED, LENGTH)
    yield "(a0|..|a3999)*, each in turn", f"({'|'.join(declared)})*", DECLARED, cycle(DECLARED, LENGTH)
    yield "(n0|..|n64999|a0)*, a0 alone", f"({'|'.join(names(WIDE, 'n{}') + ['a0'])})*", 1, cycle(1, LENGTH)
    yield "(a0?, .., a3999?)+, each in turn", f"({', '.join(f'{name}?' for name in declared)})+", DECLARED, cycle(DECLARED, LENGTH)
    yield "(a0, (a1|a2)*), a1 and a2 in turn", "(a0, (a1|a2)*)", 3, "<a0/>" + "<a1/><a2/>" * (LENGTH // 2)
    # Not deterministic: after k names each of the last 1,000 - k positions is reached.
    yield "(a0?, .., a0?) of 1,000, a0 1,000 times", f"({', '.join(['a0?'] * 1000)})", 1, cycle(1, 1000)


def optional(name, count):
    return f"({', '.join([name + '?'] * count)})"


# Each list costs its tokens, however large the model is; but the last, whose kid may stand at each place, costs a walk of the model.
def short_lists():
    declared = names(DECLARED)
    last = f"<a{DECLARED - 1}/>"
    yield Lists("lists of one kid, (a0?, .., a3999?)", f"({', '.join(f'{name}?' for name in declared)})", DECLARED, last)
    yield Lists("lists of one kid, (a0 or .. or a3999)+", f"({'|'.join(declared)})+", DECLARED, last)
    yield Lists("lists of one kid, mixed of 4,000 names", f"(#PCDATA|{'|'.join(declared)})*", DECLARED, last)
    yield Lists("lists of one kid, a0? 32,701 times", optional("a0", OPTIONAL), 1, "<a0/>", 1_000)


# A DTD of a document that holds lists in elements `m` of this model.
def dtd_of_lists(model, count):
    return f"<!ELEMENT doc (m)*>\n<!ELEMENT m {model}>\n{declarations(count)}"


def lists(kids, count):
    return f"<doc>{f'<m>{kids}</m>' * count}</doc>"


def seconds(words):
    before = resource.getrusage(resource.RUSAGE_CHILDREN)
    try:
        done = subprocess.run(words, stdout=subprocess.PIPE, timeout=60)
    except subprocess.TimeoutExpired:
        return None
    after = resource.getrusage(resource.RUSAGE_CHILDREN)
    if done.returncode != 0:
        sys.exit(f"{words}: status {done.returncode}, {done.stdout.decode(errors='replace').strip()}")
    return after.ru_utime + after.ru_stime - before.ru_utime - before.ru_stime


def main():
    top, runs = sys.argv[1], int(sys.argv[2])
    program = program_of(top)
    with tempfile.TemporaryDirectory() as folder:
        told = []
        for number, (name, model, count, content) in enumerate(cases()):
            dtd, document = f"{folder}/{number}.dtd", f"{folder}/{number}.xml"
            with open(dtd, "w") as file:
                file.write(f"<!ELEMENT doc {model}>\n{declarations(count)}")
            with open(document, "w") as file:
                file.write(f"<doc>{content}</doc>")
            told.append((name, [program, "valid", dtd, "doc", document]))
        for number, shape in enumerate(short_lists()):
            dtd, document = f"{folder}/short.{number}.dtd", f"{folder}/short.{number}.xml"
            with open(dtd, "w") as file:
                file.write(dtd_of_lists(shape.model, shape.declared))
            with open(document, "w") as file:
                file.write(lists(shape.kids, shape.count))
            told.append((f"{shape.count:,} {shape.title}", [program, "valid", dtd, "doc", document]))
        best = {}
        late = set()
        for _ in range(runs):
            for name, words in told:
                if name in late:
                    continue
                time = seconds(words)
                if time is None:
                    late.add(name)
                else:
                    best[name] = min(time, best.get(name, time))
        for name, _ in told:
            print(f"{name:50}", "over a minute" if name in late else f"{best[name] * 1000:8.0f} ms")


if __name__ == "__main__":
    main()
