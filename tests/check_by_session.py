"""Compares `check` with the opening of a session, whose verdicts it must tell.

Words: PROGRAM ROUNDS SEED. A round is one made DTD and eight made documents: random ones, the same with elements within others, without some
pairs of tags, with names that the DTD doesn't have, and cut or broken bytes. After them come lists near the width that verdicts may have, and
long lists that aren't valid, with as many tokens as `check` judges by one thread, one less and more. Where the session opens, `check` must tell
its first impossible list or the number of its possible ones; where it doesn't, its line and status. Prints each difference, and how many
cases passed; ends with 1 where one failed.
"""
import os
import random
import sys
import tempfile

from lib.counting import Expecting, output

NAMES = [f"n{number}" for number in range(6)]


def particle(depth):
    form = random.random()
    if depth == 0 or form < 0.5:
        whole = random.choice(NAMES)
    else:
        join = ", " if form < 0.75 else " | "
        whole = "(" + join.join(particle(depth - 1) for _ in range(random.randint(1, 3))) + ")"
    return whole + random.choice(["", "", "?", "*", "+"])


def content():
    form = random.random()
    if form < 0.15:
        return "EMPTY"
    if form < 0.25:
        return "ANY"
    if form < 0.35:
        return "(#PCDATA)"
    if form < 0.6:
        return f"(#PCDATA | {' | '.join(random.sample(NAMES, random.randint(1, 4)))})*"
    return f"({particle(2)})"


def dtd():
    declared = random.sample(NAMES, random.randint(3, 6))
    return "".join(f"<!ELEMENT {name} {content()}>" for name in declared)


def element(depth, names):
    name = random.choice(names)
    kids = "".join(node(depth - 1, names) for _ in range(random.randint(0, 4) if depth > 0 else 0))
    if not kids and random.random() < 0.5:
        return f"<{name}/>"
    return f"<{name}>{kids}</{name}>"


def node(depth, names):
    return random.choice([lambda: element(depth, names)] * 5 + [
        lambda: random.choice(["x", " ", "\n", "a&amp;b", "&lt;"]), lambda: "<![CDATA[]]>", lambda: "<!-- c -->", lambda: "<?p q?>"])()


def broken(text):
    at = random.randrange(len(text) + 1)
    return random.choice([text[:at], text[:at] + random.choice(["<", "&", "&x;", "</n0>", "<n0>", "]]>", "<!--"]) + text[at:], text + "<n0/>"])


def document():
    names = NAMES + (["other"] if random.random() < 0.1 else [])
    text = element(random.randint(1, 5), names)
    form = random.random()
    if form < 0.1:
        text = broken(text)
    elif form < 0.2:
        text = f"<?xml version='1.0'?><!DOCTYPE n0><!-- c -->{text}\n"
    return text


def told(verdicts):
    """What `check` must print where the session tells these."""
    rows = [line.split(" ") for line in verdicts.decode().splitlines()[1:]]
    impossible = [path for path, verdict, _ in rows if verdict == "impossible"]
    possible = sum(verdict == "possible" for _, verdict, _ in rows)
    if impossible:
        return 1, f"impossible {impossible[0]}\n".encode()
    return 0, b"valid\n" if not possible else f"possible {possible}\n".encode()


class Trial:
    def __init__(self, program, folder):
        self.program, self.count = program, Expecting()
        self.dtd, self.doc = os.path.join(folder, "d.dtd"), os.path.join(folder, "d.xml")

    def compare(self, what, declarations, root, text):
        for path, written in (self.dtd, declarations), (self.doc, text):
            with open(path, "w") as file:
                file.write(written)
        words = self.dtd, root, self.doc
        status, lines = output(self.program, "session", *words, script="verdicts\n")
        wanted = told(lines) if status == 0 else (status, lines)
        got = output(self.program, "check", *words)
        self.count.expect(f"{what}: {declarations[:600]} {root} {text[:600]}", got == wanted, (got, wanted))


# Lists of `a`, half of whose kids are missing: by left recursion, or free.
LEFT = "<!ELEMENT r ANY><!ELEMENT a (b, c?)><!ELEMENT b (a?)><!ELEMENT c EMPTY>"
FREE = "<!ELEMENT r ANY><!ELEMENT a (b, c)*><!ELEMENT b EMPTY><!ELEMENT c EMPTY>"


def long_lists(trial):
    for name, declarations, kid in (("left", LEFT, "c"), ("free", FREE, "b")):
        for sizes in [63] * 3, [64], [1024] * 64, [1024] * 63 + [1023], [1024] * 64 + [64], [65536], [65537], [65600], [1024] * 70:
            lists = "".join(f"<a>{f'<{kid}/>' * size}</a>" for size in sizes)
            trial.compare(f"{name} {len(sizes)} {sizes[-1]}", declarations, "r", f"<r>{lists}</r>")
            trial.compare(f"{name} {len(sizes)} {sizes[-1]}, impossible", declarations, "r", f"<r>{lists}<a><r/></a></r>")
            trial.compare(f"{name} {len(sizes)} {sizes[-1]}, cut", declarations, "r", f"<r>{lists}")


def wide_lists(trial):
    """Ten thousand parts and names: a list of 6709 tokens isn't too wide, and one of 6710 is."""
    names = [f"w{number}" for number in range(4999)]
    declarations = f"<!ELEMENT r ({' | '.join(names)} | e)*><!ELEMENT e ANY>"
    columns = 2 * len(names) + 4
    for size in 67108864 // columns - 2, 67108864 // columns - 1, 67108864 // columns, 67108864 // columns + 1:
        for kids in "<e/>" * size, "x" + "<e/>x" * (size // 2), "<e/><!-- c -->" * size, "<q/>" * size:
            trial.compare(f"{size} wide", declarations, "r", f"<r>{kids}</r>")
            trial.compare(f"{size} wide below", declarations, "r", f"<r><e>{kids}</e></r>")
            trial.compare(f"{size} wide behind", declarations, "r", f"<r><q/><e>{kids}</e><e>{kids}</e></r>")


def main():
    program, rounds, seed = sys.argv[1], int(sys.argv[2]), int(sys.argv[3])
    random.seed(seed)
    with tempfile.TemporaryDirectory() as folder:
        trial = Trial(program, folder)
        for _ in range(rounds):
            declarations = dtd()
            for _ in range(8):
                trial.compare("made", declarations, random.choice(NAMES[:2]), document())
        long_lists(trial)
        wide_lists(trial)
        return trial.count.ended()


if __name__ == "__main__":
    sys.exit(main())
