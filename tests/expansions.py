"""Compares how `pvtag` puts parameter entities in place with a model that is written from docs/FORMATS.md alone.

Words: PROGRAM ROUNDS SEED. A round is one random DTD with parameter entities: nested, doubled, unused, declared twice or in a text, in
declarations and between them, with character references in values, comments, processing instructions and literals that look like
references, and mostly changed in a place or two. Where the model meets a fault, `dtd` has to tell it; else `dtd` has to say the same of the DTD
as of the text that the model makes of it, in which nothing is left to put in place. Prints each difference, and how many cases passed;
ends with 1 where one failed.
"""
import os
import random
import subprocess
import sys
import tempfile

from lib.entities import Fault, Reading

NAMES = ["a", "b", "c", "d", "имя"]
declared = []


def space():
    return random.choice(["", "", " ", "\n", "\t \r\n"])


def gap():
    return random.choice([" ", " ", "\n", "\t \r\n"])


def reference():
    return "%" + random.choice(declared if declared and random.random() < 0.97 else NAMES) + ";"


def model():
    return random.choice(["EMPTY", "ANY", "(#PCDATA)", "(a|b)", "(a,b?)*", "(#PCDATA|a)*", "a", "|b", "(", ")", "b,", ""])


def literal():
    quote = random.choice("'\"")
    return quote + "".join(random.choices(["x", "%a;", ">", "<", "%", "&b;", " ", "'\""[quote == "'"]], k=random.randint(0, 3))) + quote


def declaration():
    form = random.choice(["element", "element", "element", "attributes", "entity", "comment", "instruction"])
    held = lambda: "".join(random.choices([reference(), model(), gap()], [2, 3, 1])[0] for _ in range(random.randint(1, 3)))
    if form == "element":
        return f"<!ELEMENT{gap()}{random.choice(NAMES + [reference()])}{gap()}{held()}{space()}>"
    if form == "attributes":
        return f"<!ATTLIST{gap()}{random.choice(NAMES + [reference()])}{gap()}x CDATA {literal()}{space()}>"
    if form == "entity":
        return f"<!ENTITY{gap()}g{gap()}{literal()}{space()}>"
    if form == "comment":
        return "<!--" + "".join(random.choices(["x", "%a;", ">", "'", "-x", "<![", " "], k=random.randint(0, 3))) + "-->"
    return "<?x " + "".join(random.choices(["x", "%a;", ">", "'", "?", "<![", " "], k=random.randint(0, 3))) + "?>"


# A value without its quotes: parts of models, whole declarations, references of each kind.
def value(quote):
    parts = []
    for _ in range(random.randint(0, 3)):
        part = random.choice([model, model, reference, declaration, lambda: "&#37;" + random.choice(declared or NAMES) + ";", lambda: random.choice(
            ["&#60;", "&#62;", "&#34;", "&#39;", "&#x25;", "&amp;", "&#x20AC;", "&b;", "&#37;", "&#38;", "&#60;!ELEMENT a ANY&#62;"]),
            lambda: parameter(2)])()
        parts.append(part)
    text = "".join(parts).replace(quote, "&#34;" if quote == '"' else "&#39;")
    return text if random.random() < 0.5 else text.replace("% ", "&#37; ")


def parameter(depth=0):
    quote = random.choice("'\"")
    name = random.choice(NAMES)
    inner = value(quote) if depth == 0 else random.choice(["", "a|b", "EMPTY", "&#37;a;"])
    if depth == 0:
        declared.append(name)
    if random.random() < 0.02:
        return f"<!ENTITY % {name} SYSTEM {quote}a{quote}>"
    return f"<!ENTITY{gap()}%{gap()}{name}{gap()}{quote}{inner}{quote}{space()}>"


def dtd():
    declared.clear()
    items = [parameter() for _ in range(random.randint(0, 3))]
    items += [random.choice([parameter, parameter, declaration, reference])() for _ in range(random.randint(1, 8))]
    text = random.choice(["", "", "\ufeff", "<?xml encoding='UTF-8'?>"]) + "".join(item + space() for item in items)
    while random.random() < 0.25:
        at = random.randint(0, len(text))
        until = min(len(text), at + random.choice([0, 1, 1, 3]))
        text = text[:at] + "".join(random.choices("<>!%;&'\"[]- ab\x01", k=random.choice([0, 0, 1, 1, 2]))) + text[until:]
    return text


# ---- the program
def answer(program, text):
    with open("a.dtd", "w", newline="", encoding="utf-8") as file:
        file.write(text)
    ran = subprocess.run([program, "dtd", "a.dtd"], capture_output=True, encoding="utf-8", errors="replace")
    return (ran.returncode, ran.stdout)


def main():
    program, rounds, seed = os.path.abspath(sys.argv[1]), int(sys.argv[2]), int(sys.argv[3])
    random.seed(seed)
    passed = failed = 0
    counts = {}
    with tempfile.TemporaryDirectory() as folder:
        os.chdir(folder)
        for _ in range(rounds):
            text = dtd()
            try:
                made = Reading().file(text)
                kind = "put in place"
                wanted = answer(program, made)
            except Fault as fault:
                kind = str(fault)
                wanted = (8, "limit params\n") if kind == "limit" else (6, f"dtd param {kind}\n")
                made = None
            counts[kind] = counts.get(kind, 0) + 1
            got = answer(program, text)
            if got == wanted:
                passed += 1
                continue
            failed += 1
            print(f"got {got!r}, wanted {wanted!r}")
            print(f"{text!r}\n{made!r}")
    print("DTDs: " + ", ".join(f"{counts[kind]} {kind}" for kind in sorted(counts)))
    print(f"{passed} passed, {failed} failed")
    return failed > 0


if __name__ == "__main__":
    sys.exit(main())
