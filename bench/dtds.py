"""Times `dtd` on the largest DTDs within the limits. Words: the repository's folder, and how many runs of each.

The runs are interleaved; the best of each is told, in milliseconds of processor time, and the last line that the program wrote.
"""
import os
import subprocess
import sys
import tempfile

from timing import program_of

# The limits of a DTD.
TYPES = 4_096
PARTS = 65_536


# 4,096 types that share the parts: a sequence of 8 names each, seven of them optional, so that a type has 16 parts.
def wide():
    others = ",".join(f"e{number}?" for number in range(7)) + ",e7"
    return "".join(f"<!ELEMENT e{number} {'EMPTY' if number < 8 else f'({others})'}>\n" for number in range(TYPES))


# Types each of which needs the next, the first declared first: each size rests on all that come after it.
def chain(count=TYPES):
    return "".join(f"<!ELEMENT e{number} (e{number + 1})>\n" for number in range(count - 1)) + f"<!ELEMENT e{count - 1} EMPTY>\n"


# The same, declared the other way round.
def backwards():
    return "\n".join(reversed(chain().splitlines())) + "\n"


# Types each of which needs the one before it, and one type that is a choice of all of them: its size could change with each of theirs.
def chosen(count=TYPES):
    names = [f"e{number}" for number in range(count - 1)]
    needs = "".join(f"<!ELEMENT {name} ({before})>\n" for before, name in zip(names, names[1:]))
    return f"<!ELEMENT all ({'|'.join(reversed(names))})>\n<!ELEMENT e0 EMPTY>\n{needs}"


# One mixed model of 65,000 names.
def mixed():
    return f"<!ELEMENT a (#PCDATA|{'|'.join(f'n{number}' for number in range(65_000))})*>\n"


# Types that need two of the next, so that sizes grow past the limit.
def doubling():
    return "".join(f"<!ELEMENT e{number} (e{number + 1},e{number + 1})>\n" for number in range(TYPES - 1)) + f"<!ELEMENT e{TYPES - 1} EMPTY>\n"


# 60,000 references in a file of 4 MB, each in a declaration of its own; and what they stand for, without a reference.
def references(default="%default;"):
    declared = '<!ENTITY % default "#IMPLIED">\n' if "%" in default else ""
    return declared + "".join(f"<!ATTLIST element.{number % 4_000:04} attribute.of.it.{number:05} CDATA  {default}>\n" for number in range(60_000))


def plain():
    return references(" #IMPLIED ")


# 60,000 entities, each of which refers to the one before, and a reference to the last: that many texts are read one within another.
def nested():
    return '<!ENTITY % e0 "">\n' + "".join(f'<!ENTITY % e{number + 1} "&#37;e{number};">\n' for number in range(60_000)) + "%e60000;\n"


# Each of 16 entities refers twice to the one before: the limit of references stops it.
def twice():
    return '<!ENTITY % e0 "">' + "".join(f'<!ENTITY % e{number + 1} "&#37;e{number};&#37;e{number};">' for number in range(16)) + "%e16;"


# A long text that is put in place up to the limit of bytes.
def placed():
    return f'<!ENTITY % long "{" " * 1_000_000}">' + "%long;" * 17


def run(words):
    child = subprocess.Popen(words, stdout=subprocess.PIPE)
    output = child.stdout.read()
    _, status, used = os.wait4(child.pid, 0)
    child.returncode = os.waitstatus_to_exitcode(status)
    last = output.decode().rstrip("\n").rsplit("\n", 1)[-1]
    return used.ru_utime + used.ru_stime, f"status {child.returncode}, {last}"


def main():
    program, rounds = program_of(sys.argv[1]), int(sys.argv[2])
    with tempfile.TemporaryDirectory() as folder:
        best = {}
        for made in (wide, chain, backwards, chosen, mixed, doubling, references, plain, nested, twice, placed):
            with open(f"{folder}/{made.__name__}.dtd", "w") as file:
                file.write(made())
        for _ in range(rounds):
            for name in sorted(os.listdir(folder)):
                seconds, told = run([program, "dtd", f"{folder}/{name}"])
                best[name] = (min(best.get(name, (seconds,))[0], seconds), told)
        for name, (seconds, told) in best.items():
            print(f"{name:14} {os.path.getsize(f'{folder}/{name}'):>9,} bytes {1000 * seconds:7.0f} ms   {told}")


if __name__ == "__main__":
    main()
