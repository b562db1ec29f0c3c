"""Takes pairs of tags away from documents that `xmllint` finds valid: what is left is always `valid` or `possible`.

Words: PROGRAM ROUNDS SEED, and the most seconds, where less is wanted. Needs xmllint. A round is a DTD and five made documents, each tried
at three shares of pairs that are taken away. The DTDs are made at random, in the shape of large published ones: some hundred names, many
with mixed or starred models of some dozen names that lead back to one another, and some with sequences. Where lxml and packages of DTDs are
installed, the published ones are tried first, and with them documents of this machine: pages of XHTML, pictures, catalogs, and pages of the
manual that doclifter makes DocBook of. Prints each difference, and how many cases passed; ends with 1 where one failed.
"""
import itertools
import os
import random
import shutil
import re
import sys
import tempfile
import time

sys.path.insert(0, os.path.dirname(os.path.abspath(__file__)))
import published as tests  # noqa: E402


def members(names, most):
    return random.sample(names, random.randint(1, min(most, len(names))))


def content(names, at):
    """A model of names that are mostly declared after this one, so that most names have small trees."""
    later = names[at + 1:] or names
    near = later if random.random() < 0.7 else names
    form = random.choice(["empty"] + ["text"] * 2 + ["mixed"] * 4 + ["star"] * 3 + ["plus", "sequence", "sequence"])
    if form == "empty" or at == len(names) - 1:
        return "EMPTY"
    if form == "text":
        return "(#PCDATA)"
    if form == "mixed":
        return f"(#PCDATA|{'|'.join(members(near, 40))})*"
    if form in ("star", "plus"):
        return f"({'|'.join(members(later, 30))}){'*' if form == 'star' else '+'}"
    parts = []
    for name in members(later, 6):
        group = f"({'|'.join(members(later, 12))})" if random.random() < 0.4 else name
        parts.append(group + random.choice(["", "?", "*", "+"]))
    return f"({','.join(parts)})"


def made_dtd():
    names = [f"e{number}" for number in range(random.choice([5, 30, 150]))]
    return "".join(f"<!ELEMENT {name} {content(names, at)}>\n" for at, name in enumerate(names))


def made_documents(text):
    """Five documents by a DTD."""
    models = tests.models_of(text)
    least = tests.least_of(models)
    able = [name for name in models if least[name] < 1000]
    for _ in range(5):
        tree = tests.element(models, least, random.choice(able[: max(1, len(able) // 3)]), [random.choice([10, 60, 300])])
        yield tests.document(tree)


def real_documents(dtd):
    """At most five documents of this machine by a published DTD."""
    kinds = {tests.SVG: tests.pictures, tests.CATALOG: tests.catalogs}
    if shutil.which("doclifter"):
        kinds[tests.MANUALS] = tests.manuals
    found = (tests.plain(path) for it, path in kinds.get(dtd, tests.pages)() if it == dtd)
    return itertools.islice(filter(None, found), 5)


def try_documents(program, dtd, documents, kind):
    """Takes pairs of tags away from documents that are valid by a plain DTD."""
    for text in documents:
        tests.write("whole.xml", text)
        if tests.xmllint(dtd, ["whole.xml"])["whole.xml"] is not True:
            tests.tell("not valid for xmllint")
            continue
        for share in (0.05, 0.3, 0.8):
            damaged, _ = tests.without_tags(text, share)
            tests.write("draft.xml", damaged)
            ran = tests.run(program, "check", dtd, tests.root_of(text), "draft.xml")
            if ran.returncode == 8:
                tests.tell("too wide for check")
                continue
            tests.tell(f"drafts of {kind} documents")
            is_right = ran.returncode == 0 and re.fullmatch(r"valid\n|possible \d+\n", ran.stdout)
            tests.case(is_right, dtd, ran, damaged[:2000])


def main():
    program = os.path.abspath(sys.argv[1])
    rounds, seed = map(int, sys.argv[2:4])
    end = time.monotonic() + int(sys.argv[4]) if len(sys.argv) > 4 else tests.NEVER
    random.seed(seed)
    os.environ["XML_CATALOG_FILES"] = tests.CATALOGS
    python = tests.python_with_lxml()
    with tempfile.TemporaryDirectory() as folder:
        os.chdir(folder)
        published = [path for path in tests.FIRST if python and os.path.exists(path)]
        for at in range(rounds):
            if time.monotonic() >= end:
                break
            text = tests.run(python, tests.TOOL, published[at]).stdout if at < len(published) else made_dtd()
            tests.write("flat.dtd", text)
            try_documents(program, "flat.dtd", made_documents(text), "made")
            if at < len(published):
                try_documents(program, "flat.dtd", real_documents(published[at]), "real")
    print(", ".join(f"{count} {what}" for what, count in sorted(tests.told.items())))
    print(f"{tests.counts['passed']} passed, {tests.counts['failed']} failed")
    return tests.counts["failed"] > 0


if __name__ == "__main__":
    sys.exit(main())
