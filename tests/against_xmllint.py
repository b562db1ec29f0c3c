"""Compares `valid` with xmllint, and with a matcher of its own, on random DTDs and plain documents.

Words: PROGRAM ROUNDS SEED, and the most seconds, where not all rounds are wanted. A round is one DTD, a dozen documents, each of which
`show` must give back, and a dozen texts of each kind that were changed in one place or two. A DTD has names in several scripts, comments,
processing instructions, and declarations of attributes, entities and notations; the documents are ASCII. What is changed of a DTD are
element declarations and comments. Half of the DTDs have parts of their declarations, or all of them, in parameter entities, and `dtd` has to
say of them what it says of the plain declarations. xmllint doesn't judge models that aren't deterministic, nor paths, which the matcher of its own does.
Prints each difference, and how many cases passed; ends with 1 where one failed.
"""
import os
import random
import re
import subprocess
import sys
import tempfile
import time

from lib.grammar import SIGNS, has_word, specification

NAMES = ["a", "b", "c", "d", "e"]
# Names that stand in DTDs alone: Latin with accents, Greek, Cyrillic, Hebrew, Devanagari, Chinese, and beyond the first 65,536 characters.
OTHER_NAMES = ["été", "λόγος", "имя-1", "שם", "नाम", "名前", "e\u0301·2", "𐀀_x"]
SPACE = ["", "", "", " ", "\n", "\t \r\n"]


def space():
    return random.choice(SPACE)


# White space that has to stand.
def gap():
    return random.choice([" ", " ", "\n", "\t \r\n"])


def particle(depth):
    form = random.choice(["name"] * 4 + ["seq", "choice", "?", "*", "+"])
    if depth == 0 or form == "name":
        return ("name", random.choice(NAMES * 6 + OTHER_NAMES))
    if form in SIGNS:
        inner = particle(depth - 1)
        return inner if inner[0] in SIGNS else (form, inner)
    least = 1 if form == "seq" else 2
    return (form, *(particle(depth - 1) for _ in range(random.randint(least, 3))))


def group(depth):
    while True:
        found = particle(depth)
        inner = found[1] if found[0] in SIGNS else found
        if inner[0] in ("seq", "choice"):
            return found


def model():
    form = random.choice(["empty", "any", "mixed", "children", "children", "children"])
    if form == "mixed":
        return (form, random.sample(NAMES, random.randint(0, 3)) + random.sample(OTHER_NAMES, random.choice([0, 0, 0, 1, 2])))
    return (form, group(3)) if form == "children" else (form,)


# A word of the particle; names that no document has are left out of it by who takes it.
def sample(part):
    form, *members = part
    if form == "name":
        return members
    if form == "seq":
        return sum((sample(member) for member in members), [])
    if form == "choice":
        return sample(random.choice(members))
    count = {"?": random.randint(0, 1), "*": random.randint(0, 2), "+": random.randint(1, 2)}[form]
    return sum((sample(members[0]) for _ in range(count)), [])


# Elements are (name, kids), texts are strings.
def element(models, name, depth):
    content = models.get(name, ("any",))
    form = content[0]
    kids = []
    if depth > 0 and form == "children":
        kids = sample(content[1])
    elif depth > 0 and form == "any":
        kids = random.choices(sorted(models) + ["#"], k=random.randint(0, 3)) if models else []
    elif depth > 0 and form == "mixed":
        kids = random.choices(content[1] + ["#"], k=random.randint(0, 3))
    made = []
    for kid in filter(str.isascii, kids):
        made.append("x" if kid == "#" else element(models, kid, depth - 1))
        if form == "children" and random.random() < 0.2:
            made.append(random.choice([" ", "\n", "\t"]))
    return (name, made)


def elements(tree):
    yield tree
    for kid in tree[1]:
        if not isinstance(kid, str):
            yield from elements(kid)


# Changes one list, so that a valid document becomes nearly valid.
def change(tree):
    _, kids = random.choice(list(elements(tree)))
    at = random.randint(0, len(kids))
    form = random.choice(["text", "white", "element", "drop", "double", "swap"])
    if form == "text":
        kids.insert(at, "y")
    elif form == "white":
        kids.insert(at, " ")
    elif form == "element":
        kids.insert(at, (random.choice(NAMES), []))
    elif kids and form == "drop":
        kids.pop(at - 1)
    elif kids and form == "double":
        kids.insert(at, kids[at - 1])
    elif len(kids) > 1:
        kids[0], kids[-1] = kids[-1], kids[0]


def joined(kids):
    found = []
    for kid in kids:
        if isinstance(kid, str) and found and isinstance(found[-1], str):
            found[-1] += kid
        else:
            found.append(kid)
    return found


def text_of(tree):
    name, kids = tree
    if not kids and random.random() < 0.5:
        return f"<{name}{space()}/>"
    inner = "".join(kid if isinstance(kid, str) else text_of(kid) for kid in kids)
    return f"<{name}{space()}>{inner}</{name}{space()}>"


def is_list_valid(models, tree):
    name, kids = tree
    if name not in models:
        return False
    form, *inner = models[name]
    names = [kid[0] for kid in kids if not isinstance(kid, str)]
    has_data = any(isinstance(kid, str) and kid.strip(" \t\r\n") for kid in kids)
    if form == "empty":
        return not kids
    if form == "any":
        return all(kid in models for kid in names)
    if form == "mixed":
        return all(kid in inner[0] for kid in names)
    return not has_data and has_word(inner[0], names)


def first_invalid(models, tree, path):
    if not is_list_valid(models, tree):
        return ".".join(map(str, path))
    for at, kid in enumerate(joined(tree[1])):
        if not isinstance(kid, str):
            found = first_invalid(models, kid, path + [at])
            if found:
                return found
    return None


# A comment, with what means something elsewhere.
def comment():
    return "<!--" + "".join(random.choices(["-x", " ", "%p;", ">", "<!ELEMENT a (b)>", "'", '"', "?>", "]]>", "имя", "名", "&", "\n"], k=random.randint(0, 4))) + "-->"


def instruction():
    target = random.choice(["x", "xm", "имя"])
    data = "".join(random.choices(["?", " ", "%p;", "<!ELEMENT a (b)>", "'", '"', "--", "名", "&", "\n"], k=random.randint(0, 4)))
    return f"<?{target} {data}?>" if data else f"<?{target}?>"


# A declaration that is skipped, of its own name by this number; none that makes a document invalid, and none that xmllint refuses.
def skipped(number):
    quote = random.choice("'\"")
    other = "'" if quote == '"' else '"'
    value = "".join(random.choices(["x", " ", ">", "]]>", "--", "?>", "имя", "&#38;", other], k=random.randint(0, 4)))
    form = random.choice(["default", "enumeration", "entity", "system", "public", "notation"])
    if form == "default":
        reference = random.choice(["", "%", "%p;"])
        return f"<!ATTLIST{gap()}{random.choice(NAMES + OTHER_NAMES)}{gap()}имя{number}{gap()}CDATA{gap()}{quote}{value}{reference}{quote}{space()}>"
    if form == "enumeration":
        return f"<!ATTLIST{gap()}{random.choice(NAMES)}{gap()}x{number}{gap()}(p{space()}|{space()}q){gap()}#IMPLIED{space()}>"
    if form == "entity":
        return f"<!ENTITY{gap()}e{number}{gap()}{quote}{value}{quote}{space()}>"
    if form == "system":
        return f"<!ENTITY{gap()}имя{number}{gap()}SYSTEM{gap()}{quote}a%20b{quote}{space()}>"
    if form == "public":
        return f"<!ENTITY{gap()}e{number}{gap()}PUBLIC{gap()}{quote}-//x%//y{quote}{gap()}{quote}a{quote}{space()}>"
    return f"<!NOTATION{gap()}имя{number}{gap()}SYSTEM{gap()}{quote}a%{quote}{space()}>"


# A parameter entity's declaration. Some characters of its value are written by their numbers.
def entity(name, value):
    quote = random.choice("'\"")
    letters = [f"&#{ord(letter)};" if random.random() < 0.05 and letter not in "%&;" else letter for letter in value]
    if "%" in value or "&" in value:
        letters = list(value)
    return f"<!ENTITY{gap()}%{gap()}{name}{gap()}{quote}{''.join(letters)}{quote}{space()}>"


# A reference as it stands in the value of another entity, where it is read when the value is declared, or when its text is.
def inner(name):
    return random.choice(["%", "&#37;"]) + name + ";"


# An element's declaration, with parts of it, or all of it, in parameter entities: nested, declared twice, unused, with comments and
# processing instructions in their texts. No group begins in one text and ends in another, which XML forbids.
def with_entities(number, name, content):
    before = []
    if random.random() < 0.3:
        before.append(entity(f"unused.{number}", random.choice(["", "(x|", "<!ELEMENT", "&#38;", "]]>"])))
    group = re.fullmatch(r"\((.*)\)([?*+]*)", content, re.DOTALL)
    is_value = random.random() < 0.5
    if group and random.random() < 0.5:
        before.append(entity(f"group.{number}", group[1]))
        content = "(" + (inner(f"group.{number}") if is_value else f"%group.{number};") + ")" + group[2]
    else:
        is_value = False
    if is_value or random.random() < 0.5:
        before.append(entity(f"content.{number}", content))
        if random.random() < 0.3:
            before.append(entity(f"content.{number}", "ANY"))
        content = f"%content.{number};"
    if random.random() < 0.3:
        before.append(entity(f"имя.{number}", name))
        name = f"%имя.{number};"
    declaration = f"<!ELEMENT{gap()}{name}{gap()}{content}{space()}>"
    if random.random() < 0.3:
        more = random.choice(["", "<!--x-->", "<?x y?>", f"<!ENTITY &#37; within.{number} &#39;x&#39;>"])
        before.append(entity(f"whole.{number}", more + space() + declaration.replace("%", random.choice(["%", "&#37;"]))))
        declaration = f"%whole.{number};"
    return "".join(item + space() for item in before) + declaration


# The declarations, as they are written, with other items around them, and as they are plainly, with comments alone that hold no '%'.
def dtd_texts(written, declarations):
    whole = random.choice(["", "", "<?xml encoding='UTF-8'?>", '<?xml version="1.0" encoding="utf-8" ?>'])
    plain = ""
    for number, (item, declaration) in enumerate(zip(written, declarations)):
        remark = random.choice([comment, str])()
        more = [random.choice([instruction, lambda: skipped(2 * number + at)])() for at in range(random.randint(0, 2))]
        between = [remark] + more if random.random() < 0.5 else more + [remark]
        whole += "".join(space() + more for more in between) + space() + item
        plain += space() + remark.replace("%", "x") + space() + declaration
    return whole + space(), plain + space()


# The exit status of `valid`, and its output.
def answer(program, root):
    ran = subprocess.run([program, "valid", "a.dtd", root, "d.xml"], capture_output=True, encoding="utf-8", errors="replace")
    return (ran.returncode, ran.stdout)


# The exit status of `dtd`, and its output.
def listing(program, path):
    ran = subprocess.run([program, "dtd", path], capture_output=True, encoding="utf-8", errors="replace")
    return (ran.returncode, ran.stdout)


# What `valid` is to answer where this list, or none, is the first that isn't valid.
def judgement(path):
    return (1, f"invalid {path}\n") if path else (0, "valid\n")


# Changes one place or two. No processing instruction comes of it: a plain text has none, and xmllint reads them.
def changed(text, letters):
    while True:
        found = text
        for _ in range(random.randint(1, 2)):
            at = random.randint(0, len(found))
            until = min(len(found), at + random.choice([0, 1, 1, 3]))
            found = found[:at] + "".join(random.choices(letters, k=random.choice([0, 0, 1, 2]))) + found[until:]
        if "<?" not in found:
            return found


# Whether a type is declared twice, or a name listed twice in a mixed model: a fault, though xmllint reads it.
def is_doubled(text):
    text = re.sub(r"<!--.*?-->", "", text, flags=re.DOTALL)
    declared = re.findall(r"<!ELEMENT\s+([^\s(>]+)", text)
    listed = [re.findall(r"[^\s|]+", names) for names in re.findall(r"#PCDATA([^)]*)", text)]
    return any(len(set(names)) < len(names) for names in [declared] + listed)


def is_document(path):
    return subprocess.run(["xmllint", "--noout", path], capture_output=True).returncode == 0


def is_dtd(path):
    ran = subprocess.run(["xmllint", "--noout", "--dtdvalid", path, "e.xml"], capture_output=True, encoding="utf-8", errors="replace")
    return "Could not parse DTD" not in ran.stderr


# How many texts the program takes for a document, or for a DTD, and xmllint doesn't, or the other way round. What is changed of a DTD
# are its declarations and comments: of a declaration that is skipped the program looks at quotes alone.
def compare_changed(program, plain, counts):
    differences = 0
    write("e.xml", "<a/>")
    kinds = [("document", "d.xml", "<>/ab x\n]", 7, "document (syntax|mismatch)"), ("dtd", "a.dtd", "<!ELEMNTPYab>()|,?*+# \n", 6, "dtd (syntax|twice|mixed-twice)")]
    for kind, path, letters, status, refusal in kinds:
        good = read(path)
        for _ in range(12):
            text = changed(good if kind == "document" else plain, letters)
            write(path, text)
            is_one = is_document(path) if kind == "document" else is_dtd(path) and not is_doubled(text)
            got = answer(program, "a")
            counts["read" if is_one else "refused"] += 1
            is_judged = got == (0, "valid\n") or got[0] == 1 and re.fullmatch(r"invalid (\.|[0-9.]+)\n", got[1])
            is_refused = got[0] == status and re.fullmatch(rf"{refusal} \d+\n", got[1])
            if not (is_judged if is_one else is_refused):
                differences += 1
                print(f"got {got!r}, but xmllint {'reads' if is_one else 'refuses'} the {kind}")
                print(text)
        write(path, good)
    return differences


# Whether `show` gives the document back, by a DTD that allows all names everywhere.
def is_shown(program, root, text):
    write("any.dtd", "".join(f"<!ELEMENT {name} ANY>" for name in dict.fromkeys([root, *NAMES, *OTHER_NAMES])))
    ran = subprocess.run([program, "session", "any.dtd", root, "d.xml"], input=b"show\n", capture_output=True)
    return (ran.returncode, ran.stdout) == (0, f"show {len(text)}\n{text}\n".encode())


def read(path):
    with open(path, newline="", encoding="utf-8") as file:
        return file.read()


def write(path, text):
    with open(path, "w", newline="", encoding="utf-8") as file:
        file.write(text)


# What xmllint says of the document: whether it is valid, nothing where a model isn't deterministic, or another fault.
def xmllint(path):
    ran = subprocess.run(["xmllint", "--noout", "--dtdvalid", "a.dtd", path], capture_output=True, encoding="utf-8", errors="replace")
    if "not determinist" in ran.stderr:
        return None
    return {0: True, 3: False}.get(ran.returncode, f"status {ran.returncode}")


def round_of(program, counts):
    declared = random.sample(NAMES, random.randint(1, len(NAMES)))
    models = {name: model() for name in declared + random.sample(OTHER_NAMES, random.choice([0, 0, 1, 2]))}
    spelled_models = [(name, specification(content, space, random.random() < 0.3)) for name, content in models.items()]
    declarations = [f"<!ELEMENT{gap()}{name}{gap()}{content}{space()}>" for name, content in spelled_models]
    written = declarations
    if random.random() < 0.5:
        written = [with_entities(number, name, content) for number, (name, content) in enumerate(spelled_models)]
    whole, plain = dtd_texts(written, declarations)
    write("a.dtd", whole)
    write("plain.dtd", plain)
    differences = 0
    counts["listed"] += 1
    if listing(program, "a.dtd") != listing(program, "plain.dtd"):
        differences += 1
        print("other types or models than those that are declared plainly")
        print(whole, plain, sep="\n")
    for _ in range(12):
        tree = element(models, random.choice(declared), random.randint(1, 4))
        for _ in range(random.choice([0, 0, 0, 1, 1, 2])):
            change(tree)
        text = space() + text_of(tree) + space()
        write("d.xml", text)
        path = first_invalid(models, tree, [0])
        theirs = xmllint("d.xml")
        counts["invalid" if path else "valid"] += 1
        counts["xmllint"] += theirs is not None
        # xmllint isn't told the root's name.
        root = random.choice([tree[0]] * 9 + NAMES + OTHER_NAMES[:1])
        want = judgement(path if root == tree[0] else ".")
        got = answer(program, root)
        shown = is_shown(program, root, text)
        if got != want or theirs not in (None, path is None) or not shown:
            differences += 1
            print(f"got {got!r}, want {want!r}, xmllint {theirs}, given back: {shown}, root {root}")
            print(read("a.dtd"), read("d.xml"), sep="\n")
    return differences + compare_changed(program, plain, counts)


def main():
    program, rounds, seed = os.path.abspath(sys.argv[1]), int(sys.argv[2]), int(sys.argv[3])
    until = time.monotonic() + float(sys.argv[4]) if len(sys.argv) > 4 else float("inf")
    random.seed(seed)
    counts = {"listed": 0, "valid": 0, "invalid": 0, "xmllint": 0, "read": 0, "refused": 0}
    differences = 0
    with tempfile.TemporaryDirectory() as folder:
        os.chdir(folder)
        for _ in range(rounds):
            if time.monotonic() >= until:
                break
            differences += round_of(program, counts)
        os.chdir("/")
    cases = sum(counts.values()) - counts["xmllint"]
    print(f"{counts['listed']} DTDs;", f"{counts['valid']} valid and {counts['invalid']} invalid documents, {counts['xmllint']} of them judged by xmllint;",
          f"changed texts: {counts['read']} read, {counts['refused']} refused")
    print(f"against xmllint: {cases - differences} passed, {differences} failed")
    sys.exit(1 if differences else 0)


main()
