"""Tries `tools/flatten`, and the program with the DTDs that Debian's packages install, on made documents and on those of this machine.

Words: PROGRAM SEED, and the most seconds, where less is wanted than all documents. Needs xmllint, and lxml for this Python or for that of
the system (python3-lxml). The DTDs are those of docbook-xml, w3c-sgml-lib and xml-core, where they are installed. `flatten` makes a DTD of
exactly those that xmllint reads whole, and random content models keep their words. `dtd` tells as many names, and the least trees that are
found here; attributes, notations and entities are those that lxml finds in the DTD as it was published. Documents that are made by a DTD and changed in a place or two, manual pages that doclifter makes DocBook of, XHTML pages, SVG
pictures and catalogs are `valid` as xmllint says with the DTD as it was published, attributes aside. A valid one whose tags were taken
away here and there is `possible`; no more elements are missing than were taken away, and `complete` makes it valid again for xmllint.
What needs too wide tables, or 20 seconds, is no fault. Prints each difference, and how many cases passed; ends with 1 where one failed.
"""
import glob
import gzip
import os
import random
import re
import resource
import shutil
import signal
import subprocess
import sys
import tempfile
import time
from pathlib import Path

from lib.grammar import NEVER, SIGNS, cost, has_word, least_of, read_model, spelled
from lib.waiting import PATIENCE, hanging_lxml, runs_still
from lib.waiting import until as until_told

TOP = os.path.dirname(os.path.dirname(os.path.abspath(__file__)))
TOOL = os.path.join(TOP, "tools", "flatten")
DOCBOOK = "/usr/share/xml/docbook/schema/dtd/"
W3C = "/usr/share/xml/w3c-sgml-lib/schema/dtd/"
CORE = "/usr/share/xml/schema/xml-core/"
PACKAGES = {"docbook-xml": DOCBOOK, "w3c-sgml-lib": W3C, "xml-core": CORE}
STRICT = W3C + "REC-xhtml1-20020801/xhtml1-strict.dtd"
TRANSITIONAL = W3C + "REC-xhtml1-20020801/xhtml1-transitional.dtd"
XHTML11 = W3C + "REC-xhtml11-20101123/xhtml11.dtd"
MANUALS = DOCBOOK + "4.5/docbookx.dtd"
SVG = W3C + "REC-SVG11-20110816/svg11.dtd"
MATHML = W3C + "REC-MathML3-20101021/mathml3.dtd"
CATALOG = CORE + "catalog.dtd"
FIRST = [STRICT, TRANSITIONAL, XHTML11, MANUALS, SVG, MATHML, CATALOG]
# One of its modules is found only where the catalog of its package is asked before that of the machine.
TINY = W3C + "WD-XHTMLplusMathMLplusSVG-20020809/xhtml-basic-svg-tiny.dtd"
# Debian's DocBook has links into this folder, in 4.1 beside a DTD that no catalog names.
ALSO = "/etc/sgml/docbook-xml"
CATALOGS = f"file://{W3C}catalog.xml file:///etc/xml/catalog"
# What xmllint says of contents, and of attributes and other things that the program leaves out.
CONTENT = re.compile(
    r"content does not follow the DTD|is not declared in \S+ list of possible children|was declared (EMPTY|#PCDATA) |^No declaration for element"
)
ASIDE = re.compile(r"attribute|namespace name|IDREF|^ID |^xml:id|notation", re.IGNORECASE)

counts = {"passed": 0, "failed": 0}
told = {}
until = NEVER


# Counts a case, and says what it was where it fails.
def case(holds, *details):
    counts["passed" if holds else "failed"] += 1
    if not holds:
        print("differs:", *details, flush=True)
    return holds


def tell(what):
    told[what] = told.get(what, 0) + 1


def is_late():
    return time.monotonic() >= until


# Status 124, where a command takes too long.
def run(*words, given=None, before=None, seconds=PATIENCE):
    try:
        return subprocess.run(words, input=given, capture_output=True, encoding="utf-8", errors="replace", timeout=seconds, preexec_fn=before)
    except subprocess.TimeoutExpired:
        return subprocess.CompletedProcess(words, 124, "", "")


# So much memory for a process that a huge DTD is too much.
def scarce():
    resource.setrlimit(resource.RLIMIT_AS, (512 << 20, 512 << 20))


# A Python that has lxml, or none.
def python_with_lxml():
    for python in (sys.executable, "/usr/bin/python3"):
        if os.path.exists(python) and run(python, "-c", "import lxml.etree").returncode == 0:
            return python
    return None


def write(path, text):
    with open(path, "wb") as file:
        file.write(text if isinstance(text, bytes) else text.encode())


# ---- `flatten` on small DTDs ----

GOOD = {
    "plain": ("<!ELEMENT a (b,c?)+>\n<!ELEMENT b EMPTY><!ELEMENT c ANY>", "<!ELEMENT a (b , c?)+>\n<!ELEMENT b EMPTY>\n<!ELEMENT c ANY>\n"),
    "modules": ('<!ENTITY % m SYSTEM "m.mod">\n<!ENTITY % kids "b">\n%m;\n<!ELEMENT b (#PCDATA)>', "<!ELEMENT a (b)>\n<!ELEMENT b (#PCDATA)>\n"),
    "sections": ("<!ENTITY % in 'INCLUDE'>\n<![%in;[<!ELEMENT a EMPTY>]]>\n<![IGNORE[<!ELEMENT b EMPTY>%none;]]>", "<!ELEMENT a EMPTY>\n"),
    "redefined": ('<!ENTITY % k "a"><!ENTITY % k "b"><!ELEMENT r (%k;|c)*>', "<!ELEMENT r (a | c)*>\n"),
    "prefixes": (
        '<!ENTITY % p "x:"><!ENTITY % n "%p;b"><!ELEMENT x:a (%n;,b)><!ELEMENT x:b (#PCDATA|x:a|a)*>',
        "<!ELEMENT x:a (x:b , b)>\n<!ELEMENT x:b (#PCDATA | x:a | a)*>\n",
    ),
    "colons": (
        "<!ELEMENT :a (a:|a:b:c)><!ELEMENT a: EMPTY><!ELEMENT a:b:c EMPTY>",
        "<!ELEMENT :a (a: | a:b:c)>\n<!ELEMENT a: EMPTY>\n<!ELEMENT a:b:c EMPTY>\n",
    ),
    "texts": (
        "<!ENTITY e 'x \"\n<!ELEMENT e EMPTY>\n'><!-- <!ELEMENT c EMPTY> --><?p <!ELEMENT d EMPTY>?>"
        "<!ATTLIST a b CDATA '>\n&#60;!ELEMENT f EMPTY>'><!NOTATION n SYSTEM \"a'\n<!ELEMENT g EMPTY>\"><!ELEMENT a EMPTY>",
        '<!NOTATION n SYSTEM "a\'\n<!ELEMENT g EMPTY>" >\n'
        '<!ENTITY e "x &#34;&#10;&#60;!ELEMENT e EMPTY>&#10;">\n<!ATTLIST a b CDATA "> &#60;!ELEMENT f EMPTY>">\n<!ELEMENT a EMPTY>\n',
    ),
    "attributes": (
        '<!ELEMENT a EMPTY><!ENTITY % t "(x|y)"><!ENTITY % more "z NMTOKENS #IMPLIED"><!ATTLIST a b CDATA #REQUIRED c %t; "x" %more;>\n'
        "<!ATTLIST a b ID #IMPLIED d CDATA '&#38;&#37;\"&#39;&lt;' e NOTATION (n|m) #IMPLIED xmlns:x CDATA #FIXED 'urn:x' x:f IDREFS #IMPLIED>"
        "<!ATTLIST x:b id ID #REQUIRED>",
        '<!ELEMENT a EMPTY>\n<!ATTLIST a b CDATA #REQUIRED c (x | y) "x" z NMTOKENS #IMPLIED d CDATA "&#38;&#37;&#34;\'&#60;" e NOTATION (n | m) #IMPLIED'
        ' xmlns:x CDATA #FIXED "urn:x" x:f IDREFS #IMPLIED>\n<!ATTLIST x:b id ID #REQUIRED>\n',
    ),
    "entities": (
        "<!ENTITY % p 'of p'><!ENTITY e 'a &f; &#38;amp; &#37; %p; &#34;'><!ENTITY f '&#60;a/>'><!ENTITY g SYSTEM 'g.xml'><!ELEMENT a EMPTY>"
        "<!NOTATION n PUBLIC '-//n//'><!ENTITY h PUBLIC 'h' 'h.gif' NDATA n><!ENTITY e 'later'>",
        '<!NOTATION n PUBLIC "-//n//" >\n'
        '<!ENTITY e "a &#38;f; &#38;amp; &#37; of p &#34;">\n<!ENTITY f "&#60;a/>">\n<!ENTITY g SYSTEM "g.xml">\n<!ELEMENT a EMPTY>\n'
        '<!ENTITY h PUBLIC "h" "h.gif" NDATA n>\n',
    ),
    "below": ('<!ENTITY % m SYSTEM "below/b.mod">\n%m;\n<!ELEMENT a (b)>', "<!ELEMENT b EMPTY>\n<!ELEMENT a (b)>\n"),
    "groups": ("<!ELEMENT a (((b)),(c|(d|e)),(f,g)?,(h?)+,(i|j)*)>", "<!ELEMENT a (b , (c | d | e) , (f , g)? , h* , (i | j)*)>\n"),
    "latin": ('<?xml version="1.0" encoding="ISO-8859-1"?><!ELEMENT \u00e9t\u00e9 EMPTY>'.encode("latin-1"), "<!ELEMENT \u00e9t\u00e9 EMPTY>\n"),
    "wide characters": ('<?xml version="1.0" encoding="UTF-16"?><!ELEMENT \u540d EMPTY>'.encode("utf-16"), "<!ELEMENT \u540d EMPTY>\n"),
}
# What is told of a DTD that is written all the same.
TOLD = {
    "models": (
        "<!ELEMENT a EMPTY>\n\n<!ELEMENT x:b ((c,d)|(c,e))>",
        "<!ELEMENT a EMPTY>\n<!ELEMENT x:b ((c , d) | (c , e))>\n",
        ["models.dtd:3: the content model of x:b isn't deterministic"],
    )
}
# What each fault is told with.
BAD = {
    "twice": ("<!ELEMENT a EMPTY>\n<!ELEMENT b EMPTY>\n<!ELEMENT a ANY>", ["twice.dtd:3: ", "element a"]),
    "mixed": ("<!ELEMENT a EMPTY>\n<!ELEMENT b (#PCDATA|a|c|a)*>\n<!ELEMENT a ANY>", ["mixed.dtd:2: ", " a\n", "mixed.dtd:3: "]),
    "missing": ('<!ENTITY % m SYSTEM "none.mod">\n%m;\n<!ELEMENT a EMPTY>', ["missing.dtd:2: ", "none.mod"]),
    "remote": ('<!ENTITY % m PUBLIC "-//none//EN" "http://localhost:1/none.mod">\n%m;\n<!ELEMENT a EMPTY>', ["remote.dtd:2: ", "http://localhost:1/none.mod"]),
    "quoted": ("<!ENTITY % m SYSTEM 'http://localhost:1/\"none.mod'>\n%m;\n<!ELEMENT a EMPTY>", ["quoted.dtd:2: "]),
    "undeclared": ("<!ELEMENT a (b %more;)>", ["undeclared.dtd:1: ", "%more;"]),
    "address": ('<!ENTITY % m SYSTEM "a b.mod">\n%m;\n<!ELEMENT a EMPTY>', ["address.dtd:1: ", "a b.mod", "address.dtd:2: ", "%m;"]),
    "host": ('<!ENTITY % m SYSTEM "file:///etc/passwd">\n%m;\n<!ELEMENT a EMPTY>', ["host.dtd:2: ", "--also FOLDER: /etc/passwd"]),
    "short": ('<!ENTITY % m SYSTEM "file:/etc/passwd">\n%m;\n<!ELEMENT a EMPTY>', ["short.dtd:2: ", "--also FOLDER: /etc/passwd"]),
    "local": ('<!ENTITY % m SYSTEM "File://LocalHost/etc/passwd">\n%m;\n<!ELEMENT a EMPTY>', ["local.dtd:2: ", "--also FOLDER: /etc/passwd"]),
    "link": ('<!ENTITY % m SYSTEM "link.mod">\n%m;\n<!ELEMENT a EMPTY>', ["link.dtd:2: ", "--also FOLDER: ", "link.mod"]),
    "above": ('<!ENTITY % m SYSTEM "../outside/o.mod">\n%m;\n<!ELEMENT a EMPTY>', ["above.dtd:2: ", "--also FOLDER: ", "o.mod"]),
    # What is refused isn't opened: this one would never end.
    "unopened": ('<!ENTITY % m SYSTEM "../outside/pipe.mod">\n%m;\n<!ELEMENT a EMPTY>', ["unopened.dtd:2: ", "--also FOLDER: ", "pipe.mod"]),
    "grown": (
        '<!ENTITY % a "' + "x" * 1000 + '"><!ENTITY % b "' + "%a;" * 1000 + '">' + "".join(f"<!ENTITY e{n} '%b;'>" for n in range(8)) + "<!ELEMENT a EMPTY>",
        ["grown.dtd"],
    ),
    "large": (f"<!ENTITY a '{'x' * 4194290}'><!ELEMENT a EMPTY>".replace("'", '"') + "<!ATTLIST a b CDATA #IMPLIED>" * 4, ["large.dtd: ", "4,194,304 bytes"]),
    "device": ('<!ENTITY % m SYSTEM "/dev/zero">%m;<!ELEMENT a EMPTY>', ["/dev/zero"]),
    "pipe": ('<!ENTITY % m SYSTEM "pipe.mod">%m;<!ELEMENT a EMPTY>', ["pipe.mod"]),
    "nul": (b"<!ELEMENT a EMPTY>\0<!ELEMENT b EMPTY>", ["nul.dtd"]),
    "letter": ("Dear Sir,", ["letter.dtd:1: "]),
    "document": ("<a><b/></a>", ["document.dtd:1: "]),
    "again": ('<!ENTITY % m SYSTEM "again.mod">\n<!ELEMENT a EMPTY>\n%m;\n%m;\n%m;', ["again.mod:1: ", "element a"]),
    "closed": ("<!ELEMENT a EMPTY>]><flat/>", ["closed.dtd:1: "]),
    "ended": ("<!ELEMENT a (b,", ["ended.dtd: "]),
    "empty": ("", ["empty.dtd: "]),
    "bytes": (bytes(range(1, 256)), ["bytes.dtd"]),
    "loop": ('<!ENTITY % a "&#37;b;"><!ENTITY % b "&#37;a;">\n%a;<!ELEMENT x EMPTY>', ["loop.dtd", "loop"]),
    "itself": ('<!ENTITY % a SYSTEM "itself.dtd">\n%a;<!ELEMENT x EMPTY>', ["itself.dtd", "loop"]),
    "doubled": (
        '<!ENTITY % a0 " ">' + "".join(f'<!ENTITY % a{n} "&#37;a{n - 1};&#37;a{n - 1};">' for n in range(1, 40)) + "%a39;<!ELEMENT x EMPTY>",
        ["doubled.dtd"],
    ),
    "deep": ("<!ELEMENT a " + "(" * 100000 + "b" + ")" * 100000 + ">", ["deep.dtd:1: "]),
    "huge": ("<!ELEMENT a (" + "b," * 1500000 + "c)>", ["huge.dtd"]),
}


def small(python):
    write("m.mod", "<!ELEMENT a (%kids;)>")
    write("again.mod", "<!ELEMENT a EMPTY>")
    os.mkfifo("pipe.mod")
    os.makedirs("below")
    write("below/b.mod", "<!ELEMENT b EMPTY>")
    os.symlink("/etc/passwd", "link.mod")
    os.makedirs("../outside")
    write("../outside/o.mod", "<!ELEMENT o EMPTY>")
    os.mkfifo("../outside/pipe.mod")
    for name, (text, want, *remarks) in (GOOD | TOLD).items():
        write(f"{name}.dtd", text)
        ran = run(python, TOOL, f"{name}.dtd")
        lines = ran.stderr.splitlines()
        wanted = remarks[0] if remarks else []
        is_told = len(lines) == len(wanted) and all(words in line for words, line in zip(wanted, lines))
        case(ran.returncode == 0 and ran.stdout == want and is_told, name, ran)
        # What is flat stays as it is.
        write(f"{name}-flat.dtd", want)
        again = run(python, TOOL, f"{name}-flat.dtd")
        case(again.returncode == 0 and again.stdout == want, name, "again", again)
    for name, (text, words) in BAD.items():
        write(f"{name}.dtd", text)
        ran = run(python, TOOL, f"{name}.dtd", before=scarce)
        lines = ran.stderr.splitlines()
        is_plain = lines and all(line.startswith("flatten: ") for line in lines) and all(word in ran.stderr for word in words)
        is_quiet = "root:" not in ran.stderr
        case(ran.returncode == 1 and ran.stdout == "" and is_plain and is_quiet and len(set(lines)) == len(lines), name, ran)
    for words in ["--also", "../outside", "above.dtd"], ["above.dtd", "--also=../outside"], ["--also", "/usr", "--also", "..", "above.dtd"]:
        ran = run(python, TOOL, *words)
        case((ran.returncode, ran.stdout, ran.stderr) == (0, "<!ELEMENT o EMPTY>\n<!ELEMENT a EMPTY>\n", ""), words, ran)
    files = (["none.dtd"], 1, "no such file"), (["."], 1, "no plain file"), (["pipe.mod"], 1, "no plain file"), (["/dev/null"], 1, "no plain file")
    for words, status, said in ([], 2, "usage"), (["a", "b"], 2, "usage"), (["--als", "b", "a"], 2, "usage"), *files, (["--help"], 0, ""):
        ran = run(python, TOOL, *words)
        is_told = (status == 0) == bool(ran.stdout) and (status == 0) != bool(ran.stderr) and said in ran.stderr
        case(ran.returncode == status and is_told, words, ran)
    with open("/dev/full", "wb") as full:
        ran = subprocess.run([python, TOOL, "plain.dtd"], stdout=full, stderr=subprocess.PIPE, encoding="utf-8")
    case(ran.returncode == 1 and ran.stderr.startswith("flatten: "), "/dev/full", ran)
    ran = run("sh", "-c", 'exec "$0" "$@" >&-', python, TOOL, "plain.dtd")
    case(ran.returncode == 1 and re.fullmatch("flatten: the output: .*\n", ran.stderr), "a closed output", ran)
    ran = run("sh", "-c", 'exec "$0" "$@" 2>&-', python, TOOL, "models.dtd")
    case(ran.returncode == 0 and ran.stdout == TOLD["models"][1], "a closed stderr", ran)
    # An lxml that is missing, and one that ends the process that reads.
    killed = "import os\nclass etree:\n    Resolver, XMLParser = object, lambda **_: os.kill(os.getpid(), 9)\n"
    for text, status, said in ("raise ImportError", 2, "python3-lxml"), (killed, 1, "plain.dtd: the process that read it was ended by signal 9 "):
        os.makedirs("without", exist_ok=True)
        write("without/lxml.py", text)
        ran = run("env", "PYTHONPATH=without", "PYTHONDONTWRITEBYTECODE=1", python, TOOL, "plain.dtd")
        is_told = re.fullmatch("flatten: .*\n", ran.stderr) and said in ran.stderr
        case(ran.returncode == status and ran.stdout == "" and is_told, "lxml", text, ran)


def killed_ones(python):
    """Whatever ends `flatten`, the process that it began ends too, and nothing is said."""
    os.makedirs("hanging", exist_ok=True)
    note = Path("hanging/note").absolute()
    hanging_lxml(Path("hanging"), note)
    for number in (signal.SIGKILL, signal.SIGTERM, signal.SIGINT):
        note.unlink(missing_ok=True)
        begun = subprocess.Popen([python, "-B", TOOL, "plain.dtd"], env={**os.environ, "PYTHONPATH": "hanging"}, stdout=subprocess.PIPE, stderr=subprocess.PIPE)
        until_told(note.exists)
        child = int(note.read_text()) if note.exists() else 0
        is_begun = runs_still(child)
        begun.send_signal(number)
        said = begun.communicate(timeout=PATIENCE)
        is_over = until_told(lambda: not runs_still(child))
        case(is_begun and is_over and begun.returncode == -number and said == (b"", b""), "ended by", number, is_begun, is_over, begun.returncode, said)


# ---- content models, and what a DTD declares ----

def models_of(text):
    """The content model of each name that a DTD, of the form that `flatten` writes, declares."""
    return {name: read_model(content) for name, content in re.findall(r"^<!ELEMENT (\S+) (.*)>$", text, re.MULTILINE)}


def any_particle(depth):
    form = random.choice(["name", "name", "seq", "choice", "?", "*", "+"])
    if depth == 0 or form == "name":
        return ("name", random.choice("abcd"))
    if form in SIGNS:
        return (form, any_particle(depth - 1))
    return (form, *(any_particle(depth - 1) for _ in range(random.randint(1 if form == "seq" else 2, 3))))


# Random models have the same words when they are flattened.
def random_models(python, number):
    models = {f"m{at}": ("seq", any_particle(5)) for at in range(number)}
    write("random.dtd", "".join(f"<!ELEMENT {name} {spelled(part)}>\n" for name, part in models.items()))
    found = models_of(run(python, TOOL, "random.dtd").stdout)
    least = dict.fromkeys("abcd", 1)
    case(list(found) == list(models), "the names of random models", list(found))
    for name in found:
        ours, theirs = models[name], found[name][1]
        words = [random.choices("abcd", k=random.randint(0, 6)) for _ in range(20)]
        words += [sample(part, least, True) for part in (ours, theirs) for _ in range(5)]
        case(all(has_word(ours, word) == has_word(theirs, word) for word in words), spelled(ours), theirs)


# The lines that `dtd` prints, but for the totals.
def dtd_lines(models, least):
    sizes = {name: "unproductive" if size == NEVER else "over" if size > 1000000 else size for name, size in least.items()}
    return [f"{name} {content[0]} {sizes[name]}" for name, content in models.items()]


# ---- made documents: elements are [name, kids], texts are strings ----

# A word of the particle, short where room is scarce.
def sample(part, least, is_free):
    form, *members = part
    if form == "name":
        return members
    if form == "seq":
        return [name for member in members for name in sample(member, least, is_free)]
    if form == "choice":
        able = [member for member in members if cost(member, least) < NEVER]
        return sample(random.choice(able) if is_free else min(able, key=lambda member: cost(member, least)), least, is_free)
    most = random.choice([0, 1, 1, 2, 5]) if is_free and cost(members[0], least) < NEVER else 0
    count = max(form == "+", min(most, 1) if form == "?" else most)
    return [name for _ in range(count) for name in sample(members[0], least, is_free)]


def element(models, least, name, room, depth=0):
    form, *inner = models[name]
    room[0] -= 1
    kids = []
    is_free = room[0] > 0 and depth < 12
    if form == "children":
        kids = sample(inner[0], least, is_free)
    elif form != "empty" and is_free:
        able = [each for each in (inner[0] if form == "mixed" else models) if least.get(each, NEVER) < NEVER]
        kids = [random.choice(able) if able and random.random() < 0.6 else "#" for _ in range(random.randint(0, 4))]
    made = []
    for kid in kids:
        made.append("words " if kid == "#" else element(models, least, kid, room, depth + 1))
        if form == "children" and random.random() < 0.2:
            made.append("\n")
    return [name, made]


def elements(tree):
    yield tree
    for kid in tree[1]:
        if not isinstance(kid, str):
            yield from elements(kid)


# Changes one list, so that a valid document becomes nearly valid.
def change(tree, names):
    kids = random.choice(list(elements(tree)))[1]
    at = random.randint(0, len(kids))
    form = random.choice(["text", "white", "element", "drop", "double", "swap"])
    if form in ("text", "white", "element"):
        kids.insert(at, {"text": "y", "white": " "}.get(form) or [random.choice(names), []])
    elif kids and form == "drop":
        kids.pop(at - 1)
    elif kids and form == "double":
        kids.insert(at, kids[at - 1])
    elif len(kids) > 1:
        kids[0], kids[-1] = kids[-1], kids[0]


def tagged(tree, more=""):
    name, kids = tree
    inner = "".join(kid if isinstance(kid, str) else tagged(kid) for kid in kids)
    return f"<{name}{more}>{inner}</{name}>" if kids or random.random() < 0.5 else f"<{name}{more}/>"


# The document's text, where each prefix is bound.
def document(tree):
    prefixes = {each[0].split(":")[0] for each in elements(tree) if ":" in each[0]}
    return tagged(tree, "".join(f' xmlns:{prefix}="urn:{prefix}"' for prefix in sorted(prefixes)))


# ---- judging ----

# What xmllint says of these documents with the DTD as it was published, attributes aside: whether each is valid, or something else.
def xmllint(dtd, paths):
    ran = run("xmllint", "--nonet", "--noout", "--dtdvalid", dtd, *paths)
    verdicts = {path: True for path in paths}
    for line in ran.stderr.splitlines():
        found = re.match(r"(\S+?):\d+: (?:element \S+: )?(\w+ error) : (.*)", line)
        if not found or found[1] not in verdicts or found[2] == "namespace error":
            continue
        is_content = found[2] == "validity error" and CONTENT.search(found[3])
        if is_content:
            verdicts[found[1]] = verdicts[found[1]] and False
        elif not (found[2] == "validity error" and ASIDE.search(found[3])):
            verdicts[found[1]] = line
    return verdicts


# The name of the root of a document.
def root_of(text):
    return re.search(r"<([^\s/>!?]+)", re.sub(r"<!--.*?-->|<\?.*?\?>|<!.*?>", "", text, flags=re.DOTALL))[1]


# The document without some pairs of tags, and how many; the root's stay.
def without_tags(text, share):
    marks = re.compile(r"<!--.*?-->|<\?.*?\?>|<!\[CDATA\[.*?\]\]>|<!DOCTYPE[^>]*>|<(/?)([^\s/>]+)(?:[^<>\"']|\"[^\"]*\"|'[^']*')*?(/?)>", re.DOTALL)
    spans, pairs = [], []
    for found in marks.finditer(text):
        if found[2] is None:
            continue
        if found[1]:
            pairs.append((spans.pop(), found.span()))
        elif found[3]:
            pairs.append((found.span(), found.span()))
        else:
            spans.append(found.span())
    pairs.pop()
    taken = [pair for pair in pairs if random.random() < share] or random.sample(pairs, min(1, len(pairs)))
    for begin, end in sorted({span for pair in taken for span in pair}, reverse=True):
        text = text[:begin] + text[end:]
    return text, len(taken)


# Compares `valid` with xmllint, and tries what is left of the valid documents without some of their tags.
def judge(program, dtd, flat, documents, kind):
    for path, text in documents.items():
        write(path, text)
    for path, theirs in xmllint(dtd, list(documents)).items():
        root = root_of(documents[path])
        ran = run(program, "valid", flat, root, path)
        ours = {0: True, 1: False}.get(ran.returncode, ran.stdout)
        tell(f"{kind} valid" if ours is True else f"{kind} invalid" if ours is False else f"{kind} else")
        if not case(ours == theirs, dtd, root, "valid", ran, "xmllint", theirs, documents[path][:2000]) or ours is not True:
            continue
        damaged, missing = without_tags(documents[path], random.choice([0.02, 0.1, 0.3]))
        write("damaged.xml", damaged)
        ran = run(program, "check", flat, root, "damaged.xml")
        if ran.returncode == 8:
            tell("too wide for check")
            continue
        if not case(ran.returncode == 0 and re.fullmatch(r"valid\n|possible \d+\n", ran.stdout), dtd, root, "check", ran, damaged[:2000]):
            continue
        ran = run(program, "session", flat, root, "damaged.xml", given="need\ncomplete\n", seconds=20)
        if ran.returncode == 124:
            tell("too long for need")
            continue
        need, *completed = ran.stdout.split("\n", 2)
        if need.startswith("no wide "):
            tell("too wide for need")
            continue
        number = int(need[len("need "):]) if need.startswith("need ") else NEVER
        if not case(ran.returncode == 0 and number <= missing, dtd, root, "need", ran.stdout[:200], missing, damaged[:2000]):
            continue
        tell("completed")
        write("completed.xml", completed[1])
        is_whole = completed[0].startswith(f"completed {number} ") and xmllint(dtd, ["completed.xml"])["completed.xml"] is True
        case(is_whole, dtd, root, "complete", completed[0], damaged[:2000], completed[1][:2000])


# ---- the DTDs and documents of this machine ----

# Whether xmllint reads the DTD, and misses nothing of it.
def is_whole_dtd(path):
    write("e.xml", "<a/>")
    said = run("xmllint", "--nonet", "--noout", "--dtdvalid", path, "e.xml").stderr
    return "Could not parse DTD" not in said and "failed to load" not in said and "; not found" not in said


# What lxml knows of the attributes, notations and entities of a DTD: those of declared elements, in no order.
ATTRIBUTES = r"""
import re
import sys
from lxml import etree
for path in sys.argv[1:]:
    root = etree.fromstring(f'<!DOCTYPE a [<!ENTITY % a SYSTEM "file://{path}">%a;]><a/>', etree.XMLParser(load_dtd=True, no_network=True, recover=True, remove_comments=True, remove_pis=True))
    dtd = root.getroottree().docinfo.internalDTD
    for element in dtd.iterelements():
        for it in element.iterattributes():
            value = it.default_value if it.default_value is None else it.default_value.replace("&#38;", "&")
            print(sorted([[path != sys.argv[1], element.prefix, element.name, it.prefix, it.name, it.type, it.default, value, it.values()]])[0][1:])
    words = re.findall(r"<!ENTITY (%?)", etree.tostring(root.getroottree(), encoding="unicode"))
    print(*sorted(f"{it.name} {it.content!r}" for it, word in zip(dtd.iterentities(), words) if not word), sep="\n")
    print("--")
"""


# Whether lxml knows the same of both.
def has_attributes(python, dtd, flat):
    one, other = run(python, "-c", ATTRIBUTES, dtd, os.path.abspath(flat)).stdout.split("--\n")[:2]
    return one != "" and sorted(one.splitlines()) == sorted(other.splitlines()), sorted(set(one.splitlines()) ^ set(other.splitlines()))[:20]


# Makes the flat DTD, and compares what `dtd` tells of it. Its text, or nothing where it isn't read, as the best known all must be.
def flattened(python, program, dtd, flat):
    ran = run(python, TOOL, "--also", ALSO, dtd)
    is_read = ran.returncode == 0
    is_right = is_read == is_whole_dtd(dtd) and (is_read or dtd not in (*FIRST, TINY))
    if not case(is_right, dtd, ran.returncode, ran.stderr) or not is_read:
        tell("no DTDs of XML, or parts of one")
        return None
    write(flat, ran.stdout)
    tell("DTDs")
    models = models_of(ran.stdout)
    lines = run(program, "dtd", flat).stdout.splitlines()
    case(*has_attributes(python, dtd, flat), dtd)
    case(lines[:-1] == dtd_lines(models, least_of(models)) and lines[-1].startswith(f"types {len(models)} "), dtd, lines)
    return ran.stdout


def made(program, dtd, flat, text, number):
    models = models_of(text)
    least = least_of(models)
    able = [name for name in models if least[name] < NEVER]
    documents = {}
    for at in range(number):
        tree = element(models, least, random.choice(able), [random.choice([5, 20, 60])])
        for _ in range(random.choice([0, 0, 1, 2])):
            change(tree, list(models))
        documents[f"d{at}.xml"] = document(tree)
    judge(program, dtd, flat, documents, "made")


# A document as the program reads it: in UTF-8, with entities spelled out, and without a document type declaration.
def plain(path):
    ran = run("xmllint", "--nonet", "--loaddtd", "--noent", "--dropdtd", "--encode", "UTF-8", path)
    return ran.stdout if ran.returncode == 0 else None


# The pages of the manual, made DocBook.
def manuals():
    pages = sorted(path for part in "158" for path in glob.glob(f"/usr/share/man/man{part}/*.gz") if os.path.getsize(path) < 20000)
    for page in random.sample(pages, len(pages)):
        with gzip.open(page) as file:
            ran = subprocess.run(["timeout", "60", "doclifter"], input=file.read(), capture_output=True)
        if ran.returncode == 0 and ran.stdout:
            write("manual.xml", ran.stdout)
            yield MANUALS, "manual.xml"


def pages():
    found = sorted(path for end in ("html", "xhtml") for path in glob.glob(f"/usr/share/doc/**/*.{end}", recursive=True) if os.path.isfile(path))
    kinds = {"XHTML 1.0 Strict": STRICT, "XHTML 1.0 Transitional": TRANSITIONAL, "XHTML 1.1//": XHTML11}
    for page in random.sample(found, len(found)):
        with open(page, "rb") as file:
            head = file.read(1000).decode("utf-8", "replace")
        for kind, dtd in kinds.items():
            if kind in head:
                yield dtd, page


def pictures():
    found = sorted(path for path in glob.glob("/usr/share/**/*.svg", recursive=True) if os.path.isfile(path) and os.path.getsize(path) < 200000)
    return ((SVG, path) for path in random.sample(found, len(found)))


def catalogs():
    return ((CATALOG, path) for path in sorted(glob.glob("/etc/xml/*.xml") + glob.glob("/usr/share/**/catalog.xml", recursive=True)))


# Judges so many documents of a kind.
def found(program, flats, kind, documents, number):
    for dtd, path in documents:
        if is_late() or number == 0:
            return
        text = plain(path) if dtd in flats else None
        if text:
            number -= 1
            judge(program, dtd, flats[dtd], {"found.xml": text}, kind)


# The session that docs/PUBLISHED.md shows.
def shown(program, flat):
    with open(os.path.join(TOP, "docs", "PUBLISHED.md"), encoding="utf-8") as file:
        page = file.read()
    document = os.path.join(TOP, "examples", "page.xhtml")
    ran = run(program, "session", flat, "html", document, given="need\ncomplete\n")
    with open(document, encoding="utf-8") as file:
        case(f"examples/page.xhtml\n{file.read()}$" in page and ran.stdout.startswith("need 5\n") and ran.stdout in page, "the page's session", ran)


# All that is installed: the DTDs, the well-known ones first, then documents by those, made ones by the others, and more while there is time.
def published(python, program):
    paths = []
    for package, folder in PACKAGES.items():
        paths += sorted(glob.glob(folder + "**/*.dtd", recursive=True))
        if not os.path.isdir(folder):
            print(f"skipped: the DTDs of {package} (no {folder})")
    first = [path for path in FIRST if path in paths]
    flats, texts, late = {}, {}, 0
    for dtd in first + [path for path in paths if path not in first]:
        flat = f"flat{len(flats)}.dtd"
        if is_late():
            late += 1
        elif text := flattened(python, program, dtd, flat):
            flats[dtd], texts[dtd] = flat, text
    if late:
        print(f"skipped: {late} DTDs (no time)")

    def make(dtds):
        left = [dtd for dtd in dtds if dtd in flats]
        while left and not is_late():
            dtd = left.pop(0)
            made(program, dtd, flats[dtd], texts[dtd], 8)
        if left:
            print(f"skipped: made documents by {len(left)} DTDs (no time)")

    if STRICT in flats:
        shown(program, flats[STRICT])
    make(first)
    found(program, flats, "catalogs", catalogs(), 10)
    found(program, flats, "pages", pages(), 15)
    found(program, flats, "pictures", pictures(), 10)
    if shutil.which("doclifter"):
        found(program, flats, "manuals", manuals(), 30)
    else:
        print("skipped: manual pages (no doclifter)")
    make(dtd for dtd in paths if dtd not in first)
    while until < NEVER and flats and not is_late():
        dtd = random.choice(list(flats))
        made(program, dtd, flats[dtd], texts[dtd], 8)


def main():
    global until
    program = os.path.abspath(sys.argv[1])
    random.seed(int(sys.argv[2]))
    until = time.monotonic() + float(sys.argv[3]) if len(sys.argv) > 3 else NEVER
    os.environ["XML_CATALOG_FILES"] = CATALOGS
    python = python_with_lxml()
    if python:
        with tempfile.TemporaryDirectory() as folder:
            os.mkdir(os.path.join(folder, "here"))
            os.chdir(os.path.join(folder, "here"))
            small(python)
            killed_ones(python)
            random_models(python, 300)
            published(python, program)
            os.chdir("/")
        print(", ".join(f"{what}: {number}" for what, number in told.items()))
    else:
        print("skipped: the published DTDs (no lxml, package python3-lxml)")
    print(f"published DTDs: {counts['passed']} passed, {counts['failed']} failed")
    sys.exit(1 if counts["failed"] else 0)


if __name__ == "__main__":
    main()
