"""Tries what clients say of attributes, and of documents with internal subsets and entities, against xmllint.

Words: PROGRAM SEED, and the most seconds. Needs lxml for this Python or for the system's, and xmllint. Random DTDs declare attributes of all
types; random documents have right and wrong ones: the same are valid as by `xmllint --valid`, with as many faults, each at the bytes that it is
about. A letter that the program calls valid, and whose attributes are, passes `xmllint --dtdvalid`. Pages and manual pages of the machine, under
XHTML and DocBook, have an attribute changed in a place or two. Documents whose texts stand in entities are judged as they are plainly, and come
back as they were written. The last line tells how many passed.
"""
import os
import random
import re
import subprocess
import sys
import tempfile
import time
from pathlib import Path

import published
from lib.counting import Expecting

TOP = Path(__file__).resolve().parent.parent
sys.path.insert(0, str(TOP / "clients"))
from pvtag.attributes import Attributes, AttributeFault, python_with_lxml  # noqa: E402
from pvtag.masks import mask, same_length  # noqa: E402
from pvtag.places import Source  # noqa: E402

# Pairs of messages of xmllint on one fault: the second one says it.
DOUBLED = re.compile(r"is different from default|namespace name for .* does not match the DTD|is not a declared Notation|reference an unknown notation")
LISTED = re.compile(r"for attribute (\S+) of (\S+) is not among the enumerated set")
NAMES = ["a", "b", "x:c"]
KINDS = ["CDATA", "ID", "IDREF", "IDREFS", "NMTOKEN", "NMTOKENS", "(one|two|three)", "ENTITY", "NOTATION (gif|png)"]
VALUES = {
    "CDATA": ["", "words", "a  b", "&lt;&#10;", "\u00e9\u20ac"], "ID": ["i1", "i2", "i3", "1", "i 1", ""], "IDREF": ["i1", "i2", "none", "1"],
    "IDREFS": ["i1 i2", "i1", "i1 none", ""], "NMTOKEN": ["1", "x.y", "a b", "<", ""], "NMTOKENS": ["1 2", "a,", "", "b"],
    "(one|two|three)": ["one", "two", "tow", "", "One"], "ENTITY": ["pic", "none", "text", ""], "NOTATION (gif|png)": ["gif", "jpg", "png"],
}
FRONT = '<!NOTATION gif SYSTEM "g"><!NOTATION png SYSTEM "p"><!ENTITY pic SYSTEM "p.gif" NDATA gif><!ENTITY text "words">\n'


class Trial(Expecting):
    def __init__(self, program: str, seed: int, until: float) -> None:
        super().__init__()
        self.program, self.random, self.until = program, random.Random(seed), until

    def tell(self, what: str, holds: bool, *shown: object) -> None:
        """Expects it, and shows these where it fails."""
        self.expect(what, holds, shown)

    @property
    def is_late(self) -> bool:
        return time.monotonic() > self.until


def xmllint(*words: str) -> tuple[bool, list[str]]:
    """Whether it finds no fault of attributes, and its messages on these."""
    said = subprocess.run(["xmllint", "--nonet", "--noout", *words], capture_output=True, text=True, errors="replace", check=False).stderr
    found = re.findall(r"validity error : (.*)", said) + re.findall(r"(?:namespace|parser) error : (.*)", said)
    found = [each for each in found if published.ASIDE.search(each) or "redefined" in each or "Namespace prefix" in each]
    found = [each for each in found if not re.search("No declaration for element|content does not follow", each)]
    counted = [each for each in found if not DOUBLED.search(each)]
    # Of a fixed value that is one of several, xmllint says both that it isn't listed and what it must be.
    return not found, [each for each, after in zip(counted, [*counted[1:], ""]) if not (
        (listed := LISTED.search(each)) and f"Value for attribute {listed[1]} of {listed[2]} must be" in after)]


def keys_of(faults: list[AttributeFault]) -> list[str]:
    return [f"{fault.kind} {fault.attribute} {fault.value}" for fault in faults]


# ---- small documents ----

SMALL_DTD = FRONT + """<!ELEMENT a ANY><!ELEMENT b ANY><!ELEMENT x:c ANY>
<!ATTLIST a id ID #REQUIRED r IDREF #IMPLIED k (italic|bold|plain) "plain" n NMTOKEN #IMPLIED f CDATA #FIXED "q" e ENTITY #IMPLIED
 xmlns:x CDATA #FIXED "urn:x" x:href CDATA #IMPLIED title CDATA #IMPLIED>
<!ATTLIST b id ID #IMPLIED only (this) #REQUIRED with CDATA "v" open CDATA #REQUIRED>"""
# A document, and what is said of it: kind, line and column, and words of the sentence.
SMALL = [
    ('<a id="i"/>', []),
    ("<a/>", [("missing", "1:2", "`a` lacks the attribute `id`")]),
    ('<a id="i">\n <b id="i" only="this" open=""/></a>', [("id", "2:5", "the first is in line 1")]),
    ('<a id="i" r="j"/>', [("idref", "1:11", "`r` refers to the ID `j`, which no element has")]),
    ('<a id="i" k="itallic"/>', [("value", "1:11", "`k` of `a` is `itallic`; it must be `italic`, `bold` or `plain`. Most like it: `italic`")]),
    ("<a id='i'\r\n n = 'a b'/>", [("type", "2:2", "it must be a token")]),
    ('<a id="i" n=" b "/>', [("blanks", "1:11", "write `b`")]),
    ('<a id="i" f="w"/>', [("value", "1:11", "`q`, fixed by the DTD")]),
    ('<a id="i" e="text"/>', [("entity", "1:11", "which is no unparsed entity")]),
    ('<a id="i" titel="t"/>', [("unknown", "1:11", "declares no attribute `titel` of `a`. Most like it: `title`")]),
    ('<a id="i" title="t" title="u"/>', [("twice", "1:21", "reads over it")]),
    ('<a id="i" xmlns:xl="urn:x" xl:href="t"/>', [("unknown", "1:11", "it binds the prefixes `xmlns:x`"), ("unknown", "1:28", "it writes it `x:href`")]),
    ('<a id="i" href="t"/>', [("unknown", "1:11", "it writes it `x:href`")]),
    ('<a id="i" x:href="t"/>', [("prefix", "1:11", "bound to no namespace")]),
    ('<a id="i"><other c="d"/></a>', []),
    ('<!DOCTYPE a [<!ATTLIST a own (x|y) #REQUIRED>]>\n<a id="i"/>', [("missing", "2:2", "`a` lacks the attribute `own`")]),
    ('<!DOCTYPE a [<!ATTLIST a own (x|y) #REQUIRED>]>\n<a id="i" own="x"/>', []),
    ('<!DOCTYPE a [<!ATTLIST a title (x|y) #IMPLIED>]>\n<a id="i" title="z"/>', [("value", "2:11", "`title` of `a` is `z`")]),
    ('<!DOCTYPE a [<!ENTITY own SYSTEM "o.gif" NDATA gif>]>\n<a id="i" e="own"/>', []),
    ('<a id="&none;"/>', [("unseen", "1:4", "the value of `id` of `a` isn't known: it refers to `&none;`; it must be a name")]),
    ('<a id="&none;" r="&none;"><a id="&none;" k="&other;" f="&other;" title="&other;"/></a>', [
        ("unseen", "1:4", "`&none;`"), ("unseen", "1:16", "`r`"), ("unseen", "1:30", "`&none;`"), ("unseen", "1:42", "`k`"), ("unseen", "1:54", "`f`")]),
    ('<!DOCTYPE a [<!ENTITY e "two">\n]>\n<a id="i" n="&e;">&e;<b only="&e;" open="&e;"/></a>', [("value", "3:25", "it must be `this`")]),
]


def try_small(trial: Trial) -> None:
    with Attributes(SMALL_DTD.encode()) as attributes:
        trial.tell("attributes are looked at", attributes.why_not == "", attributes.why_not)
        for text, wanted in SMALL:
            data = text.encode()
            checked, source = attributes.check(data), Source("", data)
            found = [(it.kind, str(source.place(it.span.start)) if it.span else "", it.sentence) for it in checked.faults]
            is_right = len(found) == len(wanted) and all(one[:2] == other[:2] and other[2] in one[2] for one, other in zip(found, wanted))
            trial.tell("small", is_right and checked.are_valid == (not wanted), text, found, wanted)
        names = [it.name for it in attributes.of("b")]
        trial.tell("required ones first", set(names[:2]) == {"only", "open"} and set(names) == {"only", "open", "id", "with"}, names)
        trial.tell("values of new elements", [it.only for it in map(lambda it: attributes.one("b", it), ("only", "open", "with"))] == ["this", None, "v"])
        trial.tell("as declared", {it.declared for it in attributes.of("b")} == {"(this) #REQUIRED", "CDATA #REQUIRED", "ID #IMPLIED", 'CDATA "v"'})
    with Attributes(b"<!ELEMENT a (b") as attributes:
        trial.tell("a DTD that isn't read", "libxml2 doesn't read the DTD" in attributes.check(b"<a b='c'/>").sentence, attributes.why_not)
    with Attributes(b'<!ENTITY % m SYSTEM "/etc/passwd">%m;<!ELEMENT a EMPTY>') as attributes:
        trial.tell("other files", attributes.why_not == "the DTD has modules in other files", attributes.why_not)
    Path("module.ent").write_text("<!ATTLIST a other CDATA #REQUIRED>")
    path = Path("module.ent").resolve().as_uri()
    for hidden in (f"""<!ENTITY % m "<!ENTITY &#37; n SYSTEM '{path}'> &#37;n;">%m;""", f"""<!ENTITY % m "SYSTEM"><!ENTITY % n %m; '{path}'>%n;"""):
        with Attributes(f"{hidden}<!ELEMENT a EMPTY><!ATTLIST a b CDATA #IMPLIED>".encode()) as attributes:
            trial.tell("no file is read", attributes.one("a", "other") is None, hidden)
    with Attributes(b"<!ELEMENT a EMPTY>") as attributes:
        for subset in ("<!ENTITY foo>", "<!NOTATION x>", "<!ENTITY e '&#1;'>", "<!-- a -- b -->", "<!ATTLIST>"):
            checked = attributes.check(f"<!DOCTYPE a [{subset}]><a/>".encode())
            trial.tell("a subset that isn't one", "own declarations" in checked.why_not, subset, checked)


# ---- random documents ----

def random_dtd(trial: Trial) -> tuple[str, dict[str, dict[str, str]]]:
    """A DTD that allows all elements everywhere, and the type of each attribute."""
    text, kinds = FRONT, dict[str, dict[str, str]]()
    for name in NAMES:
        of: dict[str, str] = {}
        declared = []
        for at in range(trial.random.randint(0, 6)):
            kind = trial.random.choice(KINDS)
            if kind in ("ID", "NOTATION (gif|png)") and kind in of.values():
                continue
            attribute = trial.random.choice([f"{'nmk'[at % 3]}{at}", f"x:{at}n"]).replace(f":{at}", ":n")
            default = trial.random.choice(["#REQUIRED", "#IMPLIED", "#IMPLIED"])
            if kind in ("CDATA", "NMTOKEN", "(one|two|three)") and trial.random.random() < 0.3:
                default = trial.random.choice(["#FIXED 'one'", "'two'"])
            if attribute not in of:
                of[attribute] = kind
                declared.append(f" {attribute} {kind} {default}")
        of["xmlns:x"] = "#FIXED"
        text += f"<!ELEMENT {name} ANY>\n<!ATTLIST {name} xmlns:x CDATA #FIXED 'urn:x'{''.join(declared)}>\n"
        kinds[name] = of
    return text, kinds


def random_element(trial: Trial, kinds: dict[str, dict[str, str]], depth: int = 0) -> str:
    """An element, alone in its line, with attributes of which a few are wrong."""
    name = trial.random.choice(NAMES)
    pairs = [' xmlns:x="urn:x"'] if depth == 0 else []
    for attribute, kind in kinds[name].items():
        if kind in VALUES and trial.random.random() < 0.6:
            value = trial.random.choice(VALUES[kind][:trial.random.choice([1, 2, 9])]).replace("<", "&lt;")
            pairs.append(f' {attribute}="{value}"')
    pairs += [' other="y"'] if trial.random.random() < 0.05 else []
    trial.random.shuffle(pairs)
    kids = [random_element(trial, kinds, depth + 1) for _ in range(trial.random.randint(0, 3 - depth))] if depth < 3 else []
    return f"<{name}{''.join(pairs)}>{''.join(kids)}text</{name}>\n"


def try_random(trial: Trial) -> None:
    """The same as xmllint says."""
    for _ in range(60):
        if trial.is_late:
            return
        dtd, kinds = random_dtd(trial)
        Path("r.dtd").write_text(dtd)
        with Attributes(dtd.encode()) as attributes:
            for _ in range(15):
                text = random_element(trial, kinds)
                compare(trial, attributes, dtd, text)


# An attribute in a tag, and what documents may have before or in them of which nothing is said.
ATTRIBUTE = re.compile(r"""\s[^\s=<>"]+="[^"]*"|\sother="y\"""")
FRONTS = ("", "", "", "<?xml version='1.0'?>\n", '<?xml version="1.0" encoding="utf-8" ?>', "<?xml version='1.0' standalone='yes'?>", "\ufeff", "<!-- : a=b -->",
          "<?x a='b'?>")


def try_without(trial: Trial) -> None:
    """Of documents without attributes it is known without libxml2 whether something is wrong; it never is where that isn't asked."""
    told = 0
    for _ in range(60):
        if trial.is_late:
            break
        dtd, kinds = random_dtd(trial)
        # Some names have no required attribute; what is declared last counts for none.
        for name in trial.random.sample(NAMES, len(NAMES) // 2):
            dtd = re.sub(f"(<!ATTLIST {name} [^>]*)", lambda it: it[1].replace("#REQUIRED", "#IMPLIED"), dtd)
        Path("r.dtd").write_text(dtd)
        with Attributes(dtd.encode()) as attributes:
            for _ in range(15):
                text = ATTRIBUTE.sub("", random_element(trial, kinds))
                text = trial.random.choice([text, text, text.replace("text", "a = b: c", 1), re.sub(r"(</?)(\w)", r"\1x:\2", text)])
                data = f"{trial.random.choice(FRONTS)}{text}".encode()
                checked, is_none = attributes.check(data), attributes.are_none(data)
                trial.tell("nothing is wrong without attributes", not is_none or checked.are_valid, dtd[:3000], text[:3000], keys_of(checked.faults))
                is_plain = b":" not in data and b"=" not in data
                trial.tell("and it is known", not is_plain or is_none == checked.are_valid, dtd[:3000], text[:3000], keys_of(checked.faults))
                told += is_none
    trial.tell("some need no libxml2", trial.is_late or told > 20, told)
    for dtd, is_none in (("<!ELEMENT a ANY><!ATTLIST a b ENTITY 'none'>", True), ("<!ELEMENT a ANY><!ATTLIST a b CDATA #REQUIRED>", False),
                         ("<!ELEMENT a ANY><!ELEMENT ab ANY><!ATTLIST ab b CDATA #REQUIRED>", True), ("<!ELEMENT a ANY><!ATTLIST a b CDATA 'c'>", True)):
        with Attributes(dtd.encode()) as attributes:
            trial.tell("as libxml2 says", (attributes.are_none(b"<a/>"), attributes.check(b"<a/>").are_valid) == (is_none, is_none), dtd)
    for name in ("a" * 80, "\u00e9t\u00e9.-"):
        names = [name[:size] for size in range(1, len(name) + 1)]
        dtd = "<!ELEMENT z ANY>" + "".join(f"<!ELEMENT {it} ANY><!ATTLIST {it} b CDATA #REQUIRED>" for it in names)
        with Attributes(dtd.encode()) as attributes:
            found = [attributes.are_none(f"<z><{it}/></z>".encode()) for it in ("z", *names, f"{name}z")]
            trial.tell("many names that begin alike", found == [True, *[False] * len(names), True], name, found)
    with Attributes(b"<!ELEMENT z ANY>" + b"".join(b"<!ELEMENT %b ANY><!ATTLIST %b b CDATA #REQUIRED>" % ((b"a" * size,) * 2) for size in range(1, 100))) as attributes:
        trial.tell("too many names", (attributes.are_none(b"<z/>"), attributes.check(b"<z/>").are_valid) == (False, True))


def compare(trial: Trial, attributes: Attributes, dtd: str, text: str, path: str = "r.dtd") -> None:
    """Compares what is said of a document with xmllint."""
    root = published.root_of(text)
    Path("v.xml").write_text(f'<!DOCTYPE {root} SYSTEM "{path}">' + text)
    Path("d.xml").write_text(text)
    checked = attributes.check(text.encode())
    (is_valid, said), (is_dtd_valid, _) = xmllint("--valid", "v.xml"), xmllint("--dtdvalid", path, "d.xml")
    faults = [fault for fault in checked.faults if fault.kind != "blanks"]
    trial.tell("valid by both", (not faults, checked.why_not) == (is_valid, ""), dtd[:3000], text[:3000], keys_of(checked.faults), said, checked.why_not)
    trial.tell("a validator of its own DTD", checked.are_valid == is_dtd_valid, dtd[:3000], text[:3000], keys_of(checked.faults))
    trial.tell("as many faults", len(faults) == len(said), dtd[:3000], text[:3000], keys_of(faults), said)
    for fault in checked.faults:
        bytes_ = text.encode()[slice(*fault.span)].decode() if fault.span else ""
        is_there = bytes_ == fault.element if fault.kind == "missing" else bytes_.startswith(fault.attribute)
        trial.tell("the bytes", is_there, fault, bytes_)


# ---- letters ----

LETTER_ATTRIBUTES = """
<!ATTLIST letter id ID #REQUIRED lang NMTOKEN "en">
<!ATTLIST person key IDREF #IMPLIED role (writer|reader) #IMPLIED>
<!ATTLIST date when CDATA #REQUIRED>
<!ATTLIST place id ID #IMPLIED>
<!ATTLIST p n NMTOKEN #IMPLIED rend (plain|italic) "plain">
"""
LETTER_VALUES = {"id": ["l1", "l2", "1l"], "lang": ["nl", "en", "old dutch"], "key": ["l1", "l2", "x"], "role": ["writer", "wirter"], "when": ["1764"],
                 "n": ["1", "1 2"], "rend": ["italic", "itallic"], "titel": ["t"]}


def random_letter(trial: Trial) -> str:
    """A letter that is valid but for its attributes, or for a tag."""
    def tag(name: str, *attributes: str) -> str:
        wanted = [it for it in attributes if trial.random.random() < (0.93 if it in ("id", "when") and name != "place" else 0.2)]
        wanted += ["titel"] if trial.random.random() < 0.01 else []
        return f"<{name}" + "".join(f' {it}="{value(it, name)}"' for it in wanted) + ">"

    def value(attribute: str, name: str) -> str:
        return trial.random.choice(LETTER_VALUES[attribute][:1] * 12 + LETTER_VALUES[attribute]) if name != "place" else f"l{trial.random.randint(2, 9)}"

    def words() -> str:
        some = [f"{tag('person', 'key', 'role')}Anna</person>", f"{tag('date', 'when')}1764</date>", f"{tag('place', 'id')}Delft</place>", "words ", "<lb/>"]
        return "".join(trial.random.choices(some, k=trial.random.randint(0, 4)))

    paragraphs = "".join(f"{tag('p', 'n', 'rend')}{words()}</p>\n" for _ in range(trial.random.randint(trial.random.randint(0, 1), 3)))
    opener = "<opener><salute>Dear</salute></opener>"
    return f"{tag('letter', 'id', 'lang')}{opener}<body>{paragraphs}</body></letter>"


def try_letters(trial: Trial) -> None:
    """What is called valid passes, and nothing else does."""
    dtd = (TOP / "examples" / "letter.dtd").read_text() + LETTER_ATTRIBUTES
    Path("letter.dtd").write_text(dtd)
    valid = 0
    with Attributes(dtd.encode()) as attributes:
        for _ in range(200):
            text = random_letter(trial)
            Path("l.xml").write_text(text)
            is_valid = subprocess.run([trial.program, "valid", "letter.dtd", "letter", "l.xml"], capture_output=True, check=False).returncode == 0
            is_passed = subprocess.run(["xmllint", "--noout", "--dtdvalid", "letter.dtd", "l.xml"], capture_output=True, check=False).returncode == 0
            trial.tell("a letter", (is_valid and attributes.check(text.encode()).are_valid) == is_passed, text, is_valid, is_passed)
            valid += is_passed
    trial.tell("both kinds of letters", 20 < valid < 180, valid)


# ---- documents of the machine ----

def changed(trial: Trial, text: str) -> str:
    """A document with attributes changed in a place or two."""
    for _ in range(trial.random.choice([0, 1, 1, 2])):
        pairs = list(re.finditer(r"""(?<=\s)([\w:.-]+)=("[^"]*"|'[^']*')(?=[^<>]*>)""", text))
        tags = list(re.finditer(r"<[\w:.-]+(?=[\s/>])", text))
        if pairs and trial.random.random() < 0.7:
            at = trial.random.choice(pairs)
            other = trial.random.choice(pairs)
            new = trial.random.choice(["", f"{at[1]}x={at[2]}", f"{at[1]}={other[2]}", f'{at[1]}="a b"', f'{at[1]}=""'])
            text = text[:at.start()] + new + text[at.end():]
        elif tags:
            tag, pair = trial.random.choice(tags), trial.random.choice(pairs)[0] if pairs else 'id="x"'
            name = re.match(r"[^=]+", pair)[0]
            end = text.index(">", tag.end())
            if not re.search(rf"\s{re.escape(name)}=", text[tag.end():end]):
                text = f"{text[:tag.end()]} {pair}{text[tag.end():]}"
    return text


def try_machine(trial: Trial, python: str) -> None:
    """Pages, manual pages, pictures and catalogs, as they are and changed."""
    os.environ["XML_CATALOG_FILES"] = published.CATALOGS
    flats = dict[str, Attributes | None]()
    counts = dict[str, int]()
    found = [published.pages(), published.catalogs(), published.pictures()]
    found += [published.manuals()] if published.shutil.which("doclifter") else []
    while found and not trial.is_late:
        source = trial.random.choice(found)
        dtd, path = next(source, (None, None))
        if dtd is None:
            found.remove(source)
            continue
        text = published.plain(path) if os.path.isfile(dtd) else None
        if not text or counts.get(dtd, 0) >= 25 or len(text) > 300_000:
            counts[dtd] = counts.get(dtd, 0) + 1
            if counts[dtd] > 100:
                found.remove(source)
            continue
        counts[dtd] = counts.get(dtd, 0) + 1
        if dtd not in flats:
            ran = subprocess.run([python, published.TOOL, dtd], capture_output=True, check=False)
            flats[dtd] = Attributes(ran.stdout) if ran.returncode == 0 else None
            Path(f"flat{len(flats)}.dtd").write_bytes(ran.stdout)
        attributes = flats[dtd]
        if attributes is not None:
            name = f"flat{list(flats).index(dtd) + 1}.dtd"
            text = re.sub(r"^<\?xml.*?\?>\s*", "", text)
            for _ in range(2):
                compare(trial, attributes, dtd, changed(trial, text), name)
    for each in flats.values():
        if each is not None:
            each.close()


# ---- entities and subsets ----

def try_entities(trial: Trial) -> None:
    """Documents with entities are judged as their texts are, and come back as they were written."""
    Path("e.dtd").write_text('<!ELEMENT a (b*,c?)><!ELEMENT b (#PCDATA|c)*><!ELEMENT c EMPTY><!ENTITY inside "of the DTD">')
    texts = {"t": "words", "deep": "&t; and &t;", "white": " ", "whites": "&white;&white;", "empty": "", "amp2": "&#38;amp;", "blank": "&#38;#32;", "inside": None}
    declared = "".join(f'<!ENTITY {name} "{value}">' for name, value in texts.items() if value is not None)
    for _ in range(150):
        kids = "".join(trial.random.choice(["<b>", "<c/>", "", " ", "</b>", *(f"&{name};" for name in texts)]) for _ in range(trial.random.randint(0, 7)))
        subset = f"<!DOCTYPE a [{declared}<!-- ]> \u20ac -->\n]>"
        data = f"{subset}<a>{kids}</a>".encode()
        masked = mask(data, Path("e.dtd").read_bytes())
        Path("m.xml").write_bytes(masked.data)
        Path("w.xml").write_bytes(f'<!DOCTYPE a SYSTEM "e.dtd" [{declared}]><a>{kids}</a>'.encode())
        ran = subprocess.run([trial.program, "valid", "e.dtd", "a", "m.xml"], capture_output=True, check=False)
        theirs = subprocess.run(["xmllint", "--noout", "--noent", "--valid", "w.xml"], capture_output=True, check=False).returncode
        ours = {0: 0, 1: 4}.get(ran.returncode, 1)
        # A reference to a character that is white space, or to an empty text, is no content for xmllint.
        is_odd = any(f"&{name};" in kids for name in ("blank", "empty", "whites"))
        trial.tell("with entities", ours == theirs or is_odd and 1 not in (ours, theirs), data, masked.data, ran, theirs)
        trial.tell("nothing is said", masked.remarks == [] and masked.is_whole, masked.remarks)
        trial.tell("it comes back", masked.restored(masked.data) == data, data)
        ran = subprocess.run([trial.program, "session", "e.dtd", "a", "m.xml"], input=b"complete\n", capture_output=True, check=False)
        if ran.stdout.startswith(b"completed "):
            whole = masked.restored(ran.stdout.split(b"\n", 1)[1][:-1])
            left = re.sub(rb"</?b>|<c/>|</?a>", b"", whole)
            trial.tell("a completion", whole.startswith(subset.encode()) and left == re.sub(rb"</?b>|<c/>|</?a>", b"", data), data, whole)


# A document, and the kinds of its remarks with words of their sentences.
REMARKS = [
    ("<a>&none;</a>", [("entity", "`&none;` isn't declared")]),
    ("<a b='&none;'/>", [("entity", "`&none;` isn't declared")]),
    ('<!DOCTYPE a [<!ENTITY e "<b/>">]><a>&e;&e;</a>', [("brings", "elements or other markup")]),
    ('<!DOCTYPE a [<!ENTITY e "&#60;b/>">]><a>&e;</a>', [("brings", "elements or other markup")]),
    ('<!DOCTYPE a [<!ENTITY e "&f;"><!ENTITY f "x<b/>">]><a>&e;</a>', [("brings", "xmllint --nonet --noent --loaddtd")]),
    ('<!DOCTYPE a [<!ENTITY e SYSTEM "/etc/passwd">]><a>&e;</a>', [("brings", "as another file")]),
    ('<!DOCTYPE a [<!ENTITY e "&e;">]><a>&e;</a>', [("brings", "`&e;` refers to itself")]),
    ('<!DOCTYPE a [<!ENTITY e "&f;">]><a>&e;</a>', [("brings", "`&f;`")]),
    ("<!DOCTYPE a [\n<!ELEMENT a ANY>\n<!ELEMENT b ANY>]><a/>", [("element", "declares 2 elements itself")]),
    ('<!DOCTYPE a [<!ENTITY % p SYSTEM "p.ent">%p;]><a>&e;</a>', [("subset", "`%p;`"), ("entity", "`&e;`")]),
    ('<!DOCTYPE a [<!ENTITY % p "<!ENTITY e \'x\'>">%p;]><a>&e;</a>', []),
    ("<!DOCTYPE a [ <!-- ]> --> <?p ]> ?> <!ATTLIST a b CDATA ']>'> ]><a/>", []),
    ("<!DOCTYPE a [ words ]><a/>", [("subset", "no declaration")]),
    ("<!DOCTYPE a [ <!ENTITY e 'x'> <a/>", []),
    ("<a>&lt;&#38;<![CDATA[&e;]]><!-- &e; --><?p &e;?></a>", []),
]


def try_remarks(trial: Trial) -> None:
    for text, wanted in REMARKS:
        data = text.encode()
        masked = mask(data)
        found = [(it.kind, it.sentence) for it in masked.remarks]
        is_right = len(found) == len(wanted) and all(one[0] == other[0] and other[1] in one[1] for one, other in zip(found, wanted))
        trial.tell("remarks", is_right and masked.restored(masked.data) == data, text, found)
        trial.tell("what isn't whole", masked.is_whole == all(it[0] != "brings" for it in wanted), text)
        is_told = any("to itself" in words or "no declaration" in words for _, words in wanted)
        trial.tell("what is no fault", (masked.fault is not None) == is_told, text, masked.fault)
    # What would grow without end.
    doubling = "".join(f'<!ENTITY e{at} "&e{at + 1};&e{at + 1};">' for at in range(60)) + '<!ENTITY e60 "x">'
    many = "".join(f"&e{at};" for at in range(61)) * 50
    data = f"<!DOCTYPE a [{doubling}]><a b='{many}'>{many}</a>".encode()
    start = time.process_time()
    masked = mask(data)
    spelled = masked.spelled()
    trial.tell("it is bounded", time.process_time() - start < 60 and len(masked.data) < 4 * len(data) and len(spelled) < 20 << 20, len(spelled))
    for at in range(0, len(data), 997):
        trial.tell("offsets", masked.offset(masked.masked_offset(at)) <= at, at)


# Declarations, a document, and words on what isn't well-formed in it, if anything is. `&e;` is the place, where there is one.
FORMS = [
    ('<!ENTITY e "]]>">', "<a>&e;</a>", "has `]]>` in its text"),
    ('<!ENTITY e "]]&#62;">', "<a>x&e;</a>", "has `]]>` in its text"),
    ('<!ENTITY e "]]&#38;gt;">', "<a>&e;</a>", ""),
    ('<!ENTITY e "]]>">', "<a b='&e;'/>", ""),
    ('<!ENTITY e "]]&f;"><!ENTITY f ">">', "<a>&e;</a>", ""),
    ('<!ENTITY e "]]">', "<a>&e;></a>", ""),
    ('<!ENTITY e "<b/>">', "<a b='&e;'/>", "has a `<` in its text"),
    ('<!ENTITY e "&#60;">', "<a b='&e;'/>", "has a `<` in its text"),
    ('<!ENTITY e "&#38;#60;">', "<a b='&e;'>&e;</a>", ""),
    ('<!ENTITY e "&lt;">', "<a b='&e;'>&e;</a>", ""),
    ('<!ENTITY e "x&f;"><!ENTITY f "<b/>">', "<a b='&e;'/>", "`&e;` brings `&f;`, which has a `<`"),
    ('<!ENTITY e "<b c=\'&f;\'/>"><!ENTITY f "&#60;">', "<a>&e;</a>", "`&e;` brings `&f;`, which has a `<`"),
    ('<!ENTITY e "<b>">', "<a>&e;</b></a>", "can't stand in an element"),
    ('<!ENTITY e "</a><a>">', "<a>&e;</a>", "can't stand in an element"),
    ('<!ENTITY e "<b></c>">', "<a>&e;</a>", "mismatched tag"),
    ('<!ENTITY e "<\u00e9></\u00e8>">', "<a>&e;</a>", "mismatched tag"),
    ('<!ENTITY e "<\u4e00/><\U00010000/>">', "<a>&e;</a>", ""),
    ('<!ENTITY e "<b x=\'1\' x=\'2\'/>">', "<a>&e;</a>", "duplicate attribute"),
    ('<!ENTITY e "&#38;">', "<a>&e;</a>", "can't stand in an element"),
    ('<!ENTITY e "&#38;">', "<a b='&e;'/>", "can't stand in a value"),
    ('<!ENTITY e "&#38;#1;">', "<a b='&e;'/>", "invalid character number"),
    ('<!ENTITY e "&f;"><!ENTITY f "&e;">', "<a>&e;</a>", "refers to itself"),
    ('<!ENTITY e "&f;"><!ENTITY f "&e;">', "<a b='&e;'/>", "refers to itself"),
    ('<!ENTITY e "&f;"><!ENTITY f "&e;">', "<a/>", ""),
    ('<!ENTITY e SYSTEM "x">', "<a b='&e;'/>", "in another file"),
    ('<!ENTITY e SYSTEM "x">', "<a>&e;</a>", ""),
    ('<!NOTATION n SYSTEM "n"><!ENTITY e SYSTEM "x" NDATA n>', "<a>&e;</a>", "is no text"),
    ('<!ENTITY e "<?xml version=\'1.0\'?>">', "<a>&e;</a>", "not at start of entity"),
    ('<!ENTITY e "<!-- a ">', "<a>&e; --></a>", "unclosed token"),
    ('<!ENTITY e "<![CDATA[ ">', "<a>&e; ]]></a>", "unclosed CDATA section"),
    ('<!ENTITY e "&#60;b&#62;x&#60;/b&#62;">', "<a>&e;</a>", ""),
    ('<!ENTITY e "x & y">', "<a/>", "own declarations"),
    ('<!ENTITY e "x%p;">', "<a/>", "own declarations"),
    ('<!ENTITY e "&#1;">', "<a/>", "own declarations"),
    ('<!ENTITY e "\ufffe">', "<a/>", "no character of XML"),
    ("<!ELEMENT a (b,>", "<a/>", "own declarations"),
    ("<!ELEMENT \U00010000 (\u00e9)>", "<a/>", ""),
    ("<!-- a -- b -->", "<a/>", "own declarations"),
]
PIECES = ["x", "x", "]]>", "]]", ">", "<", "&#60;", "&#38;", "&#38;#60;", "<b>", "</b>", "<b/>", "<b c='", "'/>", "'", "<!--", "-->", "<?p", "?>", "<![CDATA[",
          "&lt;", "&#38;#1;", "\u00e9", "&#x10000;", "&", "&e0;", "&e1;", "&e2;", "&e3;", "<b c='&e1;'>&e2;</b>"]


def well_formed(text: str) -> tuple[bool, str]:
    """Whether a document is well-formed, and what xmllint says."""
    Path("f.xml").write_text(text)
    ran = subprocess.run(["xmllint", "--nonet", "--noout", "f.xml"], capture_output=True, text=True, errors="replace", check=False)
    return ran.returncode == 0, ran.stderr


def try_forms(trial: Trial) -> None:
    """What an entity brings is of the form of XML, as xmllint says, or it is told at the reference."""
    documents = [(f"<!DOCTYPE a [{declared}]>{body}", wanted) for declared, body, wanted in FORMS]
    for _ in range(120):
        values = ["".join(trial.random.choices(PIECES, k=trial.random.choice([0, 1, 1, 2, 3]))) for _ in range(4)]
        names = [f"&e{trial.random.randint(0, 3)};" for _ in range(3)]
        declared = "".join(f'<!ENTITY e{at} "{value}">' for at, value in enumerate(values))
        documents.append((f"<!DOCTYPE a [{declared}]><a>{trial.random.choice(['', names[0]])}<b c='{trial.random.choice(['', names[1]])}'/>{names[2]}</a>", None))
    for text, wanted in documents:
        if trial.is_late:
            return
        fault, (is_formed, said) = mask(text.encode()).fault, well_formed(text)
        if is_formed and fault is not None:
            # What libxml2 has met in a value it doesn't look at again in content.
            is_formed, said = well_formed(re.sub(r"c='&e\d;'", "c=''", text))
        if "not defined" not in said:
            trial.tell("well-formed by both", is_formed == (fault is None), text, fault, said[:500])
        if wanted is not None:
            trial.tell("what isn't well-formed", (wanted in fault.sentence if fault else "") if wanted else fault is None, text, fault)
            at = text.encode()[slice(*fault.span)] if fault and "own declarations" not in fault.sentence else b"&e;"
            trial.tell("the place", at == b"&e;", text, fault)
    # A chain, a ring and much text: no call in a call, and no more than is read.
    chain = "".join(f'<!ENTITY e{at} "&e{at + 1};">' for at in range(20_000))
    for last, is_fault in ("x", False), ("]]>", True), ("&e0;", True):
        data = f"<!DOCTYPE a [{chain}<!ENTITY e20000 '{last}'>]><a>&e0;</a>".encode()
        trial.tell("a chain", (mask(data).fault is not None) == is_fault, last)


def try_growth(trial: Trial) -> None:
    """Documents that are made to take long, or much room: a second each would do."""
    many = 1 << 18
    repeated, values = b"".join(b"&e%d;" % at for at in range(20_000)), b"".join(b'<!ENTITY e%d "%%p;">' % at for at in range(3000))
    declared = b'<!ENTITY % p "' + b"x" * 900_000 + b'">' + values
    references = b"".join(b'<!ENTITY e%d "%s">' % (at, b"&x;" * many) for at in range(8))
    documents = [
        b"<!DOCTYPE a [" + b"<!--" * many + b"]><a/>", b"<!DOCTYPE a [" + b"<?" * many + b"]><a/>", b"<!--" * many + b"<a>&x;</a>",
        b"<!DOCTYPE a" + b" x" * 4 * many + b"[ ]><a/>", b"<a>" + repeated + b"</a>", b"<!DOCTYPE a [" + declared + b"]><a>&e1;</a>",
        b"<a>&#" + b"0" * 100_000 + b"65;" + b"&x;" * 100_000 + b"</a>", b'<!DOCTYPE a [<!ENTITY e "&#' + b"1" * 9999 + b';">]><a>&e;</a>',
        b"<!DOCTYPE a [<!ENTITY % p \"" + b"<!ENTITY e 'x'>" * 5000 + b'">' + b"%p;" * 5000 + b"]><a/>",
        b'<!DOCTYPE a [<!ENTITY x "">' + references + b"]><a>" + b"".join(b"&e%d;" % at for at in range(8)) + b"</a>",
    ]
    for document in documents:
        start = time.process_time()
        masked = mask(document, b"<!ELEMENT a ANY>" + declared)
        is_back = masked.restored(masked.data) == document
        trial.tell("a growing one", is_back and len(masked.data) < 3 * len(document) + 1000, document[:60], len(masked.data))
        same = same_length(document)
        trial.tell("of the same length", len(same) == len(document) and time.process_time() - start < 60, document[:60], time.process_time() - start)


# ---- the commands ----

PAGE_DTD = """<!ELEMENT html (head, body)> <!ATTLIST html id ID #REQUIRED> <!ELEMENT head (title)>
<!ELEMENT title (#PCDATA)> <!ATTLIST title kind (main) #REQUIRED lang NMTOKEN #REQUIRED>
<!ELEMENT body (p)+> <!ELEMENT p (#PCDATA)> <!ATTLIST p n CDATA #REQUIRED rend (it|bf) "it">"""
PAGE = '<!DOCTYPE html [\n<!ENTITY me "An&#110;a">\n]>\n<html>\nText of &me;<p rend="x">q&me; &nope;</p></html>\n'
COMPLETED = PAGE.replace("<html>", '<html><head><title kind="main">').replace("&me;<p", "&me;</title></head><body><p").replace("</html>", "</body></html>")
SAID_OF_PAGE = """p.xml:5:31: warning: `&nope;` isn't declared, in the document or in the DTD; it is taken as text
p.xml:4:2: `html` lacks the attribute `id`, which the DTD requires: a name that no other element of the document has as its ID
p.xml:5:14: `p` lacks the attribute `n`, which the DTD requires
p.xml:5:16: `rend` of `p` is `x`; it must be `it` or `bf`
why: 2 attributes missing, 1 wrong
"""
SAID_OF_COMPLETION = """p.xml:5:31: warning: `&nope;` isn't declared, in the document or in the DTD; it is taken as text
complete: the new element `title` in line 4 lacks `lang`, which the DTD requires
complete: 2 attributes missing, 1 wrong, of elements that were there; clients/why tells each
"""


def try_commands(trial: Trial) -> None:
    Path("p.dtd").write_text(PAGE_DTD)
    Path("p.xml").write_text(PAGE)

    def run(client: str, *words: str, **more: str) -> tuple[int, str, str]:
        ran = subprocess.run([sys.executable, str(TOP / "clients" / client), "--program", trial.program, *words], capture_output=True, text=True,
                             env={**os.environ, **more}, check=False)
        return ran.returncode, ran.stdout, ran.stderr

    trial.tell("why", run("why", "p.dtd", "html", "p.xml") == (1, "possible\n", SAID_OF_PAGE), run("why", "p.dtd", "html", "p.xml"))
    told = run("complete", "p.dtd", "html", "p.xml")
    trial.tell("complete", told == (0, COMPLETED, SAID_OF_COMPLETION), told)
    os.makedirs("without", exist_ok=True)
    Path("without/lxml.py").write_text("raise ImportError")
    for client, said in ("why", "possible\n"), ("complete", None):
        status, out, errors = run(client, "p.dtd", "html", "p.xml", PYTHONPATH="without")
        trial.tell("no lxml", said in (None, out) and f"{client}: attributes weren't looked at: lxml is missing" in errors, status, out, errors)
    Path("n.dtd").write_text("<!ELEMENT p (#PCDATA)>")
    Path("n.xml").write_text("<p>words</p>")
    trial.tell("nothing to look at", run("why", "n.dtd", "p", "n.xml", PYTHONPATH="without") == (1, "possible\n", ""))
    Path("m.xml").write_text("<!DOCTYPE p [<!ENTITY foo>]><p>words</p>")
    _, out, _ = run("report", "n.dtd", "p", "m.xml")
    trial.tell("a report says so", '"verdict": "refused"' in out and "own declarations aren't well-formed here" in out, out)
    Path("x.dtd").write_text("<!ELEMENT x:a (b*)> <!ATTLIST x:a xmlns:x CDATA #FIXED 'urn:x'> <!ELEMENT b EMPTY> <!ATTLIST b x:ref CDATA #REQUIRED>")
    Path("x.xml").write_text('<x:a xmlns:x="urn:x"><x:b/><b ref="1"/></x:a>')
    told = run("why", "x.dtd", "x:a", "x.xml")
    trial.tell("prefixes", told[:2] == (0, "x.xml:1:22: `x:b` (line 1) isn't declared.\n  The DTD has it as `b`: a prefix is part of the name.\n"), told)
    trial.tell("prefixes of attributes", "the DTD declares no attribute `ref` of `b`: it writes it `x:ref`" in told[2] and "`b` lacks the attribute `x:ref`" in told[2], told)
    # What isn't well-formed by an entity is a fault of the document.
    Path("w.xml").write_text('<!DOCTYPE p [<!ENTITY e "]]>">]>\n<p>&e;</p>')
    for client in "why", "complete":
        told = run(client, "n.dtd", "p", "w.xml")
        trial.tell("a fault", told == (7, "", f"{client}: w.xml:2:4: the document isn't well-formed: `&e;` has `]]>` in its text\n"), told)
    _, out, _ = run("report", "n.dtd", "p", "w.xml")
    trial.tell("a report refuses it", '"verdict": "refused"' in out and "has `]]>` in its text" in out and '"line": 2' in out, out)
    # The completion is that of the program, for random documents.
    dtd = PAGE_DTD.replace("(#PCDATA)> <!ATTLIST p", "(#PCDATA|title|p)*> <!ATTLIST p")
    Path("q.dtd").write_text(dtd)
    for _ in range(12):
        kids = "".join(trial.random.choice(["<p>words</p>", "words", "<p/>", "<title/>", "&me;", " "]) for _ in range(trial.random.randint(0, 5)))
        Path("q.xml").write_text(f'<!DOCTYPE html [<!ENTITY me "Anna">]>\n<html id="i">{kids}</html>')
        Path("qm.xml").write_bytes(mask(Path("q.xml").read_bytes()).data)
        theirs = subprocess.run([trial.program, "session", "q.dtd", "html", "qm.xml"], input="complete\n", capture_output=True, text=True, check=False).stdout
        status, out, _ = run("complete", "q.dtd", "html", "q.xml")
        wanted = mask(Path("q.xml").read_bytes()).restored_text(theirs.split("\n", 1)[1][:-1]) if theirs.startswith("completed") else ""
        bare = re.sub(r' kind="main"', "", out)
        trial.tell("the same completion", bare == wanted and (status == 0) == bool(wanted), out, wanted)


def main() -> None:
    program, seed = os.path.abspath(sys.argv[1]), int(sys.argv[2])
    trial = Trial(program, seed, time.monotonic() + float(sys.argv[3]) if len(sys.argv) > 3 else float("inf"))
    random.seed(seed)
    python = python_with_lxml()
    with tempfile.TemporaryDirectory() as folder:
        os.chdir(folder)
        try_remarks(trial)
        try_forms(trial)
        try_entities(trial)
        if python:
            try_small(trial)
            try_growth(trial)
            try_commands(trial)
            try_letters(trial)
            try_random(trial)
            try_without(trial)
            try_machine(trial, python)
        else:
            print("skipped: attributes (no lxml, package python3-lxml)")
        os.chdir("/")
    sys.exit(trial.ended())


if __name__ == "__main__":
    main()
