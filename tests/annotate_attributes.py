"""Tries what the page of `clients/annotate` says of attributes, and documents with internal subsets and entities.

Words: PROGRAM SEED. Needs lxml for this Python or for the system's, and xmllint. Of 200 random letters those that the page calls valid pass
`xmllint --dtdvalid`, and no others. Documents with entities are marked up, saved, opened again and taken back: each byte that isn't a new tag is as
it was. Prints each difference, and how many cases passed; ends with 1 where one failed.
"""
import os
import random
import re
import subprocess
import sys
import tempfile
from pathlib import Path

import attributes as letters
from lib.annotate.fixture import EXAMPLES, FOLDER

sys.path.insert(0, os.path.dirname(FOLDER))
from annotate.attributes import Attributes  # noqa: E402
from annotate.editor import Editor  # noqa: E402
from pvtag.attributes import python_with_lxml  # noqa: E402
from annotate.script import Script  # noqa: E402
from annotate.texts import Texts  # noqa: E402
from annotate.work import entities_of, note_of  # noqa: E402

SUBSET = '<!DOCTYPE letter [\n<!ENTITY me "Anna"> <!ENTITY sp " "><!-- ]> -->\n]>\n'
LETTER = SUBSET + "<letter id='&me;'>Dear &me;,&sp;<p>I &amp; &me; &none; met &#233;</p></letter>\n"


def editor_on(program: str, dtd: str, root: str, source: bytes) -> Editor:
    path = Path("doc.xml")
    for each in Path(".").glob("doc.xml*"):
        each.unlink()
    path.write_bytes(source)
    return Editor([program], dtd, root, Script(str(path)))


def try_letters(trial: letters.Trial) -> None:
    """What the page calls valid is valid for xmllint."""
    Path("letter.dtd").write_text((Path(EXAMPLES) / "letter.dtd").read_text() + letters.LETTER_ATTRIBUTES)
    counts, shared = [0, 0], None
    for _ in range(200):
        editor = editor_on(trial.program, "letter.dtd", "letter", letters.random_letter(trial).encode())
        attributes = Attributes(editor)
        # One process is asked about all.
        shared = attributes.known = shared or attributes.known
        state, told = editor.state(), attributes.faults({})
        is_valid = state["open"] + state["bad"] == 0 and told["valid"]
        editor.save({"version": editor.version})
        is_passed = subprocess.run(["xmllint", "--noout", "--dtdvalid", "letter.dtd", "doc.xml"], capture_output=True, check=False).returncode == 0
        trial.tell("a letter", is_valid == is_passed, Path("doc.xml").read_text(), state["open"], state["bad"], told)
        nodes = [editor.document.nodes[each["node"]].name for each in told["faults"]]
        trial.tell("the elements", all(f"`{name}`" in each["sentence"] or each["kind"] in ("idref", "id", "blanks")
                                       for name, each in zip(nodes, told["faults"])), nodes, told)
        counts[is_passed] += 1
        editor.close()
    if shared is not None:
        shared.close()
    trial.tell("both kinds", min(counts) > 15, counts)


def try_form(trial: letters.Trial) -> None:
    """The form has required ones first, with values and IDs; what is set is told anew."""
    Path("letter.dtd").write_text((Path(EXAMPLES) / "letter.dtd").read_text() + letters.LETTER_ATTRIBUTES + "<!ATTLIST letter kind (a|b) #REQUIRED>")
    editor = editor_on(trial.program, "letter.dtd", "letter", b"<letter><opener><salute>x</salute></opener><body><p><person key='q'>y</person></p></body></letter>")
    attributes = Attributes(editor)
    told = attributes.faults({})
    trial.tell("in words", told["sentence"] == "2 attributes missing, 1 wrong" and not told["valid"] and told["count"] == 3, told)
    root = editor.document.there("0")
    form = attributes.of({"node": root.id})
    trial.tell("the form", [each["name"] for each in form["declared"]] == ["id", "kind", "lang"] and form["declared"][1]["values"] == ["a", "b"], form)
    attributes.change({"node": root.id, "version": editor.version, "pairs": [["id", "q"], ["kind", "a"]]})
    told = attributes.faults({})
    trial.tell("valid", told["valid"] and told["sentence"] == "attributes valid" and told["version"] == editor.version, told)
    form = attributes.of({"node": editor.document.there("0.1.0.0").id})
    trial.tell("IDs", form["ids"] == ["q"], form)
    attributes.close()
    editor.close()


def try_entities(trial: letters.Trial) -> None:
    """A document with entities there and back."""
    Path("free.dtd").write_text("<!ELEMENT letter ANY> <!ELEMENT p ANY> <!ELEMENT hi ANY> <!ATTLIST letter id CDATA #IMPLIED>")
    source = LETTER.encode()
    for _ in range(15):
        editor = editor_on(trial.program, "free.dtd", "letter", source)
        trial.tell("as it was", editor.whole_source() == source and editor.saved == [])
        trial.tell("said", "`&none;` isn't declared" in note_of(editor) and "&me;" in entities_of(editor).values(), note_of(editor))
        texts = Texts(editor)
        for _ in range(trial.random.randint(1, 6)):
            nodes = [node for node in editor.document.elements() if node.owner is not None]
            owner = trial.random.choice(nodes)
            kids = [kid for kid in owner.kids if kid.kind == "text"]
            if not kids:
                continue
            kid = trial.random.choice(kids)
            start, end = sorted(trial.random.choices(range(len(kid.units) + 1), k=2))
            place = {"list": owner.id, "from": [kid.id, start], "to": [kid.id, end]}
            if start < end and trial.random.random() < 0.8:
                editor.move({"version": editor.version, "kind": "wrap", "place": place, "name": "hi"})
            elif start == end:
                # What was copied on the page has characters in the place of entities.
                copied = trial.random.choice(list(editor.entities) + ["", ""])
                texts.type({"version": editor.version, "text": copied, "place": place})
        whole = editor.whole_source()
        trial.tell("what is saved", whole.startswith(SUBSET.encode()) and b"pvtag" not in whole and "\U00010001" not in whole.decode() and b"&#0" not in whole, whole)
        editor.save({"version": editor.version})
        said = subprocess.run(["xmllint", "--noout", "--noent", "doc.xml"], capture_output=True, text=True, check=False).stderr
        trial.tell("a document of XML", all("'none' not defined" in each for each in re.findall(r"error : (.*)", said)), said)
        typed = re.sub(rb"</?hi>", b"", whole)
        editor.close()
        again = Editor([trial.program], "free.dtd", "letter", Script("doc.xml"))
        trial.tell("opened again", again.whole_source() == whole and again.saved == again.made, whole)
        again.back({"version": again.version, "to": 0})
        trial.tell("taken back", again.whole_source() == source, again.whole_source())
        trial.tell("texts", typed.count(b"&me;") >= 3, typed)
        again.close()
    editor = editor_on(trial.program, "free.dtd", "letter", source)
    attributes = Attributes(editor)
    root = editor.document.there("0")
    (name, value), = attributes.of({"node": root.id})["pairs"]
    attributes.change({"node": root.id, "version": editor.version, "pairs": [[name, f"{value} and more"]]})
    trial.tell("a value with an entity", b'id="&me; and more"' in editor.whole_source(), editor.whole_source())
    told = attributes.faults({})
    trial.tell("an entity that isn't known", not told["valid"] and "an entity isn't seen" in told["sentence"], told)
    attributes.close()
    editor.close()


def main() -> int:
    trial = letters.Trial(os.path.abspath(sys.argv[1]), int(sys.argv[2]), float("inf"))
    random.seed(int(sys.argv[2]))
    with tempfile.TemporaryDirectory() as folder:
        os.chdir(folder)
        try_entities(trial)
        if python_with_lxml():
            try_form(trial)
            try_letters(trial)
        else:
            print("skipped: attributes (no lxml, package python3-lxml)")
        os.chdir("/")
    return trial.ended()


if __name__ == "__main__":
    sys.exit(main())
