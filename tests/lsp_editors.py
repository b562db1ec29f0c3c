"""Tries `clients/lsp` in Neovim and in Emacs with eglot, each with its own client: diagnostics, completion, code
actions, undo.

Words: PROGRAM, and the most seconds for one step. Under the letter's DTD, and where Debian's packages w3c-sgml-lib and
docbook-xml are, under XHTML and DocBook. An editor that is missing is skipped. Prints each difference, and how many
cases passed; ends with 1 where one failed.
"""
import glob
import json
import os
import re
import shutil
import subprocess
import sys
import tempfile

sys.dont_write_bytecode = True

import lsp  # noqa: E402
import lsp_protocol  # noqa: E402
from lib.lsp_client import EXAMPLES, SERVER, TOP, Fault, need, same  # noqa: E402

STRICT = "/usr/share/xml/w3c-sgml-lib/schema/dtd/REC-xhtml1-20020801/xhtml1-strict.dtd"
PACKAGES = "/usr/share/emacs/site-lisp/elpa/"
DOCBOOK = "/usr/share/xml/docbook/schema/dtd/4.5/docbookx.dtd"


class Case:
    """A draft, where a `<` is typed and what is chosen then, what is wrapped, and what is inserted at last."""

    def __init__(self, name, dtd, root, draft, typed, chosen, wrapped, mended):
        self.name, self.dtd = name, dtd
        self.text = f'<!DOCTYPE {root} SYSTEM "{dtd}">\n' + draft
        # A piece of the draft before which the `<` is typed; the name that is chosen, and what it is then.
        self.typed, (self.chosen, self.tags) = typed, chosen
        # A piece of a line, and the name that it is wrapped in.
        self.piece, self.wrapper = wrapped
        # The title of the last action.
        self.mended = mended

    def place(self, piece):
        """Line, from 1, and column of a piece."""
        before = self.text[: self.text.index(piece)]
        return [before.count("\n") + 1, len(before) - before.rfind("\n") - 1]

    def asked(self, file, program, seconds):
        line, column = self.place(self.piece)
        return {
            "file": file,
            "server": [sys.executable, SERVER, "--program", program],
            "seconds": seconds,
            "lines": self.text.splitlines(),
            "type": self.place(self.typed),
            "choose": self.chosen,
            "wrap": [f"Wrap in <{self.wrapper}>", line, column, column + len(self.piece)],
            "mend": self.mended,
        }

    def judge(self, told):
        need("fault" not in told, told.get("fault"))
        need(self.chosen in told["labels"], f"what may stand here: {told['labels']}")
        same(told["completed"], self.text.replace(self.typed, self.tags + self.typed), "completed")
        if "within" in told:
            within = self.typed[:2] + self.tags + self.typed[2:]
            same(told["within"], self.text.replace(self.typed, within), "completed in the middle of a word")
        same(
            told["wrapped"], self.text.replace(self.piece, f"<{self.wrapper}>{self.piece}</{self.wrapper}>"), "wrapped"
        )
        same(told["unwrapped"], self.text, "an undo")
        need(told["mended"] != self.text, "nothing was inserted")
        same(told["undone"], self.text, "an undo of all")
        need(any("missing." in str(each) for each in told["diagnostics"]), told["diagnostics"])


CASES = [
    Case(
        "letter",
        os.path.join(EXAMPLES, "letter.dtd"),
        "letter",
        "<letter><opener>Dear brother,</opener>\n<body><p>I have met Mr Adams in Delft.</p></body></letter>\n",
        " met",
        ("person", "<person></person>"),
        ("Mr Adams", "person"),
        "Insert 1 missing element",
    ),
    Case(
        "XHTML",
        STRICT,
        "html",
        '<html><h1>Cafes in Delft</h1>\nMost open early; <a href="https://example.org/delft">the town</a> tells when.\n'
        "<ul>Cafe Central\nby the Old Church</ul></html>\n",
        " in Delft",
        ("em", "<em></em>"),
        ("open early", "em"),
        "Insert 5 missing elements",
    ),
    Case(
        "DocBook",
        DOCBOOK,
        "article",
        # The names that the document uses come first, of more than three hundred.
        "<article><title>Cafes in Delft</title>\n<para>Most open early.</para><para>None is <emphasis>quiet</emphasis>.</para>"
        "<itemizedlist>Cafe Central</itemizedlist></article>\n",
        " open",
        ("emphasis", "<emphasis></emphasis>"),
        ("early", "emphasis"),
        "Insert 2 missing elements",
    ),
]


def neovim(told, asked):
    script = os.path.join(TOP, "tests", "lib", "lsp_neovim.lua")
    return ["nvim", "--clean", "--headless", "-n", "-c", f"luafile {script}"], {
        "PVTAG_ASKED": asked,
        "PVTAG_TOLD": told,
    }


def emacs(told, asked):
    script = os.path.join(TOP, "tests", "lib", "lsp_emacs.el")
    folders = [word for folder in glob.glob(PACKAGES + "*") for word in ("-L", folder)]
    return ["emacs", "-Q", "--batch", *folders, "-l", script], {"PVTAG_ASKED": asked, "PVTAG_TOLD": told}


def run(editor, case, program, seconds):
    folder = tempfile.mkdtemp()
    try:
        file, asked, told = (os.path.join(folder, name) for name in ("draft.xml", "asked.json", "told.json"))
        with open(file, "w", encoding="utf-8") as out:
            out.write(case.text)
        with open(asked, "w", encoding="utf-8") as out:
            json.dump(case.asked(file, program, seconds), out)
        words, more = editor(told, asked)
        ran = subprocess.run(
            words,
            env=os.environ | more | {"HOME": folder},
            capture_output=True,
            text=True,
            timeout=20 * seconds,
            cwd=folder,
            stdin=subprocess.DEVNULL,
        )
        if not os.path.exists(told):
            raise Fault(f"status {ran.returncode}: {ran.stdout[-2000:]}{ran.stderr[-2000:]}")
        with open(told, encoding="utf-8") as made:
            case.judge(json.load(made))
    finally:
        shutil.rmtree(folder)


def one_server_a_folder(program, seconds):
    """What docs/EDITORS.md says for Neovim: one server for each folder, which XHTML goes to as well."""
    with open(os.path.join(TOP, "docs", "EDITORS.md"), encoding="utf-8") as page:
        snippet = page.read().partition("```lua\n")[2].partition("```")[0]
    folder = tempfile.mkdtemp()
    try:
        texts = {
            "init.lua": snippet,
            "pvtag-lsp": f"#!/bin/sh\nexec '{sys.executable}' '{SERVER}' --program '{program}'\n",
            "one.xml": CASES[0].text,
            "two.xml": CASES[0].text,
            "three.xhtml": CASES[0].text,
            "count.lua": COUNT % (1000 * seconds),
        }
        for name, text in texts.items():
            with open(os.path.join(folder, name), "w", encoding="utf-8") as out:
                out.write(text)
        os.chmod(os.path.join(folder, "pvtag-lsp"), 0o755)
        words = ["nvim", "--clean", "--headless", "-n", "-c", "luafile init.lua", "-c", "luafile count.lua"]
        environment = os.environ | {"HOME": folder, "PATH": f"{folder}:{os.environ['PATH']}"}
        subprocess.run(words, env=environment, cwd=folder, stdin=subprocess.DEVNULL, capture_output=True, timeout=20 * seconds)
        with open(os.path.join(folder, "told"), encoding="utf-8") as told:
            same(told.read().split(), ["1", "3"], "servers, and documents that they have")
    finally:
        shutil.rmtree(folder)


# A document in which a text may be wrapped in more names than are actions of their own.
NAMES = [f"n{number}" for number in range(30)]
MANY = {
    "many.dtd": f"<!ELEMENT a (#PCDATA|{'|'.join(NAMES)})*>\n" + "".join(f"<!ELEMENT {name} (#PCDATA)>\n" for name in NAMES),
    "many.xml": "<!DOCTYPE a SYSTEM 'many.dtd'>\n<a>one two</a>\n",
}


def many_in_emacs(program, seconds):
    """One of many wraps in Emacs, where a name is declared, and its other uses."""
    folder = tempfile.mkdtemp()
    try:
        for name, content in (MANY | {"server": "\n".join((sys.executable, SERVER, "--program", program))}).items():
            with open(os.path.join(folder, name), "w", encoding="utf-8") as out:
                out.write(content)
        folders = [word for each in glob.glob(PACKAGES + "*") for word in ("-L", each)]
        words = ["emacs", "-Q", "--batch", *folders, "-l", os.path.join(TOP, "tests", "lib", "lsp_many.el")]
        environment = os.environ | {"HOME": folder, "PVTAG_SECONDS": str(seconds)}
        subprocess.run(words, env=environment, cwd=folder, stdin=subprocess.DEVNULL, capture_output=True, timeout=20 * seconds)
        with open(os.path.join(folder, "told"), encoding="utf-8") as file:
            told = json.load(file)
        need("fault" not in told, told)
        same((told["actions"], told["text"]), (21, MANY["many.xml"].replace("one", "<n29>one</n29>")), "one of many wraps")
        same((told["definition"], told["references"]), ([31], 2), "the declaration of n29, and it with the one use")
    finally:
        shutil.rmtree(folder)


def by_keys(program, seconds):
    """What a person gets in Neovim by keys, with the set-up of docs/EDITORS.md."""
    with open(os.path.join(TOP, "docs", "EDITORS.md"), encoding="utf-8") as page:
        snippet = page.read().partition("```lua\n")[2].partition("```")[0]
    folder, text = tempfile.mkdtemp(), CASES[0].text.rstrip()
    try:
        texts = {
            "init.lua": snippet,
            "pvtag-lsp": f"#!/bin/sh\nexec '{sys.executable}' '{SERVER}' --program '{program}'\n",
            "one.xml": CASES[0].text,
            **MANY,
        }
        for name, content in texts.items():
            with open(os.path.join(folder, name), "w", encoding="utf-8") as out:
                out.write(content)
        os.chmod(os.path.join(folder, "pvtag-lsp"), 0o755)
        words = ["nvim", "--clean", "--headless", "-n", "-c", f"luafile {os.path.join(TOP, 'tests', 'lib', 'lsp_keys.lua')}"]
        environment = os.environ | {"HOME": folder, "PATH": f"{folder}:{os.environ['PATH']}", "PVTAG_SECONDS": str(seconds)}
        subprocess.run(words, env=environment, cwd=folder, stdin=subprocess.DEVNULL, capture_output=True, timeout=20 * seconds)
        with open(os.path.join(folder, "told"), encoding="utf-8") as file:
            told = json.load(file)
        need("fault" not in told, told)
        same(sorted(told["names"]), ["date", "lb", "person", "place"], "the names")
        same(told["completed"], text.replace("met", "<person></person>met"), "completed")
        same(told["undone"], text, "an undo")
        same(told["whole"], 0, "names for a whole tag")
        same(told["wrapped"], text.replace("Mr Adams", "<person>Mr Adams</person>"), "wrapped")
        same(told["renamed"], text.replace("opener>", "salute>"), "renamed")
        need("<!ELEMENT opener" in told["hover"], told["hover"])
        same(told["many"], MANY["many.xml"].rstrip().replace("one", "<n29>one</n29>"), "one of many wraps")
    finally:
        shutil.rmtree(folder)


COUNT = """
local ok, fault = pcall(function()
  for _, name in ipairs({ 'one.xml', 'two.xml', 'three.xhtml' }) do vim.cmd('edit ' .. name) end
  local function documents()
    local count = 0
    for _, each in pairs(vim.lsp.get_active_clients()) do count = count + #vim.lsp.get_buffers_by_client_id(each.id) end
    return count
  end
  vim.wait(%d, function() return documents() == 3 end, 20)
  vim.fn.writefile({ #vim.lsp.get_active_clients() .. ' ' .. documents() }, 'told')
end)
if not ok then vim.fn.writefile({ tostring(fault) }, 'told') end
vim.cmd('qall!')
"""


# What is found of nXML, as the table of docs/EDITORS.md has it.
NXML = {
    "draft": ['1 Missing attributes "kind", "id"', "1 Text not allowed", '1 Missing element "salute"'],
    "swapped": ['1 Missing attributes "kind", "id"', '2 Missing element "body"', "3 Element not allowed in this context"],
    "half": ['1 Missing attributes "kind", "id"', "1 Text not allowed", '1 Missing element "salute"', "2 Missing `>'", "2 Unknown element"],
    "names": ["/p", "date", "lb", "person", "place"],
    "fits": ["/letter", "closer"],
    "attributes": ["id", "kind"],
    "values": ["business", "private"],
    "ends": ["opener"],
    "finished": "<letter><opener></opener>",
    "hover": [],
    "definitions": [],
    "commands": [],
    "outline": 2,
    "other": "<p><b>x</b></p>",
    "pair": "<a><pq>x</pq></a>",
    "indented": "<a>\n  <p>Some\n  <b>bold</b>\n  words</p>\n</a>",
    "associated": "letter.rnc",
    "formed": ['2 Missing end-tag "b"'],
    "required": "<letter ",
    "model": "",
    "entity": [],
    "dtd": [],
}
NO_OPENER = "Element opener content does not follow the DTD, expecting (dateline? , salute), got (CDATA)"
CATALOG = """<catalog xmlns="urn:oasis:names:tc:entity:xmlns:xml:catalog">
<rewriteSystem systemIdStartString="http://example.org/dtds/" rewritePrefix="file://{folder}/"/></catalog>"""
SCHEMAS = """<locatingRules xmlns="http://thaiopensource.com/ns/locating-rules/1.0">
<uri pattern="*.letter.xml" uri="letter.rnc"/></locatingRules>"""


# The same of Neovim's own files for XML, with xmllint.
OWN = {
    "draft": [f"2 {NO_OPENER}"],
    "swapped": ["4 Element letter content does not follow the DTD, expecting (opener , body , closer?), got (opener closer body)"],
    "half": [f"2 {NO_OPENER}", "3 Specification mandates value for attribute Mr", "3 attributes construct error",
             "3 Couldn't find end of Start Tag met line 3"],
    "formed": ["1 Validation failed: no DTD found !", "2 Opening and ending tag mismatch: b line 2 and a", "3 Premature end of data in tag a line 1"],
    "entity": ["2 Entity 'e' failed to parse"],
    "model": ["2 Validation failed: no DTD found !"],
    "catalog": ["2 Element letter content does not follow the DTD, expecting (opener , body , closer?), got ",
                "2 Element letter does not carry attribute id", "2 Element letter does not carry attribute kind"],
    # Those that stand there already are offered again.
    "names": ["opener", "body", "closer"],
    "mixed": ["person", "place", "date", "lb"],
    "attributes": ['id="', 'kind="'],
    "values": ['private" ', 'business" '],
    "ends": ["opener>"],
    "required": "<letter",
    "folds": [1, 2, 2, 1],
    "other": [4, 2],
    "pair": "<a><pq>x</p></a>",
    "formatted": "<a>\n  <p>\n    Some\n    <b>bold</b>\n      words\n    </p>\n  </a>",
    # No command but those that name data files, and nothing that looks up a word or a tag.
    "commands": ["XMLent", "XMLns"],
    "settings": ["", "", "", ""],
    "maps": [],
    "stalled": 1,
}


def peer(rows, what, version, words, more, seconds, made=lambda folder: None):
    """A column of another editor in the table of docs/EDITORS.md: rows by the words that begin the editor, in a folder with the letter's DTD."""
    folder = tempfile.mkdtemp()
    try:
        with open(os.path.join(EXAMPLES, "letter.dtd"), encoding="utf-8") as dtd, open(f"{folder}/l.dtd", "w", encoding="utf-8") as out:
            out.write(dtd.read() + "<!ATTLIST letter id ID #REQUIRED kind (private|business) #REQUIRED>")
        made(folder)
        environment = os.environ | {"HOME": folder} | {name: value.format(folder=folder) for name, value in more.items()}
        subprocess.run(words, env=environment, cwd=folder, stdin=subprocess.DEVNULL, capture_output=True, timeout=20 * seconds)
        with open(f"{folder}/told", encoding="utf-8") as told:
            found = json.load(told)
        found_version = found.pop("version", "")
        if not found_version.startswith(version):
            print(f"skipped: the column of {what} (version {found_version}, not {version})")
            return
        for row, wanted in rows.items():
            same(found.get(row, found), wanted, row)
    finally:
        shutil.rmtree(folder)


def nxml(seconds):
    def made(folder):
        with open(f"{folder}/schemas.xml", "w", encoding="utf-8") as out:
            out.write(SCHEMAS)
        shutil.copy(os.path.join(EXAMPLES, "letter-swapped.xml"), f"{folder}/swapped.xml")
        subprocess.run(["trang", "l.dtd", "letter.rnc"], cwd=folder, check=True, capture_output=True, timeout=20 * seconds)

    words = ["emacs", "-Q", "--batch", "-l", os.path.join(TOP, "tests", "lib", "nxml.el")]
    peer(NXML, "nXML", "28.", words, {"NXML_TOLD": "{folder}/told"}, seconds, made)


def own(seconds):
    def made(folder):
        with open(f"{folder}/catalog.xml", "w", encoding="utf-8") as out:
            out.write(CATALOG.format(folder=folder))
        os.mkfifo(f"{folder}/stalled.dtd")

    words = ["nvim", "--clean", "--headless", "-n", "-S", os.path.join(TOP, "tests", "lib", "nvim_own.vim")]
    more = {"OWN_TOLD": "{folder}/told", "OWN_FOLDER": "{folder}", "XML_CATALOG_FILES": "{folder}/catalog.xml"}
    peer(OWN, "Neovim", "0.7.", words, more, seconds, made)


def names_its_tests():
    """Each row of the table names cases that are there."""
    with open(os.path.join(TOP, "docs", "EDITORS.md"), encoding="utf-8") as page:
        table = page.read().partition("| Feature |")[2].partition("\n\n")[0]
    rows = [line.rstrip("| ").rpartition("|")[2] for line in table.splitlines()[2:]]
    need(len(rows) > 20, table)
    known = {is_wire: {case.__name__ for case in module.CASES} for is_wire, module in ((False, lsp), (True, lsp_protocol))}
    for row in rows:
        named = re.findall(r"`(\w+)`", row)
        need(named and known["*" in row].issuperset(named), f"no such test: {row}")


def has_eglot():
    return bool(
        glob.glob(PACKAGES + "eglot-*")
        or glob.glob("/usr/share/emacs/2[9-9]*/lisp/progmodes/eglot.el*")
        or glob.glob("/usr/share/emacs/[3-9]*/lisp/progmodes/eglot.el*")
    )


def main():
    program, seconds = os.path.abspath(sys.argv[1]), int(sys.argv[2]) if len(sys.argv) > 2 else 30
    passed = failed = 0
    has_nvim, has_emacs = bool(shutil.which("nvim")), bool(shutil.which("emacs"))
    alone = (
        ("the table's tests", True, names_its_tests),
        ("neovim, its servers", has_nvim, lambda: one_server_a_folder(program, seconds)),
        ("neovim, by keys", has_nvim, lambda: by_keys(program, seconds)),
        ("Neovim with xmllint", has_nvim and shutil.which("xmllint"), lambda: own(seconds)),
        ("emacs, one of many wraps", has_emacs and has_eglot(), lambda: many_in_emacs(program, seconds)),
        ("nXML", has_emacs and shutil.which("trang"), lambda: nxml(seconds)),
    )
    for what, is_there, act in () if sys.argv[3:] else alone:
        if not is_there:
            print(f"skipped: {what} (it isn't installed)")
            continue
        try:
            act()
            passed += 1
        except Exception as fault:
            failed += 1
            print(f"differs: {what}: {type(fault).__name__}: {fault}", flush=True)
    for editor, is_there in ((neovim, has_nvim), (emacs, has_emacs and has_eglot())):
        if not is_there:
            print(f"skipped: the language server in {editor.__name__} (it isn't installed)")
            continue
        for case in CASES:
            if sys.argv[3:] and f"{editor.__name__}-{case.name}" not in sys.argv[3:]:
                continue
            if not os.path.exists(case.dtd):
                print(f"skipped: the language server under {case.name} (no {case.dtd})")
                continue
            try:
                run(editor, case, program, seconds)
                passed += 1
            except Exception as fault:
                failed += 1
                print(f"differs: {editor.__name__}, {case.name}: {type(fault).__name__}: {fault}", flush=True)
    print(f"{passed} passed, {failed} failed")
    return 1 if failed else 0


if __name__ == "__main__":
    sys.exit(main())
