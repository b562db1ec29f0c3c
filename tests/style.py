"""Checks what has no behaviour: Python files by pyflakes, shell scripts by shellcheck, the clients' types by mypy, where these are installed; that
prose of the pages keeps to 120 columns, it and the messages of the clients to the words of the field, and that by cmark, where it is installed, no
list, heading or table of a page comes about by accident; that each check has its file's name, and docs/PROVED.md their table; the file that each
choice of docs/DECISIONS.md names; that each edit which the gate leaves out still has its place; that no line of a crate is longer than 200 columns,
that no comment there begins with "the same", and that a file of proofs or of definitions is named after its subject. Prints each finding, and how many
files and pages passed; ends with 1 where one failed."""
import re
import shutil
import subprocess
import sys
import tempfile
from collections.abc import Iterator
from pathlib import Path
from xml.etree import ElementTree

sys.dont_write_bytecode = True
from run import CHECKS, MARKED, PAGE, file_of, table  # noqa: E402

TOP = Path(__file__).resolve().parent.parent
FOLDERS = [".ci", "bench", "clients", "examples", "tests", "tools"]
PYFLAKES = [["pyflakes3"], ["pyflakes"]]
# Words that another shell is given stand in single quotes.
SHELLCHECK = ["shellcheck", "--format=gcc", "--exclude=SC2016"]
CHOICE = re.compile(r"^- \*\*.*?(?=^- \*\*|^## |\Z)", re.MULTILINE | re.DOTALL)
# So many edits of a crate are tried by the gate, at most.
MOST_EDITS = 3
# So many columns a line of a crate has, at most.
MOST_COLUMNS = 200
# A comment of a crate, and one whose first line may begin with what is said elsewhere.
COMMENT = re.compile(r"\s*(--|//)")
SAME = re.compile(r"\s*(--|//[/!]?) [Tt]he same\b")
# A participle says what is done, but not to what, and an adjective what a thing is like, but not which.
PARTICIPLE = re.compile(r"[A-Z][a-z]+(?:ing|ed)")
BARE = frozenset("""
    Absent Accepts Across After Again Alike Alone Among Apart Around Before Begun Behind Below Beside Between Both Broken Brought Built Chosen
    Deep Distinct Done Each Equal Every Exact Exclusive Exists Few Firsts Found Fresh Furthest Given Gone Grow Grown Held Inside Kept Known Laid
    Least Leasts Left Live Lost Made Many Meant Met Most Narrow Next None Once One Optimal Others Outside Paid Piecewise Productive Proper Ready
    Same Seen Shallow Shown Sound Spread Stands Taken Told Unbroken Undone Unknown Whole Wholes Wide Within Without Written
""".split())
# What ends like a participle and is a noun, or a type that the file is about.
NOUNS = frozenset(["Judged", "Making", "Meaning", "Merging", "Numbering", "Opening", "Spelling", "Tested"])
# What parts the cells of a table, and its second row.
BAR = re.compile(r"(?<!\\)\|")
RULE = re.compile(r"[|: -]+$")
FILE = re.compile(r"File:\s+`([^`]+)`\.\s*\Z")


def language(file: Path) -> str:
    """What a file is written in, by its name or its first line; nothing where it is neither."""
    if file.suffix in (".py", ".sh", ".bash"):
        return "python" if file.suffix == ".py" else "shell"
    with file.open("rb") as text:
        first = text.readline(100)
    return "python" if first.startswith(b"#!") and b"python" in first else "shell" if re.match(rb"#!.*sh\b", first) else ""


def sources(of: str) -> list[Path]:
    """The files of a language."""
    files = [TOP / "pvtag", TOP / "pvlong", TOP / "pvmany", *(it for folder in FOLDERS for it in sorted((TOP / folder).rglob("*")))]
    return [it for it in files if it.is_file() and "__pycache__" not in it.parts and language(it) == of]


# What finds faults of types, and the packages and the commands of the clients, which are typed.
MYPY = ["mypy", "--strict"]
PACKAGES = ("pvtag", "annotate", "lsp")
TYPED = ("report", "why", "complete", "ranges", "standoff", "mark")


def found_by(words: list[str], files: list[Path]) -> Iterator[tuple[str, str]]:
    """What a tool, which is run once, finds in each file: its lines begin with the file's name."""
    run = subprocess.run([*words, *map(str, files)], capture_output=True, text=True, errors="replace")
    lines = (run.stdout + run.stderr).splitlines()
    if run.returncode and not any(line.startswith(f"{file}:") for line in lines for file in files):
        yield words[0], "\n".join(lines) or f"{words[0]}: status {run.returncode}"
    for file in files:
        yield str(file), "\n".join(line for line in lines if line.startswith(f"{file}:"))


def by_tool(tools: list[list[str]], files: list[Path]) -> Iterator[tuple[str, str]]:
    """What the first of these tools that is installed finds."""
    installed = next((it for it in tools if shutil.which(it[0])), None)
    if installed:
        yield from found_by(installed, files)
    else:
        print(f"skipped: {len(files)} files (no {tools[0][0]})")


def typed() -> Iterator[tuple[str, str]]:
    """What mypy finds in the packages of the clients, and in the commands over them."""
    if not shutil.which(MYPY[0]):
        print("skipped: types (no mypy)")
        return
    with tempfile.TemporaryDirectory() as cache:
        for words in ([word for package in PACKAGES for word in ("-p", package)], *([command] for command in TYPED)):
            run = subprocess.run([*MYPY, f"--cache-dir={cache}", *words], cwd=TOP / "clients", capture_output=True, text=True, errors="replace")
            yield " ".join(words), run.stdout + run.stderr if run.returncode else ""


def is_table(rows: list[str]) -> bool:
    """Whether these lines are a table: a head, a rule, and as many cells in each row."""
    return len(rows) > 2 and bool(RULE.match(rows[1])) and all(it.startswith("|") for it in rows) and len({len(BAR.findall(it)) for it in rows}) == 1


def accidents(page: Path) -> Iterator[str]:
    """What cmark takes for something that isn't written as such: a heading by the line under it, a number at the front of a line, a bar, a tag."""
    lines = page.read_text(encoding="utf-8").splitlines()
    run = subprocess.run(["cmark", "--to", "xml", "--sourcepos", str(page)], capture_output=True, text=True, check=True)
    for node in ElementTree.fromstring(run.stdout).iter():
        found = re.match(r"(\d+):\d+-(\d+):", node.get("sourcepos", ""))
        if not found:
            continue
        at, end = int(found[1]), int(found[2])
        first, rows, kind, what = lines[at - 1].strip(), [it.strip() for it in lines[at - 1:end]], node.tag.rpartition("}")[2], ""
        if kind == "heading" and not first.startswith("#"):
            what = "a heading, by the line under it"
        elif kind == "list" and node.get("type") == "ordered" and (node.get("start") != "1" or len(node) == 1):
            what = "a list, by a number at the front of a line"
        elif kind == "html_block" and not first.startswith("<!--"):
            what = "HTML, by a tag at the front of a line"
        elif kind == "paragraph" and any(it.startswith("|") for it in rows) and not is_table(rows):
            what = "no table: lines without a bar, or rows with other numbers of cells"
        if what:
            yield f"{page}:{at}: {what}"


def in_messages() -> Iterator[tuple[str, str]]:
    """The messages of the clients, and which words in them the field doesn't use."""
    run = subprocess.run([str(TOP / "tools" / "english"), "--messages"], capture_output=True, text=True, errors="replace")
    yield "messages", run.stdout + run.stderr if run.returncode else ""


def by_cmark(pages: list[Path]) -> Iterator[tuple[str, str]]:
    """Each page, and what stands in it by accident."""
    if shutil.which("cmark"):
        yield from ((str(page), "\n".join(accidents(page))) for page in pages)
    else:
        print(f"skipped: {len(pages)} pages (no cmark)")


def checks() -> Iterator[tuple[str, str]]:
    """Each check, and whether its file has another name; and their table."""
    for check in CHECKS:
        is_named = check.name == Path(file_of(check)).stem
        yield check.name, "" if is_named else f"tests/run.py: the check {check.name} hasn't the name of {file_of(check)}"
    found = MARKED.search(PAGE.read_text(encoding="utf-8"))
    is_fresh = found and found[2].strip() == table()
    yield "the table of checks", "" if is_fresh else "docs/PROVED.md: the table of checks is stale: python3 tests/run.py --table writes it"


def choices() -> Iterator[tuple[str, str]]:
    """Each choice, and what is wrong with the file that it names."""
    for choice in CHOICE.findall((TOP / "docs" / "DECISIONS.md").read_text(encoding="utf-8")):
        title, file = choice.split("**")[1], FILE.search(choice)
        is_there = file and ((TOP / "crates" / file[1]).exists() or (TOP / file[1]).exists())
        yield title, "" if is_there else f"docs/DECISIONS.md, {title}: the choice ends with no `File:` that is there"


def edits() -> Iterator[tuple[str, str]]:
    """Each edit, and which of its texts isn't once in the file that it names. Of those that the gate tries a crate has only so many."""
    for folder in sorted(TOP.glob("crates/*/must-fail")):
        count = len(list(folder.glob("*.edit")))
        yield str(folder), f"{folder.relative_to(TOP)}: {count} edits, and at most {MOST_EDITS} are tried by the gate" if count > MOST_EDITS else ""
    for edit in sorted([*TOP.glob("crates/*/edits/*"), *TOP.glob("crates/*/must-fail/*")]):
        file, what = edit.parent.parent, ""
        for line in edit.read_text(encoding="utf-8").splitlines():
            kind, _, text = line.partition(": ")
            if kind == "file":
                file = edit.parent.parent / text
            elif kind == "old" and (not file.is_file() or file.read_text(encoding="utf-8").count(text) != 1):
                what = f"{edit.relative_to(TOP)}: not once in {file.relative_to(TOP)}: {text}"
        yield edit.name, what if file.is_file() else f"{edit.relative_to(TOP)}: it names no file"


def is_named(where: Path) -> bool:
    """Whether a file of proofs or of definitions has a name that says what it is about."""
    if "specs" in where.parts:
        return where.stem in NOUNS or not PARTICIPLE.fullmatch(where.stem)
    return "proofs" not in where.parts or where.stem not in BARE and not PARTICIPLE.fullmatch(where.stem)


def crate_files() -> Iterator[tuple[str, str]]:
    """Each file of the crates, and which of its lines are too long, or that its name says no subject."""
    for file in sorted(it for kind in ("*.rt", "*.antt") for it in TOP.glob(f"crates/*/*/**/{kind}")):
        where = file.relative_to(TOP)
        if "out" in where.parts:
            continue
        lines = file.read_text(encoding="utf-8").splitlines()
        found = [f"{where}:{number}: a line of more than {MOST_COLUMNS} columns" for number, line in enumerate(lines, 1) if len(line) > MOST_COLUMNS]
        found += [f"{where}:{number}: a comment that begins with \"the same\" and doesn't say what is" for number, line in enumerate(lines, 1)
                  if SAME.match(line) and not COMMENT.match("".join(lines[number - 2:number - 1]))]
        yield str(where), "\n".join(found[:1]) or ("" if is_named(where) else f"{where}: its name says no subject")


def findings() -> Iterator[tuple[str, str]]:
    """Files, pages and choices, each with what is wrong with it."""
    yield from by_tool(PYFLAKES, sources("python"))
    yield from by_tool([SHELLCHECK], sources("shell"))
    yield from typed()
    pages = [TOP / "README.md", *sorted((TOP / "docs").glob("*.md"))]
    yield from found_by([str(TOP / "tools" / "wrap"), "--check"], pages)
    yield from found_by([str(TOP / "tools" / "english")], [*pages, *sorted((TOP / "docs").glob("*.1"))])
    yield from in_messages()
    yield from by_cmark(pages)
    yield from checks()
    yield from choices()
    yield from edits()
    yield from crate_files()


def main() -> int:
    passed = failed = 0
    for _, what in findings():
        if what:
            failed += 1
            print(what)
        else:
            passed += 1
    print(f"style: {passed} passed, {failed} failed")
    return int(failed > 0)


if __name__ == "__main__":
    sys.exit(main())
