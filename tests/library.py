"""Tries the Python library `clients/pvtag` as a tool of others uses it: installed without a network, a part of a text is wrapped whole or not at all, the
tree has the paths of the session, threads share one, and wrong words raise what is said; the examples in Python and Perl that tag dates.

Words: the program, and how many letters have their dates tagged. The last line tells how many passed.
"""
import doctest
import importlib
import inspect
import io
import os
import random
import re
import shutil
import subprocess
import sys
import tempfile
import threading
from pathlib import Path

sys.dont_write_bytecode = True
from lib.counting import Expecting  # noqa: E402
from lib.waiting import PATIENCE  # noqa: E402

TOP = Path(__file__).resolve().parent.parent
sys.path.insert(0, str(TOP / "clients"))
from pvtag.attributes import python_with_lxml  # noqa: E402
from pvtag.layout import Layout  # noqa: E402
from pvtag.session import Ended, Made, Refused, Session  # noqa: E402

LETTER = str(TOP / "examples" / "letter.dtd")
DRAFT = str(TOP / "examples" / "letter-draft.xml")
TEXT = "I have met Mr Adams in Delft."


def wrapped(trial: Expecting, pvtag: str) -> None:
    """Each part of a text, by names that have room there and one that has none."""
    size = len(TEXT)
    for start, end in ((0, 1), (0, size), (11, 19), (20, size), (size - 1, size), (0, size + 1), (size, size + 1), (3, 3), (-1, 4)):
        for name in ("person", "salute"):
            with Session([pvtag], LETTER, "letter", DRAFT) as session:
                before = session.show()
                done = session.wrap_text("0.2.0.0", start, end, name)
                is_made = name == "person" and 0 <= start < end <= size
                trial.expect("made or refused", bool(done) == is_made and isinstance(done, Refused) != is_made, (start, end, name, done))
                element = f"{TEXT[:start]}<{name}>{TEXT[start:end]}</{name}>{TEXT[end:]}".encode()
                wanted = bytes(before).replace(TEXT.encode(), element) if is_made and before else before
                trial.expect("the document", session.show() == wanted, (start, end, name, session.show()))
                trial.expect("the history", len(session.history()) == (1 + (start > 0) + (end < size) if is_made else 0), session.history())
                stamps = [verdict.stamp for verdict in session.verdicts() or ()]
                trial.expect("what has changed", max(stamps) <= session.moves and (not is_made or bool(session.changed(0))), (stamps, session.moves))
    with Session([pvtag], LETTER, "letter", DRAFT) as session:
        for path in ("0.2.0", "0.9", ".", "x", ""):
            trial.expect("no text", not session.wrap_text(path, 0, 1, "person") and session.history() == [], path)


def texts(trial: Expecting, pvtag: str) -> None:
    """Texts have a character for each unit, so that places in them are those of `wrap_text`."""
    with tempfile.NamedTemporaryFile("w", suffix=".xml", encoding="utf-8") as file:
        file.write("<letter><opener>a</opener><!-- b --><body><p>c &amp;&#xe9;\U0001f600<lb/>d<![CDATA[e]]>f</p></body></letter>")
        file.flush()
        with Session([pvtag], LETTER, "letter", file.name) as session:
            found = session.texts()
            trial.expect("texts", found == [("0.0.0", "a"), ("0.2.0.0", "c &\xe9\U0001f600"), ("0.2.0.2", "d"), ("0.2.0.4", "f")], found)
            done = session.wrap_text("0.2.0.0", 4, 5, "person")
            trial.expect("one character", bool(done) and "<person>\U0001f600</person>".encode() in (session.show() or b""), session.show())


def random_line(session: Session, rest: random.Random) -> str:
    """An edit at some node of the tree: many of them are made."""
    node = rest.choice(session.tree() or [])
    owner, _, last = node.path.rpartition(".")
    size, at = len(node.text), int(last)
    if node.kind == "text":
        forms = [f"split {node.path} {rest.randint(1, max(1, size))}", f"join {node.path}", f"wrap {owner} {at} {at + 1} person", f"text {node.path} a &lt; b",
                 f"deltext {node.path}", f"addtext {owner or '.'} {at} c"]
    else:
        forms = [f"unwrap {node.path}", f"rename {node.path} {rest.choice(('date', 'place', 'p'))}", f"insert {node.path} 0 lb", f"addtext {node.path} 0 d"]
    return rest.choice([*forms, "undo", "redo"])


def trees(trial: Expecting, pvtag: str) -> None:
    """After random edits, also where the tree is first asked for after some, its paths are those of the session: a text is where `split` finds it, of as
    many units, and the document that is shown has these nodes, two texts side by side being one there."""
    for seed in range(8):
        rest = random.Random(seed)
        with Session([pvtag], LETTER, "letter", DRAFT) as session:
            if seed % 2:
                for line in ("split 0.2.0.0 3", "split 0.2.0.1 4", "wrap 0.2.0 1 2 place", "undo", "split 0.2.0.0 1", "undo"):
                    trial.expect("an edit before the tree", isinstance(session.edit(line), Made), line)
                trial.expect("the tree after cuts", [it for it, _ in session.texts() or ()][-3:] == ["0.2.0.0", "0.2.0.1", "0.2.0.2"], session.texts())
                trial.expect("what was undone stays so", isinstance(session.redo(), Made) and session.history()[-1:] == ["split 0.2.0.0 1"], session.history())
            made = sum(bool(session.edit(random_line(session, rest))) for _ in range(40))
            trial.expect("edits are made", made > 5, made)
            nodes, shown = session.tree() or [], session.show() or b""
            kinds = [(it.kind, it.name) for it in nodes]
            beside = {at for at, (one, other) in enumerate(zip(nodes, nodes[1:]), 1) if one.kind == other.kind == "text" and follows(one.path, other.path)}
            layout = [(it.kind, it.name) for it in map(Layout(shown).node, paths_of(Layout(shown))) if it]
            trial.expect("the nodes that are shown", [it for at, it in enumerate(kinds) if at not in beside] == layout, (seed, kinds, shown))
            for node in nodes:
                wrong = node.kind == "text" and (size := len(node.text)) and (session.split(node.path, size) or size > 1 and not takes_back(session, node.path, size - 1))
                trial.expect("a text of so many units at its path", not wrong, (seed, node))
                trial.expect("an element at its path", node.kind != "element" or isinstance(session.offer(node.path), list) or node.path == "0", (seed, node))


def follows(one: str, other: str) -> bool:
    """Whether a path is that of the next kid."""
    owner, _, last = one.rpartition(".")
    return other == f"{owner}.{int(last) + 1}"


def paths_of(layout: Layout) -> list[str]:
    """The paths of all nodes, from the root on."""
    found, todo = [], [layout.root]
    while todo:
        node = todo.pop()
        found.append(node.path)
        todo += node.kids[::-1]
    return found


def takes_back(session: Session, path: str, at: int) -> bool:
    """Whether a text can be cut there; it is whole again after that."""
    return bool(session.split(path, at)) and bool(session.undo())


def raises(wanted: type[BaseException], call: object) -> bool:
    try:
        call()  # type: ignore[operator]
    except wanted:
        return True
    except Exception as fault:  # pylint: disable=broad-except
        print(f"{fault!r}")
    return False


def faults(trial: Expecting, pvtag: str, folder: Path) -> None:
    """Words that are wrong raise what the docstrings say, and nothing was asked."""
    closed, wrong = folder / "closed.xml", folder / "wrong.xml"
    closed.write_text("<letter/>")
    wrong.write_text("<letter>")
    for what, fault, call in (
        ("no program", FileNotFoundError, lambda: Session([str(folder / "none")], LETTER, "letter", DRAFT)),
        ("no file", FileNotFoundError, lambda: Session([pvtag], LETTER, "letter", folder / "none.xml")),
        ("no DTD", FileNotFoundError, lambda: Session([pvtag], folder / "none.dtd", "letter", DRAFT)),
        ("a folder", IsADirectoryError, lambda: Session([pvtag], LETTER, "letter", folder)),
        ("a program by one text", TypeError, lambda: Session(pvtag, LETTER, "letter", DRAFT)),
        ("a number for a root", TypeError, lambda: Session([pvtag], LETTER, 5, DRAFT)),  # type: ignore[arg-type]
        ("a number for a file", TypeError, lambda: Session([pvtag], LETTER, "letter", 5)),  # type: ignore[arg-type]
        ("a document that is none", Ended, lambda: Session([pvtag], LETTER, "letter", wrong).show()),
    ):
        trial.expect(what, raises(fault, call))
    if os.getuid():
        closed.chmod(0)
        trial.expect("a file that may not be read", raises(PermissionError, lambda: Session([pvtag], LETTER, "letter", closed)))
    with Session([pvtag], LETTER, "letter", DRAFT) as session:
        for what, fault, call in (
            ("a text for a number", TypeError, lambda: session.wrap("0.0", "0", 1, "salute")),  # type: ignore[arg-type]
            ("a part of a number", TypeError, lambda: session.split("0.2.0.0", 1.5)),  # type: ignore[arg-type]
            ("a number for a path", TypeError, lambda: session.unwrap(0)),  # type: ignore[arg-type]
            ("nothing for a name", TypeError, lambda: session.wrap_text("0.2.0.0", 0, 1, None)),  # type: ignore[arg-type]
            ("bytes for a name", TypeError, lambda: session.rename("0.2.0", b"p")),  # type: ignore[arg-type]
            ("half a run", TypeError, lambda: session.offer("0.2.0", 1)),
            ("two lines", ValueError, lambda: session.text("0.2.0.0", "a\nquit")),
            ("half a surrogate pair", ValueError, lambda: session.wrap_text("0.2.0.0", 1, 2, "\ud800")),
            ("two lines for a part", ValueError, lambda: session.wrap_text("0.2.0.0", 1, 2, "p\nquit")),
        ):
            trial.expect(what, raises(fault, call))
        trial.expect("nothing was asked", session.history() == [] and session.moves == 0, session.history())
        trial.expect("a path that is none", session.wrap("0.0 ", 0, 1, "salute") == Refused("command"))
        trial.expect("no node", session.wrap_text("0.7", 0, 1, "p") == Refused("shape", "no-node"))
        trial.expect("no text", session.wrap_text("0.0", 0, 1, "p") == Refused("shape", "not-text"))
    trial.expect("a session that is closed", raises(Ended, session.show) and raises(Ended, session.tree))


def threads(trial: Expecting, pvtag: str) -> None:
    """Four threads share a session: each gets its own answers."""
    with Session([pvtag], LETTER, "letter", DRAFT) as session:
        shown, size, wrong = session.show(), len(TEXT), []

        def ask(number: int) -> None:
            for turn in range(12):
                if number == 0 and not isinstance(session.insert("0", 1, "p"), Refused):
                    wrong.append("a refused edit")
                if number == 1 and (session.show() or b"").replace(b"<person>", b"").replace(b"</person>", b"") != shown:
                    wrong.append("what is shown")
                if number == 2 and len(session.verdicts() or ()) not in (5, 6):
                    wrong.append("verdicts")
                if number == 3 and not (session.wrap_text("0.2.0.0", turn % size, turn % size + 1, "person") and takes_all_back(session)):
                    wrong.append("a part of a text")

        begun = [threading.Thread(target=ask, args=(number,)) for number in range(4)]
        for it in begun:
            it.start()
        for it in begun:
            it.join()
        trial.expect("four threads", wrong == [] and session.show() == shown, wrong)
    for _ in range(8):
        with Session([pvtag], LETTER, "letter", DRAFT) as session:
            ended: list[bool] = []
            asking = threading.Thread(target=lambda: ended.append(raises(Ended, lambda: ask_on(session))))
            asking.start()
            session.show()
            session.close()
            asking.join()
            trial.expect("a session that another thread closes", ended == [True], ended)


def ask_on(session: Session) -> None:
    """Edits until that raises."""
    while True:
        session.wrap_text("0.2.0.0", 1, 3, "person")
        takes_all_back(session)


def takes_all_back(session: Session) -> bool:
    while session.undo():
        pass
    return True


def installs(trial: Expecting, pvtag: str, folder: Path) -> None:
    """The packages are installed without a network into an environment of their own, are found there by a tool and by mypy, and leave nothing; the page and
    the language server are commands there."""
    python = next((it for it in (sys.executable, "/usr/bin/python3") if not subprocess.run(
        [it, "-c", "import setuptools, wheel, pip"], capture_output=True, check=False).returncode), None)
    if python is None:
        print("skipped: the library installed (no Python with pip, setuptools and wheel)")
        return
    clients = folder / "source" / "clients"
    shutil.copytree(TOP / "clients", clients, ignore=shutil.ignore_patterns("__pycache__"))
    (folder / "source" / "tools").mkdir()
    shutil.copy(TOP / "tools" / "version.py", folder / "source" / "tools")
    before = sorted(it for it in clients.rglob("*"))
    run([python, "-m", "venv", "--system-site-packages", "--without-pip", str(folder / "venv")])
    inside = str(folder / "venv" / "bin" / "python")
    done = run([inside, "-B", "-m", "pip", "install", "-q", "--no-build-isolation", "--no-index", "--no-compile", "."], cwd=clients)
    trial.expect("it is installed", done.returncode == 0, done.stderr)
    trial.expect("nothing is left", sorted(it for it in clients.rglob("*") if "__pycache__" not in it.parts) == before)
    script = ("import sys, importlib.metadata, pvtag\nfrom pvtag.program import find\nfrom pvtag.session import Session\n"
              "with Session(find(), *sys.argv[1:]) as session: print(len(session.tree()), session.need(), importlib.metadata.version('pvtag'), pvtag.__file__)")
    (folder / "bin").mkdir()
    (folder / "bin" / "pvtag").symlink_to(pvtag)
    told = run([inside, "-c", script, LETTER, "letter", DRAFT], cwd=folder, env={**os.environ, "PATH": f"{folder}/bin:{os.environ['PATH']}"})
    trial.expect("it is found there", re.fullmatch(rf"7 1 [0-9][0-9.]*(\+[0-9a-g.]+)? {re.escape(str(folder))}/venv/.*\n", told.stdout) is not None, told)
    bin_ = folder / "venv" / "bin"
    told = run([str(bin_ / "pvtag-annotate"), "--help"], cwd=folder)
    trial.expect("the page's command", told.returncode == 0 and told.stdout.startswith("usage: pvtag-annotate "), told)
    trial.expect("the page's files", run([inside, "-c", "import pvtag.annotate.server as it; print(sorted(__import__('os').listdir(it.FOLDER)))"], cwd=folder).stdout
                 == f"{sorted(it.name for it in (TOP / 'clients/annotate/page').iterdir())}\n")
    asked = '{"jsonrpc":"2.0","id":1,"method":"initialize","params":{"capabilities":{}}}'
    told = run([str(bin_ / "pvtag-lsp")], cwd=folder, input=f"Content-Length: {len(asked)}\r\n\r\n{asked}")
    trial.expect("the language server", '"capabilities"' in told.stdout and "Traceback" not in told.stderr, told)
    if shutil.which("mypy"):
        (folder / "tool.py").write_text("from pvtag.session import Session\n\n\ndef paths(session: Session) -> list[str]:\n    nodes = session.tree()\n    return [it.path for it in nodes] if isinstance(nodes, list) else []\n")
        told = run(["mypy", "--strict", f"--cache-dir={folder}/cache", f"--python-executable={inside}", "tool.py"], cwd=folder)
        trial.expect("its types are found", told.returncode == 0, told.stdout)


def run(words: list[str], **more: object) -> subprocess.CompletedProcess[str]:
    return subprocess.run(words, capture_output=True, text=True, timeout=PATIENCE, check=False, **more)  # type: ignore[call-overload, no-any-return]


DATED = ("<?xml version='1.0'?>\n<!-- 1 May 1911 --><letter><opener><salute>Anna, 3 May 1911</salute></opener>\n<body><p>On 1 May 1911 &amp; 2 May 1911.</p><lb/>"
         "<!-- 4 May 1911 --><p note='a > b &#xe9;'>\xe9 &#xe9;: 4 May 1911<person>x 5 May 1911</person> and 16 June 1904</p></body></letter>\n")
TAGGED = re.sub("(?<=On )1 May 1911|(?<=&amp; )2 May 1911|(?<=: )4 May 1911|(?<=and )16 June 1904", r"<date>\g<0></date>", DATED)


def dates(trial: Expecting, pvtag: str, folder: Path, count: int) -> None:
    """The examples tag the same dates, and say which have no room."""
    (folder / "pvtag").symlink_to(pvtag)
    # Beside the program, which is found there.
    for name in ("dates.py", "dates.pl", "date_folder.py"):
        shutil.copy(TOP / "examples" / name, folder)
    (folder / "dated.xml").write_text(DATED, encoding="utf-8")
    environment = {**os.environ, "PATH": f"{folder}:{os.environ['PATH']}", "PYTHONPATH": str(TOP / "clients"), "PYTHONDONTWRITEBYTECODE": "1"}
    for name in ("dates.py", "dates.pl"):
        words = [sys.executable if name.endswith(".py") else "perl", str(folder / name), LETTER, "letter", "dated.xml"]
        if not shutil.which(words[0]):
            print(f"skipped: {name} (no {words[0]})")
            continue
        told = run(words, cwd=folder, env=environment)
        trial.expect(f"the dates of {name}", told.stdout == TAGGED, told)
        trial.expect(f"what has no room, by {name}", told.stderr == "no room in 0.2.3.1.0: 5 May 1911\nno room in 0.0.0.0: 3 May 1911\n", told.stderr)
    texts_of, rest = folder / "letters", random.Random(1)
    texts_of.mkdir()
    for number in range(count):
        body = "".join(f"<p>Letter {number}, of {rest.randint(1, 28)} {rest.choice(('May', 'June'))} {rest.randint(1700, 1999)}.</p>" for _ in range(rest.randint(1, 9)))
        (texts_of / f"{number}.xml").write_text(f"<letter><opener><salute>Dear {number}</salute></opener><body>{body}</body></letter>")
    (texts_of / "broken.xml").write_text("<letter>")
    told = run([sys.executable, str(folder / "date_folder.py"), LETTER, "letter", "letters", "to"], cwd=folder, env=environment)
    wanted, done = sum(it.read_text().count("of ") for it in texts_of.iterdir()), list((folder / "to").iterdir())
    trial.expect("the dates of a folder", told.stdout.startswith(f"{wanted} dates tagged, 0 had no room, ") and "broken.xml: document" in told.stderr, told)
    print(told.stdout, end="")
    for file in done:
        text = file.read_text()
        trial.expect("a letter", text.count("<date>") == text.count("of ") and re.sub("</?date>", "", text) == (texts_of / file.name).read_text(), file)
    trial.expect("each letter", len(done) == count, len(done))


# Methods of a session that clients use among themselves.
WITHIN = {"lines_of_run", "was_made", "tried_together", "told_by", "follow", "track", "ask", "write", "words", "whole", "line", "lines", "body",
          "verdict_lines", "ended"}


def examples(trial: Expecting, pvtag: str, folder: Path) -> None:
    """Each name that a module has for other tools, and each method of a session, has an example, which prints what it says."""
    (folder / "pvtag").symlink_to(pvtag)
    (folder / "examples").symlink_to(TOP / "examples")
    before, called = os.getcwd(), sys.argv[0]
    os.chdir(folder)
    # The program is found beside whoever is called.
    sys.argv[0] = str(folder / "tool")
    count, finder, runner = 0, doctest.DocTestFinder(recurse=False), doctest.DocTestRunner(verbose=False)
    for file in sorted((TOP / "clients" / "pvtag").glob("*.py")):
        module = importlib.import_module(f"pvtag.{file.stem}") if file.stem not in ("__init__", "libxml") else None
        if file.stem == "attributes" and python_with_lxml() is None:
            print("skipped: the examples of attributes (no lxml, package python3-lxml)")
            continue
        items = {name: getattr(module, name) for name in getattr(module, "__all__", ())}
        items |= {f"Session.{name}": it for name, it in vars(items.get("Session", object)).items() if inspect.isfunction(it) and name[0] != "_" and name not in WITHIN}
        for name, item in items.items():
            with Session([pvtag], LETTER, "letter", DRAFT) as session:
                found = finder.find(item, f"{file.stem}.{name}", module, globs={**vars(module), "session": session})
                said = io.StringIO()
                failed = sum(runner.run(it, out=said.write, clear_globs=False).failed for it in found)
                asked = sum(len(it.examples) for it in found)
            count += asked
            trial.expect("an example", asked > 0 and failed == 0, (file.stem, name, said.getvalue()))
    trial.expect("examples", count > 100, count)
    os.chdir(before)
    sys.argv[0] = called


def main() -> int:
    trial, pvtag = Expecting(), os.path.abspath(sys.argv[1])
    wrapped(trial, pvtag)
    texts(trial, pvtag)
    trees(trial, pvtag)
    threads(trial, pvtag)
    with tempfile.TemporaryDirectory(prefix="pvtag-trial-") as folder:
        for number, part in enumerate((faults, examples, installs, lambda *its: dates(*its, int(sys.argv[2]) if sys.argv[2:] else 8))):
            (Path(folder) / str(number)).mkdir()
            part(trial, pvtag, Path(folder) / str(number))
    return trial.ended()


if __name__ == "__main__":
    sys.exit(main())
