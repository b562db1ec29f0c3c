"""Tries what clients say of a document with a list that is too wide for `pvtag` to count: the page, the language server, reports and `clients/complete` ask `pvlong`, a
stand-in for which tells a number, a range or nothing, or takes as long as it may.

Words: the program, and `pvlong`, which is then asked too. Prints each difference, and how many cases passed; ends with 1 where one failed.
"""
import contextlib
import functools
import json
import os
import subprocess
import sys
import threading

sys.dont_write_bytecode = True

from lib.annotate.fixture import ARTICLE, FOLDER, TOP, Server, need, run_cases, same  # noqa: E402
from lib.beside import MANY_PARTS, TOO_MANY, VALID, WIDE, Beside  # noqa: E402
from lib.lsp_client import CAPABILITIES, Client, edited, edits_of, finished, uri_of  # noqa: E402
from lib.waiting import PATIENCE, until  # noqa: E402

sys.path.insert(0, os.path.dirname(FOLDER))

from annotate.completions import Completions  # noqa: E402
from annotate.drawer import told_of  # noqa: E402
from annotate.editor import Editor  # noqa: E402
from annotate.script import Script  # noqa: E402
from pvtag.long import environment  # noqa: E402
from pvtag.reporting.rows import Row  # noqa: E402

# What says for how many seconds `pvlong` looks for bounds, and what is said of bounds that don't meet.
SECONDS, RANGE = "PVLONG_SECONDS", "1 to 2 elements are missing"


@contextlib.contextmanager
def asked_on(beside):
    """What the page asks of a wide document."""
    path = os.path.join(beside.folder, "doc.xml")
    with open(path, "w", encoding="utf-8") as file:
        file.write(WIDE)
    editor = Editor([beside.program], ARTICLE, "doc", Script(path))
    try:
        yield Completions(editor), editor
    finally:
        editor.close()


def page_asks(program, other=None):
    """The head's number, the preview, and what is taken over."""
    with Beside(program, other) as beside, asked_on(beside) as (completions, editor):
        same(editor.need()["no"], "wide", "the session")
        same(completions.wide.need(editor.version), {"version": editor.version, "least": 2, "most": 2}, "a number")
        list_ = editor.document.there("0").id
        told = completions.missing({"node": list_})
        same(({each["name"] for each in told["missing"]}, told["least"]), ({"head", "sec"}, True), "what is missing in the list")
        told = completions.preview()
        same((told["new"], told["least"]), (2, True), "the preview")
        completions.take({"version": editor.version})
        same((editor.session.need(), editor.shown().decode()), (0, VALID), "it is taken over")


def page_tells_ranges(program):
    """A range, and nothing where nothing is told."""
    with Beside(program) as beside, asked_on(beside) as (completions, editor):
        beside.tells("0 need 1 to 2", "11 ")
        same(completions.wide.need(editor.version), {"version": editor.version, "least": 1, "most": 2}, "a range")
        told = completions.preview()
        same((told["new"], told["least"]), (2, False), "a completion that may not be least")
        beside.tells("8 no limit", "1 no impossible 0")
        editor.move({"version": editor.version, "kind": "rename", "node": editor.document.there("0.0").id, "name": "list"})
        editor.undo({"version": editor.version})
        same(completions.wide.need(editor.version), {"version": editor.version}, "no number")
        told = completions.preview()
        same((told["no"], "tree" in told), ("wide", False), "no completion")


def moves_end_it(program):
    """A move waits for no answer, and ends what is under way."""
    with Beside(program) as beside, beside.held(), Server(beside.program, WIDE, ARTICLE, "doc") as server:
        state, answers = server.ask("state"), []
        version, node = state["version"], next(row["id"] for row in state["tree"] if row.get("name") == "p")
        for name, what in (("preview", {}), ("need-wide", {"version": version})):
            threading.Thread(target=lambda name=name, what=what: answers.append(server.ask(name, what)), daemon=True).start()
            need(until(beside.is_running), "it is asked")
        need("changes" in server.ask("move", {"version": version, "kind": "unwrap", "node": node}), "a move")
        until(lambda: len(answers) == 2)
        same(answers, [{"stale": True}] * 2, "what was asked before")
        same(server.ask("need-wide", {"version": version}), {"stale": True}, "a version that is gone")
        with open(f"{beside.other}.runs", encoding="utf-8") as file:
            same(len(file.readlines()), 1, "one at a time")


def server_tells(program, other=None):
    """The language server's number, and its action."""
    with Beside(program, other) as beside, Client(beside.program, CAPABILITIES) as client:
        text, uri = f"<!DOCTYPE doc SYSTEM 'article.dtd'>\n{WIDE}\n", uri_of("wide.xml")
        for version, (count, told, title) in enumerate((
            ("0 need 2", ": 2 elements are missing.", "Insert 2 missing elements"),
            ("0 need 1 to 2", ": 1 to 2 elements are missing.", "Insert 2 elements, of which 1 or more are missing"),
            ("8 no limit", "isn't known: a list is too wide, or there are too many.", "Insert all missing elements"),
        )[:1 if other else 3]):
            if other is None:
                beside.tells(count, "0 ")
            client.open(uri, text, version)
            (message,) = [each["message"] for each in client.diagnostics(uri, finished) if each["code"] == "missing"]
            need(message.endswith(told), message)
            action = client.ask("codeAction/resolve", client.actions(uri, (0, 0))[title])
            same(edited(text, edits_of(action["edit"])), text.replace(WIDE, VALID), "completed")


def server_ends_it(program):
    """A newer text doesn't wait for what is asked of an older one."""
    with Beside(program) as beside, beside.held(), Client(beside.program) as client:
        uri = uri_of("wide.xml")
        client.open(uri, f"<!DOCTYPE doc SYSTEM 'article.dtd'>\n{WIDE}\n")
        need(until(beside.is_running), "it is asked")
        client.open(uri, f"<!DOCTYPE doc SYSTEM 'article.dtd'>\n{VALID}\n", 2)
        same(client.diagnostics(uri), [], "a valid text")


def reports_tell(program, other=None):
    """The report's number; of a range the least, with the range beside it."""
    with Beside(program, other) as beside:
        path = os.path.join(beside.folder, "doc.xml")
        with open(path, "w", encoding="utf-8") as file:
            file.write(WIDE)
        for count, told in (("0 need 2", (2, None)), ("0 need 1 to 2", (1, RANGE)), ("8 no limit", (None, None)))[:1 if other else 3]:
            if other is None:
                beside.tells(count, "0 ")
            row, = rows_of(beside, ARTICLE, "doc", path)
            same((row["verdict"], row.get("missing"), row.get("sentence")), ("possible", *told), "a row")


def pages_tell_ranges(program):
    """A range in the page of a report, and in the list of a folder."""
    with Beside(program) as beside:
        path, page = (os.path.join(beside.folder, name) for name in ("doc.xml", "page.html"))
        with open(path, "w", encoding="utf-8") as file:
            file.write(WIDE)
        beside.tells("0 need 1 to 2", "11 ")
        row, = rows_of(beside, "--html", page, ARTICLE, "doc", path)
        with open(page, encoding="utf-8") as file:
            text = file.read()
        need("<td class=number>1 to 2<td>" in text and "elements that are missing: at least 1;" in text, "the page of a report")
        same(told_of(Row(**row))["missing"], "1 to 2", "the list of a folder")
        same(told_of(Row("a.xml", missing=3))["missing"], 3, "a number in it")


@contextlib.contextmanager
def given(seconds):
    """The environment of a user who says how long `pvlong` looks for bounds."""
    os.environ[SECONDS] = seconds
    try:
        yield
    finally:
        del os.environ[SECONDS]


def ranges_in_time(program):
    """Where `pvlong` looks for bounds as long as it may, a range comes in time: it is told how long that is, a third of the most, or what the user says."""
    with Beside(program) as beside:
        path = os.path.join(beside.folder, "doc.xml")
        with open(path, "w", encoding="utf-8") as file:
            file.write(WIDE)
        beside.tells("0 need 1 to 2", "11 ")
        with beside.slow():
            with asked_on(beside) as (completions, editor):
                same(completions.wide.need(editor.version), {"version": editor.version, "least": 1, "most": 2}, "on the page")
                same(beside.seconds(), "20", "its seconds")
            with Client(beside.program) as client:
                uri = uri_of("late.xml")
                client.open(uri, f"<!DOCTYPE doc SYSTEM 'article.dtd'>\n{WIDE}\n")
                (message,) = [each["message"] for each in client.diagnostics(uri, finished) if each["code"] == "missing"]
                need(message.endswith(f": {RANGE}."), message)
                same(beside.seconds(), "20", "its seconds")
            row, = rows_of(beside, "--most", "60", ARTICLE, "doc", path)
            same((row.get("missing"), row.get("sentence"), beside.seconds()), (1, RANGE, "20"), "in a report")
            words = [sys.executable, os.path.join(TOP, "clients", "complete"), "--program", beside.program, ARTICLE, "doc", path]
            ran = subprocess.run(words, capture_output=True, text=True, timeout=PATIENCE)
            same((ran.returncode, ran.stdout, beside.seconds()), (0, VALID, "20"), "a completion")
        for words, seconds in (((), "200"), (("--most", "2147483647"), "715827")):
            rows_of(beside, *words, ARTICLE, "doc", path)
            same(beside.seconds(), seconds, f"the seconds of a report {words}")
        same(environment(2)[SECONDS], "1", "at least one")
        with given("7"), asked_on(beside) as (completions, editor):
            need("least" in completions.wide.need(editor.version), "on the page")
            same(beside.seconds(), "7", "the user's seconds")
            rows_of(beside, ARTICLE, "doc", path)
            same(beside.seconds(), "7", "the user's seconds in a report")


def ranges_of_pvlong(program, other):
    """What `pvlong` itself answers where no time is left."""
    with Beside(program, other) as beside, given("0"):
        path = os.path.join(beside.folder, "doc.xml")
        with open(path, "w", encoding="utf-8") as file:
            file.write(WIDE)
        row, = rows_of(beside, ARTICLE, "doc", path)
        need((row.get("missing"), row.get("sentence")) in ((1, RANGE), (2, None)), f"in a report: {row}")


def rows_of(beside, *words):
    words = [sys.executable, os.path.join(TOP, "clients", "report"), "--program", beside.program, "--need", *words]
    ran = subprocess.run(words, capture_output=True, text=True, timeout=PATIENCE)
    same((ran.returncode, ran.stderr), (0, ""), "a report")
    return [json.loads(line) for line in ran.stdout.splitlines()[1:]]


def command_completes(program, other=None):
    """What `clients/complete` prints: a least completion, one that may not be least, which it says, and none."""
    with Beside(program, other) as beside:
        path = os.path.join(beside.folder, "doc.xml")
        with open(path, "w", encoding="utf-8") as file:
            file.write(WIDE)
        words = [sys.executable, os.path.join(TOP, "clients", "complete"), "--program", beside.program, ARTICLE, "doc", path]
        for answer, status, document, said in (("0 ", 0, VALID, ""), ("11 ", 0, VALID, "fewer elements may be enough"),
                                               ("8 no limit", 8, "", "too many kids"))[:1 if other else 3]:
            if other is None:
                beside.tells("0 need 2", answer)
            ran = subprocess.run(words, capture_output=True, text=True, timeout=PATIENCE)
            same((ran.returncode, ran.stdout), (status, document), f"a completion: {ran.stderr}")
            need(said in ran.stderr and bool(said) == bool(ran.stderr), f"what is said of it: {ran.stderr}")


# What `check` of `pvlong` answers, of a list that is too wide for a session, and what is said of it.
CHECKED = (
    ("<r>{}<b/></r>", "0 valid", "the document is valid"),
    ("<r>{}</r>", "0 possible 1", "1 list isn't valid yet, and inserting elements can make the document valid"),
    ("<r><b/>{}</r>", "1 impossible 0", "no insertions can make the document valid"),
)
# What a report says of them: the verdict, how many lists aren't valid, and how many elements are missing.
JUDGED = (("valid", 0, 0), ("possible", 1, None), ("impossible", None, None))
NOT_TAGGED = "this list has too many kids under this DTD; the document can be read and judged, not tagged"
NOT_REPAIRED = "; the list at 0 can't be repaired by adding elements"


def reports_judge(program, other=None):
    """The report's verdict on a document with a list that is too wide for a session; without `pvlong`'s it is refused."""
    with Beside(program, other) as beside:
        dtd, doc = (os.path.join(beside.folder, name) for name in ("many.dtd", "doc.xml"))
        with open(dtd, "w", encoding="utf-8") as file:
            file.write(MANY_PARTS)
        for (form, answer, _), judged in zip(CHECKED, JUDGED, strict=True):
            with open(doc, "w", encoding="utf-8") as file:
                file.write(form.format(TOO_MANY))
            if other is None:
                beside.tells("8 no wide 0", "8 no wide 0", answer)
            row, = rows_of(beside, dtd, "r", doc)
            same((row["verdict"], row.get("open"), row.get("missing")), judged, "a verdict")
            same((row["line"], row["column"], row["sentence"].removesuffix(NOT_REPAIRED)), (1, 1, NOT_TAGGED), "what is said of it")
            same(row["sentence"].endswith(NOT_REPAIRED), judged[0] == "impossible", "a list that can't be repaired")
        if other is None:
            for answer in ("5 ", "8 limit width 0"):
                beside.tells("8 no wide 0", "8 no wide 0", answer)
                row, = rows_of(beside, dtd, "r", doc)
                same((row["verdict"], row["sentence"]), ("refused", NOT_TAGGED.partition(";")[0]), "no verdict")


def sessions_refuse(program, other=None):
    """What the language server and the page say of a document with a list that is too wide for a session."""
    with Beside(program, other) as beside:
        dtd, doc = (os.path.join(beside.folder, name) for name in ("many.dtd", "doc.xml"))
        with open(dtd, "w", encoding="utf-8") as file:
            file.write(MANY_PARTS)
        for form, answer, told in CHECKED:
            text = form.format(TOO_MANY)
            if other is None:
                beside.tells("8 no wide 0", "8 no wide 0", answer)
            with open(doc, "w", encoding="utf-8") as file:
                file.write(text)
            with Client(beside.program) as client:
                uri = "file://" + doc
                client.open(uri, f"<!DOCTYPE r SYSTEM 'many.dtd'>\n{text}")
                (message,) = [each["message"] for each in client.diagnostics(uri, bool)]
                same(message, f"this list has too many kids under this DTD; {told}", "a diagnostic")
            with contextlib.suppress(FileNotFoundError):
                os.unlink(doc + ".pvtag")
            words = [os.path.join(TOP, "clients", "annotate", "annotate"), "--program", beside.program, dtd, "r", doc]
            ran = subprocess.run(words, capture_output=True, text=True, timeout=PATIENCE)
            need(ran.returncode == 1 and ran.stderr.endswith(f"this list has too many kids under this DTD; {told}\n"), f"the page isn't opened: {ran}")


CASES = [page_asks, page_tells_ranges, moves_end_it, server_tells, server_ends_it, reports_tell, pages_tell_ranges, ranges_in_time, command_completes,
         sessions_refuse, reports_judge]
OF_BOTH = [page_asks, server_tells, reports_tell, ranges_of_pvlong, command_completes, sessions_refuse, reports_judge]


def main():
    program = os.path.abspath(sys.argv[1])
    os.environ.pop(SECONDS, None)
    cases = [functools.update_wrapper(functools.partial(case, program), case) for case in CASES]
    for other in map(os.path.abspath, sys.argv[2:3]):
        cases += [functools.update_wrapper(functools.partial(case, program, other), case) for case in OF_BOTH]
    return run_cases("what clients say of wide lists", cases)


if __name__ == "__main__":
    sys.exit(main())
