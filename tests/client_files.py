"""Tries what clients say of files that the program refuses, and the commands `why`, `complete` and `ranges` on files.

Words: PROGRAM ROUNDS SEED. Whatever bytes of random files are changed, what is refused is told with the file's name
and a place in it; a row of known faults is told in known words, and each line of packs, denials and ranges by its
place. Commands name the file that they can't use. A document goes through `ranges` and `standoff` and comes back.
Prints each difference, and how many cases passed; ends with 1 where one failed.
"""
import functools
import os
import random
import re
import shutil
import signal
import subprocess
import sys
import tempfile
import time

sys.dont_write_bytecode = True

from lib.annotate.fixture import EXAMPLES, need, run_cases, same  # noqa: E402
from lib.waiting import PATIENCE, runs_still, until  # noqa: E402
from lib.random_files import ANY, CLIENTS, NAMES, document, dtd, text, write  # noqa: E402

from pvtag.attributes import python_with_lxml  # noqa: E402
from pvtag.faults import fault_of  # noqa: E402
from pvtag.places import Source  # noqa: E402
from pvtag.program import file_of, run  # noqa: E402
from pvtag.session import Session  # noqa: E402


# ---- faults ----


def tells_faults(program, rounds):
    """Whatever bytes are changed, what is refused is told with the file's name, a sentence, and a place in the file."""
    with tempfile.TemporaryDirectory() as folder:
        flat, path = os.path.join(folder, "a.dtd"), os.path.join(folder, "a.xml")
        refused = 0
        for _ in range(rounds):
            data, root = document()
            declared = ANY.encode() if random.random() < 0.7 else dtd(True)
            for _ in range(random.randint(0, 2)):
                data, declared = (hurt(each) if random.random() < 0.5 else each for each in (data, declared))
            write(flat, declared)
            write(path, data)
            ran = run([program], "valid", flat, root, path)
            if ran.status < 2:
                continue
            refused += 1
            files = {"dtd": Source("a.dtd", declared), "document": Source("a.xml", data)}
            fault = fault_of(ran.status, ran.line, files)
            name, size = ("a.dtd", len(declared)) if ran.status == 6 else ("a.xml", len(data))
            same(fault.file, name, f"the file of {ran.line}")
            need(
                fault.span is None or 0 <= fault.span.start <= fault.span.end <= size,
                f"the span {fault.span} of {ran.line}",
            )
            need(
                fault.span is not None or "dtd param" in ran.line or declared != ANY.encode(),
                f"a place for {ran.line} in {data!r}",
            )
            need(str(fault).startswith(name) and len(fault.sentence) > 10, f"a sentence: {fault}")
        need(refused > rounds // 4, f"too few files were refused: {refused}")


def hurt(data):
    at = random.randint(0, len(data))
    return (
        data[:at]
        + random.choice([b"<", b">", b"&", b"&x;", b"\xff", b"\0", b"</a>", b"]]>", b"%x;", b"<!", b"'", b""])
        + data[at + random.randint(0, 3) :]
    )


KNOWN = [
    ("<doc><p>a</doc>", "1:10: `</doc>` stands where `p` (line 1) is still open"),
    ("<doc>\n<p>", "2:4: the file ends before `p` (line 2) has ended"),
    ("<doc/></doc>", "1:7: `</doc>` closes nothing"),
    ("<doc>a & b</doc>", "1:8: `&` begins no reference"),
    ("<doc>é ]]> b</doc>", "1:8: `]]>` stands in a text"),
    ("<doc>&eacute;</doc>", "1:6: `&eacute;` refers to an entity; `lt`, `gt`, `amp`, `apos` and `quot` alone are read"),
    ("<doc/>late", "1:7: text stands outside of the root"),
    ("<doc/><doc/>", "1:7: a second element stands after the root"),
    ("<doc><p a=b/></doc>", "1:6: a tag is `<`, a name, attributes with values in quotes, and `>` or `/>`"),
    ("<doc a='&'/>", "1:9: `&` begins no reference"),
    ("<!DOCTYPE doc [<!ELEMENT doc ANY>]><doc/>", "1:1: declarations in the document's type declaration aren't read"),
    ("", "1:1: there is no root element"),
]


KNOWN_DTDS = [
    ("<!ELEMENT a EMPTY>\n<!ELEMENT a ANY>", "2:1: `a` is declared a second time"),
    ("<!--c-->\n <!ELEMENT a (#PCDATA|b|b)*>", "2:2: a mixed model names an element type twice"),
    ("<!ELEMENT a (b,>", "1:1: this element declaration isn't of its form"),
    (
        "<!ELEMENT a EMPTY>\né",
        "2:1: no declaration, comment or instruction of a DTD stands here, or one that isn't of its form",
    ),
    ("<!ELEMENT a (%b;)>", "1:14: a parameter entity is referred to that isn't declared before"),
    (
        "<!ENTITY % x '(b)'>\n<!ELEMENT a %x;>\n<!ELEMENT b %y;>",
        "3:13: a parameter entity is referred to that isn't declared before",
    ),
    ("<!ENTITY % a '&#37;a;'>\n%a;", "2:1: a parameter entity refers to itself"),
    ("<!ENTITY % x 'y'>\n%x;", "2:1: a parameter entity's text can't stand where it is referred to"),
    (" <![INCLUDE[]]>", "1:2: a conditional section isn't read; tools/flatten makes a plain DTD of one in modules"),
    (
        "<!ENTITY % m SYSTEM 'm'>",
        "1:1: a parameter entity in another file isn't read; tools/flatten makes a plain DTD of one in modules",
    ),
    ("<!ELEMENT a ANY>\n%", "2:1: a parameter entity or a conditional section stands where none is read"),
    ("<!ENTITY % d '<!ELEMENT a ANY> <!ELEMENT a ANY>'>\n%d;", "2:1: an element type is declared a second time"),
    (
        "<!ELEMENT a " + 65 * "(" + "b" + 65 * ")" + ">",
        "1:1: a limit is passed: of nesting, names, their length or the parts of content models",
    ),
]


def tells_known_faults(program):
    for made, sentence in KNOWN_DTDS:
        with file_of(made.encode(), ".dtd") as flat:
            ran = run([program], "dtd", flat)
        same(
            str(fault_of(ran.status, ran.line, {"dtd": Source("f", made.encode())})),
            f"f:{sentence}",
            f"what is told of {made}: {ran.line}",
        )
    deep = b"<doc>\n" * 513
    with file_of(b"<!ELEMENT doc ANY>", ".dtd") as flat, file_of(deep) as path:
        ran = run([program], "valid", flat, "doc", path)
    same(fault_of(ran.status, ran.line, {"document": Source("f", deep)}).place, (513, 1), f"the place of {ran.line}")
    with file_of(b"<!ELEMENT doc ANY><!ELEMENT p ANY>", ".dtd") as flat:
        for made, sentence in KNOWN:
            with file_of(made.encode()) as path:
                ran = run([program], "valid", flat, "doc", path)
            same(
                str(fault_of(ran.status, ran.line, {"document": Source("f", made.encode())})),
                f"f:{sentence}",
                f"what is told of {made}",
            )


def tells_lines(program):
    """Whatever line of a pack, a denial or ranges is no such line, its place is told."""
    letter, draft, swapped = (
        os.path.join(EXAMPLES, name) for name in ("letter.dtd", "letter-draft.xml", "letter-swapped.xml")
    )
    words = os.path.join(EXAMPLES, "letter-text.txt")
    pack, table = (
        run([program], "complete", letter, "letter", draft).output,
        run([program], "why", letter, "letter", swapped).output,
    )
    with open(os.path.join(EXAMPLES, "letter-ranges.txt"), "rb") as file:
        ranges = file.read()
    for word, data, *command in (
        ("pack", pack, "verify", letter, "letter", draft),
        ("table", table, "deny", letter, "letter", swapped),
        ("ranges", ranges, "standoff", letter, "letter", words),
    ):
        body = data.find(b"<letter>"), data.find(b"</letter>")
        at = 0
        for line in data.splitlines(keepends=True):
            if word != "pack" or not body[0] <= at <= body[1] + 20:
                broken = data[:at] + b"?" + data[at:]
                with file_of(broken) as path:
                    ran = run([program], *command, path)
                need(ran.status == 9 and ran.line.startswith(f"{word} line "), f"a line that is none: {ran}")
                fault = fault_of(ran.status, ran.line, {word: Source("f", broken)})
                same(fault.span.start, at, f"the place of {ran.line} in {broken!r}")
            at += len(line)
    with file_of(b"0 1 0 a\n5 5 0 b\n") as path:
        ran = run([program], "standoff", letter, "letter", words, path)
        same(
            str(fault_of(ran.status, ran.line, {"ranges": Source("f", b"0 1 0 a\n5 5 0 b\n")})),
            "f:2:1: the range is empty, or ends after the text",
            "a range",
        )


# Files in other encodings than UTF-8: their text, the encoding, and words of what is said.
ENCODED = [
    ("<doc>é</doc>", "utf-16", "is in UTF-16"),
    ("<doc>é</doc>", "utf-16-le", "is in UTF-16"),
    ("<doc>é</doc>", "utf-16-be", "is in UTF-16"),
    ("<doc>é</doc>", "utf-32", "is in UTF-32"),
    ("<doc>é</doc>", "utf-32-be", "is in UTF-32"),
    ("<?xml version='1.0' encoding='UTF-16'?><doc>é</doc>", "utf-16", "is in UTF-16"),
    ("<?xml version='1.0' encoding='UTF-16LE'?><doc>é</doc>", "utf-16-le", "is in UTF-16"),
    ("<?xml version='1.0' encoding='utf-16'?><doc>é</doc>", "utf-8", "names UTF-16"),
    ("<?xml version='1.0' encoding='ISO-8859-1'?><doc>é</doc>", "latin-1", "is in ISO-8859-1"),
    ("<?xml version='1.0' encoding='windows-1252'?><doc>é “</doc>", "cp1252", "is in WINDOWS-1252"),
    ("<?xml version='1.0' encoding='UTF-8'?><doc>é</doc>", "latin-1", "looks like Latin-1"),
    ("<doc>\na é</doc>", "latin-1", "looks like Latin-1"),
    ("<doc><!-- é --></doc>", "latin-1", "looks like Latin-1"),
    ("<doc><?p é?></doc>", "latin-1", "looks like Latin-1"),
    ("<doc><![CDATA[é]]></doc>", "latin-1", "looks like Latin-1"),
    ("<doc><p a='é'/></doc>", "latin-1", "looks like Latin-1"),
    ("<doc><p é=''/></doc>", "latin-1", "looks like Latin-1"),
    ("<doc>“é”</doc>", "cp1252", "looks like Windows-1252"),
]
ENCODED_DTDS = [
    ("<!-- é --><!ELEMENT doc ANY>", "latin-1", "looks like Latin-1"),
    ("<!ELEMENT doc ANY><!ELEMENT é ANY>", "cp1252", "looks like Latin-1"),
    ("<!ELEMENT doc ANY><!ATTLIST doc é CDATA '“'>", "cp1252", "looks like Windows-1252"),
    ("<!ELEMENT doc ANY><!-- é -->", "utf-16", "is in UTF-16"),
    ("<?xml version='1.0' encoding='ISO-8859-1'?><!-- é --><!ELEMENT doc ANY>", "latin-1", "is in ISO-8859-1"),
]


def tells_encodings(program):
    """A file in another encoding is told as what it is, at its first byte that isn't UTF-8, with the line that converts it: the
    converted file is read, and has the same text."""
    with file_of(b"<!ELEMENT doc ANY><!ELEMENT p ANY>", ".dtd") as flat:
        for made, encoding, words in ENCODED:
            converted = convert(made, encoding, words, "document", lambda path: run([program], "valid", flat, "doc", path))
            need(converted is None or "é" in converted and "<doc" in converted, f"{made} in {encoding}, converted: {converted}")
    for made, encoding, words in ENCODED_DTDS:
        convert(made, encoding, words, "dtd", lambda path: run([program], "dtd", path))
    mixed = "<doc>é <!-- é ".encode() + b"\xe9 --></doc>"
    with file_of(b"<!ELEMENT doc ANY>", ".dtd") as flat, file_of(mixed) as path:
        ran = run([program], "valid", flat, "doc", path)
    same(str(fault_of(ran.status, ran.line, {"document": Source("f", mixed)})), "f:1:15: this is no character of XML, or isn't UTF-8", "a byte in UTF-8")


def convert(made, encoding, words, word, judged):
    """What the line makes of a file that the program refuses, once it is read."""
    data = made.encode(encoding)
    with file_of(data) as path:
        ran = judged(path)
        fault = fault_of(ran.status, ran.line, {word: Source("f", data)})
        need(words in fault.sentence, f"{made} in {encoding}: {fault}")
        byte = data[fault.span.start] if encoding in ("latin-1", "cp1252") and "looks" in words else 0xFF
        need(fault.span.start == 0 or byte >= 0x80, f"the place in {made}: {fault}")
        line = re.search("`((?:iconv|xmllint|sed|tools/flatten)[^`]*) FILE`", fault.sentence)
        need(line, f"the line for {made} in {encoding}: {fault}")
        tool = line[1].split()[0]
        if not shutil.which(tool) and (tool != "tools/flatten" or python_with_lxml() is None):
            print(f"skipped: {line[1]} (no {tool})")
            return None
        done = subprocess.run(f"{line[1]} {path}", shell=True, capture_output=True, cwd=os.path.dirname(EXAMPLES))
    with file_of(done.stdout) as path:
        again = judged(path)
    need(again.status in (0, 1), f"{line[1]} of {made} in {encoding}: {done}, {again}")
    return done.stdout.decode()


# ---- commands ----


def command(name, *words):
    ran = subprocess.run([sys.executable, os.path.join(CLIENTS, name), *words], capture_output=True)
    return ran.returncode, ran.stdout, ran.stderr.decode()


def refuses_bad_files(program):
    """Each command names the file that it can't use."""
    letter, draft = os.path.join(EXAMPLES, "letter.dtd"), os.path.join(EXAMPLES, "letter-draft.xml")
    with tempfile.TemporaryDirectory() as folder:
        odd = os.path.join(folder, "none\n\udcff.xml")
        bad = os.path.join(folder, "bad.xml")
        write(bad, b"<letter>\n<a></b>")
        for name in ("why", "complete"):
            for dtd_path, doc, status, word in (
                (letter, odd, 3, "none"),
                (letter, folder, 3, os.path.basename(folder)),
                (odd, draft, 3, "none"),
                (letter, bad, 7, "bad.xml:2:4: "),
                (bad, draft, 6, "bad.xml:1:1: "),
                (letter, os.path.join(folder, "none\x1b[31m\u202e"), 3, "none\\u001b[31m\\u202e: "),
            ):
                got, out, said = command(name, dtd_path, "letter", doc, "--program", program)
                same((got, out), (status, b""), f"{name} {doc!r}: {said}")
                need(word in said and "Traceback" not in said, f"{name} names {word}: {said}")
            got, out, said = command(name, letter, "no name", draft, "--program", program)
            same((got, out), (2, b""), f"{name} with a ROOT that is no name: {said}")
            got, out, said = command(name, letter, "letter", draft, "--program", os.path.join(folder, "no-program"))
            need(got == 3 and "no-program" in said and "Traceback" not in said, f"{name} without a program: {said}")
        got, out, said = command("why", letter, "letter", draft, "--program", "/bin/true")
        same((got, out), (3, b""), f"a program that gives no verdict: {said}")
        got, out, said = command("why", letter, "letter", draft, "--all", "--program", program)
        same((got, out), (1, b"possible\n"), "why --all of a draft")
        for doc, status in ((odd, 3), (bad, 7)):
            got, out, said = command("ranges", doc, "--program", program)
            need(
                got == status and not out and "Traceback" not in said and os.path.basename(doc)[:3] in said,
                f"ranges {doc!r}: {said}",
            )


def takes_all_names(program):
    """Files whose names aren't UTF-8."""
    with tempfile.TemporaryDirectory() as folder:
        dtd_path, swapped, draft = (os.path.join(folder, f"\udcff.{name}") for name in ("dtd", "swapped", "draft"))
        for path, example in ((dtd_path, "letter.dtd"), (swapped, "letter-swapped.xml"), (draft, "letter-draft.xml")):
            with open(os.path.join(EXAMPLES, example), "rb") as file:
                write(path, file.read())
        got, out, said = command("why", dtd_path, "letter", swapped, "--program", program)
        need(got == 0 and b".swapped:3:1: `closer`" in out and not said, f"why: {got} {out} {said}")
        got, out, said = command("complete", dtd_path, "letter", draft, "--program", program)
        need(got == 0 and b"<salute>" in out and not said, f"complete: {got} {out} {said}")
        got, out, said = command("ranges", draft, "--program", program)
        need(got == 0 and b" 0 body\n" in out and not said, f"ranges: {got} {out} {said}")
        with Session([program], dtd_path, "letter", draft) as session:
            same(session.need(), 1, "a session of the library")
        words = [sys.executable, os.path.join(CLIENTS, "annotate", "annotate"), dtd_path, "letter", draft, "--program", program]
        with subprocess.Popen(words, stdout=subprocess.PIPE, stderr=subprocess.PIPE) as server:
            opens = server.stdout.readline()
            server.terminate()
            said = server.stderr.read()
        need(b" http://127.0.0.1:" in opens and not said, f"annotate: {opens} {said}")


def reads_and_writes_pipes(program):
    """A pipe is read once; an output that fails is told by the status."""
    letter, swapped = os.path.join(EXAMPLES, "letter.dtd"), os.path.join(EXAMPLES, "letter-swapped.xml")
    words = [sys.executable, os.path.join(CLIENTS, "why"), letter, "letter", "/dev/stdin", "--program", program]
    with open(swapped, "rb") as file:
        ran = subprocess.run(words, input=file.read(), capture_output=True)
    same((ran.returncode, ran.stdout[:20]), (0, b"/dev/stdin:3:1: `clo"), f"why by a pipe: {ran.stderr}")
    for name, doc in (("why", swapped), ("complete", os.path.join(EXAMPLES, "letter-draft.xml"))):
        words = [sys.executable, os.path.join(CLIENTS, name), letter, "letter", doc, "--program", program]
        with open("/dev/full", "wb") as full:
            ran = subprocess.run(words, stdout=full, stderr=subprocess.PIPE)
        same((ran.returncode, b"Traceback" in ran.stderr), (4, False), f"{name} on a full device: {ran.stderr}")
        reader, writer = os.pipe()
        os.close(reader)
        ran = subprocess.run(words, stdout=writer, stderr=subprocess.PIPE)
        os.close(writer)
        same((ran.returncode, ran.stderr), (4, b""), f"{name} on a closed pipe")


def commands_on(program, folder):
    """A command line of each command on files in a folder that it can use, by its name."""
    ranges, text = os.path.join(folder, "ranges"), os.path.join(folder, "text")
    write(ranges, b"0 5 0 date\n")
    write(text, b"3 May")
    letter, draft = os.path.join(EXAMPLES, "letter.dtd"), os.path.join(EXAMPLES, "letter-draft.xml")
    files = {"why": (letter, "letter", draft), "complete": (letter, "letter", draft), "ranges": (draft,),
             "standoff": (letter, "p", text, ranges), "mark": (letter, "letter", draft, ranges), "report": (letter, "letter", draft)}
    return {name: [sys.executable, "-B", os.path.join(CLIENTS, name), *words, "--program", program] for name, words in files.items()}


def says_what_is_closed(program):
    """Without a standard output a command says so; without a standard error, or a standard input, it answers as with them."""
    with tempfile.TemporaryDirectory() as folder:
        for name, words in commands_on(program, folder).items():
            def ran(closed, *more):
                return subprocess.run(["sh", "-c", f'exec "$@" {closed}', "sh", *words, *more], capture_output=True, stdin=subprocess.DEVNULL)

            whole = ran("")
            status, sentence = (3 if name == "report" else 4), f"{name}: the standard output is closed\n".encode()
            told = ran("1>&-")
            need(told.returncode == status and told.stderr.endswith(sentence) and told.stderr.count(b"closed") == 1 and b"Traceback" not in told.stderr, f"{name}: {told}")
            same(ran("1>&- 2>&-").returncode, status, f"{name} without outputs")
            for closed in ("2>&-", "0<&-"):
                told = ran(closed)
                same((told.returncode, without_times(told.stdout)), (whole.returncode, without_times(whole.stdout)), f"{name} {closed}: {told}")
            to = os.path.join(folder, "none", "file")
            if name in ("standoff", "mark"):
                told = ran("", "--output", to)
                same((told.returncode, told.stderr.splitlines()[-1:]), (4, [f"{name}: {to}: No such file or directory".encode()]), f"{name} into no folder")


def without_times(told):
    return re.sub(rb'"seconds": [0-9.e-]+', b"", told)


HANGING = """#!/bin/sh
case $1 in
dtd) exec "$PROGRAM" "$@" ;;
esac
echo $$ >"$NOTE.new"
mv "$NOTE.new" "$NOTE"
exec sleep 600
"""


def leaves_nothing(program):
    """A command that is ended while the program works ends that too, and leaves no file of its own."""
    with tempfile.TemporaryDirectory() as folder:
        hanging, note, own = (os.path.join(folder, name) for name in ("hanging", "note", "own"))
        write(hanging, HANGING.encode())
        os.chmod(hanging, 0o755)
        os.mkdir(own)
        environment = {**os.environ, "PROGRAM": program, "NOTE": note, "TMPDIR": own}
        for number in (signal.SIGINT, signal.SIGTERM, signal.SIGHUP):
            for name, words in commands_on(hanging, folder).items():
                begun = subprocess.Popen(words, env=environment, stdout=subprocess.PIPE, stderr=subprocess.PIPE, start_new_session=True)
                until(lambda: os.path.exists(note) or begun.poll() is not None)
                with open(note, encoding="ascii") as file:
                    child = int(file.read())
                os.unlink(note)
                begun.send_signal(number)
                told = begun.communicate(timeout=PATIENCE)
                status = 130 if name == "report" else 128 + number
                same((begun.returncode, told[1]), (status, b""), f"{name} ended by {number}")
                need(until(lambda: not runs_still(child)) and os.listdir(own) == [], f"{name} ended by {number} leaves {os.listdir(own)}")


def is_quiet_while_it_starts(program):
    """Ctrl-C ends a command without a word of its own, whenever it comes."""
    with tempfile.TemporaryDirectory() as folder:
        for number, words in enumerate(commands_on(program, folder).values()):
            for delay in (0.04 + 0.01 * number, 0.12, 0.25):
                begun = subprocess.Popen(words, stdout=subprocess.DEVNULL, stderr=subprocess.PIPE, start_new_session=True)
                time.sleep(delay)
                begun.send_signal(signal.SIGINT)
                said = begun.communicate()[1].decode()
                # Until the first line that is ours is run Python itself may end so, or say so.
                is_early = "KeyboardInterrupt" in said and ("clients/" not in said or "line 0, in <module>" in said or "/pvtag/start.py" in said or "from pvtag" in said.split("clients/")[-1][:200])
                need(is_early or begun.returncode in (0, 1, 130, -signal.SIGINT) and "Traceback" not in said, f"{words[2]}: {begun.returncode} {said}")


def completes(program):
    letter, draft = os.path.join(EXAMPLES, "letter.dtd"), os.path.join(EXAMPLES, "letter-draft.xml")
    got, out, said = command("complete", letter, "letter", draft, "--program", program)
    same((got, said, b"<salute>" in out), (0, "", True), "a completion")
    with file_of(out) as path:
        same(run([program], "valid", letter, "letter", path).line, "valid", "the completed letter")
    got, out, said = command(
        "complete", letter, "letter", os.path.join(EXAMPLES, "letter-swapped.xml"), "--program", program
    )
    same((got, out), (1, b""), "no completion")
    need("letter-swapped.xml:3:1: `closer` (line 2)" in said and "`body`" in said, f"its reason: {said}")


def goes_and_comes_back(program, rounds):
    """What `standoff` makes is taken apart into the same text and ranges, and is made again."""
    letter = os.path.join(EXAMPLES, "letter.dtd")
    with tempfile.TemporaryDirectory() as folder:
        text_path, ranges_path, doc = (os.path.join(folder, name) for name in ("a.txt", "a.ranges", "a.xml"))
        for _ in range(rounds):
            write(text_path, (random.choice(["", "\ufeff"]) + text()).encode())
            write(ranges_path, "".join(sorted(nested(0, 8, 4))).encode())
            ran = run([program], "standoff", letter, "letter", text_path, ranges_path)
            if ran.status > 1:
                continue
            made = ran.output.split(b"\n", 2)[2][:-1]
            write(doc, made)
            got = command("ranges", doc, "--program", program), command("ranges", "--text", doc, "--program", program)
            same([each[0] for each in got], [0, 0], f"statuses: {got}")
            write(ranges_path, got[0][1])
            write(text_path, got[1][1])
            again = run([program], "standoff", letter, "letter", text_path, ranges_path)
            same(again.output, ran.output, f"the way there and back of {made!r}")
        write(doc, "\ufeff<a><!--c--><b x='1'>té<![CDATA[<]]></b><c/></a>".encode())
        got, out, said = command("ranges", doc, "--program", program)
        same((got, out), (1, b"0 3 0 b\n"), "what is left out of ranges")
        for word in ("1 comments", "1 CDATA sections", "1 elements without text", "1 elements' attributes"):
            need(word in said, f"{word}: {said}")
        same(command("ranges", "--text", doc, "--program", program)[1].decode(), "té&lt;", "its text")


def nested(start, end, depth):
    """Lines of ranges, one inside another."""
    lines, at = set(), start
    while at < end:
        to = random.randint(at + 1, end)
        if random.random() < 0.7:
            lines |= {f"{at} {to} {level} {random.choice(NAMES)}\n" for level in range(random.choice([1, 1, 2]))}
            if depth:
                lines |= {line for line in nested(at, to, depth - 1) if not line.startswith(f"{at} {to} ")}
        at = to
    return lines


def main():
    program, rounds, seed = os.path.abspath(sys.argv[1]), int(sys.argv[2]), int(sys.argv[3])
    random.seed(seed)
    cases = [
        functools.partial(tells_faults, program, 4 * rounds),
        functools.partial(tells_known_faults, program),
        functools.partial(tells_lines, program),
        functools.partial(tells_encodings, program),
        functools.partial(refuses_bad_files, program),
        functools.partial(takes_all_names, program),
        functools.partial(reads_and_writes_pipes, program),
        functools.partial(says_what_is_closed, program),
        functools.partial(leaves_nothing, program),
        functools.partial(is_quiet_while_it_starts, program),
        functools.partial(completes, program),
        functools.partial(goes_and_comes_back, program, max(10, rounds // 5)),
    ]
    for case in cases:
        case.__name__ = case.func.__name__
    sys.exit(run_cases("the files of clients", cases))


if __name__ == "__main__":
    main()
