"""Attacks the program as hostile files, a hostile input and a failing machine would.

Words: PROGRAM [SECONDS]. After so many seconds, 200 where none are given, what is left isn't tried, which is said. `dtd`,
`valid`, `check` and `session` are run on DTDs, documents and scripts made to cost much, at the limits and past them, and on files that change;
each command on files that are no files, are endless, or may not be read; with little memory, stack and few files; and with an output that is
full, closed, slow or refuses. What each run must answer is told by `docs/COMMANDS.md` and `docs/FORMATS.md`. A run must take less than a minute
of processor time, write nothing as an error, and take no more memory than `docs/COMMANDS.md` tells under "Time and memory". Prints each
difference, the most memory that each command took, and how many cases passed; ends with 1 where one failed.
"""
import os
import resource
import shutil
import signal
import socket
import subprocess
import sys
import tempfile
import threading
import time

sys.dont_write_bytecode = True

from lib.hostile_files import DOC_MOST, KB, MB, NONE, hostile_documents, hostile_dtds, hostile_scripts, largest_document, listing, long_name
from lib.hostile_runs import ANSWERS, DENIAL, GUIDE, LINES, MEMORY, PACK, RANGES, SWAPPED, TEXT, Trial, closed_late, follows, least, read_once, read_slowly, runs_of
from lib.waiting import PATIENCE

NOBODY = 65534


def try_dtds(trial):
    trial.write("a.xml", b"<a/>")
    trial.write("script", b"show\n")
    for name, pieces, status, said in hostile_dtds():
        trial.write("hostile.dtd", *pieces)
        trial.expect(name, ["dtd", "hostile.dtd"], (status, said))
        for command in ("valid", "check", "session") if status else ():
            expect_unread(trial, name, [command, "hostile.dtd", "a", "a.xml"], (status, said))


def expect_unread(trial, name, words, answer):
    """Expects this answer, and that none of the input was read."""
    with open(trial.path("script"), "rb") as script:
        trial.expect(name, words, answer, stdin=script)
        trial.tell(f"{name}, {words[0]}", None if script.seek(0, os.SEEK_CUR) == 0 else "the input was read")


def available():
    """The machine's free memory, in MB."""
    try:
        with open("/proc/meminfo", encoding="ascii") as file:
            return next(int(line.split()[1]) for line in file if line.startswith("MemAvailable")) // KB
    except (OSError, StopIteration):
        return 0


def try_documents(trial):
    documents = list(hostile_documents())
    if available() > 2 * MEMORY["check"]:
        documents.append(("elements", largest_document(), 0, None))
    else:
        print("skipped: a document of 16,777,214 elements (too little memory)")
    for name, pieces, status, said in documents:
        if trial.is_late(name):
            break
        trial.write("hostile.xml", *pieces)
        for command in "valid", "check", "session":
            words = [command, "any.dtd", "a", "hostile.xml"]
            if said and command == "session" and said.startswith(b"invalid"):
                trial.expect(name, words, (0, said.replace(b"invalid", b"no impossible")), script=[b"need\n"])
            elif said:
                expect_unread(trial, name, words, (status, said if command == "valid" else said.replace(b"invalid", b"impossible")))
            else:
                trial.expect(name, words, (0, b"need 0\nhistory 0\n" if command == "session" else b"valid\n"), script=[b"need\nhistory\n"])
    if os.path.exists(trial.path("hostile.xml")):
        os.remove(trial.path("hostile.xml"))


def try_scripts(trial):
    trial.write("hello.xml", b"<a>Hello</a>")
    for name, pieces, status, said in hostile_scripts():
        trial.expect(name, ["session", "any.dtd", "a", "hello.xml"], (status, said), script=pieces)
    deep, kids = 511, 5000
    trial.write("deep.xml", (b"<a>", deep), (b"<a/>", kids), (b"</a>", deep))
    paths = [b".", *(b".".join([b"0"] * k) for k in range(1, deep + 1))]
    paths += [b"%s.%d" % (paths[-1], k) for k in range(kids)]
    rows = b"verdicts %d\n" % len(paths) + b"".join(b"%s valid 0\n" % path for path in paths)
    trial.expect("5,000 lists 512 deep", ["session", "any.dtd", "a", "deep.xml"], (0, rows), script=[b"verdicts\n"])
    trial.write("heavy.dtd", *(b"<!ELEMENT t%d (t%d,t%d)>" % (k, k + 1, k + 1) for k in range(20)), b"<!ELEMENT t20 EMPTY>")
    trial.write("heavy.xml", b"<t2/>")
    tree = b"<t20></t20>"
    for k in range(19, 2, -1):
        tree = b"<t%d>%s</t%d>" % (k, tree * 2, k)
    tree = b"<t2>%s</t2>" % (tree * 2)
    answer = (0, b"completed 524286 %d\n%s\n" % (len(tree), tree))
    trial.expect("524,286 elements", ["session", "heavy.dtd", "t2", "heavy.xml"], answer, script=[b"complete\n"])


def write_small_files(trial):
    trial.write("guide.dtd", GUIDE)
    trial.write("draft.xml", b"<doc>Hello</doc>")
    trial.write("draft.pack", PACK)
    trial.write("swapped.xml", SWAPPED)
    trial.write("swapped.denial", DENIAL)
    trial.write("hello.txt", TEXT)
    trial.write("ranges.txt", RANGES)
    names = [long_name(k) for k in range(4096)]
    trial.write("names.dtd", *(b"<!ELEMENT %s EMPTY>" % name for name in names))
    trial.listed = listing(names)


# Edits of a text in 512 elements, and their replies where each of them has memory or not, with one text for `no memory` and `no history`.
DEEP_EDITS = ["session", "any.dtd", "a", "deepest.xml"], b"deltext %s\nundo\nredo\n" % b".".join([b"0"] * 513)
DEEP_REPLIES = [b"ok 1 0 0\n" * made + b"no history\n" * (3 - made) for made in range(4)]


def allows(*answers):
    """A test for one of these answers, or status 5, or 10 where the words don't fit, and nothing written."""
    return lambda status, said: (status, said) in answers or status in (5, 10) and said == NONE


def runs_with_little_memory(trial):
    """Words, a script and a test of the answer."""
    text = b"x" * (512 * KB)
    trial.write("long.xml", b"<doc>%s</doc>" % text)
    trial.write("deep.dtd", b"<!ELEMENT a (a?)>")
    trial.write("deep.xml", (b"<a>", 512), (b"</a>", 512))
    trial.write("deepest.xml", (b"<a>", 512), b"x", (b"</a>", 512))
    for words, script, status, said in runs_of():
        yield words, script, allows((status, said))
    for command, said in ("valid", b"valid\n"), ("check", b"valid\n"), ("session", NONE):
        yield [command, "deep.dtd", "a", "deep.xml"], NONE, allows((0, said))
    # An edit so deep takes 580 KB of stack. Where there is no room for it the system ends the process, as `docs/COMMANDS.md` says.
    yield DEEP_EDITS[0], DEEP_EDITS[1], lambda status, said: allows()(status, said) or said == NONE and status == -signal.SIGSEGV or \
        status == 0 and said.replace(b"no memory", b"no history") in DEEP_REPLIES
    yield ["drill", "20000"], NONE, allows((0, b"drill 20000 lines 46666 ok 26666 refused 20000 open 6666 checked 46666\n"))
    yield ["session", "guide.dtd", "doc", "long.xml"], b"\n".join(LINES), lambda status, said: follows(text, status, said)


def try_memory(trial):
    """Limits on the process's memory: from 8 MB on, and in small steps round the least with which the run is answered, or a session begins."""
    ended = silent = 0
    for limit, name in (resource.RLIMIT_AS, "address space"), (resource.RLIMIT_DATA, "data"):
        begins = least(lambda most: trial.run(["valid"], limits=[(limit, most * KB)])[0] == 2, 0, 16 * KB)
        for words, script, is_right in runs_with_little_memory(trial):
            ends = least(lambda most: trial.run(words, limits=[(limit, most * KB)], script=[script])[0] not in (5, 10), begins - 4, 256 * KB)
            sizes = {size * KB for size in (8, 16, 24, 32, 48, 64, 128, 512)} | set(range(ends - 40, ends + 40, 8))
            sizes |= set(range(ends, ends + 3 * KB, 64)) if "long.xml" in words else set()
            for size in sorted(size for size in sizes if size >= begins):
                status, said = trial.expect(f"{size} KB of {name}", words, is_right=is_right, limits=[(limit, size * KB)], script=[script])
                ended += status == 5
                silent += b"no memory\n" in said
    trial.tell("runs and lines without memory", None if ended > 0 and silent > 0 else f"{ended} runs and {silent} lines alone")
    few = [(resource.RLIMIT_NOFILE, 4), (resource.RLIMIT_NPROC, 0), (resource.RLIMIT_CORE, 0), (resource.RLIMIT_STACK, MB)]
    deep = [([command, "deep.dtd", "a", "deep.xml"], NONE, 0, b"valid\n") for command in ("valid", "check")]
    runs = [*runs_of(), *deep, (*DEEP_EDITS, 0, DEEP_REPLIES[3])]
    for words, script, status, said in runs:
        trial.expect("few files, no threads and a small stack", words, (status, said), limits=few, script=[script])


# The files of some commands after the DTD.
BEHIND = {"why": ["swapped.xml"], "verify": ["draft.xml", "draft.pack"], "deny": ["swapped.xml", "swapped.denial"],
          "standoff": ["hello.txt", "ranges.txt"]}


# Files that are no plain files, or change.
def try_behind(trial, name, answers):
    """Runs these commands with this name for each file, on which the answers are these, by command."""
    for command, files in BEHIND.items():
        files = ["guide.dtd", *files]
        for place, answer in zip(range(len(files)), answers[command]):
            words = [name if at == place else file for at, file in enumerate(files)]
            trial.expect("a name", [command, words[0], "doc", *words[1:]], answer)


def try_names(trial, name, of_dtd, of_document):
    """Runs each command with this name for the DTD, and for the document, on which the answers are these."""
    if of_dtd:
        trial.expect("a name", ["dtd", name], of_dtd)
    for command in ANSWERS:
        if of_dtd:
            trial.expect("a name", [command, name, "a", "a.xml"], of_dtd)
        trial.expect("a name", [command, "any.dtd", "a", name], of_document)


def try_files(trial):
    os.mkdir(trial.path("folder"))
    os.symlink("nothing", trial.path("dangling"))
    os.symlink("loop", trial.path("loop"))
    with open(trial.path("sparse"), "wb") as file:
        file.truncate(1 << 33)
    with socket.socket(socket.AF_UNIX) as served:
        if len(trial.path("socket")) < 100:
            served.bind(trial.path("socket"))
        for name in ["folder", ".", "", "/", "nothing", "dangling", "loop", "socket", "a.xml/", "a.xml/b", "-", "n" * 256, "n" * 5000, "n/" * 50000,
                     "\n", " ", "/proc/self/mem"]:
            try_names(trial, name, (3, NONE), (3, NONE))
            try_behind(trial, name, dict.fromkeys(BEHIND, [(3, NONE)] * 3))
    for name in ["sparse", "/dev/zero", "/dev/urandom", "/dev/full"]:
        if os.path.exists(trial.path(name)):
            try_names(trial, name, (8, b"limit dtd-file\n"), (8, b"limit document-file\n"))
            limits = {"why": ["dtd", "document"], "verify": ["dtd", "document", "pack"], "deny": ["dtd", "document", "table"],
                      "standoff": ["dtd", "text", "ranges"]}
            try_behind(trial, name, {command: [(8, b"limit %s-file\n" % file.encode()) for file in files] for command, files in limits.items()})
    trial.expect("no ranges", ["standoff", "guide.dtd", "doc", "hello.txt", "/dev/null"], (0, b"possible 1\nshow 16\n<doc>Hello</doc>\n"))
    trial.expect("an empty text", ["standoff", "guide.dtd", "doc", "/dev/null", "ranges.txt"], (7, b"text empty 0\n"))
    trial.expect("an empty pack", ["verify", "guide.dtd", "doc", "draft.xml", "/dev/null"], (9, b"pack line 0\n"))
    trial.expect("an empty denial", ["deny", "guide.dtd", "doc", "swapped.xml", "/dev/null"], (9, b"table line 0\n"))
    try_names(trial, "/dev/null", None, (7, b"document syntax 0\n"))
    trial.expect("an empty DTD", ["dtd", "/dev/null"], (0, b"types 0 parts 0 undeclared 0\n"))
    for name in ["with blanks  in it", " ", "\n", "-", "--help", "a\nb\t'\"\\", "\u00e9\U0001d538", "%", "n" * 255]:
        shutil.copy(trial.path("any.dtd"), trial.path(name))
        trial.expect("a name", ["dtd", name], (0, b"a any 1\ntypes 1 parts 0 undeclared 0\n"))
        shutil.copy(trial.path("a.xml"), trial.path(name))
        for command, said in ANSWERS.items():
            trial.expect("a name", [command, "any.dtd", "a", name], (0, said))
        os.remove(trial.path(name))


def try_words(trial):
    bad = b"\xff.xml"
    shutil.copy(trial.path("a.xml"), os.path.join(os.fsencode(trial.folder), bad))
    lines = [[b"dtd", bad], [b"drill", bad], [bad]]
    for command in map(str.encode, ANSWERS):
        lines += [[command, bad, b"a", b"a.xml"], [command, b"any.dtd", bad, b"a.xml"], [command, b"any.dtd", b"a", bad]]
    for words in lines:
        trial.expect("bytes that aren't UTF-8", words, (10, NONE))
    for words in [["valid"] * 100000, ["v" * 100000], ["valid", "any.dtd", "", "a.xml"], ["valid", "any.dtd", "a\n", "a.xml"],
                  ["drill", "9" * 100000], ["drill", "18446744073709551617"], ["drill", ""], ["drill", "\uff11"], ["drill", "1", "2"], ["dtd"],
                  ["VALID", "any.dtd", "a", "a.xml"], [""]]:
        trial.expect("no command", words, (2, b"usage\n"))
    for command in ANSWERS:
        said = b"invalid .\n" if command == "valid" else b"impossible .\n"
        answer = (0, NONE) if command == "session" else (1, said)
        trial.expect("a root of 100,000 bytes", [command, "any.dtd", "n" * 100000, "a.xml"], answer)


def try_pipes(trial):
    """Pipes as files: what is written to them is read, and they may be endless."""
    os.mkfifo(trial.path("fifo"))

    def send(pieces):
        closed_late(open(trial.path("fifo"), "wb"), pieces)

    def expect(words, pieces, answer):
        sender = threading.Thread(target=send, args=(pieces,), daemon=True)
        sender.start()
        trial.expect("a pipe", words, answer)
        # What an endless one still sends isn't for the next that reads.
        sender.join(PATIENCE)

    expect(["dtd", "fifo"], [b"<!ELEMENT a ANY>"], (0, b"a any 1\ntypes 1 parts 0 undeclared 0\n"))
    expect(["dtd", "fifo"], [(b" ", 1 << 36)], (8, b"limit dtd-file\n"))
    text = b"<a>%s</a>" % (b"<a/>" * 100000)
    for command, said in ANSWERS.items():
        expect([command, "fifo", "a", "a.xml"], [b"<!ELEMENT a ANY>"], (0, said))
        expect([command, "fifo", "a", "a.xml"], [(b" ", 1 << 36)], (8, b"limit dtd-file\n"))
        expect([command, "any.dtd", "a", "fifo"], [text], (0, said.replace(b"body 4\n<a/>", b"body %d\n%s" % (len(text), text))))
        expect([command, "any.dtd", "a", "fifo"], [(b"\0", 1 << 36)], (8, b"limit document-file\n"))


def try_changing_files(trial):
    """A document that grows, and one that is cut short and grows again, while it is read: blanks after its root."""
    stop = threading.Event()

    def grow():
        with open(trial.path("growing"), "ab", buffering=0) as file:
            while not stop.is_set() and file.tell() < 2 * DOC_MOST:
                file.write(b" " * (MB // 4))

    def shrink():
        with open(trial.path("shrinking"), "r+b", buffering=0) as file:
            while not stop.is_set():
                file.truncate(8)
                file.seek(8)
                file.write(b" " * (16 * MB))

    for turn in range(3):
        for command, said in ("valid", b"valid\n"), ("check", b"valid\n"), ("session", NONE):
            trial.write("growing", b"<a></a>", (b" ", DOC_MOST - 40 * MB))
            trial.write("shrinking", b"<a></a> ", (b" ", 16 * MB))
            for change, name, answers in (grow, "growing", [(0, said), (8, b"limit document-file\n")]), (shrink, "shrinking", [(0, said)]):
                stop.clear()
                changer = threading.Thread(target=change)
                changer.start()
                trial.expect(f"{name}, turn {turn}", [command, "any.dtd", "a", name], *answers)
                stop.set()
                changer.join()


def try_permissions(trial):
    """Files that may not be read, as a user who isn't the machine's first."""
    program = shutil.copy(trial.program, trial.path("copied"))
    os.chmod(trial.folder, 0o755)
    for name in "any.dtd", "a.xml":
        os.chmod(shutil.copy(trial.path(name), trial.path("closed-" + name)), 0)
    as_nobody = {"prepare": lambda: os.setuid(NOBODY) if os.getuid() == 0 else None, "program": program}
    try:
        status = trial.run(["valid", "any.dtd", "a", "a.xml"], **as_nobody)[0]
    except subprocess.SubprocessError:
        status = None
    if status != 0:
        print("skipped: files without permission (no other user)")
        return
    trial.expect("no permission", ["dtd", "closed-any.dtd"], (3, NONE), **as_nobody)
    for file in {file for files in BEHIND.values() for file in files}:
        os.chmod(shutil.copy(trial.path(file), trial.path("closed-" + file)), 0)
    for command, files in BEHIND.items():
        for at in range(len(files)):
            words = [f"closed-{file}" if at == place else file for place, file in enumerate(files)]
            trial.expect("no permission", [command, "guide.dtd", "doc", *words], (3, NONE), **as_nobody)
    for command in ANSWERS:
        trial.expect("no permission", [command, "closed-any.dtd", "a", "a.xml"], (3, NONE), **as_nobody)
        trial.expect("no permission", [command, "any.dtd", "a", "closed-a.xml"], (3, NONE), **as_nobody)


# Outputs and inputs that fail.
def try_output(trial, words, script, answer):
    """Runs the program with outputs that fail at once."""
    with open("/dev/full", "wb") as full:
        trial.expect("a full device", words, (4, NONE), script=[script], stdout=full)
    reading, writing = os.pipe()
    os.close(reading)
    trial.expect("a closed pipe", words, (4, NONE), script=[script], stdout=writing)
    trial.expect("a closed pipe, its signal ignored", words, (4, NONE), script=[script], stdout=writing,
                 prepare=lambda: signal.signal(signal.SIGPIPE, signal.SIG_IGN))
    os.close(writing)
    trial.expect("no output", words, (4, NONE), script=[script], prepare=lambda: os.close(1))
    with open("/dev/null", "rb") as unwritable:
        trial.expect("an output that is only read", words, (4, NONE), script=[script], stdout=unwritable)
    status, said = answer
    trial.expect("files of 4 KB", words, answer if len(said) <= 4 * KB else (4, said[:4 * KB]), script=[script],
                 limits=[(resource.RLIMIT_FSIZE, 4 * KB)], prepare=lambda: signal.signal(signal.SIGXFSZ, signal.SIG_IGN))


def try_pipe(trial, name, words, script, answers, read, is_right):
    """Runs the program with a pipe as output, which is read so meanwhile, and tests what came by it."""
    reading, writing = os.pipe()
    got = []
    reader = threading.Thread(target=read, args=(reading, got))
    reader.start()
    trial.expect(name, words, *answers, script=[script], stdout=writing)
    os.close(writing)
    reader.join()
    os.close(reading)
    trial.tell(f"{name}, what came by it", None if is_right(b"".join(got)) else "other bytes")


def try_outputs(trial):
    shown = b"show 16\n<doc>Hello</doc>\n" * 20000
    for words, script, status, said in [*runs_of(), (["dtd", "names.dtd"], NONE, 0, trial.listed),
                                        (["session", "guide.dtd", "doc", "draft.xml"], b"show\n" * 20000, 0, shown)]:
        try_output(trial, words, script, (status, said))
        try_pipe(trial, "a slow pipe", words, script, [(status, NONE)], read_slowly, lambda got: got == said)
        late = [(status, NONE), (4, NONE)] if len(said) <= 64 * KB else [(4, NONE)]
        try_pipe(trial, "a pipe that is closed", words, script, late, read_once, said.startswith)
        reading, writing = os.pipe()
        os.set_blocking(writing, False)
        trial.expect("a full pipe that doesn't wait", words, (status if len(said) <= 64 * KB else 4, NONE), script=[script], stdout=writing)
        os.close(writing)
        with open(reading, "rb") as front:
            got = front.read()
        trial.tell("what the pipe has", None if said.startswith(got) and (len(said) > 64 * KB or said == got) else "other bytes")


def try_inputs(trial):
    words = ["session", "guide.dtd", "doc", "draft.xml"]
    trial.expect("no input", words, (3, NONE), prepare=lambda: os.close(0))
    with open(trial.path("written"), "wb") as unreadable:
        trial.expect("an input that is only written", words, (3, NONE), stdin=unreadable)
    folder = os.open(trial.folder, os.O_RDONLY)
    trial.expect("a folder as input", words, (3, NONE), stdin=folder)
    os.close(folder)
    reading, writing = os.pipe()
    os.set_blocking(reading, False)
    os.write(writing, b"need\nund")
    trial.expect("an input that doesn't wait", words, (3, b"need 1\n"), stdin=reading)
    for end in reading, writing:
        os.close(end)
    with open("/dev/zero", "rb") as zeros:
        trial.expect("zeros as input", words, (8, b"limit line 1\n"), stdin=zeros)
    with open("/dev/urandom", "rb") as noise:
        trial.expect("noise as input", words, is_right=lambda status, said: status == 8 and said.endswith(b"\nlimit script\n"), stdin=noise)


def main():
    program = os.path.abspath(sys.argv[1])
    seconds = int(sys.argv[2]) if len(sys.argv) > 2 else 200
    with tempfile.TemporaryDirectory() as folder:
        trial = Trial(program, folder, seconds)
        trial.write("any.dtd", b"<!ELEMENT a ANY>")
        trial.write("a.xml", b"<a/>")
        write_small_files(trial)
        for part in (try_memory, try_words, try_files, try_pipes, try_inputs, try_permissions, try_changing_files, try_outputs, try_dtds, try_scripts,
                     try_documents):
            if trial.is_late(part.__name__):
                break
            started = time.monotonic()
            part(trial)
            print(f"{part.__name__}: {time.monotonic() - started:.0f} s", flush=True)
    for command, (memory, name) in sorted(trial.most.items()):
        if command in MEMORY:
            print(f"{command}: at most {memory:.0f} MB ({name})")
    print(f"{trial.passed} passed, {trial.failed} failed")
    sys.exit(1 if trial.failed else 0)


main()
