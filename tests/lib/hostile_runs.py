"""Runs of the program for `hostile.py`: what each may answer, and a model of a session that has too little memory for some of its lines."""
import os
import resource
import subprocess
import threading
import time

from lib.hostile_files import KB, MB, NONE

# A run may take so much processor time, and is ended after so many times as long.
SECONDS = 60
TIMES = 30
# The most memory of a run, in MB: what `docs/COMMANDS.md` tells under "Time and memory", and some 80 MB that this test takes itself, with room.
MEMORY = {"dtd": 100, "valid": 300, "check": 4200, "session": 4200, "verify": 1200, "deny": 400, "standoff": 150, "drill": 100}


def feed(file, pieces):
    """Writes bytes, and bytes again and again, until all is written or nobody reads."""
    try:
        for piece in pieces:
            unit, count = piece if isinstance(piece, tuple) else (piece, 1)
            most = max(1, MB // max(1, len(unit)))
            for start in range(0, count, most):
                file.write(unit * min(most, count - start))
        file.close()
    except BrokenPipeError:
        pass


def closed_late(file, pieces):
    """The same, and closes the file whatever happens."""
    try:
        feed(file, pieces)
        file.close()
    except OSError:
        pass


def read_slowly(reading, got):
    """Reads to the end of a pipe, a few bytes at a time."""
    while piece := os.read(reading, 4 * KB):
        got.append(piece)
        time.sleep(0.001)


def read_once(reading, got):
    """Reads a byte of a pipe, and closes it; something else stands in its place."""
    got.append(os.read(reading, 1))
    os.dup2(os.open("/dev/null", os.O_RDONLY), reading)


def least(holds, low, high):
    """The least number of KB, in steps of 4, from which it holds up to `high`, where it does."""
    while high - low > 4:
        middle = (low + high) // 8 * 4
        low, high = (low, middle) if holds(middle) else (middle, high)
    return high


class Trial:
    def __init__(self, program, folder, seconds):
        self.program, self.folder = program, folder
        self.end = time.monotonic() + seconds
        self.passed = self.failed = 0
        self.most, self.listed = {}, None

    def path(self, name):
        return os.path.join(self.folder, name)

    def is_late(self, name):
        """Whether the time is over: then this, and what comes after it, isn't tried, which is said."""
        if time.monotonic() < self.end:
            return False
        print(f"skipped: {name} and what comes behind it (no time)", flush=True)
        return True

    def write(self, name, *pieces):
        with open(self.path(name), "wb") as file:
            feed(file, pieces)
        return name

    def run(self, words, stdin=None, stdout=None, limits=(), prepare=None, script=None, program=None):
        """The status, the output, whether there were errors, the seconds of processor time and the memory in MB of a run in the folder.

        `limits` are pairs of a resource and its most, `prepare` is called before the program, `script` are pieces that come by a pipe.
        """
        def begin():
            for what, most in limits:
                resource.setrlimit(what, (most, most))
            if prepare:
                prepare()

        with open(self.path("output"), "w+b") as output, open(self.path("errors"), "w+b") as errors:
            source = subprocess.PIPE if script is not None else subprocess.DEVNULL if stdin is None else stdin
            child = subprocess.Popen([program or self.program, *words], stdin=source, stdout=output if stdout is None else stdout,
                                     stderr=errors, preexec_fn=begin, cwd=self.folder)
            helpers = [threading.Timer(TIMES * SECONDS, child.kill)]
            if script is not None:
                helpers.append(threading.Thread(target=closed_late, args=(child.stdin, script)))
            for helper in helpers:
                helper.start()
            _, status, usage = os.wait4(child.pid, 0)
            child.returncode = os.waitstatus_to_exitcode(status)
            helpers[0].cancel()
            for helper in helpers:
                helper.join()
            output.seek(0)
            return child.returncode, output.read(), errors.seek(0, 2), usage.ru_utime + usage.ru_stime, usage.ru_maxrss / KB

    def tell(self, name, fault):
        self.passed += fault is None
        self.failed += fault is not None
        if fault:
            print(f"{name}: {fault}", flush=True)

    def expect(self, name, words, *answers, is_right=None, **how):
        """Runs, counts whether the answer is one of these, or right, and the rest is as it must be, and gives the status and the output."""
        status, said, errors, seconds, memory = self.run(words, **how)
        command = os.fsdecode(words[0]) if words else ""
        self.most[command] = max(self.most.get(command, (0, "")), (memory, name))
        fault = None
        if not (is_right(status, said) if is_right else (status, said) in answers):
            wanted = [(number, text[:80]) for number, text in answers]
            fault = f"status {status}, {len(said)} bytes {said[:80]!r} for {wanted}"
        elif errors:
            fault = "something was written as an error"
        elif seconds >= SECONDS:
            fault = f"{seconds:.0f} seconds of processor time"
        elif memory > MEMORY.get(command, 100):
            fault = f"{memory:.0f} MB of memory"
        self.tell(f"{name}: {' '.join(map(str, words))[:80]!r}", fault)
        return status, said


# Small files, on which a run is tried with little memory and with each kind of output.
GUIDE = b"<!ELEMENT doc (head, sec*)><!ELEMENT head (#PCDATA)><!ELEMENT sec EMPTY>"
PACK = b"".join(line + b"\n" for line in [
    b"pvpack 1", b"total 1", b"mark 1", b"body 29", b"<doc><head>Hello</head></doc>", b"list 0",
    b"c 0 0 0 1", b"c 0 0 1 1", b"c 0 1 1 1", b"c 1 0 0 0", b"c 1 0 1 0", b"c 1 1 1 0", b"c 2 0 0 0", b"c 2 1 1 0",
    b"n 0 0 0 2", b"n 0 0 1 2", b"n 0 1 1 2", b"n 1 0 0 1", b"n 1 0 1 1", b"n 1 1 1 1", b"n 2 0 0 1", b"n 2 1 1 1",
    b"p 0 0 0 1", b"p 0 0 1 1", b"p 0 1 1 1", b"p 1 0 0 1", b"p 1 0 1 1", b"p 1 1 1 1", b"p 2 0 0 0", b"p 2 1 1 0", b"p 3 0 0 1", b"p 3 1 1 1",
    b"s 1 0 0 1", b"s 1 0 1 1", b"s 1 1 1 1", b"s 2 0 0 0", b"s 2 1 1 0", b"end"])
# A document whose kids stand in the wrong order, and why no insertions make it valid.
SWAPPED = b"<doc><sec/><head/></doc>"
DENIAL = b"".join(line + b"\n" for line in [
    b"pvdeny 1", b"list 0", b"cause word", b"c 0 1 2 2", b"c 1 0 1 2", b"c 2 0 1 2", b"n 0 1 2 2", b"n 1 0 2 2", b"n 2 1 1 2",
    b"p 0 1 2 2", b"p 1 0 2 2", b"p 2 1 1 2", b"p 3 1 1 2", b"s 1 1 2 2", b"s 2 1 1 2", b"end"])
# The text of the first document, a range over it, and what they become.
TEXT, RANGES = b"Hello", b"0 5 0 head\n"
NESTED = b"valid\nshow 29\n<doc><head>Hello</head></doc>\n"
# What the commands that read a document answer to `<a/>` where an `a` may hold anything.
ANSWERS = {"valid": b"valid\n", "check": b"valid\n", "session": NONE, "complete": b"pvpack 1\ntotal 0\nbody 4\n<a/>\nend\n"}
LISTED = b"doc children 2\nhead mixed 1\nsec empty 1\ntypes 3 parts 4 undeclared 0\n"


def runs_of():
    """Runs on these files: words, script, status and output."""
    yield ["dtd", "guide.dtd"], NONE, 0, LISTED
    yield ["valid", "guide.dtd", "doc", "draft.xml"], NONE, 1, b"invalid 0\n"
    yield ["check", "guide.dtd", "doc", "draft.xml"], NONE, 0, b"possible 1\n"
    yield ["session", "guide.dtd", "doc", "draft.xml"], b"need\nundo\n", 0, b"need 1\nno history\n"
    yield ["complete", "guide.dtd", "doc", "draft.xml"], NONE, 0, PACK
    yield ["verify", "guide.dtd", "doc", "draft.xml", "draft.pack"], NONE, 0, b"accepted 1\n"
    yield ["why", "guide.dtd", "doc", "swapped.xml"], NONE, 0, DENIAL
    yield ["deny", "guide.dtd", "doc", "swapped.xml", "swapped.denial"], NONE, 0, b"denied 0\n"
    yield ["standoff", "guide.dtd", "doc", "hello.txt", "ranges.txt"], NONE, 0, NESTED
    yield ["drill", "30"], NONE, 0, b"drill 30 lines 70 ok 40 refused 30 open 10 checked 70\n"
    yield ["valid"], NONE, 2, b"usage\n"


# A session of which each line that there is no memory for answers so and changes nothing.
class Model:
    """The session on `<doc>TEXT</doc>`, whose text `wrap 0 0 1 head` puts into a head."""

    def __init__(self, text):
        self.text, self.past, self.future, self.moves, self.stamp = text, 0, 0, 0, 0

    def document(self, is_wrapped):
        return b"<doc><head>%s</head></doc>" % self.text if is_wrapped else b"<doc>%s</doc>" % self.text

    def reply(self, line):
        """What the line answers, and whether it is a move."""
        if line == b"show":
            shown = self.document(self.past)
            return b"show %d\n%s\n" % (len(shown), shown), False
        if line == b"need":
            return b"need %d\n" % (1 - self.past), False
        if line == b"complete":
            shown = self.document(True)
            return b"completed %d %d\n%s\n" % (1 - self.past, len(shown), shown), False
        if line == b"history":
            return b"history %d\n" % self.past + b"wrap 0 0 1 head\n" * self.past, False
        if line == b"verdicts":
            rows = b"0 valid %d\n0.0 valid %d\n" % (self.stamp, self.stamp) if self.past else b"0 possible %d\n" % self.stamp
            return b"verdicts %d\n. valid 0\n" % (2 + self.past) + rows, False
        if line == b"undo":
            return (b"ok 1 1 0\n", True) if self.past else (b"no history\n", False)
        if line == b"redo":
            return (b"ok 2 0 0\n", True) if self.future else (b"no history\n", False)
        return b"ok 2 0 0\n", True

    def make(self, line):
        self.moves += 1
        self.stamp = self.moves
        self.past, self.future = (0, 1) if line == b"undo" else (1, 0)


WRAP = b"wrap 0 0 1 head"
LINES = [WRAP if word == b"wrap" else word for word in
         (b"show need complete verdicts history wrap show need complete verdicts history undo show verdicts redo show verdicts undo history redo "
          b"show undo need complete show").split()]


def follows(text, status, said):
    """Whether a session on the document of this text, with little memory, answered the lines above."""
    if status in (5, 10):
        return said == NONE
    model = Model(text)
    for line in LINES:
        reply, is_move = model.reply(line)
        if said.startswith(reply):
            said = said[len(reply):]
            if is_move:
                model.make(line)
        elif said.startswith(b"no memory\n"):
            said = said[len(b"no memory\n"):]
        else:
            return False
    return status == 0 and said == NONE
