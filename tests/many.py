"""Tries `pvmany`, which answers the names of many documents: each line is the one that `pvtag` prints for that document.

Words: PVMANY PVTAG COUNT SEED. COUNT documents go through one process. The last line says how many tests passed.
"""
import os
import random
import re
import resource
import shutil
import subprocess
import sys
import tempfile
import threading
from pathlib import Path

sys.dont_write_bytecode = True
from lib.counting import Expecting  # noqa: E402

TOP = Path(__file__).resolve().parent.parent
DTD = str(TOP / "examples" / "letter.dtd")
# The questions that it takes.
QUESTIONS = ("valid", "check", "need")
# Documents by the name of their file: good ones, and one of each kind of fault.
DOCUMENTS = {
    "valid.xml": (TOP / "examples" / "letter.xml").read_bytes(),
    "draft.xml": (TOP / "examples" / "letter-draft.xml").read_bytes(),
    "swapped.xml": (TOP / "examples" / "letter-swapped.xml").read_bytes(),
    "empty.xml": b"",
    "text.xml": b"no document",
    "syntax.xml": b"<letter><body><p a='<'/></body></letter>",
    "mismatch.xml": b"<letter><body></letter>",
    "entity.xml": b"<letter>&nbsp;</letter>",
    "subset.xml": b"<!DOCTYPE letter [<!ELEMENT a ANY>]><letter/>",
    "doctype.xml": b"<!DOCTYPE other><letter/>",
    "deep.xml": b"<letter>" + b"<p>" * 600 + b"</p>" * 600 + b"</letter>",
    "bytes.xml": b"<letter>\xff</letter>",
    "root.xml": b"<p/>",
    "strange.xml": b"<letter><strange/></letter>",
    "wide.xml": b"<letter>" + b"<p/>" * 2000 + b"</letter>",
    "two lines\n.xml": (TOP / "examples" / "letter.xml").read_bytes(),
    "caf\u00e9.xml": (TOP / "examples" / "letter.xml").read_bytes(),
}
# A DTD, a root, and parts that make a valid document below it.
TEMPLATES = (
    (DTD, "letter", ("<opener><dateline><place>Delft</place>, <date>3 May</date></dateline><salute>Dear</salute></opener>",
                "<body><p>a <person>b</person> c</p><lb/><p>d<lb/></p></body>", "<closer>Yours, <person>e</person></closer>")),
    (str(TOP / "examples" / "article.dtd"), "doc", ("<head>a</head>", "<sec><title>b</title><p>c<br/></p></sec>")),
)
# Names of no file that can be read: a folder, none, and bytes that aren't UTF-8.
NO_FILES = [b"folder", b"nothing.xml", b"", b"a\xff.xml", b"x" * 5000]
PATIENCE = 1800
# Runs a command beside 1,100 open files.
OPENS = """
import os, resource, sys
resource.setrlimit(resource.RLIMIT_NOFILE, (4096, resource.getrlimit(resource.RLIMIT_NOFILE)[1]))
for _ in range(1100):
    os.set_inheritable(os.open("/dev/null", os.O_RDONLY), True)
os.execv(sys.argv[1], sys.argv[1:])
"""
# Stands for `pvmany` where it dies at a document, hangs at one, or has no memory for one.
STAND_IN = f"""#!{sys.executable}
import os, time
held = b""
while b"\\0" in held or (more := os.read(0, 65536)):
    held = held if b"\\0" in held else held + more
    name, nul, rest = held.partition(b"\\0")
    if nul:
        held = rest
        if b"dies" in name:
            os.kill(os.getpid(), 9)
        if b"hangs" in name:
            time.sleep(1000)
        os.write(1, name + (b"\\0no memory\\n" if b"memory" in name else b"\\0valid\\n"))
"""


class Trial(Expecting):
    """A folder with the documents, and what passed."""

    def __init__(self, many: str, one: str, folder: Path, seed: int) -> None:
        super().__init__()
        self.many, self.one, self.folder, self.chance = many, one, folder, random.Random(seed)
        (folder / "folder").mkdir()
        for name, data in DOCUMENTS.items():
            (folder / name).write_bytes(data)
        self.lines = {question: {name.encode(): self.line_of(question, name) for name in DOCUMENTS} for question in QUESTIONS}

    def line_of(self, question: str, name: str, dtd: str = DTD, root: str = "letter") -> bytes:
        """What `pvtag` prints for this document; in a session, if it is asked what is missing."""
        command, given = (question, b"") if question != "need" else ("session", b"need\n")
        return subprocess.run([self.one, command, dtd, root, name], cwd=self.folder, input=given, capture_output=True, check=False).stdout

    def begin(self, question: str) -> "subprocess.Popen[bytes]":
        return subprocess.Popen([self.many, question, DTD, "letter"], cwd=self.folder, stdin=subprocess.PIPE, stdout=subprocess.PIPE, stderr=subprocess.DEVNULL)

    def ask(self, *words: str, given: bytes = b"") -> tuple[int, bytes]:
        ran = subprocess.run([self.many, *words], cwd=self.folder, input=given, capture_output=True, timeout=PATIENCE, check=False)
        return ran.returncode, ran.stdout

    def wanted(self, question: str, names: list[bytes]) -> bytes:
        """The answers to these names."""
        return b"".join(name + b"\0" + self.lines[question].get(name, b"no file\n") for name in names)

    def names(self, count: int) -> list[bytes]:
        return self.chance.choices([*(name.encode() for name in DOCUMENTS), *NO_FILES], k=count)


def answers_each(trial: Trial, question: str) -> None:
    """Every document and every name of no file, each after and before others."""
    for line in {*trial.lines[question].values()}:
        trial.expect("a line of its own", line.endswith(b"\n") and line.count(b"\n") == 1, line)
    names = [name for one in [*(name.encode() for name in DOCUMENTS), *NO_FILES] for name in (one, b"valid.xml", one)]
    status, told = trial.ask(question, DTD, "letter", given=b"".join(name + b"\0" for name in names))
    trial.expect("each document", (status, told) == (0, trial.wanted(question, names)), told[-300:])
    status, told = trial.ask(question, DTD, "letter", given=b"valid.xml\0draft.xml")
    trial.expect("a last name without its NUL", (status, told) == (0, trial.wanted(question, [b"valid.xml", b"draft.xml"])), told)
    trial.expect("no name", trial.ask(question, DTD, "letter") == (0, b""))


def answers_pieces(trial: Trial, question: str) -> None:
    """Names in pieces, some of which end within a name."""
    names = trial.names(200)
    text = b"".join(name + b"\0" for name in names)
    with trial.begin(question) as run:
        assert run.stdin and run.stdout
        told: list[bytes] = []
        reader = threading.Thread(target=lambda: told.append(run.stdout.read() if run.stdout else b""))
        reader.start()
        while text:
            size = trial.chance.choice((1, 2, 7, 100, 5000))
            run.stdin.write(text[:size])
            run.stdin.flush()
            text = text[size:]
        run.stdin.close()
        reader.join(PATIENCE)
        trial.expect("names in pieces", told == [trial.wanted(question, names)] and run.wait(PATIENCE) == 0)


def answers_at_once(trial: Trial, question: str) -> None:
    """Each name is answered while the input stays open."""
    with trial.begin(question) as run:
        assert run.stdin and run.stdout
        for name in trial.names(20):
            run.stdin.write(name + b"\0")
            run.stdin.flush()
            wanted = trial.wanted(question, [name])
            told = run.stdout.read(len(wanted))
            trial.expect("an answer before more is asked", told == wanted, (name, told))
        run.stdin.close()
        trial.expect("and then the end", run.stdout.read() == b"" and run.wait(PATIENCE) == 0)


def memory_of(pid: int) -> int:
    """The memory of a process at its peak, in kilobytes."""
    line = next(it for it in Path(f"/proc/{pid}/status").read_text(encoding="ascii").splitlines() if it.startswith("VmHWM:"))
    return int(line.split()[1])


def stays_flat(trial: Trial, question: str, count: int) -> None:
    """Many documents in one process, whose memory doesn't grow with their number."""
    with trial.begin(question) as run:
        assert run.stdin and run.stdout
        peaks = []
        for part in range(10):
            names = trial.names(count // 10)
            writer = threading.Thread(target=lambda text: (run.stdin.write(text), run.stdin.flush()), args=(b"".join(name + b"\0" for name in names),))
            writer.start()
            wanted = trial.wanted(question, names)
            told = run.stdout.read(len(wanted))
            writer.join(PATIENCE)
            trial.expect("a tenth of many documents", told == wanted, (part, told[-300:]))
            peaks.append(memory_of(run.pid))
        run.stdin.close()
        trial.expect("its end", run.wait(PATIENCE) == 0)
        trial.expect("memory that stays", peaks[-1] <= peaks[1] * 1.1 + 512, peaks)


def stripped(trial: Trial) -> tuple[str, str, bytes]:
    """A DTD, its root, and a document that lacks the tags of some names, and may have two parts in the other order."""
    dtd, root, whole = trial.chance.choice(TEMPLATES)
    parts = [part * trial.chance.choice((1, 1, 2, 5)) if number else part for number, part in enumerate(whole)]
    if trial.chance.random() < 0.2:
        parts.reverse()
    text = f"<{root}>{''.join(parts)}</{root}>"
    for name in {*re.findall(r"<(\w+)", "".join(parts))}:
        text = re.sub(f"</?{name}/?>", "", text) if trial.chance.random() < 0.4 else text
    return dtd, root, text.encode()


def remembers(trial: Trial, count: int) -> None:
    """What is missing in random documents, each asked twice of a process, against a session on each."""
    asked: dict[tuple[str, str], dict[bytes, bytes]] = {}
    for number in range(count):
        dtd, root, text = stripped(trial)
        name = f"stripped-{number}.xml"
        (trial.folder / name).write_bytes(text)
        asked.setdefault((dtd, root), {})[name.encode()] = trial.line_of("need", name, dtd, root)
    for (dtd, root), lines in asked.items():
        names = [*lines, *trial.chance.sample([*lines], len(lines))]
        wanted = b"".join(name + b"\0" + lines[name] for name in names)
        told = trial.ask("need", dtd, root, given=b"".join(name + b"\0" for name in names))
        trial.expect("what is missing in random documents", told == (0, wanted), (dtd, told[1][-300:]))
        trial.expect("some of each kind", {line.split()[0] for line in lines.values()} == {b"need", b"no"}, lines)


def refuses_numbers(trial: Trial) -> None:
    """More elements are missing than are counted, and a list is too wide for a verdict, among others."""
    (trial.folder / "doubling.dtd").write_text("".join(f"<!ELEMENT t{number} (t{number + 1}, t{number + 1})>\n" for number in range(20)) + "<!ELEMENT t20 EMPTY>\n")
    for name, text in (("one.xml", b"<t19/>"), ("all.xml", b"<t0/>"), ("long.xml", b"<t0>" + b"<t1/>" * 1_600_000 + b"</t0>")):
        (trial.folder / name).write_bytes(text)
    for root, names in (("t0", ["all.xml", "one.xml", "all.xml", "long.xml", "one.xml"]), ("t19", ["one.xml", "all.xml", "one.xml"])):
        wanted = [name.encode() + b"\0" + trial.line_of("need", name, "doubling.dtd", root) for name in names]
        told = trial.ask("need", "doubling.dtd", root, given=b"".join(name.encode() + b"\0" for name in names))
        trial.expect("numbers that aren't told", told == (0, b"".join(wanted)), (told, wanted))
        trial.expect("why they aren't", root != "t0" or [line.split(b"\0")[1] for line in wanted[::3]] == [b"no heavy\n", b"limit width 0\n"], wanted)


def refuses(trial: Trial) -> None:
    """Words, DTDs and devices in fault: nothing is answered, with the status and the line of `pvtag`."""
    for words in ((), ("valid",), ("check", DTD), ("need", DTD, "letter", "letter"), ("valid", DTD, "1"), ("check", DTD, "letter", "valid.xml"), ("session", DTD, "letter")):
        trial.expect("words that are no request", trial.ask(*words) == (2, b"usage\n"), words)
    (trial.folder / "bad.dtd").write_text("<!ELEMENT a (b)>\n<!ELEMENT a (b)>\n")
    (trial.folder / "limit.dtd").write_text(f"<!ELEMENT a {'(' * 70}b{')' * 70}>\n")
    for dtd in ("valid.xml", "bad.dtd", "limit.dtd", "nothing.dtd", "folder"):
        one = subprocess.run([trial.one, "valid", dtd, "letter", "valid.xml"], cwd=trial.folder, capture_output=True, check=False)
        told = trial.ask("valid", dtd, "letter", given=b"valid.xml\0")
        trial.expect("a DTD in fault", told == (one.returncode, one.stdout) and told[0] in (3, 6, 8), (dtd, told))
    with open("/dev/full", "wb") as full:
        ran = subprocess.run([trial.many, "valid", DTD, "letter"], cwd=trial.folder, input=b"valid.xml\0", stdout=full, stderr=subprocess.DEVNULL, check=False)
        trial.expect("a full device", ran.returncode == 4, ran.returncode)
    with open("/proc/self/mem", "rb") as broken:
        ran = subprocess.run([trial.many, "valid", DTD, "letter"], cwd=trial.folder, stdin=broken, capture_output=True, check=False)
        trial.expect("an input that can't be read", (ran.returncode, ran.stdout) == (3, b""), ran)


def reports(trial: Trial) -> None:
    """`clients/report` asks it, and `pvtag` itself where it has no answer; one that hangs is ended in time."""
    beside = trial.folder / "beside"
    beside.mkdir()
    # So many that several are given to one process at a time.
    good = [f"good-{number}.xml" for number in range(60)]
    for name, data in (("dies.xml", "draft.xml"), ("memory.xml", "swapped.xml"), ("hangs.xml", "valid.xml"), *((name, "valid.xml") for name in good)):
        (trial.folder / name).write_bytes(DOCUMENTS[data])
    shutil.copy(trial.one, beside / "pvtag")
    (beside / "pvmany").write_text(STAND_IN)
    (beside / "pvmany").chmod(0o755)
    for program, wanted in ((str(beside / "pvtag"), {"empty.xml": "valid", "hangs.xml": "failed"}), (trial.one, {"empty.xml": "refused", "hangs.xml": "valid"})):
        names = [*good[:20], "valid.xml", "empty.xml", "dies.xml", "draft.xml", "memory.xml", "hangs.xml", "caf\u00e9.xml", *good[20:]]
        wanted = {"valid.xml": "valid", "dies.xml": "possible", "draft.xml": "valid" if program != trial.one else "possible", "memory.xml": "impossible",
                  "caf\u00e9.xml": "valid", **dict.fromkeys(good, "valid"), **wanted}
        ran = subprocess.run([TOP / "clients" / "report", "--program", program, "--format", "tsv", "--no-attributes", "--most", "5", "--jobs", "2", DTD, "letter", *names],
                             cwd=trial.folder, capture_output=True, text=True, timeout=PATIENCE, check=False)
        rows = [line.split("\t") for line in ran.stdout.splitlines() if not line.startswith("#")]
        told = {row[0]: row[4] for row in rows[1:]}
        trial.expect("a report by it", told == wanted, (told, wanted, ran.stderr))


def reports_missing(trial: Trial) -> None:
    """`clients/report --need` tells the same by it and by `pvtag` alone."""
    alone = trial.folder / "alone"
    alone.mkdir()
    shutil.copy(trial.one, alone / "pvtag")
    # Where a list is too wide, `pvlong` is asked, if it is there.
    names = [name for name in DOCUMENTS if "\n" not in name and name != "wide.xml"]
    rows = []
    for program in (trial.one, str(alone / "pvtag")):
        ran = subprocess.run([TOP / "clients" / "report", "--program", program, "--format", "tsv", "--no-attributes", "--need", "--jobs", "2", DTD, "letter", *names],
                             cwd=trial.folder, capture_output=True, text=True, timeout=PATIENCE, check=False)
        told = [line.split("\t") for line in ran.stdout.splitlines() if not line.startswith("#")]
        rows.append({row[0]: dict(zip(told[0], row, strict=False)) | {"seconds": ""} for row in told[1:]})
    trial.expect("a report on what is missing", rows[0] == rows[1] and rows[0]["draft.xml"]["missing"] == "1", rows)


def reports_beside_files(trial: Trial) -> None:
    """`clients/report` makes the same report where so many files are open that its own have numbers from 1,024 on."""
    if resource.getrlimit(resource.RLIMIT_NOFILE)[1] < 4096:
        print("many: no report beside 1,100 open files, which aren't allowed here")
        return
    report = [str(TOP / "clients" / "report"), "--program", trial.one, "--format", "tsv", DTD, "letter", "valid.xml", "draft.xml"]
    told = []
    for words in (report, [sys.executable, "-c", OPENS, *report]):
        ran = subprocess.run(words, cwd=trial.folder, capture_output=True, text=True, timeout=PATIENCE, check=False)
        rows = [line.split("\t") for line in ran.stdout.splitlines() if not line.startswith("#")]
        told.append((ran.returncode, ran.stderr, [dict(zip(rows[0], row, strict=False)) | {"seconds": ""} for row in rows[1:]]))
    trial.expect("a report beside open files", told[0] == told[1] and len(told[0][2]) == 2, told)


def main(many: str, one: str, count: str, seed: str) -> int:
    # A program without proofs keeps what was freed for a while, unless it is told not to.
    os.environ.setdefault("ASAN_OPTIONS", "quarantine_size_mb=0:thread_local_quarantine_size_kb=0")
    with tempfile.TemporaryDirectory() as folder:
        trial = Trial(str(Path(many).resolve()), str(Path(one).resolve()), Path(folder), int(seed))
        for question in QUESTIONS:
            answers_each(trial, question)
            answers_pieces(trial, question)
            answers_at_once(trial, question)
            stays_flat(trial, question, int(count))
        remembers(trial, 150)
        refuses_numbers(trial)
        refuses(trial)
        reports(trial)
        reports_missing(trial)
        reports_beside_files(trial)
    return trial.ended()


if __name__ == "__main__":
    sys.exit(main(*sys.argv[1:]))
