"""Tries what each command does with its files and its input: input that is left alone, files that aren't there, one file by two names and two files by
one name.

Word: the program. Each command is run with a standard input that nobody writes and that stays open, and with one that has bytes which nobody asks
for: all but a session that has opened end without it, and leave each byte of it. The last line tells how many passed.
"""
import itertools
import os
import shutil
import subprocess
import sys
import tempfile
from pathlib import Path
from typing import NamedTuple

from lib.counting import Expecting
from lib.hostile_runs import DENIAL, GUIDE, LISTED, NESTED, PACK, RANGES, SWAPPED, TEXT
from lib.waiting import PATIENCE, until

LEFT_ALONE = b"show\nneed\nquit\n" * 100


class Command(NamedTuple):
    """A command's words, in which files are named, with what it answers, by its status and what it writes."""
    words: list[str]
    files: list[str]
    status: int
    said: bytes

    def called(self, files: list[str]) -> list[str]:
        """The words with other files: the DTD stands before the root's name, the others after it."""
        name, *root = self.words
        return [name, *files[:1], *root, *files[1:]]


FILES = {"guide.dtd": GUIDE, "draft.xml": b"<doc>Hello</doc>", "swapped.xml": SWAPPED, "draft.pack": PACK, "swapped.denial": DENIAL, "hello.txt": TEXT,
         "ranges.txt": RANGES}
COMMANDS = [
    Command(["dtd"], ["guide.dtd"], 0, LISTED),
    Command(["valid", "doc"], ["guide.dtd", "draft.xml"], 1, b"invalid 0\n"),
    Command(["check", "doc"], ["guide.dtd", "draft.xml"], 0, b"possible 1\n"),
    Command(["session", "doc"], ["guide.dtd", "draft.xml"], 0, b""),
    Command(["complete", "doc"], ["guide.dtd", "draft.xml"], 0, PACK),
    Command(["verify", "doc"], ["guide.dtd", "draft.xml", "draft.pack"], 0, b"accepted 1\n"),
    Command(["why", "doc"], ["guide.dtd", "swapped.xml"], 0, DENIAL),
    Command(["deny", "doc"], ["guide.dtd", "swapped.xml", "swapped.denial"], 0, b"denied 0\n"),
    Command(["standoff", "doc"], ["guide.dtd", "hello.txt", "ranges.txt"], 0, NESTED),
    Command(["drill", "30"], [], 0, b"drill 30 lines 70 ok 40 refused 30 open 10 checked 70\n"),
    Command(["nothing"], [], 2, b"usage\n"),
]


class Trial(Expecting):
    def __init__(self, program: str, folder: str) -> None:
        super().__init__()
        self.program, self.folder = program, Path(folder)
        for name, data in FILES.items():
            (self.folder / name).write_bytes(data)

    def begin(self, words: list[str], stdin: int) -> subprocess.Popen[bytes]:
        return subprocess.Popen([self.program, *words], cwd=self.folder, stdin=stdin, stdout=subprocess.PIPE, stderr=subprocess.PIPE)

    def run(self, words: list[str], given: bytes = b"") -> tuple[int, bytes, bytes]:
        """Runs with an input that is open and has these bytes at most; gives status, output and what is left of the input."""
        reading, writing = os.pipe()
        try:
            os.write(writing, given)
            run = self.begin(words, reading)
            said, errors = run.communicate(timeout=PATIENCE)
            self.expect(f"{words}: no errors", errors == b"", errors)
            os.set_blocking(reading, False)
            try:
                left = os.read(reading, len(LEFT_ALONE) + 1)
            except BlockingIOError:
                left = b""
            return run.returncode, said, left
        finally:
            os.close(reading)
            os.close(writing)


def try_open_inputs(trial: Trial) -> None:
    """An input that nobody writes, and one that nobody reads."""
    for command in COMMANDS:
        words = command.called(command.files)
        if command.words[0] == "session":
            waits_for_input(trial, words)
            continue
        for given in (b"", LEFT_ALONE):
            trial.expect(f"{words}, with its input open", trial.run(words, given) == (command.status, command.said, given), (words, given[:20]))


def waits_for_input(trial: Trial, words: list[str]) -> None:
    """A session that has opened waits, says nothing, and ends with its input."""
    reading, writing = os.pipe()
    run = trial.begin(words, reading)
    os.close(reading)
    os.write(writing, b"need\n")
    said = run.stdout.readline() if run.stdout else b""
    trial.expect("a session answers what is asked", said == b"need 1\n" and run.poll() is None, said)
    until(lambda: is_asleep(run.pid))
    trial.expect("it waits for more", run.poll() is None)
    os.close(writing)
    said, errors = run.communicate(timeout=PATIENCE)
    trial.expect("it ends with its input", (run.returncode, said, errors) == (0, b"", b""), (run.returncode, said, errors))


def is_asleep(pid: int) -> bool:
    return Path(f"/proc/{pid}/stat").read_text(encoding="ascii").rpartition(")")[2].split()[0] == "S"


def try_missing_files(trial: Trial) -> None:
    """Files that aren't there, in each place and in several: nothing is written, and nothing of the input is read."""
    for command in COMMANDS:
        for missing in itertools.product((False, True), repeat=len(command.files)):
            if any(missing):
                files = [f"no-{name}" if is_missing else name for name, is_missing in zip(command.files, missing)]
                words = command.called(files)
                for given in (b"", LEFT_ALONE):
                    told = trial.run(words, given)
                    trial.expect(f"{words}: a file isn't there", told == (3, b"", given), told)


def try_files_twice(trial: Trial) -> None:
    """One file in two places or in all: the answer is the same as for copies of it."""
    for command in COMMANDS:
        places = range(len(command.files))
        for name in dict.fromkeys(command.files):
            for chosen in (set(it) for size in range(2, len(places) + 1) for it in itertools.combinations(places, size)):
                files = [name if at in chosen else file for at, file in enumerate(command.files)]
                copies = [copy_of(trial, file, at) for at, file in enumerate(files)]
                links = [link_to(trial, file, at) for at, file in enumerate(files)]
                told, wanted, linked = (trial.run(command.called(it), LEFT_ALONE) for it in (files, copies, links))
                trial.expect(f"{command.called(files)}: as with copies", told == wanted, (told, wanted))
                trial.expect(f"{command.called(files)}: as by other names", linked == wanted, (linked, wanted))


def copy_of(trial: Trial, name: str, at: int) -> str:
    copied = f"{at}-copy-of-{name}"
    shutil.copy(trial.folder / name, trial.folder / copied)
    return copied


def link_to(trial: Trial, name: str, at: int) -> str:
    link = trial.folder / f"{at}-link-to-{name}"
    link.unlink(missing_ok=True)
    link.symlink_to(name) if at % 2 else os.link(trial.folder / name, link)
    return link.name


def try_input_as_file(trial: Trial) -> None:
    """The input as a file: a pipe is read once, whatever is read from it the second time is empty."""
    for words, given, wanted in ((["valid", "/dev/stdin", "doc", "draft.xml"], GUIDE, (1, b"invalid 0\n")),
                                 (["check", "guide.dtd", "doc", "/dev/stdin"], b"<doc>Hello</doc>", (0, b"possible 1\n")),
                                 (["verify", "guide.dtd", "doc", "draft.xml", "/dev/stdin"], PACK, (0, b"accepted 1\n")),
                                 (["valid", "/dev/stdin", "doc", "/dev/stdin"], GUIDE, (7, b"document syntax 0\n")),
                                 (["session", "guide.dtd", "doc", "/dev/stdin"], b"<doc>Hello</doc>", (0, b""))):
        ran = subprocess.run([trial.program, *words], cwd=trial.folder, input=given, capture_output=True, timeout=PATIENCE)
        trial.expect(f"{words}, by a pipe", (ran.returncode, ran.stdout, ran.stderr) == (*wanted, b""), ran)


def main() -> int:
    with tempfile.TemporaryDirectory(prefix="pvtag-inputs-") as folder:
        trial = Trial(os.path.abspath(sys.argv[1]), folder)
        for part in (try_open_inputs, try_missing_files, try_files_twice, try_input_as_file):
            part(trial)
    return trial.ended()


if __name__ == "__main__":
    sys.exit(main())
