"""The program `pvtag`: where it is, one run of it, and the files that it is given."""
import argparse
import contextlib
import os
import re
import resource
import select
import shutil
import subprocess
import sys
import threading
from collections.abc import Callable, Iterator, Mapping, Sequence
from typing import IO, Any, NamedTuple

# What other tools may use; each has an example.
__all__ = ("Trouble", "Answer", "find", "run", "read_file", "shown_name", "file_of")

HERE = os.path.dirname(os.path.realpath(__file__))
TOP = os.path.dirname(os.path.dirname(HERE))
# The repository's script, where the program is once it is proved and built, and what is added to that until then: the
# script makes one without proofs first, in a minute or two, and runs that.
SCRIPT, BUILT = os.path.join(TOP, "pvtag"), os.path.join(TOP, "build", "pvtag")
UNPROVED = ".unproved"
# The most milliseconds that can be waited for at once.
MOST_MOMENTS = 2**31 - 1
# What runs the program where the package is installed.
PACKAGED = os.path.join(os.path.dirname(os.path.dirname(TOP)), "bin", "pvtag")
# Script and built program of `pvlong`.
LONG_SCRIPT, LONG_BUILT = os.path.join(TOP, "pvlong"), os.path.join(TOP, "build", "pvlong")


# Control characters, and those that order a line anew or end it: they would act on a terminal or a page.
CONTROLS = "\x00-\x1f\x7f-\x9f\u061c\u200e\u200f\u2028-\u202e\u2066-\u2069"
CONTROL = re.compile(f"[{CONTROLS}]")

# How a process is begun. A client whose processes end with it, also when it is killed, puts another here.
popen: "Callable[..., subprocess.Popen[bytes]]" = subprocess.Popen


class Trouble(Exception):
    """What a user has to be told, in a sentence.

    >>> read_file("none.xml")
    Traceback (most recent call last):
        ...
    pvtag.program.Trouble: none.xml: No such file or directory
    """


class Stopped(Exception):
    """All runs of the program have been ended, and no other begins."""


class Answer(NamedTuple):
    """How a run ended: its status, and what it wrote; of a tool on the error output, too.

    >>> answer = run(find(), "check", "examples/letter.dtd", "letter", "examples/letter-swapped.xml")
    >>> answer.status, answer.line
    (1, 'impossible 0')
    """

    status: int
    output: bytes
    errors: bytes = b""

    @property
    def line(self) -> str:
        """The first line, without its LF."""
        return self.output.partition(b"\n")[0].decode(errors="replace")


def find(told: str | None = None, builds: bool = True) -> list[str]:
    """The words that begin the program: the file that is told; else `pvtag` beside the client or the link by which it
    was called, in the repository, or on the path. Where the repository has none yet, its script makes it here, unless the
    caller can't wait for that.

    >>> run(find(), "valid", "examples/letter.dtd", "letter", "examples/letter.xml").line
    'valid'
    """
    if resource.getrlimit(resource.RLIMIT_AS)[0] != resource.RLIM_INFINITY:
        # As the repository's script does: threads then share what the C library would set aside for each.
        os.environ.setdefault("MALLOC_ARENA_MAX", "1")
    if told is not None:
        return [told]
    called = os.path.abspath(sys.argv[0]), os.path.realpath(sys.argv[0])
    beside = [os.path.join(os.path.dirname(name), "pvtag") for name in called]
    for file in (*beside, BUILT, SCRIPT, shutil.which("pvtag")):
        if file is None or not os.path.isfile(file) or not os.access(file, os.X_OK):
            continue
        if os.path.realpath(file) == PACKAGED and os.access(BUILT, os.X_OK):
            return [BUILT]
        if os.path.realpath(file) != SCRIPT:
            return [file]
        if builds or is_made(BUILT):
            return [made()]
    hint = f"run {SCRIPT} once, which makes it" if os.path.isfile(SCRIPT) else "--program says where it is"
    raise Trouble(f"the program pvtag isn't found; {hint}")


def is_made(built: str) -> bool:
    """Whether there is one without proofs, which may be run."""
    return os.access(built + UNPROVED, os.X_OK) and not os.environ.get("PVTAG_PROVED")


def made() -> str:
    """The program, which the repository's script makes first, for the smallest drill. As long as it isn't proved the script
    says so, here once, and is what is run."""
    if run([SCRIPT, "drill", "1"]).status:
        raise Trouble("the program pvtag couldn't be made")
    os.environ["PVTAG_TOLD"] = "1"
    return BUILT if os.access(BUILT, os.X_OK) else SCRIPT


def find_long(program: list[str]) -> list[str] | None:
    """The words that begin `pvlong`: beside this `pvtag`, in the repository, or on the path; none where there is none that
    has been built."""
    told = shutil.which(program[-1]) or program[-1]
    beside = [os.path.join(os.path.dirname(name), "pvlong") for name in (os.path.abspath(told), os.path.realpath(told))]
    for file in (*beside, LONG_BUILT, shutil.which("pvlong")):
        # The repository's script would build it, which takes too long for somebody who waits.
        if file is not None and os.path.realpath(file) != LONG_SCRIPT and os.path.isfile(file) and os.access(file, os.X_OK):
            return [file]
    return [LONG_SCRIPT] if is_made(LONG_BUILT) else None


def add_option(reader: argparse.ArgumentParser) -> None:
    """The option by which a user tells the program."""
    reader.add_argument("--program", metavar="FILE", help="the program pvtag, where it isn't found by itself")


@contextlib.contextmanager
def handed_over(words: Sequence[str]) -> Iterator[tuple[list[str], list[int]]]:
    """Words as the program takes them, which are UTF-8: a file of another name is open meanwhile, and to be handed over."""
    made, files = list(words), list[int]()
    try:
        for at, word in enumerate(words):
            if at and not is_utf_8(word) and os.path.exists(word):
                files.append(os.open(word, os.O_RDONLY))
                made[at] = f"/proc/self/fd/{files[-1]}"
        yield made, files
    finally:
        for file in files:
            os.close(file)


def is_utf_8(name: str) -> bool:
    """Whether the program takes a word."""
    return name.isascii() or not any("\udc80" <= char <= "\udcff" for char in name)


def uninterrupted(begin: "Callable[[], subprocess.Popen[bytes]]") -> "subprocess.Popen[bytes]":
    """The process that this begins, which no signal stops half way: handlers of signals run in the main thread, and there
    another one begins it. Where a handler raises meanwhile, the process is killed."""
    if threading.current_thread() is not threading.main_thread():
        return begin()
    begun, faults, over = list["subprocess.Popen[bytes]"](), list[BaseException](), threading.Event()

    def work() -> None:
        try:
            begun.append(begin())
        except BaseException as fault:  # pylint: disable=broad-except
            faults.append(fault)
        over.set()

    try:
        threading.Thread(target=work).start()
        over.wait()
    except BaseException:
        # It may have been raised while the other thread began.
        over.wait(5)
        for it in begun:
            it.kill()
        raise
    if faults:
        raise faults[0]
    return begun[0]


class Running:
    """The runs of the program that haven't ended yet, of all threads. Each may take so many seconds, where that is told."""

    def __init__(self, most: float | None = None) -> None:
        self.lock, self.runs, self.stopped = threading.Lock(), set[subprocess.Popen[bytes]](), False
        self.most = most

    def begin(self, words: list[str], files: Sequence[int], env: Mapping[str, str] | None = None) -> subprocess.Popen[bytes]:
        """Begins one, unless all have been ended."""
        try:
            with handed_over(words) as (given, more):
                return self.start(given, pass_fds=[*files, *more], env=env)
        except OSError as fault:
            raise Trouble(f"{words[0]} can't be run: {fault.strerror}") from None

    def start(self, words: list[str], **how: Any) -> subprocess.Popen[bytes]:
        """Begins it by these words as they are."""
        def begin() -> subprocess.Popen[bytes]:
            with self.lock:
                if self.stopped:
                    raise Stopped
                begun = popen(words, stdin=subprocess.PIPE, stdout=subprocess.PIPE, start_new_session=True, **how)
                self.runs.add(begun)
                return begun

        return uninterrupted(begin)

    def stop(self) -> None:
        """Ends all; no other begins."""
        with self.lock:
            self.stopped = True
            for begun in self.runs:
                begun.kill()


RUNNING = Running()


def run(program: list[str], *words: str, given: bytes = b"", files: Sequence[int] = (), most: float | None = None,
        runs: Running = RUNNING, env: Mapping[str, str] | None = None) -> Answer:
    r"""Runs one command to its end, or for at most so many seconds: past them the status is -1. `given` is its input,
    `files` are handed over open; it ends with these `runs`. A run that takes longer than these allow is a trouble. `env`
    is its environment, that of the caller if there is none.

    >>> run(find(), "check", "examples/letter.dtd", "letter", "examples/letter-draft.xml").output
    b'possible 1\n'
    >>> run(find(), "session", "examples/letter.dtd", "letter", "examples/letter-draft.xml", given=b"need\n").line
    'need 1'
    """
    return ended(runs.begin([*program, *words], files, env), words, given, most, runs)


def run_tool(*words: str, runs: Running = RUNNING) -> Answer:
    """Runs a command other than the program, with names of any bytes. It raises `OSError` if there is no such command."""
    return ended(runs.start(list(words), stderr=subprocess.PIPE), words, b"", None, runs)


def ended(begun: subprocess.Popen[bytes], words: Sequence[str], given: bytes, most: float | None, runs: Running) -> Answer:
    """What a run comes to, which ends with these runs."""
    try:
        output, errors = begun.communicate(given, timeout=runs.most if most is None else most)
    except BaseException as fault:
        begun.kill()
        begun.communicate()
        if isinstance(fault, subprocess.TimeoutExpired):
            if most is None:
                raise Trouble(took_too_long(words, runs.most)) from None
            return Answer(-1, b"")
        raise
    finally:
        with runs.lock:
            runs.runs.discard(begun)
    if runs.stopped:
        raise Stopped
    return Answer(begun.returncode, output, errors or b"")


def is_ready(pipe: IO[bytes], seconds: float) -> bool:
    """Whether something can be read from a pipe, or its end, within so many seconds; its descriptor may have any number."""
    waiting = select.poll()
    waiting.register(pipe, select.POLLIN)
    return bool(waiting.poll(min(max(seconds, 0) * 1000, MOST_MOMENTS)))


def identity(seen: os.stat_result) -> tuple[int, ...]:
    """What differs once a file has changed, or another has taken its name."""
    return seen.st_dev, seen.st_ino, seen.st_size, seen.st_mtime_ns, seen.st_ctime_ns


def seen_of(path: str) -> tuple[int, ...] | None:
    """The identity of the file of this name, if there is one."""
    try:
        return identity(os.stat(path))
    except OSError:
        return None


def took_too_long(words: Sequence[str], most: float | None) -> str:
    return f"the program takes more than {most:g} seconds for {words[0]}"


def read_file(path: str) -> bytes:
    """A file's bytes, or a trouble that names it.

    >>> read_file("examples/markup.txt")[:11]
    b'split 0.0 1'
    """
    try:
        with open(path, "rb") as file:
            return file.read()
    except OSError as fault:
        raise Trouble(f"{shown_name(path)}: {fault.strerror}") from None


def shown_name(path: str) -> str:
    r"""A file's name as it may be printed, also where it isn't UTF-8, or has characters that would act on a terminal.

    >>> print(shown_name("red\x1b[31m.xml"))
    red\u001b[31m.xml
    """
    return CONTROL.sub(lambda found: f"\\u{ord(found[0]):04x}", os.fsencode(path).decode(errors="replace"))


@contextlib.contextmanager
def on_disk(data: bytes, suffix: str) -> Iterator[str]:
    """The path of a temporary file with these bytes."""
    from tempfile import mkstemp
    number, path = mkstemp(prefix="pvtag.", suffix=suffix)
    try:
        with os.fdopen(number, "wb") as file:
            file.write(data)
        yield path
    finally:
        os.unlink(path)


# How bytes are held for the program. A client that writes nothing to a disk puts another here.
hold: "Callable[[bytes, str], contextlib.AbstractContextManager[str]]" = on_disk


def file_of(data: bytes, suffix: str = ".xml") -> "contextlib.AbstractContextManager[str]":
    """A file with these bytes, for as long as it is wanted; its path.

    >>> with file_of(b"<p>Anna</p>") as path:
    ...     run(find(), "valid", "examples/letter.dtd", "p", path).line
    'valid'
    """
    return hold(data, suffix)
