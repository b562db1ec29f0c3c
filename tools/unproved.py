"""Makes a program that isn't proved, in a minute or two, where none is proved and built. Words: its name; behind `--`, the words of one call, which is
then answered by a run of the kit.

The kit's `rt try` compiles a program without its proofs, runs it in a temporary folder, and removes it. Here it is given a pipe in place of a DTD, for
which it waits, and is copied meanwhile to build/NAME.unproved, beside the sum of the sources and the minutes that a build would take. Status 11 says
that it isn't found where it runs. Of two at once the second waits.
"""
import contextlib
import fcntl
import os
import re
import shutil
import subprocess
import sys
import tempfile
import time
from pathlib import Path

sys.dont_write_bytecode = True
from processes import Held, end_all, session_of  # noqa: E402
from progress import Progress  # noqa: E402
from scratch import scratch  # noqa: E402
from sources import TOP, copy, needs, sum_of  # noqa: E402

BUILD = TOP / "build"
# For each program a call that reads a DTD, in whose place the pipe stands: its first word, a root, and how many documents it names.
CALLS = {"pvtag": ("valid", "doc", 1), "pvlong": ("need", "doc", 1), "pvmany": ("valid", "doc", 0)}
# The status of each program without words.
USAGE = 2
NOT_FOUND, FAILED = 11, 10
ENDED = re.compile(rb"^run=ended status=(\d+)[^\n]*\n?\Z", re.MULTILINE)
# A program that its faults end answers nothing.
MAPPED = re.compile(r"^\S+ ..x. \S+ \S+ \S+ +(/.*)$", re.MULTILINE)


class Trouble(Exception):
    """Why there is no program, in a sentence or the last lines of the kit."""


def sum_told(name: str) -> str:
    """The sum of the sources of which the program here was made, or of which none could be taken."""
    told = BUILD / f"{name}.unproved.sum"
    return (told.read_text().split() or [""])[0] if told.is_file() else ""


def put(name: str, program: Path | None, made_from: str, minutes: float, at: float) -> None:
    """Puts the program in place, as one that was made at that time, or only says that none can be taken of these sources."""
    place = BUILD / f"{name}.unproved"
    told, new = place.with_name(f"{place.name}.sum"), place.with_name(f"{place.name}.part")
    for it in (place, told):
        it.unlink(missing_ok=True)
    if program:
        shutil.copyfile(program, new)
        new.chmod(0o755)
        os.utime(new, (at, at))
    told.write_text(f"{made_from} {max(round(minutes), 1)}\n")
    if program:
        new.rename(place)


def waiting(pipe: Path, run: subprocess.Popen[bytes], below: Path) -> Path | None:
    """The file of the program that waits for this pipe, among those below a folder, if a process of this run has begun to. It goes on once it has been
    looked at."""
    try:
        to = os.open(pipe, os.O_WRONLY | os.O_NONBLOCK)
    except OSError:
        return None
    try:
        for pid in session_of(run.pid):
            with contextlib.suppress(OSError):
                mapped = MAPPED.findall(Path(f"/proc/{pid}/maps").read_text())
                found = next((Path(it) for it in mapped if Path(it).is_relative_to(below)), None)
                if found:
                    copied = below.with_name("program")
                    shutil.copyfile(found, copied)
                    copied.chmod(0o700)
                    return copied
    finally:
        os.close(to)
    return None


def works(program: Path) -> bool:
    """Whether it runs by itself, out of the kit's hands."""
    try:
        run = subprocess.run([program], stdin=subprocess.DEVNULL, stdout=subprocess.DEVNULL, stderr=subprocess.DEVNULL, timeout=60, check=False)
    except (OSError, subprocess.SubprocessError):
        return False
    return run.returncode == USAGE


def make(name: str, held: Held) -> bool:
    """Makes it of a copy of the sources; whether it could be taken."""
    began, crates = time.time(), needs(name)
    print(f"{name}: nothing is built yet; a program without proofs is made first, in a minute or two", file=sys.stderr)
    with scratch() as (folder, lock):
        room, pipe, said, temporary = (folder / it for it in ("room", "dtd", "said", "temporary"))
        copy(crates, room)
        temporary.mkdir()
        os.mkfifo(pipe)
        verb, root, documents = CALLS[name]
        words = ["rt", "try", "--", verb, str(pipe), root, *[str(pipe)] * documents]
        with held.hold(), said.open("wb") as log:
            run = subprocess.Popen(words, cwd=room / "crates" / name, env={**os.environ, "TMPDIR": str(temporary)}, stdin=subprocess.DEVNULL, stdout=log,
                                   stderr=log, start_new_session=True, pass_fds=[lock])
        program = None
        try:
            while not program and run.poll() is None:
                time.sleep(0.05)
                program = waiting(pipe, run, temporary)
        finally:
            with held.hold():
                end_all(run)
        if not program and not ENDED.search(said.read_bytes()):
            raise Trouble("\n".join(said.read_text(errors="replace").splitlines()[-20:]))
        is_found = program is not None and works(program)
        put(name, program if is_found else None, sum_of(crates, room), Progress(name, crates).minutes_left(), began)
        return is_found


def make_alone(name: str, held: Held) -> bool:
    """Makes it where nobody does, and where it isn't there of the sources as they are."""
    BUILD.mkdir(exist_ok=True)
    with (BUILD / "unproved.lock").open("w") as lock:
        try:
            fcntl.flock(lock, fcntl.LOCK_EX | fcntl.LOCK_NB)
        except BlockingIOError:
            print(f"{name}: waiting for a program that is being made", file=sys.stderr)
            fcntl.flock(lock, fcntl.LOCK_EX)
        began = time.time()
        if sum_told(name) != sum_of(needs(name)):
            return make(name, held)
        program = BUILD / f"{name}.unproved"
        if program.is_file():
            # A file was touched, and none has changed.
            os.utime(program, (began, began))
        return program.is_file()


def answer(name: str, words: list[str]) -> int:
    """One call, by a run of the kit, which compiles the program for it. A file is handed over under the name by which the words name it, where a name
    below a folder will do, else under a name of its own."""
    data, told = [], []
    for number, word in enumerate(words):
        if os.path.isfile(word):
            is_below = not os.path.isabs(word) and ".." not in Path(word).parts
            at = word if is_below else f"{number}-{os.path.basename(word)}"
            data += ["--data", f"{at}={os.path.realpath(word)}"]
            word = at
        told.append(word)
    print(f"{name}: not proved yet; a run without proofs answers, in a minute or two", file=sys.stderr)
    with tempfile.TemporaryFile() as said:
        run = subprocess.Popen(["rt", "try", *data, "--", *told], cwd=TOP / "crates" / name, stderr=said)
        run.wait()
        said.seek(0)
        lines = said.read()
    ended = ENDED.search(lines)
    if not ended:
        raise Trouble(lines.decode(errors="replace").strip())
    return int(ended[1])


def main(words: list[str]) -> int:
    sys.stderr = sys.stderr or open(os.devnull, "w")  # pylint: disable=consider-using-with
    name = words[0] if words else ""
    if name not in CALLS or words[1:2] not in ([], ["--"]):
        print("usage: tools/unproved.py pvtag|pvlong|pvmany [-- WORDS]", file=sys.stderr)
        return USAGE
    try:
        if not shutil.which("rt"):
            raise Trouble("the program isn't built, and there is no `rt` on the path to make it with")
        if words[1:]:
            return answer(name, words[2:])
        return 0 if make_alone(name, Held()) else NOT_FOUND
    except (Trouble, OSError) as error:
        print(f"{name}: {error}", file=sys.stderr)
        return FAILED


if __name__ == "__main__":
    sys.exit(main(sys.argv[1:]))
