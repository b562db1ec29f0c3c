"""Runs a program, and tells what it took. The measures here share it.

`run` gives processor time, memory at the peak and status, and what was printed where that is asked for. `made` writes a document of
`document.py`. A process begins with the memory of the one that starts it, so where the small program `time` is installed it stands
between, and documents are made by processes of their own.
"""
import os
import signal
import subprocess
import sys
import tempfile
import threading
from typing import NamedTuple

TIME = "/usr/bin/time"
HERE = os.path.dirname(os.path.abspath(__file__))


def program_of(top, name="pvtag"):
    """The built program of the repository, or the one that the variable of its name names: PVTAG or PVLONG."""
    return os.path.abspath(os.environ.get(name.upper(), f"{top}/build/{name}"))


class Ran(NamedTuple):
    """Processor seconds, kilobytes at the peak, the status, negative where a run took too long, and the output, where it was kept."""
    seconds: float
    memory: int
    status: int
    output: bytes = b""


def run(words, given=b"", keep=False, weigh=True, most=600):
    """Runs these words with this input, for at most so many seconds on the clock; the memory is told where it is to be weighed."""
    with tempfile.NamedTemporaryFile() as told, tempfile.TemporaryFile() as script, tempfile.TemporaryFile() as output:
        script.write(given)
        script.seek(0)
        between = [TIME, "-f", "%M", "-o", told.name] if weigh and os.path.exists(TIME) else []
        to = output if keep else subprocess.DEVNULL
        child = subprocess.Popen([*between, *words], stdin=script, stdout=to, stderr=subprocess.DEVNULL, start_new_session=True)
        late = threading.Timer(most, os.killpg, (child.pid, signal.SIGKILL))
        late.start()
        _, status, used = os.wait4(child.pid, 0)
        late.cancel()
        child.returncode = os.waitstatus_to_exitcode(status)
        lines = told.read().split()
        memory = int(lines[-1]) if lines else used.ru_maxrss
        output.seek(0)
        return Ran(used.ru_utime + used.ru_stime, memory, child.returncode, output.read())


def told_time(seconds):
    """The time in its unit, by two or three digits."""
    for unit, size in (("s", 1), ("ms", 1e-3), ("us", 1e-6)):
        if seconds >= size:
            return f"{seconds / size:.{0 if seconds >= 10 * size else 1}f} {unit}"
    return f"{1e9 * seconds:.0f} ns"


def made(kind, size, path):
    """Writes a document of `document.py` of this kind and at least this size to a file, and gives its path."""
    with open(path, "w", encoding="utf-8") as file:
        subprocess.run([sys.executable, f"{HERE}/document.py", kind, str(size)], stdout=file, check=True)
    return path


def written(path, text):
    """Writes a text to a file, and gives its path."""
    with open(path, "w", encoding="utf-8") as file:
        file.write(text)
    return path
