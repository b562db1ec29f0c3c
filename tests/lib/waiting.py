"""Waiting for what happens at its own time, so that no test fails for a slow or a busy machine alone."""
import os
import time
from collections.abc import Callable
from pathlib import Path
from typing import TypeVar

T = TypeVar("T")

# So many seconds something may take that takes a moment where nothing else runs.
PATIENCE = 900


def until(told: Callable[[], T], seconds: float = PATIENCE) -> T:
    """Waits until this tells something, or nothing for so long, and gives what it told last."""
    end = time.monotonic() + seconds
    while not (now := told()) and time.monotonic() < end:
        time.sleep(0.02)
    return now


# What stands for lxml: who makes a parser notes its number there, and waits.
HANGING_LXML = """import os, time
class etree:
    Resolver = object
    def XMLParser(**_):
        with open({note!r} + ".new", "w") as file:
            file.write(str(os.getpid()))
        os.rename({note!r} + ".new", {note!r})
        time.sleep(600)
"""


def hanging_lxml(folder: Path, note: Path) -> None:
    """Writes such a module into a folder, which is to stand first on Python's path."""
    (folder / "lxml.py").write_text(HANGING_LXML.format(note=os.fspath(note)))


def runs_still(number: int) -> bool:
    """Whether a process runs; one that has ended, and for which nobody has waited yet, doesn't."""
    try:
        return b") Z " not in Path(f"/proc/{number}/stat").read_bytes()
    except OSError:
        return False
