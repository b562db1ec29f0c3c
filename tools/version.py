"""The version of the package, of programs and library alike: the date of the commit, how many there are up to it, and its name. It grows with them."""
import subprocess
import time
from pathlib import Path

TOP = Path(__file__).resolve().parent.parent


class Unknown(Exception):
    """Why there is no version, in a sentence."""


def said(*words: str) -> str:
    """What git prints."""
    try:
        told = subprocess.run(["git", *words], cwd=TOP, check=True, capture_output=True, encoding="utf-8")
    except (OSError, subprocess.CalledProcessError):
        raise Unknown("git tells nothing of these sources") from None
    return told.stdout.strip()


def version_of(committed: int | None = None) -> str:
    """The version of the commit that is checked out, whose time may be known."""
    if said("rev-parse", "--show-toplevel") != str(TOP):
        raise Unknown("these sources are no checkout of their own")
    if said("rev-parse", "--is-shallow-repository") == "true":
        raise Unknown("a shallow clone doesn't have all commits, whose number the version tells: `git fetch --unshallow` gets them")
    when = int(said("log", "-1", "--format=%ct")) if committed is None else committed
    date = time.strftime("%Y.%m.%d", time.gmtime(when))
    return f"{date}+{said('rev-list', '--count', 'HEAD')}.g{said('rev-parse', '--short=10', 'HEAD')}"
