"""Where the kit keeps what passed on this machine, and where its runs can work beside that."""
import os
import subprocess
import tempfile
from pathlib import Path

from scratch import scratch


def kept_by_kit() -> Path | None:
    """The folder beside the kit in which `rt ci` keeps what passed on this machine, where there is a kit."""
    page = subprocess.run(["rt", "doc"], stdin=subprocess.DEVNULL, capture_output=True, text=True, check=False).stdout.strip()
    return Path(page).resolve().parent.parent / "rattle-kept" if page else None


def place_beside(kept: Path | None) -> Path | None:
    """A folder of temporary files, if there is one, into which what is kept can be linked. A run of a crate has the libraries below it there, up to some
    gigabytes: in a folder of memory or on another disk, as copies."""
    places = dict.fromkeys((Path(tempfile.gettempdir()), Path("/var/tmp")))
    return next((place for place in places if kept and can_link(kept, place)), None)


def can_link(kept: Path, place: Path) -> bool:
    try:
        kept.mkdir(mode=0o700, exist_ok=True)
        # The kit removes what is left under such a name.
        with tempfile.NamedTemporaryFile(prefix=f"rt-new-{os.getpid()}-", dir=kept) as file, scratch(place) as (folder, _):
            os.link(file.name, folder / "link")
    except OSError:
        return False
    return True
