"""Folders that are there for the time of a build, and what one that was ended has left of them."""
import contextlib
import fcntl
import os
import shutil
import tempfile
import time
from collections.abc import Iterator
from pathlib import Path

PREFIX, NEW = "pvtag-held-", "pvtag-new-held-"
# A folder under its first name gets a lock and its own name in a moment; after so many seconds nobody is at it.
MOMENT = 600


@contextlib.contextmanager
def scratch(place: Path | None = None) -> Iterator[tuple[Path, int]]:
    """A folder in this place, or among the temporary files, and its lock, which whoever is started for it may be given too: as long as one of them is
    there the folder stays. Those that others have left go first."""
    place = place or Path(tempfile.gettempdir())
    remove_left(place)
    new = Path(tempfile.mkdtemp(prefix=NEW, dir=place))
    lock = os.open(new, os.O_RDONLY)
    folder = new.with_name(PREFIX + new.name.removeprefix(NEW))
    try:
        fcntl.flock(lock, fcntl.LOCK_EX)
        new.rename(folder)
        yield folder, lock
    finally:
        for it in (new, folder):
            shutil.rmtree(it, ignore_errors=True)
        os.close(lock)


def remove_left(place: Path) -> None:
    """Removes the folders of this user here that nobody holds."""
    for folder in [*place.glob(f"{PREFIX}*"), *place.glob(f"{NEW}*")]:
        with contextlib.suppress(OSError):
            lock = os.open(folder, os.O_RDONLY | os.O_DIRECTORY | os.O_NOFOLLOW)
            try:
                state = os.fstat(lock)
                if state.st_uid != os.geteuid() or folder.name.startswith(NEW) and time.time() - state.st_mtime < MOMENT:
                    continue
                fcntl.flock(lock, fcntl.LOCK_EX | fcntl.LOCK_NB)
                shutil.rmtree(folder, ignore_errors=True)
            finally:
                os.close(lock)
