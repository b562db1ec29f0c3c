"""The files beside a document, and the document itself: read where they are files, written beside and renamed, with the
mode, the owner and the extended attributes of what stood there.
"""
import contextlib
import errno
import fcntl
import os
import stat
import tempfile
import time
from collections.abc import Iterator

from pvtag.program import Trouble, shown_name

# What a file that is being written is called.
BESIDE = ".annotate."
KINDS = ((stat.S_ISDIR, "a folder"), (stat.S_ISFIFO, "a pipe"), (stat.S_ISSOCK, "a socket"), (stat.S_ISCHR, "a device"),
         (stat.S_ISBLK, "a device"))


class Kept(Exception):
    """What of a file another one can't have."""


def check_file(path: str, mode: int) -> None:
    """Refuses what is no file: a pipe would be waited for."""
    if not stat.S_ISREG(mode):
        kind = next((name for is_it, name in KINDS if is_it(mode)), "something else")
        raise Trouble(f"{shown_name(path)} is {kind}, and no file")


def opened(path: str, flags: int, mode: int = 0o600) -> int:
    """A file that is opened, whatever stands there: nothing is waited for."""
    try:
        number = os.open(path, flags | os.O_NONBLOCK | os.O_CLOEXEC, mode)
    except OSError as fault:
        if fault.errno in (errno.ENXIO, errno.EISDIR):
            check_file(path, os.stat(path).st_mode)
        raise
    try:
        check_file(path, os.fstat(number).st_mode)
    except BaseException:
        os.close(number)
        raise
    return number


def read(path: str) -> bytes | None:
    """A file's bytes; none where it doesn't exist."""
    try:
        with os.fdopen(opened(path, os.O_RDONLY), "rb") as file:
            return file.read()
    except FileNotFoundError:
        return None


@contextlib.contextmanager
def written_beside(path: str, source: bytes, like: str | None, is_strict: bool) -> Iterator[str]:
    """A file with these bytes that is to be renamed, in the folder of this one; it is removed where it wasn't."""
    number, beside = tempfile.mkstemp(prefix=BESIDE, dir=os.path.dirname(path))
    try:
        with os.fdopen(number, "wb") as file:
            file.write(source)
            file.flush()
            if like is not None:
                dress(file.fileno(), like, is_strict)
            os.fsync(file.fileno())
        yield beside
    finally:
        with contextlib.suppress(OSError):
            os.unlink(beside)
    sync_folder(os.path.dirname(path))


def put_file(path: str, source: bytes, like: str | None = None, is_new: bool = False) -> None:
    """Writes a file beside this one and renames it, so that either the old or the whole new one is there. It is dressed
    as `like`. One that `is_new` takes the place of no other."""
    with written_beside(path, source, like, False) as beside:
        if is_new:
            put_new(beside, path)
        else:
            os.replace(beside, path)


def put_new(beside: str, path: str) -> None:
    """Renames a file, but over no other."""
    try:
        os.link(beside, path)
    except OSError as fault:
        if fault.errno not in (errno.EPERM, errno.ENOTSUP, errno.EMLINK):
            raise
        if os.path.lexists(path):
            raise FileExistsError(errno.EEXIST, os.strerror(errno.EEXIST), path) from None
        os.rename(beside, path)


def dress(number: int, like: str, is_strict: bool) -> None:
    """Gives an open file the owner, the mode and the extended attributes of another; as far as that goes, or not at all
    where `is_strict`."""
    there, own, lost = os.stat(like), os.fstat(number), []
    if (there.st_uid, there.st_gid) != (own.st_uid, own.st_gid):
        try:
            os.fchown(number, there.st_uid, there.st_gid)
        except OSError:
            lost.append("its owner")
    os.fchmod(number, stat.S_IMODE(there.st_mode))
    lost += [f"its attribute {name}" for name in attributes_of(like) if not has_attribute(number, like, name)]
    if lost and is_strict:
        raise Kept(" and ".join(lost))


def attributes_of(path: str) -> list[str]:
    """The names of a file's extended attributes."""
    try:
        return os.listxattr(path)
    except OSError:
        return []


def has_attribute(number: int, like: str, name: str) -> bool:
    """Gives an open file an extended attribute of another; whether it has it then."""
    try:
        value = os.getxattr(like, name)
        with contextlib.suppress(OSError):
            os.setxattr(number, name, value)
        return os.getxattr(number, name) == value
    except OSError:
        return False


def write_into(path: str, source: bytes) -> None:
    """Writes these bytes into the file that is there; where that fails, it has its own again."""
    number = opened(path, os.O_RDWR)
    try:
        own = os.pread(number, os.fstat(number).st_size, 0)
        try:
            write_over(number, source)
        except BaseException:
            write_over(number, own)
            raise
    finally:
        os.close(number)


def write_over(number: int, source: bytes) -> None:
    """Writes these bytes over those of an open file, which is cut only then: what it has of the disk stays its own."""
    rest, at = memoryview(source), 0
    while rest:
        size = os.pwrite(number, rest, at)
        rest, at = rest[size:], at + size
    os.ftruncate(number, len(source))
    os.fsync(number)


def sync_folder(folder: str) -> None:
    """Waits until a folder's names are on the disk, where it may be opened and can do that."""
    try:
        number = os.open(folder, os.O_RDONLY)
    except PermissionError:
        return
    try:
        os.fsync(number)
    except OSError as fault:
        if fault.errno not in (errno.EINVAL, errno.ENOTSUP, errno.EROFS, errno.EBADF):
            raise
    finally:
        os.close(number)


def locked(path: str, like: str) -> int:
    """A file that is opened for this program alone, to be read and appended to; made where there is none, and never open
    to more than `like`."""
    while True:
        number = opened_or_made(path, like)
        try:
            lock_alone(number)
            # Another program that ends may have taken it away meanwhile.
            with contextlib.suppress(FileNotFoundError):
                if os.path.samestat(os.fstat(number), os.stat(path)):
                    return number
        except BaseException:
            os.close(number)
            raise
        os.close(number)


# A list of documents looks who has one, and has its script for a moment: so often, and so long, it is waited for.
TRIES, PAUSE = 5, 0.02


def lock_alone(number: int) -> None:
    """Has an open file for this program alone; where another has it, that is a `BlockingIOError`."""
    for left in reversed(range(TRIES)):
        try:
            return fcntl.flock(number, fcntl.LOCK_EX | fcntl.LOCK_NB)
        except BlockingIOError:
            if not left:
                raise
            time.sleep(PAUSE)


def opened_or_made(path: str, like: str) -> int:
    try:
        number = opened(path, os.O_RDWR | os.O_APPEND)
    except FileNotFoundError:
        if os.path.islink(path):
            raise Trouble(f"{shown_name(path)} is a link to what isn't there; remove it") from None
        try:
            number = opened(path, os.O_RDWR | os.O_APPEND | os.O_CREAT | os.O_EXCL)
        except FileExistsError:
            return opened_or_made(path, like)
        dress(number, like, False)
        return number
    own, most = stat.S_IMODE(os.fstat(number).st_mode), stat.S_IMODE(os.stat(like).st_mode)
    if own & ~most:
        with contextlib.suppress(OSError):
            os.fchmod(number, own & most)
    return number


def made_beside(path: str, like: str) -> tuple[int, str]:
    """A new file in the same folder, for this program alone, and its path."""
    number, beside = tempfile.mkstemp(prefix=BESIDE, dir=os.path.dirname(path))
    os.close(number)
    number = opened(beside, os.O_RDWR | os.O_APPEND)
    fcntl.flock(number, fcntl.LOCK_EX | fcntl.LOCK_NB)
    dress(number, like, False)
    return number, beside
