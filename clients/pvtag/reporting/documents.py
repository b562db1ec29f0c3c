"""Which documents are meant: files and folders that are named, or a list on the standard input."""
import os
import stat
from collections.abc import Iterator, Sequence


def listed(names: Sequence[str], suffixes: Sequence[str]) -> list[str]:
    """The documents, each once: files as they are named, and for a folder the files below it that end so, in the order of their names."""
    found: dict[str, None] = {}
    for name in names:
        found.update(dict.fromkeys(below(name, tuple(suffixes)) if is_folder(name) else [name]))
    return list(found)


def is_folder(path: str) -> bool:
    try:
        return stat.S_ISDIR(os.stat(path).st_mode)
    except (OSError, ValueError):
        return False


def below(folder: str, suffixes: tuple[str, ...]) -> Iterator[str]:
    """The files below a folder whose names end so, and then the folders that can't be read. Links to folders aren't followed, so that no way goes
    in a circle."""
    unread: list[str] = []
    for at, folders, files in os.walk(folder, onerror=lambda fault: unread.append(fault.filename)):
        folders.sort()
        yield from (os.path.join(at, name) for name in sorted(files) if name.endswith(suffixes))
    yield from unread


def names_in(data: bytes) -> list[str]:
    """The names of a list, each ended by the byte 0, as `find -print0` writes it."""
    return [os.fsdecode(name) for name in data.split(b"\0") if name]
