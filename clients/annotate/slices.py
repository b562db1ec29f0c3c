"""Work on the document that takes long: it has the editor's lock for a moment at a time, so that moves come between."""
import time
from collections.abc import Callable, Iterator
from typing import TypeVar

from .editor import Editor
from .runs import Stale

T = TypeVar("T")
# So long the lock is held at a time, and let go between, in seconds; and so often the work is begun anew where the document
# was changed meanwhile.
SLICE, PAUSE, TRIES = 0.05, 0.002, 5


def in_slices(editor: Editor, steps: Callable[[], Iterator[T | None]]) -> tuple[int, list[T]]:
    """What steps give, each of which is short, and the version that it is about; a step may give nothing."""
    for _ in range(TRIES):
        with editor.lock:
            version, left = editor.version, steps()
        found = list[T]()
        while True:
            with editor.lock:
                if editor.version != version:
                    break
                end = time.monotonic() + SLICE
                for each in left:
                    if each is not None:
                        found.append(each)
                    if time.monotonic() > end:
                        break
                else:
                    return version, found
            # A lock that is taken again at once is seldom had by another.
            time.sleep(PAUSE)
    raise Stale
