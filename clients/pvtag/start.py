"""How a command begins and ends. It is what commands import first: their other modules are loaded while Ctrl-C ends them
without a word.

Statuses are those of the program: 0 and 1 with an answer, and otherwise a sentence on the error output, with the
program's status where it refused a file, 3 where it wasn't asked, and 4 where the output can't be written.
"""
import fcntl
import os
import signal
import sys
from collections.abc import Callable
from typing import NoReturn

ENDING = (signal.SIGTERM, signal.SIGHUP)
# An ignored one stays so.
IS_HEARD = signal.getsignal(signal.SIGINT) is signal.default_int_handler
if IS_HEARD:
    signal.signal(signal.SIGINT, lambda *_: os._exit(130))


def begin() -> bool:
    """Has Ctrl-C raise `KeyboardInterrupt` from now on, and what else ends a command raise too, so that runs end and
    files go; and puts a device in the place of each standard stream that is closed, so that no file takes its number.
    Whether the standard output is closed: then writing to it fails."""
    if IS_HEARD:
        signal.signal(signal.SIGINT, signal.default_int_handler)
    for ending in ENDING:
        if signal.getsignal(ending) is signal.SIG_DFL:
            signal.signal(ending, ended)
    closed = [number for number in range(3) if not is_open(number)]
    for number in closed:
        device = os.open(os.devnull, os.O_WRONLY if number == 2 else os.O_RDONLY)
        os.dup2(device, number)
        os.set_inheritable(number, True)
        if device != number:
            os.close(device)
    if 1 in closed:
        sys.stdout = open(1, "w", encoding="utf-8", closefd=False)
    if 2 in closed:
        sys.stderr = open(2, "w", encoding="utf-8", closefd=False)
    return 1 in closed


def ended(number: int, _: object) -> NoReturn:
    """Ends a command by a signal, once: what ends then isn't disturbed."""
    for other in ENDING:
        signal.signal(other, signal.SIG_IGN)
    sys.exit(128 + number)


def is_open(number: int) -> bool:
    """Whether a stream is there. What began the command may have taken its number, to read the command."""
    try:
        mode = fcntl.fcntl(number, fcntl.F_GETFL) & os.O_ACCMODE
    except OSError:
        return False
    return number == 0 or mode != os.O_RDONLY


def run_command(work: Callable[[], int]) -> NoReturn:
    """Does a command's work, which gives its status, and ends."""
    from .faults import Refusal
    from .program import RUNNING, Trouble, shown_name
    is_closed = False
    try:
        is_closed = begin()
        status = work()
        sys.stdout.flush()
    except Refusal as refusal:
        status = said(str(refusal), refusal.fault.status)
    except Trouble as trouble:
        status = said(str(trouble), 3)
    except OSError as fault:
        # What is left to be written is dropped, so that the end of the process doesn't try again.
        os.dup2(os.open(os.devnull, os.O_WRONLY), 1)
        file = "" if fault.filename is None else f"{shown_name(fault.filename)}: "
        sentence = "the standard output is closed" if is_closed and not file else f"{file}{fault.strerror}"
        status = 4 if isinstance(fault, BrokenPipeError) else said(sentence, 4)
    except KeyboardInterrupt:
        status = 130
    finally:
        RUNNING.stop()
    sys.exit(status)


def said(sentence: str, status: int) -> int:
    """Says it on the error output; the status."""
    print(f"{os.path.basename(sys.argv[0])}: {sentence}", file=sys.stderr)
    return status
