"""Work that may be ended from another thread: its sessions and other runs are ended with it."""
import contextlib
import threading
from collections.abc import Callable, Iterator, Sequence
from concurrent.futures import Future
from typing import Any

from . import memory
from .grammar import Grammar, List, Plain
from pvtag import long
from pvtag.long import Checked, Counted, Inserted
from pvtag.program import RUNNING, Running, Stopped, Trouble, took_too_long
from pvtag.reasons import Reason
from pvtag.session import Ended, Session
from pvtag.tries import Kid


# The most seconds for a session, where no others are told.
LONGEST = 600.0


class Cancelled(Exception):
    """The work was ended."""


class Work:
    """What is done for a request, or for the diagnostics of a text."""

    def __init__(self) -> None:
        self.lock, self.is_over = threading.Lock(), False
        self.sessions: list[Session] = []
        self.waits: list[threading.Event] = []
        self.runs = Running(RUNNING.most)
        # What answers a request by it, which may have to wait for others.
        self.queued: Future[None] | None = None

    def cancel(self) -> None:
        with self.lock:
            self.is_over = True
            for session in self.sessions:
                session.process.kill()
            for wait in self.waits:
                wait.set()
        self.runs.stop()

    def check(self) -> None:
        if self.is_over:
            raise Cancelled

    def aside(self, act: Callable[[], None]) -> None:
        """Does what can't be ended in a thread of its own. Work that is ended doesn't wait for it."""
        done, faults = threading.Event(), list[Exception]()

        def run() -> None:
            try:
                act()
            except Exception as fault:
                faults.append(fault)
            done.set()

        self.wait(done, lambda: threading.Thread(target=run, daemon=True).start())
        for fault in faults:
            # What is raised refers to what was done, which isn't to be kept by it.
            faults.clear()
            try:
                raise fault
            finally:
                del fault

    def wait(self, done: threading.Event, begin: Callable[[], None]) -> None:
        """Begins what sets this, and waits for that or for the work's end."""
        with self.lock:
            self.waits.append(done)
        self.check()
        begin()
        done.wait()
        with self.lock:
            self.waits.remove(done)
        self.check()

    def wait_for(self, future: Future[Any]) -> None:
        """Waits for a DTD that is being read, or its attributes."""
        if not future.done():
            done = threading.Event()
            self.wait(done, lambda: future.add_done_callback(lambda _: done.set()))

    def find_reasons(self, grammar: Grammar, lists: Sequence[List]) -> None:
        """Finds why these lists are impossible, in runs that end with this work."""
        try:
            grammar.find_reasons(lists, self.runs)
        except Stopped:
            raise Cancelled from None

    def reason(self, grammar: Grammar, path: str, owner: str, kids: Sequence[Kid]) -> Reason | None:
        self.find_reasons(grammar, [(path, owner, kids)])
        return grammar.known_reason(path, owner, kids)

    # Where a list of a document is too wide for a session.
    def check_wide(self, plain: Plain, root: str, data: bytes) -> Checked | None:
        """What can become of the document."""
        with self.file_of(data) as path:
            return long.check(plain.program, plain.path, root, path, self.runs)

    def need_wide(self, grammar: Grammar, root: str, data: bytes) -> Counted | None:
        """How many elements are missing."""
        with self.file_of(data) as path:
            return long.need(grammar.program, grammar.path, root, path, self.runs)

    def complete_wide(self, grammar: Grammar, root: str, data: bytes) -> Inserted | None:
        """The document with what is missing."""
        with self.file_of(data) as path:
            return long.complete(grammar.program, grammar.path, root, path, self.runs)

    @contextlib.contextmanager
    def file_of(self, data: bytes) -> Iterator[str]:
        """A file for a run that ends with this work."""
        try:
            with memory.file_of(data) as path:
                yield path
        except Stopped:
            raise Cancelled from None

    @contextlib.contextmanager
    def session(self, grammar: Grammar | Plain, root: str, data: bytes) -> Iterator[Session]:
        """A session on these bytes. One that has ended raises `Ended`, or `Cancelled` where it was for that. One that takes
        too long is a trouble."""
        with memory.file_of(data) as path:
            with self.lock:
                if self.is_over:
                    raise Cancelled
                session = begun(grammar, root, path)
                self.sessions.append(session)
            late = threading.Event()

            def end() -> None:
                late.set()
                session.process.kill()

            timer = threading.Timer(RUNNING.most or LONGEST, end)
            timer.daemon = True
            timer.start()
            try:
                yield session
            except Ended:
                self.check()
                if late.is_set():
                    raise Trouble(took_too_long(["session"], RUNNING.most)) from None
                raise
            finally:
                timer.cancel()
                with self.lock:
                    self.sessions.remove(session)
                session.close()


def begun(grammar: Grammar | Plain, root: str, path: str) -> Session:
    try:
        return Session(grammar.program, grammar.path, root, path)
    except OSError as fault:
        raise Trouble(f"{grammar.program[0]} can't be run: {fault.strerror}") from None
