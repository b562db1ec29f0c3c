"""Documents judged together: all are read, one process is asked about them at once, and their rows come as its answers do."""
import contextlib
import hashlib
import itertools
import os
import stat
import time
from collections import deque
from collections.abc import Iterator, Sequence
from typing import Any

from pvtag.program import Answer, Trouble, identity, seen_of

from .judging import MOST_BYTES, SHOWN, Given, Judge, Under, given
from .rows import Row
from .runs import Found

# No further document is read beside so many bytes of others.
MOST_HELD = 4_194_304
# What a row tells of attributes of which none is wrong.
ATTRIBUTES_VALID: dict[str, Any] = {"attributes": "valid", "faults": 0}
# What is raised where a file is gone.
GONE = (OSError, ValueError, Trouble)


class Case:
    """A document that is being judged: its place among the others, its file as it was, its row so far, and how long it took by now."""

    __slots__ = ("at", "seen", "row", "given", "seconds")

    def __init__(self, at: int, seen: tuple[int, ...], row: Row, told: Given) -> None:
        self.at, self.seen, self.row, self.given, self.seconds = at, seen, row, told, 0.0


class Together:
    """Judges documents some at a time. Several threads may use it at once."""

    def __init__(self, judge: Judge) -> None:
        self.judge = judge

    def rows(self, paths: Sequence[str]) -> Iterator[Found]:
        """What these documents come to, each with its place among them, as they are found."""
        left = deque(enumerate(paths))
        while left:
            with contextlib.ExitStack() as copies:
                with self.judge.turn.taken():
                    found, cases = self.begun(left, copies)
                if found:
                    yield found
                yield from self.judged(cases)

    def begun(self, left: deque[tuple[int, str]], copies: contextlib.ExitStack) -> tuple[Found, list[Case]]:
        """The next documents, read, and the rows of those that aren't to be judged."""
        found, cases, held = Found(), list[Case](), 0
        while left and held <= MOST_HELD:
            (at, path), start = left.popleft(), time.monotonic()
            begun = self.read(at, path, copies)
            seconds = time.monotonic() - start
            if isinstance(begun, Row):
                found.append((at, begun._replace(seconds=round(seconds, 4))))
            else:
                begun.seconds = seconds
                held += begun.row.size or 0
                cases.append(begun)
        return found, cases

    def read(self, at: int, path: str, copies: contextlib.ExitStack) -> Case | Row:
        """A document as it is now; or its row, where it isn't to be judged."""
        try:
            seen = os.stat(path)
        except (OSError, ValueError) as fault:
            return Row(path, verdict="unreadable", sentence=f"it can't be read: {getattr(fault, 'strerror', fault)}")
        if not stat.S_ISREG(seen.st_mode):
            what = "it is a folder that can't be read" if stat.S_ISDIR(seen.st_mode) else "it isn't a file"
            return Row(path, verdict="unreadable", sentence=what)
        try:
            data = content(path, seen.st_size) if seen.st_size <= MOST_BYTES else None
        except OSError:
            return unreadable(Row(path, seen.st_size, seen.st_mtime_ns))
        row = Row(path, seen.st_size, seen.st_mtime_ns, hashlib.sha256(data).hexdigest() if data is not None else None)
        try:
            under = self.judge.under_of(path, data)
        except Trouble as trouble:
            encoded = why_not_utf_8(data) if data is not None else None
            return row._replace(verdict="refused" if encoded else "no-dtd", sentence=encoded or str(trouble))
        if self.judge.options.by_doctype:
            row = row._replace(dtd=under.name, root=under.root, dtd_sum=under.sum)
        try:
            return Case(at, identity(seen), row, given(path, data, under, copies))
        except (OSError, ValueError):
            return unreadable(row)

    def judged(self, cases: Sequence[Case]) -> Iterator[Found]:
        """The rows of documents that were read, as they are found."""
        later = list[Case]()
        for group in self.told("check", cases):
            later += [case for case in group if self.judge.is_open(case.row)]
            if (done := [case for case in group if not self.judge.is_open(case.row)]):
                yield self.found(done)
        for group in self.told("need", later):
            yield self.found(group)

    def told(self, question: str, cases: Sequence[Case]) -> Iterator[list[Case]]:
        """The documents with what `check`, or a session to `need`, answers for them, as it comes; what takes longer to tell after the others."""
        start = time.monotonic()
        for answers in self.asked(question, cases):
            quick, others = list[tuple[Case, Answer | None]](), list[tuple[Case, Answer | None]]()
            for each in answers:
                (quick if is_quick(each[1]) else others).append(each)
            for group in filter(None, (quick, *([each] for each in others))):
                with self.judge.turn.taken() if group is quick else contextlib.nullcontext():
                    for case, answer in group:
                        self.tell(question, case, answer)
                share, start = (time.monotonic() - start) / len(group), time.monotonic()
                for case, _ in group:
                    case.seconds += share
                yield [case for case, _ in group]

    def asked(self, question: str, cases: Sequence[Case]) -> Iterator[list[tuple[Case, Answer | None]]]:
        """What one process answers for all, as it comes; none for those of which the program itself is to be asked."""
        many, under, alone = self.judge.many, dict[Under, list[Case]](), list[Case]()
        for case in cases:
            under.setdefault(case.given.under, []).append(case)
        together = dict[tuple[str, str], list[Case]]()
        for it, some in under.items():
            taken = many.takes(it.path, it.root, [case.given.path for case in some])
            together.setdefault((it.path, it.root), []).extend(case for case, is_taken in zip(some, taken) if is_taken)
            alone += [case for case, is_taken in zip(some, taken) if not is_taken]
        for (dtd, root), some in together.items():
            left = iter(some)
            for answers in many.answers(question, dtd, root, [case.given.path for case in some], self.judge.most):
                yield list(zip(itertools.islice(left, len(answers)), answers))
        for case in alone:
            yield [(case, None)]

    def tell(self, question: str, case: Case, answer: Answer | None) -> None:
        """Puts what was answered for a document into its row."""
        judge = self.judge
        try:
            told = answer or judge.answer(question, case.given)
            case.row = (judge.told if question == "check" else judge.needed)(case.row, case.given, told)
        except GONE as fault:
            case.row = unless_there(case.row, fault)

    def found(self, cases: Sequence[Case]) -> Found:
        """The rows of documents that were judged. What has changed meanwhile gets no verdict, and a DTD that has is a trouble: its sum stands in the
        report."""
        rows, judge = Found(), self.judge
        with judge.turn.taken():
            plain = [case.row.verdict not in SHOWN or judge.has_no_attributes(case.given) for case in cases]
        # Nobody waits for libxml2 but who asks it.
        with judge.turn.taken() if all(plain) else contextlib.nullcontext():
            for case, is_plain in zip(cases, plain):
                start = time.monotonic()
                row = case.row
                try:
                    row = row if is_plain else judge.with_attributes(row, case.given)
                except GONE as fault:
                    row = unless_there(row, fault)
                if seen_of(row.path) != case.seen:
                    row = Row(*row[:4], verdict="failed", sentence="it changed while it was judged", dtd=row.dtd, root=row.root, dtd_sum=row.dtd_sum)
                told = ATTRIBUTES_VALID if is_plain and judge.options.attributes and row.verdict in SHOWN else {}
                rows.append((case.at, row._replace(seconds=round(case.seconds + time.monotonic() - start, 4), **told)))
        for under in {case.given.under for case in cases}:
            under.test_unchanged()
        return rows


def content(path: str, size: int) -> bytes:
    """The bytes of a file that has so many. It isn't waited for, and is refused, if another took its name that is none."""
    file = os.open(path, os.O_RDONLY | os.O_CLOEXEC | os.O_NONBLOCK)
    try:
        if not stat.S_ISREG(os.fstat(file).st_mode):
            raise OSError(f"{path} isn't a file any more")
        data = os.read(file, size)
        while len(data) < size and (more := os.read(file, size - len(data))):
            data += more
        return data
    finally:
        os.close(file)


def is_quick(answer: Answer | None) -> bool:
    """Whether nothing more is asked for the row of a document."""
    return answer is not None and answer.output.startswith((b"valid", b"possible", b"need"))


def unless_there(row: Row, fault: Exception) -> Row:
    """Where a file can't be read any more, its row says so in place of a trouble."""
    if isinstance(fault, Trouble) and os.access(row.path, os.R_OK):
        raise fault
    return unreadable(row)


def why_not_utf_8(data: bytes) -> str | None:
    """Why a document that isn't UTF-8 can't be read."""
    from pvtag.encodings import encoding_fault
    return encoding_fault(data)


def unreadable(row: Row) -> Row:
    return row._replace(verdict="unreadable", sentence="it can't be read")
