"""What a document comes to, by the program's answers: its verdict, what is missing, and where and why it is impossible or refused."""
import contextlib
import functools
import hashlib
import os
import re
import shutil
import threading
from collections.abc import Iterator, Mapping
from typing import TYPE_CHECKING, NamedTuple

from pvtag.attributes import MISSING, Attributes, python_with_lxml
from pvtag.dtd import Dtd
from pvtag.finder import NAME as NAME_OF, Finder, Named, Plain, Told, names_in
from pvtag.long import Counted, counted, environment
from pvtag.masks import Masked, MaskedSource, mask
from pvtag.places import Place, Source, Span
from pvtag.program import Answer, Stopped, Trouble, file_of, find_long, is_utf_8, read_file, run, seen_of

from .earlier import sum_of
from .many import Many, find_many
from .rows import Head, Row, shown
from .runs import Turn

if TYPE_CHECKING:
    from pvtag.reasons import Reasons

# The program reads no document of more bytes.
MOST_BYTES = 67_108_864
# The verdicts of documents whose attributes are looked at.
SHOWN = ("valid", "possible", "impossible")
# So many DTDs with a root are kept.
MOST_KEPT = 200
# What may be a name of XML, and is one where the program takes it.
NAME = re.compile(NAME_OF)


def no_name(root: str) -> str:
    return f"the root that it names, `{shown(root)}`, is no name of XML"


def impossible_at(path: str) -> str:
    return f"the list at {path} can't be repaired by adding elements"


class Options(NamedTuple):
    """What is asked of documents: whether missing elements are counted, the most seconds of a run, whether attributes are looked at, and whether
    each is judged by the DTD that it names."""

    need: bool
    most: float
    attributes: bool
    by_doctype: bool


class Given(NamedTuple):
    """A document as the program is given it: the file of this path, its bytes, where it isn't too large, and by which DTD and root."""

    path: str
    masked: Masked | None
    under: "Under"

    def source(self, name: str) -> Source:
        """The document as the program is given it, with the lines and columns of its file."""
        return MaskedSource(name, self.masked) if self.masked is not None else Source(name, b"")


class Under:
    """A DTD and a root, by which documents are judged; several threads may use it at once."""

    def __init__(self, program: list[str], plain: Plain, root: str, told: Told | None) -> None:
        self.program, self.plain, self.path, self.name, self.root = program, plain, plain.path, plain.name, root
        self.seen, self.data = seen_of(plain.path), read_file(plain.path)
        self.sum = hashlib.sha256(self.data).hexdigest()
        # An answer on a file that has changed since isn't taken.
        answer = told.answer if told is not None and told.seen == self.seen else None
        self.dtd, self.attributes = Dtd(program, plain.path, plain.name, answer), Attributes(self.data)

    @functools.cached_property
    def reasons(self) -> "Reasons":
        """Why lists can't be repaired."""
        from pvtag.reasons import Reasons
        return Reasons(self.program, self.dtd, self.root)

    def test_unchanged(self) -> None:
        """A DTD that changes is a trouble: rows rest on it."""
        if seen_of(self.path) != self.seen:
            raise Trouble(f"{self.name} has changed since the run began")


class Judge:
    """Judges documents: under one DTD and root, or each under those that it names, and under the given ones where it names none. Several threads
    may use it at once."""

    def __init__(self, program: list[str], pair: tuple[str, str] | None, options: Options) -> None:
        self.program, self.options, self.need, self.most = program, options, options.need, options.most
        # What is asked where a list is too wide: for `need`, or to be tagged at all.
        self.long = find_long(program)
        self.many, self.turn = Many(find_many(program)), Turn()
        self.finder, self.lock, self.known = Finder(program), threading.Lock(), dict[tuple[str, str], Under]()
        self.given_pair = self.checked_pair(*pair) if pair is not None else None

    def checked_pair(self, dtd: str, root: str) -> Under:
        """The DTD and the root that are given. A DTD that the program doesn't take, or that doesn't declare the root, is a trouble."""
        under = self.under(Named(dtd, "", ""), root)
        if root not in under.dtd.types:
            raise Trouble(f"{under.name} declares no element `{shown(root)}`")
        return under

    def under(self, named: Named, root: str) -> Under:
        """This DTD with this root. Where many documents have a root each, not all are kept."""
        plain = self.finder.plain(named)
        with self.lock:
            if (plain.path, root) not in self.known:
                if len(self.known) > MOST_KEPT:
                    self.known.clear()
                self.known[plain.path, root] = Under(self.program, plain, root, self.finder.answers.get(plain.path))
            return self.known[plain.path, root]

    def close(self) -> None:
        """Ends the processes that wait to be asked again."""
        self.many.end()
        for under in self.known.values():
            under.attributes.close()

    def head(self) -> Head:
        """What rows rest on."""
        given = self.given_pair
        looks = self.options.attributes and not self.why_not
        return Head(given.sum if given else "", given.root if given else "", sum_of_program(self.program[-1]), self.need, looks, self.options.by_doctype)

    @property
    def why_not(self) -> str:
        """Why attributes can't be looked at."""
        if not self.options.attributes:
            return ""
        if self.options.by_doctype:
            return "" if python_with_lxml() else MISSING
        attributes = self.given_pair.attributes if self.given_pair else None
        return attributes.why_not if attributes and attributes.declares_any else ""

    def under_of(self, path: str, data: bytes | None) -> Under:
        """The DTD and the root of a document, or a trouble that says why there are none."""
        if self.options.by_doctype and data is not None:
            named, root = names_in(data, os.path.dirname(os.path.abspath(path)))
            if named is not None:
                if not is_utf_8(root) or not NAME.fullmatch(root.encode()):
                    raise Trouble(no_name(root))
                return self.under(named, root)
        if self.given_pair is None:
            raise Trouble("it names no DTD, by <!DOCTYPE .. SYSTEM \"FILE\"> or <?pvtag dtd=\"FILE\" root=\"NAME\"?>")
        return self.given_pair

    def holds(self, row: Row) -> bool:
        """Whether the DTD by which an earlier row was judged is that of the document still."""
        if not self.options.by_doctype:
            return True
        try:
            under = self.under_of(row.path, read_file(row.path) if (row.size or 0) <= MOST_BYTES else None)
        except Trouble:
            return False
        return (row.dtd_sum, row.root) == (under.sum, under.root)

    def run(self, *words: str, given: bytes = b"", program: list[str] | None = None, env: Mapping[str, str] | None = None) -> Answer:
        """One run of the program, or of another. It takes no words that aren't UTF-8, so that such a name is handed over as an open file."""
        with contextlib.ExitStack() as files:
            named = [files.enter_context(utf_8(word)) for word in words]
            handed = [it for _, it in named if it is not None]
            answer = run(program or self.program, *[word for word, _ in named], given=given, files=handed, most=self.most, env=env)
        return answer

    def answer(self, question: str, given: Given) -> Answer:
        """What the program itself answers for a document: to `check`, or to `need` in a session."""
        asked = given.under.path, given.under.root, given.path
        return self.run("check", *asked) if question == "check" else self.run("session", *asked, given=b"need\n")

    def with_attributes(self, row: Row, given: Given) -> Row:
        """The row with what libxml2 says of attributes, and what is to be said of entities."""
        masked, attributes = given.masked, given.under.attributes
        if masked is None or row.verdict not in SHOWN:
            return row
        brought = masked.fault or next((it for it in masked.remarks if it.kind == "brings"), None)
        if brought is not None:
            row = row._replace(verdict="refused", open=None, missing=None, line=None, column=None, sentence=None)
            return self.with_sentence(row, masked, brought.span, brought.sentence)
        if self.options.attributes and not (attributes.declares_any and attributes.why_not):
            checked = attributes.check(masked)
            if not checked.why_not:
                row = row._replace(attributes="invalid" if checked.faults else "valid", faults=len(checked.faults))
            else:
                row = self.with_sentence(row, masked, None, checked.sentence)
            for fault in checked.faults[:1]:
                row = self.with_sentence(row, masked, fault.span, fault.sentence)
        for remark in masked.remarks[:1]:
            row = self.with_sentence(row, masked, remark.span, remark.sentence)
        return row

    def has_no_attributes(self, given: Given) -> bool:
        """Whether a document has nothing of which libxml2 is to be asked, and nothing to be said of entities."""
        masked = given.masked
        return masked is not None and masked.is_plain and (not self.options.attributes or given.under.attributes.are_none(masked.data))

    def with_sentence(self, row: Row, masked: Masked, span: Span | None, sentence: str) -> Row:
        """The row with this sentence, where it has none."""
        if row.sentence is not None:
            return row
        at = Source("", masked.source).place(span.start) if span is not None else None
        return row._replace(line=at and at.line, column=at and at.column, sentence=sentence)

    def told(self, row: Row, given: Given, answer: Answer) -> Row:
        """The row with what `check` answered."""
        found = found_by(answer)
        if found is not None:
            verdict, count = found
            return row._replace(verdict=verdict, open=count, missing=0 if self.need and verdict == "valid" else None)
        words = answer.line.split(" ")
        match answer.status, words[0]:
            case 1, "impossible":
                return self.impossible(row, given, words[1])
            case 2, _ if given.under is not self.given_pair:
                return row._replace(verdict="no-dtd", sentence=no_name(given.under.root), dtd=None, root=None, dtd_sum=None)
            case 2, _:
                raise Trouble(f"the program didn't take its words for {shown(row.path)}")
            case 6, _:
                raise Trouble(f"{given.under.name} has changed and isn't taken any more: {answer.line}")
            case -1, _:
                return row._replace(verdict="failed", sentence=f"it took more than {self.most:.0f} seconds")
        from pvtag.faults import TOO_WIDE
        refused = self.refused(row, given, answer)
        return self.too_wide(row, given, refused) if answer.line.startswith(TOO_WIDE) else refused

    def too_wide(self, row: Row, given: Given, refused: Row) -> Row:
        """The row of a document with a list that is too wide to be tagged: what `pvlong` answers for it. Where it doesn't, the document is refused."""
        answer = None
        with contextlib.suppress(Trouble):
            answer = self.long_answer("check", given)
        row = row._replace(line=refused.line, column=refused.column, sentence=f"{refused.sentence}; the document can be read and judged, not tagged")
        match answer.line.split(" ") if answer is not None else ():
            case ["valid"]:
                return row._replace(verdict="valid", open=0, missing=0 if self.need else None)
            case ["possible", count]:
                return row._replace(verdict="possible", open=int(count))
            case ["impossible", path]:
                return row._replace(verdict="impossible", sentence=f"{row.sentence}; {impossible_at(path)}")
        return refused

    def long_answer(self, question: str, given: Given) -> Answer | None:
        """What `pvlong` answers for a document, if it is there."""
        if self.long is None:
            return None
        return self.run(question, given.under.path, given.under.root, given.path, program=self.long, env=environment(self.most))

    def is_open(self, row: Row) -> bool:
        """Whether it is still to be asked how many elements are missing. Of a document that is too wide for that `sentence` says so."""
        return self.need and row.verdict == "possible" and row.sentence is None

    def needed(self, row: Row, given: Given, answer: Answer) -> Row:
        """The row with how many elements are missing, where that is told: of a range the least number, and the range in the sentence."""
        found = self.counted(given, answer)
        if found is None:
            return row
        return row._replace(missing=found.least, sentence=found.sentence if found.least < found.most else None)

    def counted(self, given: Given, answer: Answer) -> Counted | None:
        """How many elements are missing, by the answer to `need`."""
        words = answer.line.split(" ")
        if words[0] == "need":
            return Counted(int(words[1]), int(words[1]))
        if words[:2] == ["no", "wide"]:
            with contextlib.suppress(Trouble):
                return counted(self.long_answer("need", given))
        return None

    def impossible(self, row: Row, given: Given, path: str) -> Row:
        """The row with the place and the reason of an impossible list; without them where they can't be had."""
        row = row._replace(verdict="impossible", sentence=impossible_at(path))
        from pvtag.layout import Layout
        try:
            source = given.source(shown(row.path))
            reason = next(iter(given.under.reasons.of_document(source.data, [path])), None)
            node = Layout(source.data).node(path)
        except Stopped:
            raise
        except Exception:  # pylint: disable=broad-except
            # The verdict stands, whatever becomes of the words for it: the document may have changed, or the machine has no room.
            return row
        if reason is None or node is None:
            return row
        kids = node.kids

        def place(kid: int) -> Place:
            return source.place(kids[kid].span.start)

        at = place(reason.kids[0]) if reason.kids else source.place(node.span.start)
        return row._replace(line=at.line, column=at.column, sentence=reason.sentence(lambda kid: f" (line {place(kid).line})"))

    def refused(self, row: Row, given: Given, answer: Answer) -> Row:
        """The row with why the program gave no verdict."""
        verdict = {3: "unreadable", 7: "refused", 8: "refused"}.get(answer.status, "failed")
        if answer.status == 3:
            return row._replace(verdict=verdict, sentence="it can't be read")
        if answer.status < 0:
            return row._replace(verdict=verdict, sentence=f"the program was ended by signal {-answer.status}")
        from pvtag.faults import fault_of
        fault = fault_of(answer.status, answer.line, {"document": given.source(shown(row.path))})
        place = fault.place
        return row._replace(verdict=verdict, line=place and place.line, column=place and place.column, sentence=fault.sentence)


@functools.lru_cache(maxsize=256)
def found_by(answer: Answer) -> tuple[str, int] | None:
    """The verdict that an answer to `check` is, if it is a good one, and how many lists aren't valid."""
    words = answer.line.split(" ")
    return None if answer.status or words[0] not in ("valid", "possible") else (words[0], int(words[1]) if words[0] == "possible" else 0)


def given(path: str, data: bytes | None, under: Under, copies: contextlib.ExitStack) -> Given:
    """A document as the program reads it: its file, or a copy in which its subset and its entities are masked."""
    masked = mask(data, under.data) if data is not None else None
    return Given(copies.enter_context(file_of(masked.data)) if masked is not None and not masked.is_plain else path, masked, under)


@contextlib.contextmanager
def utf_8(word: str) -> Iterator[tuple[str, int | None]]:
    """A word that is UTF-8: itself, or a name for the file of that name, and that file."""
    if is_utf_8(word):
        yield word, None
        return
    with open(word, "rb") as file:
        yield f"/dev/fd/{file.fileno()}", file.fileno()


def sum_of_program(program: str) -> str:
    """The sum of the program, which in a repository is what its script runs."""
    found = shutil.which(program) or program
    built = os.path.join(os.path.dirname(os.path.realpath(found)), "build", "pvtag")
    told = sum_of(built if os.path.isfile(built) else found)
    if told is None:
        raise Trouble(f"{found} can't be read")
    return told
