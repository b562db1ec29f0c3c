"""Diagnostics: what is wrong with a text, and what is missing in it, judged anew once typing has paused."""
import contextlib
import gc
import threading
import time
from collections.abc import Callable

from . import attributes, wholeness
from .documents import Client, Document, Judged
from .grammar import Finder, Grammar, NoDtd
from .lists import WHITE, kids_of
from .moving import Change
from .nodes import Element, Node, Tree
from .order import refresh
from pvtag.faults import TOO_WIDE, fault_of
from pvtag.long import Checked, Counted
from pvtag.places import Source
from pvtag.program import Trouble
from pvtag.reasons import Reason
from pvtag.session import Ended, Refused, Session
from .text import Json
from .wire import Writer
from .work import Cancelled, Work

# So long a pause in typing, in seconds, before a text is judged, and so long until what is known by then is told.
PAUSE, FIRST = 0.04, 0.12
# The nodes of a text refer to one another; of one of so many bytes they aren't left to be found some time. Of at most so
# many bytes names are counted before that is wanted.
LARGE, COUNTED = 1 << 20, 4 << 20
# At most so many lists are told of, and so many that nothing can mend.
MOST, MOST_BAD = 500, 50
ERROR, INFORMATION, HINT = 1, 3, 4


class Watch:
    """Judges the texts of one document in a thread of its own. A newer text ends the work on an older one."""

    def __init__(self, writer: Writer, finder: Finder, client: Client, say: Callable[[str, str, bool], None]) -> None:
        self.writer, self.finder, self.client, self.say = writer, finder, client, say
        self.changed = threading.Condition()
        self.newest: Document | None = None
        self.since, self.pause, self.is_over, self.work = 0.0, 0.0, False, Work()
        threading.Thread(target=self.run, daemon=True).start()

    def look(self, document: Document, is_typed: bool = False) -> None:
        """A newer text. Where somebody is typing, a pause is waited for."""
        with self.changed:
            self.settle()
            self.newest, self.since, self.pause = document, time.monotonic(), PAUSE if is_typed else 0.0
            self.work.cancel()
            self.changed.notify()

    def end(self) -> None:
        with self.changed:
            self.settle()
            self.is_over = True
            self.work.cancel()
            self.changed.notify()

    def settle(self) -> None:
        if self.newest is not None:
            self.newest.settled.set()

    def next(self) -> tuple[Document, Work] | None:
        """The newest text, once it has stood for a while; none at the end."""
        with self.changed:
            while not self.is_over:
                left = self.since + self.pause - time.monotonic()
                if self.newest is not None and left <= 0:
                    document, self.newest, self.work = self.newest, None, Work()
                    return document, self.work
                self.changed.wait(None if self.newest is None else left)
        return None

    def run(self) -> None:
        while (found := self.next()) is not None:
            document, work = found
            try:
                Judging(document, work, self).judge()
            except Cancelled:
                pass
            except NoDtd as trouble:
                Judging(document, work, self).judge_form()
                self.say(document.uri, str(trouble), True)
            except Trouble as trouble:
                self.publish(document, work, [])
                self.say(document.uri, str(trouble), False)
            except Exception as fault:
                self.say(document.uri, f"{type(fault).__name__}: {fault}", False)
            finally:
                document.settled.set()
            self.tidy(document)

    def tidy(self, document: Document) -> None:
        """What can be done after a judgement, while nobody waits: how often names are used is counted anew, where that takes no
        time, and large texts that nobody refers to any more are let go."""
        size = len(document.text.data)
        if self.newest is None and size <= COUNTED:
            refresh(document)
        if self.newest is None and size > LARGE:
            gc.collect()

    def publish(self, document: Document, work: Work, diagnostics: list[Json]) -> None:
        """Tells them, but for a text that is no longer the newest."""
        with self.changed:
            if not work.is_over:
                told = {"uri": document.uri, "diagnostics": diagnostics}
                self.writer.tell(
                    "textDocument/publishDiagnostics",
                    told | ({"version": document.version} if document.version is not None else {}),
                )


class Judging:
    """The judgement of one text."""

    def __init__(self, document: Document, work: Work, watch: Watch) -> None:
        self.document, self.work, self.watch = document, work, watch
        self.rows: list[tuple[str, bool]] = []
        self.of_elements: list[Json] = []
        self.order, self.is_told = threading.Lock(), False
        # The places of names of which no element can be valid: each is told once, of its list or of itself.
        self.named = set[tuple[int, int]]()

    def judge(self) -> None:
        about, wait = (self.document.uri, self.document.data), self.work.wait_for
        plain, root = self.watch.finder.plain(*about, wait)
        if not root:
            # The root's start tag is half typed, and nothing else names it.
            return self.judge_form()
        try:
            # What the DTD declares is asked beside the session.
            with self.work.session(plain, root, self.document.data) as session:
                grammar = self.watch.finder.grammar(*about, wait)
                self.document.prepare()
                self.listed(session, grammar)
            self.attributes(grammar)
        except Ended as ended:
            wide = self.work.check_wide(plain, root, self.document.data) if ended.line.startswith(TOO_WIDE) else None
            self.refused(ended, wide)

    def judge_form(self) -> None:
        """Without a DTD, or without a root: whether the text is well-formed."""
        found = wholeness.fault_of(self.document.text)
        if found is None:
            return self.publish([])
        told = self.diagnostic(found[0], found[0], ERROR, "fault", f"Not well-formed: {found[1]}.")
        return self.watch.publish(self.document, self.work, [told, *self.kept()])

    def attributes(self, grammar: Grammar) -> None:
        """What is wrong with attributes, and what is to be said of entities, after what is said of elements."""
        found = list[Json]()
        self.work.aside(lambda: found.extend(attributes.diagnostics(self.document, grammar, self.work)))
        if found:
            self.publish([*self.of_elements, *found])

    def refused(self, ended: Ended, wide: Checked | None) -> None:
        """The text is no document, or passes a limit; what can become of it may be known all the same."""
        fault = fault_of(ended.status or 0, ended.line, {"document": Source("", self.document.data)})
        if fault.span is None and ended.status not in (7, 8):
            raise Trouble(str(fault))
        start, end = fault.span if fault.span is not None else (0, 0)
        sentence = f"{fault.sentence}; {wide.sentence}" if wide is not None else fault.sentence
        told = [self.diagnostic(start, max(start, end), ERROR, "fault", sentence)]
        self.watch.publish(self.document, self.work, told + self.kept())

    def kept(self) -> list[Json]:
        """What was told of the last document, which stays at its place until the text is one again."""
        last = self.document.accepted.told
        return Change(last[0], self.document.text).moved(last[1]) if last else []

    def publish(self, diagnostics: list[Json]) -> None:
        """Tells what is wrong with a document."""
        self.document.accepted.told = self.document.text, diagnostics
        self.watch.publish(self.document, self.work, diagnostics)

    def listed(self, session: Session, grammar: Grammar) -> None:
        """The text is a document: what is to be told of its lists."""
        found = session.unsettled(MOST_BAD, MOST)
        if isinstance(found, Refused):
            raise Trouble(f"the verdicts can't be read: {found.why}")
        count = found.lists
        self.document.judged = judged = Judged(count, found.bad)
        tree, bad = self.document.accept(), found.first_bad
        if not count:
            return self.publish([])
        lists = [(path, tree.node(path)) for path in bad]
        self.rows = [*[(path, True) for path in bad], *[(path, False) for path in found.first]]
        left = self.watch.since + FIRST - time.monotonic()
        timer = threading.Timer(max(0.0, left), lambda: self.tell(tree, grammar, count, None, is_last=False))
        timer.start()
        try:
            wanted = [(path, node.label, kids_of(node, tree.data)) for path, node in lists if isinstance(node, Element)]
            with contextlib.suppress(Trouble):
                self.work.find_reasons(grammar, wanted)
            missing = self.missing(session, grammar) if not bad else None
        finally:
            timer.cancel()
        judged.missing = missing if isinstance(missing, Counted) else None
        self.tell(tree, grammar, count, missing)
        return None

    def missing(self, session: Session, grammar: Grammar) -> Counted | Refused:
        """How many elements are missing."""
        reply = session.need()
        if isinstance(reply, int):
            return Counted(reply, reply)
        wide = self.work.need_wide(grammar, grammar.root, self.document.data) if reply.why == "wide" else None
        return wide or reply

    def tell(
        self, tree: Tree, grammar: Grammar, count: int, missing: Counted | Refused | None, is_last: bool = True
    ) -> None:
        """All diagnostics, as far as the reasons are known; nothing after the last ones."""
        with self.order:
            if not self.is_told:
                self.is_told = is_last
                self.of_elements = self.diagnostics(tree, grammar, count, missing)
                self.publish(self.of_elements)

    def diagnostics(self, tree: Tree, grammar: Grammar, count: int, missing: Counted | Refused | None) -> list[Json]:
        told: list[Json] = []
        self.named.clear()
        for path, is_bad in self.rows:
            node = tree.node(path)
            if isinstance(node, Element):
                told += self.impossible(path, node, tree, grammar) if is_bad else [self.possible(node, tree, grammar)]
        if len(self.rows) < count and tree.root is not None:
            more = f"{count - len(self.rows)} more lists aren't valid; only the first ones are shown."
            told.append(self.diagnostic(tree.root.start, tree.root.inside, INFORMATION, "more", more))
        if missing is not None and tree.root is not None:
            told.append(
                self.diagnostic(
                    tree.root.start, tree.root.inside, INFORMATION, "missing", missing_sentence(missing, count)
                )
            )
        return told

    def possible(self, owner: Element, tree: Tree, grammar: Grammar) -> Json:
        if owner.owner is None:
            root = tree.root or owner
            return self.diagnostic(
                root.start, root.inside, HINT, "possible", f"Not valid yet: elements are missing round `{root.label}`."
            )
        model = grammar.model(owner.label)
        sentence = f"Not valid yet: elements are missing in `{owner.label}`" + (
            f", declared `{model}`." if model else "."
        )
        return self.diagnostic(owner.start, owner.inside, HINT, "possible", sentence)

    def impossible(self, path: str, owner: Element, tree: Tree, grammar: Grammar) -> list[Json]:
        """A diagnostic at each kid that stands in another's way, or at the element itself."""
        reason = grammar.known_reason(path, owner.label, kids_of(owner, tree.data))
        marked = [owner.kids[at] for at in reason.kids] if reason else []
        sentence = (
            sentence_of(reason, owner, self.document)
            if reason
            else f"Nothing that is inserted makes `{owner.label}` valid."
        )
        whole = owner if owner.owner is not None else tree.root or owner
        spans = [span_of(node, tree.data) for node in marked or [whole]]
        if reason is not None and reason.cause in ("undeclared", "unproductive"):
            if self.named.issuperset(spans):
                return []
            self.named.update(spans)
        told = [self.diagnostic(start, end, ERROR, "impossible", sentence) for start, end in spans]
        if self.watch.client.can("textDocument", "publishDiagnostics", "relatedInformation"):
            for each, span in zip(told, spans, strict=True):
                others = [(node, other) for node, other in zip(marked, spans, strict=False) if other != span]
                each["relatedInformation"] = [self.related(node, *other) for node, other in others]
        return told

    def related(self, node: Node, start: int, end: int) -> Json:
        name = f"`{node.label}`" if isinstance(node, Element) else "this text" if node.kind == "text" else "this"
        return {
            "location": {"uri": self.document.uri, "range": self.document.text.range(start, end)},
            "message": f"{name} stands in the way",
        }

    def diagnostic(self, start: int, end: int, severity: int, code: str, message: str) -> Json:
        return {
            "range": self.document.text.range(start, end),
            "severity": severity,
            "code": code,
            "source": "pvtag",
            "message": message,
        }


def sentence_of(reason: Reason, owner: Element, document: Document) -> str:
    """A reason's sentence, with the lines of kids."""
    return reason.sentence(lambda at: f" (line {document.text.position(owner.kids[at].start)['line'] + 1})")


def span_of(node: Node, data: bytes) -> tuple[int, int]:
    """What is underlined of a node: a start tag, or a text without the blanks at its ends."""
    if isinstance(node, Element):
        return node.start, node.inside
    text = data[node.start : node.end]
    inner = text.strip(WHITE)
    start = node.start + text.index(inner) if inner else node.start
    return start, start + len(inner or text)


def missing_sentence(missing: Counted | Refused, count: int) -> str:
    lists = "1 list isn't valid yet" if count == 1 else f"{count} lists aren't valid yet"
    if isinstance(missing, Refused):
        return f"{lists}. How many elements are missing isn't known: a list is too wide, or there are too many."
    return f"{lists}: {missing.sentence}."
