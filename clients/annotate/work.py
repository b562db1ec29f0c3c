"""A document that is open: its session, and all that its page asks for.

What is asked is JSON, and so is what is answered. What can't be a request of the page is a `Refusal`.
"""
import traceback
from collections.abc import Callable
from typing import Any

from .attributes import Attributes
from .comments import Comments
from .completions import Completions
from .costs import Costs
from .declared import Declared
from .downloads import Downloads
from .editor import Differs, Editor, Unseen
from .everywhere import Everywhere
from .explain import Explainer
from .neighbours import Neighbours
from .palette import Palette
from .pieces import Pieces
from pvtag.document import Told
from pvtag.program import Trouble, shown_name
from pvtag.session import Ended
from .runs import Stale
from .script import Changed, Question
from .suggest import Suggestions
from .texts import Texts
from .uses import Uses
from .values import Names, Values
from .views import Views


class Refusal(Exception):
    """A request that isn't answered: its status, and why."""

    def __init__(self, status: int, why: str) -> None:
        super().__init__(why)
        self.status, self.why = status, why


def request(ask: Any, **fields: type) -> dict[str, Any]:
    """What is asked, which is an object that has these fields, each of its type; a `Refusal` otherwise."""
    if not isinstance(ask, dict) or not all(isinstance(ask.get(name), kind) for name, kind in fields.items()):
        raise Refusal(400, "that is no request")
    return ask


class Work:
    # The page that is shown where none is named.
    home = "index.html"

    def __init__(self, editor: Editor, declared: dict[str, Declared], title: str, names: Names | None = None) -> None:
        self.editor, self.declared, self.title = editor, declared, title
        self.around = Neighbours(editor.script.document, editor.root)
        uses = Uses(editor, self.around, [name for name, each in declared.items() if each.kind == "empty"])
        self.costs, self.texts, self.attributes = Costs(editor, declared, uses), Texts(editor), Attributes(editor)
        self.everywhere, self.explainer = Everywhere(editor), Explainer(editor)
        self.completions, self.palette = Completions(editor, self.attributes), Palette(editor.dtd, self.attributes)
        self.pieces = Pieces(editor, self.everywhere)
        self.suggestions = Suggestions(editor, self.around, self.everywhere, self.attributes)
        self.views = Views(editor.script.document)
        self.comments, self.downloads = Comments(editor), Downloads(editor, title)
        self.values = Values(editor, self.around, self.attributes, names or Names(None))
        # The windows that show it, and whether the program is about to end.
        self.windows: set[str] = set()
        self.is_over: Callable[[], bool] = lambda: False

    def at(self, path: str) -> "tuple[Work, str]":
        """Whom a path of a request asks, and what is asked."""
        return self, path

    @property
    def note(self) -> str:
        return self.editor.note

    @staticmethod
    def has(name: str) -> bool:
        return name in ASKED

    def close(self) -> None:
        """Ends what runs beside the session, and the session."""
        self.views.write()
        self.stop()
        self.editor.close()

    def stop(self) -> None:
        """Ends what runs beside the session."""
        self.completions.stop()
        self.completions.wide.end("need")
        self.costs.close()
        self.attributes.close()

    def answer(self, name: str, ask: Any) -> Told:
        """What is answered. Where the session has ended, another one makes the moves that were written down, and the same is
        asked once more: what raised that wasn't made."""
        editor = self.editor
        told: Told = {}
        editor.asker.window = str(request(ask).get("window", ""))
        for _ in range(2):
            try:
                return {**self.answered(name, ask), **told}
            except Ended as ended:
                if self.is_over():
                    return {"trouble": "annotate is ending"}
                try:
                    editor.begin_again()
                except (Ended, Trouble, OSError) as fault:
                    return {"trouble": f"{ended}, and can't be begun again: {fault}"}
                told["again"] = f"{ended}; it was begun again, with all moves that were made"
        return {"trouble": f"{told['again']}. What was asked for ends it"}

    def answered(self, name: str, ask: Any) -> Told:
        """What is answered, or `trouble`, a sentence for the user; `changed` says that the document was changed by another
        program, `differs` what this one shows in its place, `ways` how it may be written all the same."""
        try:
            told = ASKED[name](self, ask)
            # What is asked of the program for it is asked here, where no lock is held.
            later = told.pop("later", None)
            return {**told, **later()} if later else told
        except Stale:
            return {"stale": True}
        except Changed as changed:
            return {"trouble": str(changed), "changed": True}
        except Question as question:
            return {"trouble": str(question), "ways": question.ways}
        except Differs as differs:
            return {"trouble": str(differs), "differs": [differs.own, differs.shown]}
        except Unseen as unseen:
            return {"trouble": str(unseen), "unseen": True}
        except Trouble as trouble:
            return {"trouble": str(trouble)}
        except OSError as fault:
            return {"trouble": f"{shown_name(fault.filename or 'a file that is needed')}: {fault.strerror}"}
        except (KeyError, TypeError, ValueError, AttributeError, IndexError):
            traceback.print_exc()
            raise Refusal(400, "that is no request") from None


def hello(work: Work, ask: Any) -> Told:
    work.windows.add(str(ask["window"]))
    empty = [name for name, declared in work.declared.items() if declared.kind == "empty"]
    return {"title": work.title, "names": list(work.declared), "empty": empty, "note": note_of(work.editor),
            "entities": entities_of(work.editor), "comments": work.explainer.takes.comments, "view": work.views.last}


def note_of(editor: Editor) -> str:
    """What is to be said at the start: of moves that were made again, of entities and of the subset."""
    remarks = [f"{remark.sentence[:1].upper()}{remark.sentence[1:]}." for remark in editor.masked.remarks]
    more = f"{len(remarks) - 3} more entities aren't seen." if len(remarks) > 3 else ""
    return " ".join(filter(None, [editor.note, *remarks[:3], more]))


def entities_of(editor: Editor) -> Told:
    """The references of the document by what stands for them in the tree."""
    return {form.decode(): name.decode() for form, name in editor.masked.stands.items()}


def bye(work: Work, ask: Any) -> Told:
    work.windows.discard(str(ask["window"]))
    if isinstance(ask.get("view"), dict):
        work.views.put(ask["view"])
    work.views.write()
    return {}


def stop(work: Work, _: Any) -> Told:
    work.completions.stop()
    return {}


# What the page asks for.
ASKED: dict[str, Callable[[Work, Any], Told]] = {
    "hello": hello,
    "bye": bye,
    "stop": stop,
    "view": lambda work, ask: work.views.put(ask),
    "outside": lambda work, _: {"changed": work.editor.script.is_changed},
    "state": lambda work, ask: work.editor.state(ask.get("since")),
    "history": lambda work, _: work.editor.history(),
    "need": lambda work, _: work.editor.need(),
    "need-wide": lambda work, ask: work.completions.wide.need(ask["version"]),
    "move": lambda work, ask: work.editor.move(ask),
    "undo": lambda work, ask: work.editor.undo(ask),
    "redo": lambda work, ask: work.editor.redo(ask),
    "back": lambda work, ask: work.editor.back(ask),
    "save": lambda work, ask: work.editor.save(ask),
    "save-beside": lambda work, ask: work.editor.save_beside(ask),
    "offer": lambda work, ask: work.costs.offer(ask),
    "costs": lambda work, ask: work.costs.more(ask),
    "preview": lambda work, _: work.completions.preview(),
    "missing": lambda work, ask: work.completions.missing(ask),
    "take": lambda work, ask: work.completions.take(ask),
    "type": lambda work, ask: work.texts.type(ask),
    "attributes": lambda work, ask: work.values.of(ask),
    "set-attributes": lambda work, ask: work.attributes.change(ask),
    "attribute-faults": lambda work, ask: work.attributes.faults(ask),
    "places": lambda work, ask: {**work.everywhere.places(ask), **work.values.known(ask)},
    "tag-places": lambda work, ask: work.everywhere.tag(ask, work.attributes.asked(ask)),
    "tag": lambda work, ask: work.attributes.tag(ask),
    "palette": lambda work, ask: work.palette.told(ask),
    "set-palette": lambda work, ask: work.palette.put(ask),
    "suggestions": lambda work, ask: work.suggestions.told(ask),
    "take-suggestions": lambda work, ask: work.suggestions.tag(ask),
    "comments": lambda work, ask: work.comments.all(ask),
    "comment": lambda work, ask: work.comments.put(ask),
    "source": lambda work, ask: work.downloads.source(ask),
    "unsaved": lambda work, ask: work.downloads.changes(ask),
    "download": lambda work, ask: work.downloads.download(ask),
    "tag-found": lambda work, ask: work.suggestions.tag_all(ask),
    "known": lambda work, ask: work.values.known(ask),
    "pieces": lambda work, ask: work.pieces.of(ask),
    "tag-pieces": lambda work, ask: work.pieces.tag(ask, work.attributes.asked(ask)),
    "why": lambda work, ask: work.explainer.of_lists(ask),
}
