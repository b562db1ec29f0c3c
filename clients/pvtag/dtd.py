"""A DTD, for showing: its names as the program tells them, and its declarations as their author wrote them.

What a declaration allows is the program's to say: nothing is read of a model here but its text.
"""
import functools
import re
from typing import NamedTuple

from .places import Source
from .program import Answer, read_file, run, shown_name

# What other tools may use; each has an example.
__all__ = ("Type", "Declaration", "Dtd")


class Type(NamedTuple):
    """A declared name as `dtd` tells it: its content model is "empty", "any", "mixed" or "children", and some finite
    element of it is valid or none.

    >>> from pvtag.program import find
    >>> Dtd(find(), "examples/letter.dtd").types["opener"]
    Type(name='opener', kind='children', is_productive=True)
    """

    name: str
    kind: str
    is_productive: bool


class Declaration(NamedTuple):
    """An element declaration: its text from `<!ELEMENT` to `>`, the model alone, and its offset in the file.

    >>> from pvtag.program import find
    >>> Dtd(find(), "examples/letter.dtd").declaration("opener").text
    '<!ELEMENT opener (dateline?, salute)>'
    """

    name: str
    text: str
    model: str
    offset: int


# A declaration of an element with its name and its model, and what else one may stand in.
DECLARED = re.compile(
    rb"""<!ELEMENT\s+([^\s<>%"']+)\s+([^<>"']*[^<>"'\s])\s*>|<!--.*?-->|<\?.*?\?>"""
    rb"""|<![A-Z]+\s(?:[^<>"']|"[^"]*"|'[^']*')*>""",
    re.S,
)


class Dtd:
    """A DTD's file, and the name that it is told by. What `dtd` says is asked at the first need; a file that it refuses
    raises `faults.Refusal`.

    >>> from pvtag.program import find
    >>> dtd = Dtd(find(), "examples/letter.dtd")
    >>> list(dtd.types)[:3], dtd.model("letter")
    (['letter', 'opener', 'dateline'], '(opener, body, closer?)')
    >>> dtd.nearest("persons"), dtd.is_productive("letter")
    (['person'], True)
    """

    def __init__(self, program: list[str], path: str, name: str | None = None, told: Answer | None = None) -> None:
        self.program, self.path, self.name = program, path, name if name is not None else shown_name(path)
        # What `dtd` says, where that is known.
        self.told = told

    @functools.cached_property
    def data(self) -> bytes:
        """The file's bytes."""
        return read_file(self.path)

    @functools.cached_property
    def source(self) -> Source:
        """The file, with its lines."""
        return Source(self.name, self.data)

    @functools.cached_property
    def types(self) -> dict[str, Type]:
        """The declared names, in order of declaration."""
        return self.types_of(self.told or run(self.program, "dtd", self.path))

    def types_of(self, answer: Answer) -> dict[str, Type]:
        """The declared names, in order of declaration, read from an answer of `dtd`."""
        if answer.status:
            from .faults import Refusal, fault_of
            raise Refusal(fault_of(answer.status, answer.line, {"dtd": self.source}))
        rows = (line.split(" ") for line in answer.output.decode().splitlines()[:-1])
        return {name: Type(name, kind, least != "unproductive") for name, kind, least in rows}

    @functools.cached_property
    def declarations(self) -> dict[str, Declaration]:
        """The declarations that are found in the file as they are."""
        found = (match for match in DECLARED.finditer(self.data) if match[1])
        made = (Declaration(match[1].decode(errors="replace"), match[0].decode(errors="replace"),
                            match[2].decode(errors="replace"), match.start()) for match in found)
        return {each.name: each for each in made}

    def declaration(self, name: str) -> Declaration | None:
        """The declaration of a name as it stands in the file, parameter entities as they were written; none where none
        can be found."""
        return self.declarations.get(name)

    def model(self, name: str, longest: int = 60) -> str:
        """The model of a name in one line, for a sentence: cut after so many characters, "" where none is found."""
        found = self.declaration(name)
        text = " ".join(found.model.split()) if found else ""
        return text if len(text) <= longest else re.split(r"[^\s|,(]*$", text[:longest])[0].rstrip() + "…"

    def nearest(self, name: str, most: int = 3) -> list[str]:
        """The declared names that look most like this one, the nearest first; none where none does."""
        from difflib import get_close_matches
        return get_close_matches(name, self.types, most)

    def behind_prefix(self, name: str) -> str | None:
        """The declared name that differs from this one in its prefix alone: to a DTD a prefix is part of the name."""
        local = name.rpartition(":")[2]
        return next((each for each in self.types if each != name and each.rpartition(":")[2] == local), None)

    def is_productive(self, name: str) -> bool:
        """Whether the name is declared and some finite element of it is valid."""
        return name in self.types and self.types[name].is_productive
