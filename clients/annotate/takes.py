"""What an element takes, for showing: the names of its content model, the model with the DTD's entities spelled out, and the
comment before its declaration. What a declaration allows is the program's to say.
"""
import re
from functools import cached_property

from pvtag.dtd import Dtd
from pvtag.sentences import named

ENTITY = re.compile(r"""<!ENTITY\s+%\s+(\S+)\s+("[^"]*"|'[^']*')\s*>""")
REFERENCE = re.compile(r"%([^\s%;]+);")
COMMENT = re.compile(r"<!--((?:(?!-->).)*)-->\s*<!ELEMENT\s+([^\s<>%\"']+)\s", re.S)
NAME = re.compile(r"[^\s|,()?*+%;#]+")
# So often entities are put in place, and so long a model becomes by that at most.
ROUNDS, LONGEST = 40, 1 << 16
# A model of so many characters is told as it stands; of a longer one so many names.
SHORT, NAMES = 60, 3
# So much of a comment is shown.
EXCERPT = 300


class Takes:
    def __init__(self, dtd: Dtd) -> None:
        self.dtd = dtd

    @cached_property
    def text(self) -> str:
        return self.dtd.data.decode(errors="replace")

    @cached_property
    def entities(self) -> dict[str, str]:
        found: dict[str, str] = {}
        for name, value in ENTITY.findall(self.text):
            found.setdefault(name, value[1:-1])
        return found

    def model(self, name: str) -> str:
        """The content model in one line, entities spelled out as far as they are known; "" where none is found."""
        declared = self.dtd.declaration(name)
        text = declared.model if declared is not None else ""
        for _ in range(ROUNDS):
            more = REFERENCE.sub(lambda found: self.entities.get(found[1], found[0]), text)
            if more == text or len(more) > LONGEST:
                break
            text = more
        return re.sub(r"\s*([|,()])\s*", r"\1", " ".join(text.split())).replace(",", ", ")

    def of(self, name: str) -> tuple[str, str]:
        """What an element takes, a sentence, and the model where that isn't all of it."""
        model = self.model(name)
        if not model:
            return "", ""
        if len(model) <= SHORT:
            return f"{named(name)} is declared `{model}`.", ""
        names = list(dict.fromkeys(NAME.findall(model.replace("#PCDATA", ""))))
        told = [*(["text"] if "#PCDATA" in model else []), *map(named, names)]
        rest = f" … ({len(told)})" if len(told) > NAMES else ""
        return f"{named(name)} takes {', '.join(told[:NAMES])}{rest}.", model

    @cached_property
    def comments(self) -> dict[str, str]:
        """The comments right before declarations, by their names."""
        found = ((name, " ".join(comment.strip("-=*# \t\r\n").split())) for comment, name in COMMENT.findall(self.text))
        return {name: text if len(text) <= EXCERPT else text[:EXCERPT] + "…" for name, text in found if text}
