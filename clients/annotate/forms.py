"""Attributes and comments by their form: whether what a script or a user gives is attributes of one tag, or one comment, and nothing
else."""
import re
from collections.abc import Sequence

from .moves import ATTRIBUTES, COMMENT, BadLine, Line
from pvtag.document import unescaped
from pvtag.program import file_of, run

# A tag can't end within these: that they are attributes of XML is asked of the program.
ATTRS = re.compile(r"""(?:\s+[^\s=<>"'/]+\s*=\s*(?:"[^"<]*"|'[^'<]*'))*\s*""")
NAME = re.compile(r"""\s+([^\s=<>"'/]+)\s*=\s*(?:"[^"<]*"|'[^'<]*')""")
DTD = b"<!ELEMENT x (x*)>"


def are_attributes(program: list[str], all_attrs: Sequence[str]) -> bool:
    """Whether each of these is attributes of one tag."""
    if not all(ATTRS.fullmatch(attrs) and are_different(NAME.findall(attrs)) for attrs in all_attrs):
        return False
    tags = "".join(f"<x{attrs}/>" for attrs in all_attrs)
    with file_of(DTD, ".dtd") as dtd, file_of(f"<x>{tags}</x>".encode(errors="surrogatepass")) as doc:
        return run(program, "valid", dtd, "x", doc).status == 0


def are_comments(program: list[str], texts: Sequence[str]) -> bool:
    """Whether each of these is the text of one comment."""
    if any("--" in text or text.endswith("-") or "\r" in text for text in texts):
        return False
    comments = "".join(f"<!--{text}-->" for text in texts)
    with file_of(DTD, ".dtd") as dtd, file_of(f"<x>{comments}</x>".encode(errors="surrogatepass")) as doc:
        return run(program, "valid", dtd, "x", doc).status == 0


def are_different(names: Sequence[str]) -> bool:
    return len(set(names)) == len(names)


def check_forms(program: list[str], lines: Sequence[Line]) -> None:
    """Refuses a line of a script that gives a tag what isn't attributes, or a comment what isn't its text."""
    comments = [line for line in lines if line.text.startswith(COMMENT)]
    if comments and not are_comments(program, list(map(comment_of, comments))):
        bad = next((line for line in comments if not are_comments(program, [comment_of(line)])), comments[-1])
        raise BadLine(bad.number, "what this line says can't stand in a comment")
    all_attrs = [line.text.partition(" ")[2].partition(" ")[2] for line in lines if line.text.startswith(ATTRIBUTES)]
    if not all_attrs or are_attributes(program, all_attrs):
        return
    for line in lines:
        if line.text.startswith(ATTRIBUTES) and not are_attributes(program, [line.text.split(" ", 2)[-1]]):
            raise BadLine(line.number, "what this line gives a tag isn't attributes")


def comment_of(line: Line) -> str:
    """The text of the comment that a line tells."""
    return unescaped((line.text.split(" ", 2) + [""])[2])
