"""Whether a text is well-formed, by expat: of a document that has no DTD nothing else is told."""
from xml.parsers import expat

from .text import Text


def fault_of(text: Text) -> tuple[int, str] | None:
    """Where a text isn't well-formed, and why; none where it is."""
    parser = expat.ParserCreate("utf-8")
    try:
        parser.Parse(text.data, True)
    except expat.ExpatError as fault:
        return max(0, min(parser.ErrorByteIndex, len(text.data))), expat.ErrorString(fault.code) or "not well-formed"
    return None
