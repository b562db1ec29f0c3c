"""In which encoding a file is that isn't UTF-8, which the program alone reads, and the line that converts it."""
import re

from .places import Span, front_mark

# What other tools may use; each has an example.
__all__ = ("encoding_fault", "not_utf_8")

# A character of several bytes in UTF-8, which other encodings write by chance alone; and bytes that Latin-1 has no letter
# for.
MULTIBYTE = re.compile(rb"[\xc2-\xdf][\x80-\xbf]|[\xe0-\xef][\x80-\xbf]{2}|[\xf0-\xf4][\x80-\xbf]{3}")
WINDOWS = re.compile(rb"[\x80-\x9f]")
# How files begin whose characters have two bytes or four, the longer ones first, and what each is: with a byte order
# mark, or with `<`.
WIDE = ((b"\xff\xfe\0\0", "UTF-32"), (b"\0\0\xfe\xff", "UTF-32"), (b"<\0\0\0", "UTF-32LE"), (b"\0\0\0<", "UTF-32BE"),
        (b"\xff\xfe", "UTF-16"), (b"\xfe\xff", "UTF-16"), (b"<\0", "UTF-16LE"), (b"\0<", "UTF-16BE"))
DECLARED = re.compile(rb"""<\?xml\s[^>]*?encoding\s*=\s*["']([-A-Za-z0-9._]+)["']""")
# Encodings in which no declaration is written in bytes of ASCII.
NO_ASCII = ("UTF-16", "UTF-32", "UCS-", "ISO-10646-UCS-")
ONLY = "and UTF-8 alone is read"


def encoding_fault(data: bytes, is_dtd: bool = False) -> str | None:
    r"""What a file's encoding is, where it isn't UTF-8, with the line that converts it. `xmllint` writes a document's
    declaration anew, and `tools/flatten` that of a DTD; `iconv` is for files that have none.

    >>> print(encoding_fault("<p>caf\u00e9</p>".encode("latin-1")))
    the file isn't UTF-8 and looks like Latin-1; `iconv -f ISO-8859-1 -t UTF-8 FILE` converts it
    >>> encoding_fault(b"<p>cafe</p>") is None
    True
    """
    by_declaration = "tools/flatten FILE" if is_dtd else "xmllint --encode UTF-8 FILE"
    wide = next((name for front, name in WIDE if data.startswith(front)), None)
    if wide is not None:
        has_declaration = b"?xml" in data[:40].replace(b"\0", b"")
        line = by_declaration if has_declaration and wide.startswith("UTF-16") else f"iconv -f {wide} -t UTF-8 FILE"
        return f"the file is in {wide[:6]}, {ONLY}; `{line}` converts it"
    found = DECLARED.match(data, front_mark(data))
    declared = found[1].decode() if found is not None else ""
    name = declared.upper()
    if name.startswith(NO_ASCII):
        return f"its declaration names {name}, and the file isn't in that; `sed '1s/{declared}/UTF-8/' FILE` corrects one in UTF-8"
    if name not in ("", "UTF-8", "US-ASCII"):
        return f"the file is in {name}, {ONLY}; `{by_declaration}` converts it"
    try:
        data.decode()
    except UnicodeDecodeError:
        if MULTIBYTE.search(data) is None and b"\0" not in data:
            name, word = ("WINDOWS-1252", "Windows-1252") if WINDOWS.search(data) is not None else ("ISO-8859-1", "Latin-1")
            return f"the file isn't UTF-8 and looks like {word}; `iconv -f {name} -t UTF-8 FILE` converts it"
    return None


def not_utf_8(data: bytes, span: Span) -> Span | None:
    r"""The first byte of these that isn't UTF-8, if there is one.

    >>> not_utf_8(b"caf\xe9", Span(0, 4))
    Span(start=3, end=4)
    """
    try:
        data[span.start:span.end].decode()
    except UnicodeDecodeError as fault:
        at = span.start + fault.start
        return Span(at, at + 1)
    return None
