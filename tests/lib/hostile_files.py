"""Hostile files: DTDs, documents and scripts made to cost much, at the limits of `docs/COMMANDS.md` and past them.

Each is a name, the pieces that it is made of, and what must be answered, by `docs/COMMANDS.md` and `docs/FORMATS.md`: the status and the
output. A piece is bytes, or bytes and how often they stand there. `hostile.py` runs the program on them.
"""
KB, MB = 1 << 10, 1 << 20
NONE = b""
DTD_MOST, DOC_MOST, LINE_MOST = 4 * MB, 64 * MB, MB


def filled(most, head, unit, tail=b""):
    """Pieces of a file of at most so many bytes: the head, the unit again and again, and the tail."""
    return [head, (unit, (most - len(head) - len(tail)) // len(unit)), tail]


# DTDs. Each is a name, its pieces, and the status and the lines of `dtd`.
def doubled(times):
    """An entity whose text is one byte, and so many, each of which is twice the one before."""
    return [b"<!ENTITY % e0 'x'>", *(b"<!ENTITY %% e%d '%%e%d;%%e%d;'>" % (k, k - 1, k - 1) for k in range(1, times + 1))]


def chained(count, use):
    """So many entities, each of which refers to the one before when it is put in place, and a use of the last."""
    return [b"<!ENTITY % e1 ''>", *(b"<!ENTITY %% e%d '&#37;e%d;'>" % (k, k - 1) for k in range(2, count + 1)), use % (b"%%e%d;" % count)]


def long_name(k):
    return b"n%d" % k + b"-" * (256 - len(b"n%d" % k))


def listing(names, more=b""):
    return b"".join(b"%s empty 1\n" % name for name in names) + b"types %d parts 0 undeclared 0\n" % len(names) + more


def hostile_dtds():
    nothing = b"types 0 parts 0 undeclared 0\n"
    names = [long_name(k) for k in range(4096)]
    lines = [b"<!ELEMENT %s EMPTY>\n" % name for name in names]
    mixed = b"<!ELEMENT a (#PCDATA" + b"".join(b"|m%d" % k for k in range(60000))
    for name, head, unit, tail, status, said in [
            ("(", b"", b"(", b"", 6, b"dtd syntax 0\n"),
            ("<!", b"", b"<!", b"", 6, b"dtd syntax 0\n"),
            ("<!ELEMENT", b"", b"<!ELEMENT ", b"", 6, b"dtd syntax 0\n"),
            ("one name", b"", b"n", b"", 6, b"dtd syntax 0\n"),
            ("one name declared", b"<!ELEMENT ", b"n", b" EMPTY>", 8, b"limit dtd 0\n"),
            ("one name mentioned", b"<!ELEMENT a (", b"n", b")>", 8, b"limit dtd 0\n"),
            ("one entity's name", b"<!ENTITY % ", b"n", b" ''>", 0, nothing),
            ("a comment without end", b"<!--", b"x", b"", 6, b"dtd syntax 0\n"),
            ("a comment of hyphens", b"<!--", b"-", b"", 6, b"dtd syntax 0\n"),
            ("one comment", b"<!--", b"x", b"-->", 0, nothing),
            ("comments", b"", b"<!---->", b"", 0, nothing),
            ("comments that begin in one another", b"", b"<!--", b"", 6, b"dtd syntax 0\n"),
            ("instructions", b"", b"<?p?>", b"", 0, nothing),
            ("an instruction without end", b"<?p ", b"?", b"", 6, b"dtd syntax 0\n"),
            ("skipped declarations", b"", b"<!ATTLIST a>", b"", 0, nothing),
            ("declarations without end", b"", b"<!ATTLIST a ", b"", 6, b"dtd syntax 0\n"),
            ("a literal without end", b"<!ATTLIST a '", b"x", b"", 6, b"dtd syntax 0\n"),
            ("quotes", b"<!ATTLIST a ", b"'\"'", b"", 6, b"dtd syntax 0\n"),
            ("%", b"", b"%", b"", 6, b"dtd parameter 0\n"),
            ("% in a declaration", b"<!ELEMENT a ", b"%", b"", 6, b"dtd parameter 0\n"),
            ("a reference without end", b"<!ENTITY % a ''>%", b"a", b"", 6, b"dtd parameter 0\n"),
            ("references to nothing", b"", b"%a;", b"", 6, b"dtd param undeclared\n"),
            ("references in themselves", b"<!ENTITY % a '&#37;a;'>", b"%a;", b"", 6, b"dtd param recursive\n"),
            ("conditional sections", b"", b"<![", b"", 6, b"dtd param conditional\n"),
            ("external entities", b"", b"<!ENTITY % a SYSTEM 'b'>", b"", 6, b"dtd param external\n"),
            ("an entity of references to characters", b"<!ENTITY % a '", b"&#60;", b"'>%a;", 6, b"dtd param syntax\n"),
            ("( in a model", b"<!ELEMENT a ", b"(", b"", 8, b"limit dtd 0\n"),
            ("() in a model", b"<!ELEMENT a ", b"()", b"", 6, b"dtd syntax 0\n"),
            ("NUL bytes", b"", b"\0", b"", 6, b"dtd syntax 0\n"),
            ("bytes that aren't UTF-8", b"", b"\xff", b"", 6, b"dtd syntax 0\n"),
            ("byte order marks", b"", b"\xef\xbb\xbf", b"", 6, b"dtd syntax 0\n")]:
        yield name, filled(DTD_MOST, head, unit, tail), status, said
    yield "64 open parentheses", [b"<!ELEMENT a ", (b"(", 64), b"b", (b")", 64), b">"], 0, b"a children unproductive\ntypes 1 parts 65 undeclared 1\n"
    yield "65 open parentheses", [b"<!ELEMENT a ", (b"(", 65), b"b", (b")", 65), b">"], 8, b"limit dtd 0\n"
    yield "4,096 types of 256 bytes", lines, 0, listing(names)
    yield "one of them twice", [*lines, lines[0]], 6, b"dtd twice 4096\n"
    yield "one type more", [*lines, b"<!ELEMENT a EMPTY>"], 8, b"limit dtd 4096\n"
    yield "a longer name", [*lines[1:], b"<!ELEMENT ", (b"n", 257), b" EMPTY>"], 8, b"limit dtd 4095\n"
    yield "60,000 names in a mixed model, one twice", [mixed, b"|m59999)*>"], 6, b"dtd mixed-twice 0\n"
    yield "entities that double to 16 MiB", doubled(23), 0, nothing
    yield "entities that double past it", doubled(24), 8, b"limit params\n"
    for use in b"%s", b"<!ATTLIST a %s>":
        yield "65,536 entities in one another", chained(65536, use), 0, nothing
        yield "65,537 entities in one another", chained(65537, use), 8, b"limit params\n"
    yield "40,000 entities and 60,000 references", [*(b"<!ENTITY %% e%d ''>" % k for k in range(40000)), (b"%e39999;", 60000)], 0, nothing


# Documents by a DTD that allows all. Each is a name, its pieces, and the status and the line; none where it is valid.
def hostile_documents():
    for name, head, unit, tail, status, said in [
            ("<a>", b"", b"<a>", b"", 8, b"limit depth 512\n"),
            ("a name", b"<", b"n", b"/>", 1, b"invalid .\n"),
            ("&#0;", b"<a>", b"&#0;", b"</a>", 7, b"document syntax 1\n"),
            ("a reference of zeros", b"<a>&#", b"0", b"65;</a>", 0, None),
            ("a reference of zeros without end", b"<a>&#", b"0", b"", 7, b"document syntax 1\n"),
            ("a reference of nines", b"<a>&#", b"9", b";</a>", 7, b"document syntax 1\n"),
            ("a hexadecimal reference", b"<a>&#x", b"F", b";</a>", 7, b"document syntax 1\n"),
            ("references", b"<a>", b"&#65;", b"</a>", 0, None),
            ("an entity's name", b"<a>&", b"n", b";</a>", 7, b"document entity 1\n"),
            ("&", b"<a>", b"&", b"</a>", 7, b"document syntax 1\n"),
            ("attributes", b"<a", b" b=''", b"/>", 0, None),
            ("attributes without end", b"<a", b" b=''", b"", 7, b"document syntax 0\n"),
            ("one attribute", b"<a b='", b"&#65;", b"'/>", 0, None),
            ("one attribute without end", b"<a b='", b"x", b"", 7, b"document syntax 0\n"),
            ("a tag without end", b"<a ", b" ", b"", 7, b"document syntax 0\n"),
            ("<", b"", b"<", b"", 7, b"document syntax 0\n"),
            ("]]>", b"<a>", b"]]>", b"</a>", 7, b"document syntax 1\n"),
            ("]]> alone", b"", b"]]>", b"", 7, b"document syntax 0\n"),
            ("]", b"<a>", b"]", b"</a>", 0, None),
            ("CDATA starts", b"<a>", b"<![CDATA[", b"", 7, b"document syntax 1\n"),
            ("CDATA starts in a section", b"<a>", b"<![CDATA[", b"]]></a>", 0, None),
            ("] in a section", b"<a><![CDATA[", b"]", b"]]></a>", 0, None),
            ("CDATA sections", b"<a>", b"<![CDATA[]]>", b"</a>", 0, None),
            ("a comment without end", b"<a/><!--", b"x", b"", 7, b"document syntax 1\n"),
            ("a comment of hyphens", b"<!--", b"-", b"", 7, b"document syntax 0\n"),
            ("an instruction alone", b"<?p ", b"?", b">", 7, b"document syntax 1\n"),
            ("instructions behind the root", b"<a/>", b"<?p?>", b"", 0, None),
            ("end tags", b"", b"</a>", b"", 7, b"document syntax 0\n"),
            ("a document type without end", b"<!DOCTYPE a SYSTEM '", b"x", b"", 7, b"document syntax 0\n"),
            ("declarations in a document type", b"<!DOCTYPE a [", b"<!ELEMENT a ANY>", b"]><a/>", 7, b"document subset\n"),
            ("NUL bytes", b"", b"\0", b"", 7, b"document syntax 0\n"),
            ("bytes that aren't UTF-8", b"<a>", b"\xff", b"</a>", 7, b"document syntax 1\n"),
            ("surrogates", b"<a>", b"\xed\xa0\x80", b"</a>", 7, b"document syntax 1\n")]:
        yield name, filled(DOC_MOST, head, unit, tail), status, said


def largest_document():
    """A document of 16,777,214 elements."""
    return filled(DOC_MOST, b"<a>", b"<a/>", b"</a>")


# Scripts on `<a>Hello</a>` by the same DTD. Each is a name, its pieces, and the status and the replies.
def hostile_scripts():
    line = LINE_MOST - len(b"text 0.0 ")
    edits = b"".join(b"text 0.0 " + b"%d" % (k % 10) * line + b"\n" for k in range(16))
    for name, pieces, status, said in [
            ("a text as long as a line", [b"text 0.0 ", (b"x", line), b"\n"], 0, b"ok 1 0 0\n"),
            ("one byte more", [b"undo\n", b"text 0.0 ", (b"x", line + 1), b"\n"], 8, b"no history\nlimit line 2\n"),
            ("a name as long as a line", [b"rename 0 ", (b"n", line), b"\n"], 0, b"no impossible .\n"),
            ("CR up to the limit", [b"undo", (b"\r", LINE_MOST - 4), b"\nundo"], 0, b"no history\n" * 2),
            ("CR past the limit", [b"undo", (b"\r", LINE_MOST - 3), b"\nundo"], 8, b"limit line 1\n"),
            ("blanks", [(b" ", LINE_MOST), b"\nundo"], 0, b"no command\nno history\n"),
            ("NUL bytes", [(b"\0", LINE_MOST), b"\nundo"], 0, b"no command\nno history\n"),
            ("NUL bytes past the limit", [(b"\0", LINE_MOST + 1), b"\nundo"], 8, b"limit line 1\n"),
            ("NUL bytes in lines", [b"undo\0\ntext 0.0 \0\nrename 0 \0\nrename 0 a\0\nunwrap 0\0"], 0,
             b"no command\nno shape bad-text\nno shape bad-name\nno shape bad-name\nno command\n"),
            ("200 MB without LF", [(b"show ", 40 * MB)], 8, b"limit line 1\n"),
            ("200 MB of NUL bytes", [(b"\0", 200 * MB)], 8, b"limit line 1\n"),
            ("empty lines", [(b"\n", MB)], 0, b"no command\n" * MB),
            ("bytes that aren't UTF-8", [b"\xff\nundo\xff\ntext 0.0 \xff\nrename 0 \xff\naddtext 0 0 \xed\xa0\x80\n",
                                         b"insert 0 0 \xc0\xaf\ntext 0.0 \xc3"], 0,
             b"no command\n" * 2 + b"no shape bad-text\nno shape bad-name\nno shape bad-text\nno shape bad-name\nno shape bad-text\n"),
            ("numbers past 64 bits", [b"split 0.0 18446744073709551616\nsplit 0.0 18446744073709551618\nwrap 0 0 18446744073709551617 a\n"
                                      b"unwrap 18446744073709551616\nsplit 0.0 340282366920938463463374607431768211458\n"], 0, b"no command\n" * 5),
            ("a number as long as a line", [b"split 0.0 ", (b"1", line - 1), b"\n"], 0, b"no command\n"),
            ("a path of 524,284 numbers", [b"unwrap 0", (b".0", (LINE_MOST - 8) // 2), b"\n"], 0, b"no shape no-node\n"),
            ("a path of a million numbers", [b"unwrap 0", (b".0", 999999), b"\n"], 8, b"limit line 1\n"),
            ("dots", [b"unwrap ", (b".", LINE_MOST - 7), b"\n"], 0, b"no command\n"),
            ("references", [b"text 0.0 ", (b"&#65;", line // 5), b"\n"], 0, b"ok 1 0 0\n"),
            ("&", [b"text 0.0 ", (b"&", line), b"\n"], 0, b"no shape bad-text\n"),
            ("]]>", [b"text 0.0 ", (b"]]>", line // 3), b"\n"], 0, b"no shape bad-text\n"),
            ("16 MB of edits, and their history", [edits, b"history\n"], 0, b"ok 1 0 0\n" * 16 + b"history 16\n" + edits),
            ("50,000 edits taken back and made again", [(b"rename 0 a\n", 50000), (b"undo\n", 50001), (b"redo\n", 50001)], 0,
             b"ok 2 0 0\n" * 100000 + b"no history\n" + b"ok 2 0 0\n" * 50000 + b"no history\n")]:
        yield name, pieces, status, said
