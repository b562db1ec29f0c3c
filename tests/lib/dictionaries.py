"""A DTD in the shape of TEI's, and dictionaries that are valid under it.

The DTD has 190 names and 7,020 parts. Most parts stand in 41 mixed contents of 154 names each; some contents are groups of 40 names, any number of
each; and some are sequences of 40 optional ones.
"""
import random

# Names that stand nearly everywhere, in phrases and in entries; and those that stand among paragraphs.
GLOBALS = [f"g{at}" for at in range(20)]
PHRASES = ["hi", "term", "foreign", "mentioned", "ref", "date", "name", "abbr", "orig", "corr", *(f"ph{at}" for at in range(102))]
PARTS = ["orth", "pron", "hyph", "pos", "gen", "num", "case", "usg", "lbl", "def", "gramGrp", "form", "etym", "xr", "re", "note", "bibl", "q", "quote", "cit"]
COMMON = ["p", "list", "table", "entry", "entryFree", "superEntry", "lg", "sp", "figure", *(f"c{at}" for at in range(11))]
MIXED = [*PHRASES, *GLOBALS, *PARTS, "p", "list"]
GROUP = [*PARTS, *GLOBALS[:14], "sense", "hom", "dictScrap", "pc", "ptr", "gloss"]
# Those of the parts whose content is a group, not mixed.
GROUPED = ["cit", "re"]


def dictionary_dtd() -> str:
    """The declarations."""
    mixed, group, world = f"(#PCDATA|{'|'.join(MIXED)})*", "|".join(GROUP), "|".join(GLOBALS)
    lines = {
        "TEI": "(teiHeader,text)", "teiHeader": f"({','.join(f'{name}?' for name in MIXED[:40])})", "text": f"(({world})*,front?,body,back?)",
        "front": f"({'|'.join(COMMON)}|{world})*", "back": f"({'|'.join(COMMON)}|{world})*", "div": f"(head?,({'|'.join(COMMON)}|{world})+)",
        "body": f"(({world})*,head?,((div,({world})*)+|(({'|'.join(COMMON)}),({world})*)+))", "head": mixed,
        "entry": f"(({group})+)", "entryFree": mixed, "superEntry": f"(form?,({world})*,entry+)", "sense": mixed, "hom": f"(({group})*)",
        "dictScrap": mixed, "pc": "(#PCDATA)", "ptr": "EMPTY", "gloss": "(#PCDATA)", "list": f"(head?,(item,({world})*)+)", "item": mixed,
        "table": "(head?,row+)", "row": "(cell+)", "cell": mixed, "p": mixed, "lg": f"(head?,(l|{world})+)", "l": mixed,
        "sp": f"(({world})*,(p|lg)+)", "figure": f"({','.join(f'{name}?' for name in MIXED[60:100])})",
    }
    for name in PARTS:
        lines[name] = f"(({group})+)" if name in GROUPED else mixed
    for at, name in enumerate([*PHRASES, *GLOBALS, *COMMON[9:]]):
        lines[name] = "EMPTY" if name in GLOBALS else mixed if at % 8 == 0 else "(#PCDATA)"
    return "".join(f"<!ELEMENT {name} {content}>\n" for name, content in lines.items())


def words(rest: random.Random) -> str:
    """Some words, now and then with a phrase in them."""
    text = "word " * rest.randrange(1, 9)
    if rest.random() < 0.2:
        name = rest.choice(PHRASES[:10])
        return f"{text}<{name}>{'word ' * rest.randrange(1, 3)}</{name}>"
    return text


def entry(rest: random.Random) -> str:
    """An entry: its form, its grammar, and some senses."""
    def made(name: str, inner: str) -> str:
        return f"<{name}>{inner}</{name}>"

    form = made("form", made("orth", "word") + (made("pron", "word") if rest.random() < 0.5 else ""))
    grammar = made("gramGrp", made("pos", "n") + (made("gen", "m") if rest.random() < 0.3 else ""))
    senses = []
    for _ in range(rest.randrange(1, 4)):
        cits = "".join(made("cit", made("quote", words(rest)) + (made("bibl", "word") if rest.random() < 0.3 else "")) for _ in range(rest.randrange(0, 3)))
        senses.append(made("sense", (made("usg", "word") if rest.random() < 0.2 else "") + made("def", words(rest)) + cits))
    return made("entry", form + (grammar if rest.random() < 0.8 else "") + "".join(senses))


def dictionary(rest: random.Random, size: int) -> str:
    """A dictionary of at least so many bytes."""
    made, length = [], 0
    while length < size:
        made.append(entry(rest))
        length += len(made[-1])
    return f"<TEI><teiHeader/><text><body>{''.join(made)}</body></text></TEI>"
