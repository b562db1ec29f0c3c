"""Random documents and DTDs with all kinds of items, for the tests of clients, and where their package is."""
import os
import random
import sys

from lib.annotate.fixture import TOP

CLIENTS = os.path.join(TOP, "clients")
sys.path.insert(0, CLIENTS)

NAMES = ["a", "b", "é", "x-1", "日n", "p:q"]
WORDS = ["word", "é", "𐀀", "\n", "\r\n", "\r", "\t", " ", "&amp;", "&#65;", "&#x10000;", "]]", ">", "'", '"', "/"]
ANY = "".join(f"<!ELEMENT {name} ANY>" for name in NAMES)


def text():
    made = "".join(random.choices(WORDS, k=random.randint(1, 6)))
    return made.replace("]]>", "]")


def tag(name):
    made = "".join(
        f"{random.choice([' ', chr(10)])}{each}{random.choice(['=', ' = '])}{random.choice(['>', '/>'])!r}"
        for each in random.sample(NAMES, random.choice([0, 0, 1, 2]))
    )
    return f"{name}{made}{random.choice(['', '', ' '])}"


def misc():
    return random.choice(["<!---->", "<!-- <a> é -->", "<?p?>", "<?p <a> ?>"])


def element(depth):
    name = random.choice(NAMES)
    if random.random() < 0.2:
        return f"<{tag(name)}/>"
    kids = [
        random.choice([text, text, misc, lambda: "<![CDATA[<a>&]]>", lambda: element(depth - 1)])() if depth else text()
        for _ in range(random.randint(0, 5))
    ]
    joined = "".join(kids).replace("]]>", "]") if "<![CDATA[" not in "".join(kids) else "".join(kids)
    return f"<{tag(name)}>{joined}</{name}{random.choice(['', ' '])}>"


def document():
    """A random document, as bytes, and its root's name."""
    while True:
        root = element(4)
        front = random.choice(["", "\ufeff"]) + random.choice(
            ["", "<?xml version='1.0'?>", '<?xml version="1.0" encoding="UTF-8"?>']
        )
        front += random.choice(["", "\n"]) + random.choice(["", misc() + "\r\n"])
        name = root[1:].split(">")[0].split("/")[0].split()[0]
        front += random.choice(["", f"<!DOCTYPE {name}>", f"<!DOCTYPE {name} SYSTEM 'a>b'>\n"])
        made = (front + root + random.choice(["", "\n", misc()])).encode()
        if not made.removeprefix(b"\xef\xbb\xbf").startswith((b"\n", b"\r")) or b"<?xml " not in made[:12]:
            return made, name


DECLARATIONS = [
    "<!ELEMENT %s (a,b?)*>",
    "<!ELEMENT %s EMPTY>",
    "<!ELEMENT %s (#PCDATA)>",
    "<!ATTLIST %s x CDATA 'a>%%z;'>",
    "<!ENTITY %s '<'>",
    "<!-- %s %%no; -->",
    "<?p %s?>",
    "<!NOTATION %s SYSTEM '>'>",
]


def dtd(has_entities):
    """A random DTD, as bytes; the names that it declares are all different."""
    made = [random.choice(["", "\ufeff"]) + random.choice(["", "<?xml encoding='UTF-8'?>"])]
    declared = []
    for number in range(random.randint(1, 8)):
        made.append(random.choice(DECLARATIONS) % f"n{number}")
        if has_entities and random.random() < 0.5:
            inner = " ".join(random.choice(DECLARATIONS) % f"m{number}x{at}" for at in range(random.randint(0, 3)))
            if "%" in inner or '"' in inner:
                continue
            inner += random.choice(["", *(f"%e{other};" for other in declared)])
            made.append(f'<!ENTITY % e{number} "{inner}">')
            declared.append(number)
        elif declared and random.random() < 0.3:
            made.append(f"%e{declared.pop(random.randrange(len(declared)))};")
    return random.choice(["", "\n", " "]).join(made).encode()


def write(path, data):
    with open(path, "wb") as file:
        file.write(data)
