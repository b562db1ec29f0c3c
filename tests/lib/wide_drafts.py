"""Documents with many tags taken away, and long lists: under made DTDs, under those of examples/, and under published ones."""
import os
import random
import re
from typing import NamedTuple

import published
from lib.counting import need
from lib.grammar import NEVER, declaration, least_of, random_particle
from lib.search import write
from lib.wide_trial import EXAMPLES, TOP, Programs, by_session, judge


def grown(models, least, room: int):
    """A valid made document of many elements, or the largest of some."""
    able = [name for name in models if least[name] < NEVER]
    made = []
    for _ in range(40):
        made.append(published.element(models, least, random.choice(able), [room]))
        if sum(1 for _ in published.elements(made[-1])) > room // 2:
            break
    return max(made, key=lambda tree: sum(1 for _ in published.elements(tree)))


def try_wide(both: Programs, kind: str, dtd: str, models, least, room: int, original: str = "") -> None:
    tree = grown(models, least, room)
    text, taken = published.without_tags(published.document(tree), random.choice([0.1, 0.5, 0.9]))

    def judged() -> str:
        told = judge(both, dtd, tree[0], text, original)
        need(told.least <= taken, f"{told.line!r}, and {taken} elements make it valid")
        return by_session(told, both.session_need(dtd, tree[0], "d.xml"))

    both.case(kind, judged, lambda: f"{dtd} {tree[0]}\n{text}")


def made_models() -> dict:
    """Some names, with models in which much may stand in any order."""
    names = [f"n{at}" for at in range(random.choice([3, 6, 20]))]
    return {x: random.choice([("mixed", random.sample(names, 3)), ("children", random_particle(3, names, ["name", "seq", "choice", "*", "+", "?"], 3))])
            for x in names}


def try_made(both: Programs) -> None:
    models = made_models()
    least = least_of(models)
    if min(least.values()) < NEVER:
        write("made.dtd", "".join(declaration(x, content) for x, content in models.items()))
        try_wide(both, "made DTDs", "made.dtd", models, least, random.choice([50, 400]))


def try_one_list(both: Programs) -> None:
    """A list of kids in any order under a DTD of examples/, with thousands of them."""
    name, (root, _) = random.choice(list(EXAMPLES.items()))
    with open(f"{TOP}/examples/{name}", encoding="utf-8") as file:
        dtd = re.sub(r"<!--.*?-->", "", file.read(), flags=re.DOTALL)
    kids = [kid for kid in re.findall(r"<!ELEMENT\s+(\S+)", dtd) if kid != root]
    some, count = random.sample(kids, random.choice([1, 2, 4])), random.choice([500, 3000])
    text = f"<{root}>" + "".join(f"<{random.choice(some)}/>" for _ in range(count)) + f"</{root}>"

    path = f"{TOP}/examples/{name}"
    both.case("long lists", lambda: by_session(judge(both, path, root, text, path), both.session_need(path, root, "d.xml")), lambda: text)


class Published(NamedTuple):
    """A DTD as it was published, made plain, with its models and least trees."""
    original: str
    flat: str
    models: dict
    least: dict


def published_dtds() -> list[Published]:
    """DocBook and XHTML, where they are installed with what reads them."""
    found = []
    python = published.python_with_lxml()
    for number, original in enumerate([published.STRICT, published.TRANSITIONAL, published.MANUALS]):
        if python and os.path.exists(original):
            text = published.run(python, published.TOOL, original).stdout
            write(f"flat{number}.dtd", text)
            models = published.models_of(text)
            found.append(Published(original, f"flat{number}.dtd", models, least_of(models)))
        else:
            print(f"skipped: {original} (it, or lxml, isn't installed)")
    return found
