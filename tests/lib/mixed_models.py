"""Random content models of which many are mixed, starred or recursive."""
import random

from lib.grammar import random_particle

FORMS = ["name"] * 3 + ["seq", "seq", "choice", "choice", "?", "*", "*", "+"]


def particle(depth, names):
    return random_particle(depth, names, FORMS, 4)


def model(names):
    form = random.choice(["empty", "any"] + ["mixed"] * 3 + ["children"] * 8)
    if form == "mixed":
        return (form, random.sample(names, random.randint(0, min(4, len(names)))))
    return (form, particle(3, names)) if form == "children" else (form,)
