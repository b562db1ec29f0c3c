"""Judges a denial, from docs/FORMATS.md alone: a stranger's judge.

Words: DTD ROOT DOC TABLE. Prints `denied PATH`, `rejected WHY` with the first test that fails, `limit width PATH`, `table line K`, `limit
table` or `limit table-file`, or that the DTD or the document is at fault; ends with 0 where the denial is accepted, else with 1. Limits on
the DTD and the document aren't looked at. DTDs and documents are read as `check_pack.py` does.
"""
import re
import sys

sys.dont_write_bytecode = True

from check_pack import BIG, Document, Dtd, Fault, KINDS, PATH, need, read, word_of

MOST_BYTES, MOST_VALUES, MOST_WIDTH = 134217728, 8388608, 67108864
CAUSES = b"undeclared", b"unproductive", b"empty", b"word"
NUMBER = b"(?:0|[1-9][0-9]{0,9})"
ROW = re.compile(b"([cnps])((?: " + NUMBER + b"){2,})")


def dotted(path):
    return ".".join(map(str, path)) or "."


class Denial:
    """The path, the cause, and the rows: pairs of a site, a kind and a number, and values."""

    def __init__(self, data):
        need(len(data) <= MOST_BYTES, "limit table-file")
        self.path, self.cause, self.rows = None, None, []
        self.values, self.is_ended = 0, False
        at = lines = 0
        while not self.is_ended:
            end = data.find(b"\n", at)
            need(end >= 0 and self.takes(lines, data[at:end]), f"table line {lines}")
            need(self.values <= MOST_VALUES, "limit table")
            at, lines = end + 1, lines + 1
        need(at == len(data), f"table line {lines}")

    def takes(self, lines, line):
        """Takes a line, and tells whether it may stand after so many lines before it."""
        if lines == 0:
            return line == b"pvdeny 1"
        if lines == 1:
            path = PATH.fullmatch(line)
            self.path = path and (() if path[1] == b"." else tuple(map(int, path[1].split(b"."))))
            return path is not None and all(place < BIG for place in self.path)
        if lines == 2:
            self.cause = line.removeprefix(b"cause ")
            return line.startswith(b"cause ") and self.cause in CAUSES
        row = ROW.fullmatch(line)
        if row:
            return self.takes_row(row[1].decode(), list(map(int, row[2].split())))
        self.is_ended = line == b"end"
        return self.is_ended

    def takes_row(self, kind, numbers):
        site = kind, numbers[0]
        ascends = not self.rows or self.rows[-1][0] < site
        self.rows.append((site, numbers[1:]))
        self.values += len(numbers) - 1
        return ascends and max(numbers) < BIG


def productive(dtd):
    """The numbers of the productive names."""
    names, parts, grows = set(), set(), True

    def is_good(kind, members):
        if kind == "name":
            return members[0] in names
        return kind in ("opt", "star") or (any if kind == "choice" else all)(member in parts for member in members)

    while grows:
        before = len(names), len(parts)
        parts.update(p for p, part in enumerate(dtd.parts) if is_good(*part))
        names.update(x for x, (kind, roots) in enumerate(dtd.models) if kind != "children" or roots[0] in parts)
        grows = before != (len(names), len(parts))
    return names


def live_word_of(dtd, kids):
    good = productive(dtd)
    return [token if token == "text" or token in good else "other" for token in word_of(dtd, kids)]


# The rules of a site: each gives, for a place, the value of a right side, none where that is none. `at` gives the value of a site at a
# place.
def rules_of(dtd, word, at, site):
    kind, number = site
    if kind == "n":
        yield lambda i: i + 1 if i < len(word) and word[i] == number else None
        yield lambda i: at(("c", number), i)
    elif kind == "c":
        yield from rules_of_content(dtd, word, at, site)
    elif kind == "p":
        yield from rules_of_part(dtd, at, site)
    elif dtd.behind[number] is None:
        yield lambda i: at(("p", number), i)
    else:
        yield lambda i: at(("s", dtd.behind[number]), at(("p", number), i))


def rules_of_content(dtd, word, at, site):
    if site[1] >= dtd.declared:
        return
    kind, parts = dtd.models[site[1]]
    if kind == "children":
        yield lambda i: at(("p", parts[0]), i)
        return
    yield lambda i: i
    if kind != "empty":
        yield lambda i: at(site, i + 1) if i < len(word) and word[i] == "text" else None
        for member in [("p", q) for q in parts] if kind == "mixed" else [("n", y) for y in range(dtd.declared)]:
            yield lambda i, member=member: at(site, at(member, i))


def rules_of_part(dtd, at, site):
    kind, members = dtd.parts[site[1]]
    first = {"name": "n", "seq": "s"}.get(kind, "p"), members[0]
    if kind in ("opt", "star"):
        yield lambda i: i
    if kind in ("star", "plus"):
        yield lambda i: at(site, at(first, i))
    if kind == "choice":
        for member in members:
            yield lambda i, member=member: at(("p", member), i)
    elif kind != "star":
        yield lambda i: at(first, i)


def sites_of(dtd):
    names, parts = range(len(dtd.names)), range(len(dtd.parts))
    return [(kind, number) for kind in KINDS for number in (names if kind in "cn" else parts if kind == "p" else sorted(dtd.behind))]


def is_barrier(dtd, word, rows):
    sites, size = sites_of(dtd), len(word)
    known, values = set(sites), dict(rows)
    if len(values) < len(rows) or any(site not in known or len(row) != size + 1 for site, row in rows):
        return False
    if any(not i <= value <= size for row in values.values() for i, value in enumerate(row)):
        return False
    if any(one > two for row in values.values() for one, two in zip(row, row[1:])):
        return False

    def at(site, place):
        return values[site][place] if place is not None and site in values else None

    def keeps(left, right):
        return right is None or left is not None and left >= right

    return all(keeps(at(site, i), rule(i)) for site in sites for rule in rules_of(dtd, word, at, site) for i in range(size + 1))


def holds(dtd, cause, owner, x, kids):
    """Whether a cause but the word's holds: the number of the owner's name is x."""
    if cause == b"undeclared":
        return x == "other"
    if cause == b"unproductive":
        return x != "other" and x not in productive(dtd)
    return owner is not None and x != "other" and x < dtd.declared and dtd.models[x][0] == "empty" and kids != []


def judge(dtd, root, doc, denial):
    """What is told of a denial, as `deny` tells it."""
    lists = {path: (owner, kids) for path, owner, kids in doc.lists()}
    if denial.path not in lists:
        return "rejected list"
    owner, kids = lists[denial.path]
    x = dtd.token(root if owner is None else owner)
    if denial.cause != b"word":
        good = holds(dtd, denial.cause, owner, x, kids) and not denial.rows
        return f"denied {dotted(denial.path)}" if good else "rejected cause"
    word = live_word_of(dtd, kids)
    if (len(word) + 1) * dtd.columns > MOST_WIDTH:
        return f"limit width {dotted(denial.path)}"
    if x == "other":
        return "rejected cause"
    if not is_barrier(dtd, word, denial.rows):
        return "rejected table"
    row = dict(denial.rows).get(("n" if owner is None else "c", x))
    return "rejected reached" if row and row[0] == len(word) else f"denied {dotted(denial.path)}"


def main():
    dtd, root, doc, denial = sys.argv[1:]
    try:
        dtd, doc, denial = Dtd(read(dtd).decode()), Document(read(doc), root), Denial(read(denial))
        answer = judge(dtd, root, doc, denial)
    except (Fault, UnicodeDecodeError) as fault:
        answer = str(fault)
    print(answer)
    sys.exit(0 if answer.startswith("denied") else 1)


if __name__ == "__main__":
    main()
