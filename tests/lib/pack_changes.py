"""Hostile packs, made from one that is right."""
import random
import re

from check_pack import Document, Fault, Pack, is_valid_list, rules_of, word_of
from lib.kept import TOKEN
from lib.pack_cases import joined, pieces_of, plain, weights, written

def other_number(digits):
    number = int(digits)
    return b"%d" % random.choice([number + 1, max(0, number - 1), number + 2, 0, 1, 1000000, 1000001, 4294967295, 4294967296])


def number_changed(case):
    head, body, tail = pieces_of(case.pack)
    lines = random.choice([head, tail, tail])
    at = random.randrange(len(lines))
    numbers = list(re.finditer(rb"[0-9]+", lines[at]))
    if numbers:
        found = random.choice(numbers)
        lines[at] = lines[at][:found.start()] + other_number(found[0]) + lines[at][found.end():]
    return joined(head, body, tail)


def value_changed(case):
    """An entry with another value, or another kind."""
    head, body, tail = pieces_of(case.pack)
    at = random.randrange(len(tail))
    words = tail[at].split()
    if len(words) == 5:
        words[-1] = other_number(words[-1])
        words[0] = random.choice([words[0]] * 5 + [b"c", b"n", b"p", b"s"])
    tail[at] = b" ".join(words)
    return joined(head, body, tail)


def lines_changed(case):
    """Lines swapped, dropped or doubled."""
    head, body, tail = pieces_of(case.pack)
    lines = random.choice([head, tail, tail])
    at, other = random.randrange(len(lines)), random.randrange(len(lines))
    change = random.choice(["swap", "drop", "double"])
    if change == "swap":
        lines[at], lines[other] = lines[other], lines[at]
    elif change == "drop":
        del lines[at]
    else:
        lines.insert(other, lines[at])
    return joined(head, body, tail)


def tables_changed(case):
    """A table dropped, doubled, moved, of another list, without entries, or without those of one site."""
    pack = Pack(case.pack)
    tables, lists = pack.tables, case.document.lists()
    path, entries = random.choice(tables) if tables else (lists[-1][0], [])
    rest = [table for table in tables if table[0] != path]
    site = random.choice(entries)[0] if entries else None
    changed = random.choice([
        rest, [(path, entries), *tables], [*tables, (path, entries)], tables[::-1], [*rest, (random.choice(lists)[0], entries)],
        [*rest, (path, [])], [*rest, (path, [entry for entry in entries if entry[0] != site])], [*rest, (path + (0,), entries)]])
    total = random.choice([pack.total, pack.total, max(0, pack.total - 1)])
    return written(total, pack.marks[:total], pack.body, changed)


def table_added(case):
    """A table more, also of a list that needs none: with all its weights it is closed."""
    pack = Pack(case.pack)
    path, owner, kids = random.choice(case.document.lists())
    tables = dict(pack.tables) | {path: weights(case.dtd, word_of(case.dtd, kids))}
    return written(pack.total, pack.marks, pack.body, sorted(tables.items()))


def body_changed(case):
    head, body, tail = pieces_of(case.pack)
    at = random.randrange(len(body) + 1)
    byte = random.choice([b"<", b">", b"/", b" ", b"a", b"b", b"&", b"\xff", b"\n", b"-", b"]", bytes([random.randrange(256)])])
    body = random.choice([body[:at] + byte + body[at + 1:], body[:at] + byte + body[at:], body[:at] + body[at + 1:]])
    return joined(head, body, tail)


def marks_changed(case):
    pack = Pack(case.pack)
    count = len(Document(pack.body, case.root).attributes())
    marks = random.choice([pack.marks[::-1], [*pack.marks, count], [mark + 1 for mark in pack.marks], pack.marks[:-1],
                           sorted(random.sample(range(count), min(count, len(pack.marks))))])
    return written(random.choice([pack.total, len(marks)]), marks, pack.body, pack.tables)


def enlarged(case, marks, old):
    """A valid body with one new element more, and its marks; none where no such body is found."""
    text, body = old.decode(), Document(old, case.root)
    start, end = len(body.before), len(text) - len(body.after)
    places = [start, *(start + found.end() for found in TOKEN.finditer(text[start:end]))]
    for _ in range(40):
        first, second = sorted(random.choices(places, k=2))
        name = random.choice(case.dtd.names[:case.dtd.declared])
        larger = f"{text[:first]}<{name}>{text[first:second]}</{name}>{text[second:]}".encode()
        try:
            lists = Document(larger, case.root).lists()
        except Fault:
            continue
        if all(is_valid_list(case.dtd, case.root, owner, kids) for _, owner, kids in lists):
            number = len(re.findall("<[^!?/]", text[start:first]))
            return sorted([number, *(mark + (mark >= number) for mark in marks)]), larger
    return None


def smaller_completion(case):
    """A new element has another name, or its tags are left out."""
    pack = Pack(case.pack)
    if not pack.marks:
        return body_changed(case)
    body, marked = Document(pack.body, case.root), random.choice(pack.marks)
    marks = [mark - (mark > marked) for mark in pack.marks if mark != marked]
    if random.random() < 0.5:
        start = [at for at, event in enumerate(body.events) if event[0] == "start"][marked]
        body.events[start] = "start", random.choice(case.dtd.names), ""
        marks = pack.marks
    else:
        body.events = list(body.view({marked}))
    tables = [(path, [(*entry[:3], max(0, entry[3] - 1)) for entry in entries]) for path, entries in pack.tables]
    return written(len(marks), marks, plain(body).encode(), random.choice([pack.tables, tables]))


def whole_goal(case, owner, word):
    """The site and the span whose value is a table's whole-list value."""
    return ("n" if owner is None else "c", case.dtd.token(case.root if owner is None else owner)), 0, len(word)


def value_in(entries, goal):
    return sum(entry[3] for entry in entries if entry[:3] == goal)


def larger_completion(case):
    """A larger completion, whose total, marks and whole-list values are made to agree."""
    pack = Pack(case.pack)
    found = enlarged(case, pack.marks, pack.body)
    if not found:
        return number_changed(case)
    lists = case.document.lists()
    path, owner, kids = random.choice(lists)
    word = word_of(case.dtd, kids)
    table = dict(pack.tables).get(path) or weights(case.dtd, word)
    whole = whole_goal(case, owner, word)
    raised = random.choice([lambda entry: entry[:3] == whole, lambda entry: entry[:3] == whole or entry[3] > 0,
                            lambda entry: entry[1:3] == whole[1:]])
    table = [(*entry[:3], entry[3] + 1 if raised(entry) else entry[3]) for entry in table]
    return written(pack.total + 1, *found, sorted((dict(pack.tables) | {path: table}).items()))


def rule_left_out(case):
    """A table of weights by all rules but one, and where the whole-list value is greater by a few, a completion that is as much larger."""
    pack = Pack(case.pack)
    tables, rules = dict(pack.tables), list(rules_of(case.dtd))
    path, owner, kids = random.choice([each for each in case.document.lists() if each[0] in tables] or case.document.lists())
    word = word_of(case.dtd, kids)
    whole = whole_goal(case, owner, word)
    tables[path] = weights(case.dtd, word, random.sample(rules, len(rules) - 1))
    more = value_in(tables[path], whole) - value_in(dict(pack.tables).get(path, []), whole)
    found = pack.marks, pack.body
    for _ in range(more if more < 4 else 0):
        found = enlarged(case, *found) or found
    return written(len(found[0]), *found, sorted(tables.items()))


CHANGES = [number_changed, value_changed, lines_changed, tables_changed, table_added, body_changed, marks_changed, smaller_completion,
           larger_completion, rule_left_out]
