"""Checks a pack, from docs/FORMATS.md alone: a stranger's checker.

Words: DTD ROOT DOC PACK. Prints `accepted K`, `rejected TEST` with the first test that fails, `limit width PATH`, `pack line K`, `pack limit`,
or that the DTD or the document is at fault; ends with 0 where the pack is accepted, else with 1. Limits on the DTD and the document aren't
looked at. Elements may stand in one another to any depth: nothing here calls itself for them.
"""
import re
import sys

sys.dont_write_bytecode = True

from lib.entities import CHAR, COMMENT, Fault, INSTRUCTION, LITERAL, NAME, S, TEXT_DECLARATION, Reading

HEAVIEST = 1000001
KINDS = "cnps"


def need(holds, what):
    if not holds:
        raise Fault(what)


# DTDs.
ELEMENT = re.compile(f"<!ELEMENT{S}+({NAME}){S}+(EMPTY|ANY|\\([^<>]*?){S}*>")
SKIPPED = re.compile(f"<!(?:ATTLIST|ENTITY|NOTATION)(?={S})(?:(?![<>%'\"]){CHAR}|{LITERAL})*>")
MIXED = re.compile(f"\\({S}*#PCDATA((?:{S}*\\|{S}*{NAME})*){S}*(\\)\\*|\\))")
TOKEN = re.compile(f"{S}*({NAME}|[(),|])([?*+]?){S}*")
SIGNS = {"?": "opt", "*": "star", "+": "plus"}


class Dtd:
    """Names by their numbers, a model for each declared one, and parts by their numbers: what each is, and its members."""

    def __init__(self, text):
        text = Reading().file(text.removeprefix("\ufeff"))
        declarations = list(self.declarations(text))
        self.names = [name for name, _ in declarations]
        self.declared = len(declarations)
        need(len(set(self.names)) == self.declared, "dtd twice")
        # `parts` are pairs of a kind and members, which are numbers of parts, or of one name; `behind` tells of the members of sequences which
        # member stands after, or none.
        self.parts, self.behind = [], {}
        self.models = [self.model(spec) for _, spec in declarations]
        self.columns = len(self.names) + len(self.parts)

    def declarations(self, text):
        first = TEXT_DECLARATION.match(text)
        at = first.end() if first else 0
        while at < len(text):
            item = ELEMENT.match(text, at)
            if item:
                yield item[1], item[2]
            item = item or re.compile(f"{S}+").match(text, at) or COMMENT.match(text, at) or INSTRUCTION.match(text, at) or SKIPPED.match(text, at)
            need(item, "dtd syntax")
            at = item.end()

    def number_of(self, name):
        """The number of a name that is mentioned."""
        if name not in self.names:
            self.names.append(name)
        return self.names.index(name)

    def model(self, spec):
        if spec in ("EMPTY", "ANY"):
            return spec.lower(), []
        mixed = MIXED.fullmatch(spec)
        if not mixed:
            return "children", [self.particle(spec)]
        names = re.findall(NAME, mixed[1])
        need(len(set(names)) == len(names) and (not names or mixed[2] == ")*"), "dtd mixed")
        self.parts += [("name", [self.number_of(name)]) for name in names]
        return "mixed", list(range(len(self.parts) - len(names), len(self.parts)))

    def particle(self, spec):
        tokens, at = [], 0
        while at < len(spec):
            token = TOKEN.match(spec, at)
            need(token and (token[2] == "" or token[1] not in "(,|"), "dtd model")
            tokens.append((token[1], token[2]))
            at = token.end()
        tree, left = self.tree(tokens)
        need(not left, "dtd model")
        return self.numbered(tree)

    def tree(self, tokens):
        """The first particle, as a kind and its members, and the tokens after it."""
        need(tokens and tokens[0][0] not in (",", "|", ")"), "dtd model")
        (token, sign), tokens = tokens[0], tokens[1:]
        made = ("name", token)
        if token == "(":
            members, marks = [], set()
            while True:
                member, tokens = self.tree(tokens)
                members.append(member)
                need(tokens and tokens[0][0] in (",", "|", ")"), "dtd model")
                (mark, sign), tokens = tokens[0], tokens[1:]
                if mark == ")":
                    break
                marks.add(mark)
            need(len(marks) < 2, "dtd model")
            made = ("choice" if marks == {"|"} else "seq", members)
        return (SIGNS[sign], [made]) if sign else made, tokens

    def numbered(self, tree):
        """The number of a particle: it comes before its members, and these from left to right."""
        kind, members = tree
        number = len(self.parts)
        self.parts.append((kind, []))
        numbers = [self.number_of(members)] if kind == "name" else [self.numbered(member) for member in members]
        self.parts[number] = (kind, numbers)
        if kind == "seq":
            self.behind.update(zip(numbers, [*numbers[1:], None]))
        return number

    def token(self, name):
        return self.names.index(name) if name in self.names else "other"

    def allows(self, name, word, has_kids):
        """Whether kids with this word are content of an element of the name."""
        x = self.token(name)
        if x == "other" or x >= self.declared:
            return False
        kind, parts = self.models[x]
        if kind == "children":
            return len(word) in self.ends(parts[0], word, 0, {})
        names = range(self.declared) if kind == "any" else [self.parts[q][1][0] for q in parts]
        return not has_kids if kind == "empty" else all(token == "text" or token in names for token in word)

    def ends(self, part, word, start, found):
        """Where words of the part may end that begin at this token."""
        if (part, start) not in found:
            found[part, start] = self.ends_of(*self.parts[part], word, start, found)
        return found[part, start]

    def ends_of(self, kind, members, word, start, found):
        if kind == "name":
            return {start + 1} if word[start:start + 1] == members else set()
        if kind == "choice":
            return {end for member in members for end in self.ends(member, word, start, found)}
        if kind == "seq":
            places = {start}
            for member in members:
                places = {end for place in places for end in self.ends(member, word, place, found)}
            return places
        places, new = set(), self.ends(members[0], word, start, found)
        while new - places:
            places, new = places | new, {end for place in new - places for end in self.ends(members[0], word, place, found) if kind != "opt"}
        return places if kind == "plus" else places | {start}


# Documents, as events: ("start", name, attributes), ("end",), ("text", run), ("cdata", bytes) and ("misc", bytes).
REFERENCE = re.compile("&(?:#([0-9]+)|#x([0-9a-fA-F]+)|lt|gt|amp|apos|quot);")
VERSION, ENCODING, ALONE = ("(?:'{0}'|\"{0}\")".format(value) for value in ("1\\.[0-9]+", "(?ai:UTF-8|US-ASCII)", "(?:yes|no)"))
DECLARATION = re.compile(f"<\\?xml{S}+version{S}*={S}*{VERSION}(?:{S}+encoding{S}*={S}*{ENCODING})?(?:{S}+standalone{S}*={S}*{ALONE})?{S}*\\?>")
PUBLIC = "(?:\"[- \r\n'()+,./:=?;!*#@$_%a-zA-Z0-9]*\"|'[- \r\n()+,./:=?;!*#@$_%a-zA-Z0-9]*')"
DOCTYPE = re.compile(f"<!DOCTYPE{S}+({NAME})(?:{S}+(?:SYSTEM{S}+{LITERAL}|PUBLIC{S}+{PUBLIC}{S}+{LITERAL}))?{S}*>")
CDATA = re.compile(f"<!\\[CDATA\\[(?:(?!\\]\\]>){CHAR})*\\]\\]>")
VALUE = f"(?:\"(?:(?![<\"]){CHAR})*\"|'(?:(?![<']){CHAR})*')"
TAG = re.compile(f"<({NAME})((?:{S}+{NAME}{S}*={S}*{VALUE})*{S}*)(/?)>")
END = re.compile(f"</({NAME}){S}*>")
RUN = re.compile(f"(?:(?!<){CHAR})+")
BLANKS = re.compile(f"{S}+")


def has_good_references(text):
    """Whether each `&` begins a reference to a character or to one of the five names."""
    at = text.find("&")
    while at >= 0:
        found = REFERENCE.match(text, at)
        if not found or not (found[1] is None and found[2] is None or is_character(found)):
            return False
        at = text.find("&", found.end())
    return True


def is_character(found):
    digits = (found[1] or found[2]).lstrip("0")
    number = int(digits or "0", 10 if found[1] else 16) if len(digits) < 8 else 1 << 30
    return number < 0x110000 and re.fullmatch(CHAR, chr(number)) is not None


class Document:
    """What stands before the root and after it, and the events of the root."""

    def __init__(self, data, root):
        try:
            self.text = data.decode()
        except UnicodeDecodeError:
            raise Fault("utf-8") from None
        at = 1 if self.text.startswith("\ufeff") else 0
        first = DECLARATION.match(self.text, at)
        at = self.behind_misc(first.end() if first else at)
        doctype = DOCTYPE.match(self.text, at)
        need(not doctype or doctype[1] == root, "doctype")
        start = self.behind_misc(doctype.end()) if doctype else at
        end = self.read_root(start)
        need(self.behind_misc(end) == len(self.text), "syntax")
        self.before, self.after = self.text[:start], self.text[end:]

    def behind_misc(self, at):
        while item := BLANKS.match(self.text, at) or COMMENT.match(self.text, at) or INSTRUCTION.match(self.text, at):
            at = item.end()
        return at

    def read_root(self, at):
        """Reads the events from there on, and gives the place after the root."""
        self.events, names = [], []
        while True:
            tag = TAG.match(self.text, at)
            end = None if tag else END.match(self.text, at)
            need(tag or names, "syntax")
            if tag:
                need(has_good_references(tag[2]), "references")
                self.events += [("start", tag[1], tag[2]), *([("end",)] if tag[3] else [])]
                names += [] if tag[3] else [tag[1]]
            elif end:
                need(names.pop() == end[1], "mismatch")
                self.events.append(("end",))
            item = tag or end or self.read_leaf(at)
            at = item.end()
            if not names:
                return at

    def read_leaf(self, at):
        for kind, form in ("cdata", CDATA), ("misc", COMMENT), ("misc", INSTRUCTION), ("text", RUN):
            item = form.match(self.text, at)
            if item:
                need(kind != "text" or "]]>" not in item[0] and has_good_references(item[0]), "text")
                self.events.append((kind, item[0]))
                return item
        raise Fault("syntax")

    def lists(self):
        """The lists in document order: path, owner (none for the document node) and kids, an element being told by its event."""
        found = [((), None, [])]
        opened = [found[0]]
        for event in self.events:
            if event[0] == "end":
                opened.pop()
                continue
            path, _, kids = opened[-1]
            kids.append(event)
            if event[0] == "start":
                found.append((path + (len(kids) - 1,), event[1], []))
                opened.append(found[-1])
        return found

    def kids_of_all(self):
        """The owner and the kids of each list, as `lists` without paths: these would be long in a deep body."""
        opened, found = [(None, [])], []
        for event in self.events:
            if event[0] == "end":
                found.append(opened.pop())
                continue
            opened[-1][1].append(event)
            if event[0] == "start":
                opened.append((event[1], []))
        return [*opened, *found]

    def attributes(self):
        return [event[2] for event in self.events if event[0] == "start"]

    def view(self, left_out=()):
        """The events without the tags of the elements of these numbers, and texts as units."""
        opened, number = [], 0
        for event in self.events:
            if event[0] == "text":
                yield from (("unit", unit) for unit in re.findall("&[^;]*;|[^&]", event[1]))
            elif event[0] == "start":
                opened.append(number in left_out)
                number += 1
                if not opened[-1]:
                    yield event
            elif event[0] != "end" or not opened.pop():
                yield event


def word_of(dtd, kids):
    tokens = []
    for kid in kids:
        if kid[0] == "start":
            tokens.append(dtd.token(kid[1]))
        elif kid[0] == "cdata" or kid[0] == "text" and kid[1].strip(" \t\r\n"):
            tokens.append("text")
    return tokens


def is_valid_list(dtd, root, owner, kids):
    if owner is None:
        return kids[0][1] == root
    return dtd.allows(owner, word_of(dtd, kids), kids != [])


# Packs.
NUMBER = b"(0|[1-9][0-9]{0,9})"
PATH = re.compile(b"list (\\.|" + NUMBER + b"(?:\\." + NUMBER + b")*)")
ENTRY = re.compile(b"([cnps]) " + b" ".join([NUMBER] * 4))
BIG = 1 << 32
MOST_BYTES, MOST_ENTRIES, MOST_CELLS = 1 << 30, 1 << 23, 1 << 24


class Pack:
    """The total, the marks, the body and the tables: pairs of a path and entries (site, from, to, value), a site being a kind and a number."""

    def __init__(self, data):
        need(len(data) <= MOST_BYTES, "pack limit")
        self.data, self.total, self.marks, self.body, self.tables = data, None, [], None, []
        self.entries, self.is_ended = 0, False
        at = lines = 0
        while not self.is_ended:
            end = data.find(b"\n", at)
            end = self.line_end(data[at:end], end, lines) if end >= 0 else None
            need(end is not None, f"pack line {lines}")
            need(self.entries <= MOST_ENTRIES, "pack limit")
            at, lines = end + 1, lines + 1
        need(at == len(data), f"pack line {lines}")

    def line_end(self, line, end, lines):
        """Takes a line, and tells where it ends; none where it may not stand here."""
        if lines == 0:
            return end if line == b"pvpack 1" else None
        if lines == 1:
            total = re.fullmatch(b"total " + NUMBER, line)
            self.total = int(total[1]) if total else HEAVIEST
            return end if self.total < HEAVIEST else None
        if self.body is None:
            return self.mark_end(line, end)
        path, entry = PATH.fullmatch(line), ENTRY.fullmatch(line)
        if path:
            self.tables.append((() if path[1] == b"." else tuple(map(int, path[1].split(b"."))), []))
            return end if all(place < BIG for place in self.tables[-1][0]) else None
        if entry and self.tables:
            number, start, stop, value = map(int, entry.groups()[1:])
            entries = self.tables[-1][1]
            entries.append(((entry[1].decode(), number), start, stop, value))
            self.entries += 1
            ascends = len(entries) < 2 or entries[-2][:3] < entries[-1][:3]
            return end if max(number, start, stop) < BIG and value < HEAVIEST and ascends else None
        self.is_ended = line == b"end"
        return end if self.is_ended else None

    def mark_end(self, line, end):
        mark, body = re.fullmatch(b"mark " + NUMBER, line), re.fullmatch(b"body " + NUMBER, line)
        if mark and int(mark[1]) < BIG:
            self.marks.append(int(mark[1]))
            return end
        if not body:
            return None
        behind = end + 1 + int(body[1])
        self.body = self.data[end + 1:behind]
        return behind if self.data[behind:behind + 1] == b"\n" else None


# Tables. A rule is one of these, a left site coming first: ("none", site), ("one", site, right site, cost), ("text", content site), and
# ("two", site, first, must the first take a token, second, must the second take one).
def rules_of(dtd):
    for x in range(len(dtd.names)):
        yield "one", ("n", x), ("c", x), 1
    for x, (kind, parts) in enumerate(dtd.models):
        content = ("c", x)
        if kind == "children":
            yield "one", content, ("p", parts[0]), 0
            continue
        yield "none", content
        if kind != "empty":
            yield "text", content
            for first in [("p", q) for q in parts] if kind == "mixed" else [("n", y) for y in range(dtd.declared)]:
                yield "two", content, first, True, content, False
    for q, (kind, members) in enumerate(dtd.parts):
        yield from rules_of_part(("p", q), kind, members)
    for q, r in dtd.behind.items():
        if r is None:
            yield "one", ("s", q), ("p", q), 0
        else:
            yield "two", ("s", q), ("p", q), False, ("s", r), False


def rules_of_part(part, kind, members):
    if kind in ("opt", "star"):
        yield "none", part
    if kind in ("star", "plus"):
        yield "two", part, ("p", members[0]), True, part, kind == "plus"
    if kind != "star":
        for member in members[:1] if kind == "seq" else members:
            yield "one", part, ({"name": "n", "seq": "s"}.get(kind, "p"), member), 0


class Table:
    """A table's values, by site and span, and its entries by their sites, and by their sites and where they begin."""

    def __init__(self, entries):
        self.values = {entry[:3]: entry[3] for entry in entries}
        self.at, self.behind = {}, {}
        for site, start, stop, value in entries:
            self.at.setdefault(site, []).append((start, stop, value))
            self.behind.setdefault((site, start), []).append((stop, value))

    def value(self, site, start, stop):
        return self.values.get((site, start, stop), HEAVIEST)

    def keeps(self, word, rule):
        """Whether no left side has a greater value than a right side: only listed right sides can be smaller."""
        form, left = rule[:2]
        if form == "none":
            return all(self.value(left, at, at) == 0 for at in range(len(word) + 1))
        if form == "text":
            behind = self.at.get(left, [])
            return all(self.value(left, at - 1, to) <= value for at, to, value in behind if at > 0 and word[at - 1] == "text")
        if form == "one":
            _, _, right, cost = rule
            return all(self.value(left, at, to) <= value + cost for at, to, value in self.at.get(right, []))
        _, _, first, outer, second, inner = rule
        return all(self.value(left, at, to) <= one + two
                   for at, cut, one in self.at.get(first, []) if cut > at or not outer
                   for to, two in self.behind.get((second, cut), []) if to > cut or not inner)

    def is_closed(self, dtd, word):
        kept = all(self.value(("n", x), at, at + 1) == 0 for at, x in enumerate(word) if x not in ("other", "text"))
        return kept and all(self.keeps(word, rule) for rule in rules_of(dtd))


def has_entry(dtd, word, entry):
    (kind, number), start, stop, _ = entry
    has_site = number < len(dtd.names) if kind in "cn" else number < len(dtd.parts) if kind == "p" else number in dtd.behind
    return has_site and start <= stop <= len(word)


# The tests.
def whole_values(dtd, root, doc, tables):
    """The whole-list value of each table, whose paths ascend, and which are closed."""
    lists = {path: (owner, kids) for path, owner, kids in doc.lists()}
    need(all(table[0] < other[0] for table, other in zip(tables, tables[1:])), "rejected closure")
    for path, entries in tables:
        need(path in lists, "rejected closure")
        owner, kids = lists[path]
        x, word, table = dtd.token(root if owner is None else owner), word_of(dtd, kids), Table(entries)
        need(x != "other" and all(has_entry(dtd, word, entry) for entry in entries) and table.is_closed(dtd, word), "rejected closure")
        yield table.value(("n" if owner is None else "c", x), 0, len(word))


def check(dtd, root, doc, pack):
    """The total of an accepted pack; else the fault is what is told first."""
    sizes = {path: len(word_of(dtd, kids)) for path, _, kids in doc.lists()}
    for path, _ in pack.tables:
        size = sizes.get(path, 0)
        need((size + 1) * (size + 2) // 2 * dtd.columns <= MOST_CELLS, f"limit width {'.'.join(map(str, path)) or '.'}")
    try:
        body = Document(pack.body, root)
    except Fault:
        raise Fault("rejected body") from None
    attributes, marks = body.attributes(), pack.marks
    ascend = all(one < two for one, two in zip(marks, marks[1:]))
    need(ascend and all(mark < len(attributes) and attributes[mark] == "" for mark in marks), "rejected marks")
    need((body.before, body.after) == (doc.before, doc.after) and list(body.view(set(marks))) == list(doc.view()), "rejected kept")
    need(all(is_valid_list(dtd, root, owner, kids) for owner, kids in body.kids_of_all()), "rejected validity")
    values = list(whole_values(dtd, root, doc, pack.tables))
    need(pack.total == len(marks) == sum(values), "rejected totals")
    return pack.total


def read(path):
    with open(path, "rb") as file:
        return file.read()


def main():
    dtd, root, doc, pack = sys.argv[1:]
    try:
        dtd, doc, pack = Dtd(read(dtd).decode()), Document(read(doc), root), Pack(read(pack))
        print(f"accepted {check(dtd, root, doc, pack)}")
    except (Fault, UnicodeDecodeError) as fault:
        print(fault)
        sys.exit(1)


if __name__ == "__main__":
    main()
