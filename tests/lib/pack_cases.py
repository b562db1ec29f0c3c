"""A document with the pack that the program prints for it, the weights that its tables must have, and packs that are written."""
import re

from check_pack import HEAVIEST, Document, Dtd, Fault as CheckFault, Pack, check, is_valid_list, rules_of, word_of
from lib.counting import need, output
from lib.kept import check_kept
from lib.search import write


def plain(document):
    """The text of a document, each element with both tags."""
    written, names = document.before, []
    for event in document.events:
        if event[0] == "start":
            names.append(event[1])
        written += f"<{event[1]}{event[2]}>" if event[0] == "start" else f"</{names.pop()}>" if event[0] == "end" else event[1]
    return written + document.after


class Case:
    """A document under a DTD, and the pack that the program prints for it; where it prints none, `pack` is none."""

    def __init__(self, program, dtd, root, text):
        self.program, self.root, self.text, self.grammar = program, root, text, dtd
        write("a.dtd", dtd)
        write("d.xml", text)
        status, self.pack = output(program, "complete", "a.dtd", root, "d.xml")
        if status != 0:
            need(re.fullmatch(rb"impossible [0-9.]+\n", self.pack), f"status {status}, the output is {self.pack[:200]!r}")
            self.pack = None
            return
        self.dtd, self.document = Dtd(dtd), Document(text.encode(), root)
        told = re.fullmatch(rb"need ([0-9]+)\n", output(program, "session", "a.dtd", root, "d.xml", script="need\n")[1])
        need(told, "need tells no number")
        self.least = int(told[1])

    def answer(self, pack):
        """What the checker tells of a pack."""
        try:
            return f"accepted {check(self.dtd, self.root, self.document, Pack(pack))}"
        except CheckFault as fault:
            return str(fault)

    def judge(self, pack):
        """What the checker tells; what it accepts has to be a least completion."""
        answer = self.answer(pack)
        if answer.startswith("accepted"):
            need(answer == f"accepted {self.least}", f"{answer}, and {self.least} elements are missing, in the pack\n{pack.decode()}")
            body = Pack(pack).body.decode()
            write("a.dtd", self.grammar)
            write("body.xml", body)
            need(output(self.program, "valid", "a.dtd", self.root, "body.xml") == (0, b"valid\n"), f"the body isn't valid:\n{body}")
            check_kept(plain(self.document), plain(Document(body.encode(), self.root)), self.least)
        return answer

    def check_own(self):
        """The program's own pack is accepted, and its tables are exact."""
        answer = self.judge(self.pack)
        need(answer == f"accepted {self.least}", f"{answer}: the pack\n{self.pack.decode()}")
        tables = [(path, weights(self.dtd, word_of(self.dtd, kids))) for path, owner, kids in self.document.lists()
                  if not is_valid_list(self.dtd, self.root, owner, kids)]
        need(tables == Pack(self.pack).tables, f"other tables than the rules give: {tables}, in the pack\n{self.pack.decode()}")


def weights(dtd, word, rules=None):
    """All light weights over the spans of a word, as the entries of a table: the values fall until no rule leads to less."""
    values, rules, size = {}, rules or list(rules_of(dtd)), len(word)
    values.update(((("n", x), at, at + 1), 0) for at, x in enumerate(word) if x not in ("other", "text"))
    values.update(((rule[1], at, at), 0) for rule in rules if rule[0] == "none" for at in range(size + 1))

    def value(*goal):
        return values.get(goal, HEAVIEST)

    def right_sides(rule, start, stop):
        form, left = rule[:2]
        if form == "one":
            yield value(rule[2], start, stop) + rule[3]
        elif form == "text" and start < stop and word[start] == "text":
            yield value(left, start + 1, stop)
        elif form == "two":
            _, _, first, outer, second, inner = rule
            for cut in range(start + outer, stop + 1 - inner):
                yield value(first, start, cut) + value(second, cut, stop)

    spans = [(start, stop) for start in range(size + 1) for stop in range(start, size + 1)]
    falls = True
    while falls:
        falls = False
        for rule in rules:
            for start, stop in spans:
                least = min(right_sides(rule, start, stop), default=HEAVIEST)
                if least < value(rule[1], start, stop):
                    values[rule[1], start, stop] = least
                    falls = True
    return sorted((*goal, weight) for goal, weight in values.items())


# Hostile packs. A pack's lines are its head with the marks, the body, and the tables.


def pieces_of(pack):
    """The lines before the body, the body, and the lines after it."""
    found = re.search(rb"^body ([0-9]+)\n", pack, re.M)
    end = found.end() + int(found[1])
    return pack[:found.start()].splitlines(), pack[found.end():end], pack[end + 1:].splitlines()


def joined(head, body, tail):
    return b"".join(line + b"\n" for line in [*head, b"body %d" % len(body), body, *tail])


def written(total, marks, body, tables):
    head = [b"pvpack 1", b"total %d" % total, *(b"mark %d" % mark for mark in marks)]
    tail = []
    for path, entries in tables:
        tail.append(b"list " + (".".join(map(str, path)) or ".").encode())
        tail += [f"{kind} {number} {start} {stop} {value}".encode() for (kind, number), start, stop, value in entries]
    return joined(head, body, [*tail, b"end"])
