"""Tries what a session remembers of the weights of lists, where many lists differ.

Words: PROGRAM SEED. A document has 50,000 lists, no two alike, of which each lacks elements; how many is told by a formula. `need` is asked after
random edits, undo and redo, and compared with the sum of the formula, and with what a fresh session tells. What is remembered is to take no more
than a bound. Of a document whose lists are valid it is 0, also again after edits that are undone, and after offers and refused edits in three lists, short or long.
The last line tells how many passed.
"""
import os
import random
import subprocess
import sys
import tempfile
from pathlib import Path

sys.dont_write_bytecode = True

from lib.counting import Expecting

DTD = "<!ELEMENT r (a*)><!ELEMENT a ((b, c)*, d)><!ELEMENT b EMPTY><!ELEMENT c EMPTY><!ELEMENT d EMPTY>"
LISTS, KIDS, MOVES = 50_000, 16, 8
# The pairs in a short list and in one whose word is long.
PAIRS = (16, 150)
# The most megabytes that the first `need` may add: what is remembered, and beside it what it walks by.
MOST = 20


def missing(word: str) -> int:
    """How many elements the list of these kids lacks: the other one of a pair for each that stands alone, and a `d`."""
    return len(word) - 2 * word.count("bc") + 1


def written(words: list[str]) -> str:
    lists = ("".join(f"<{kid}/>" for kid in word) for word in words)
    return "<r>" + "".join(f"<a>{kids}</a>" for kids in lists) + "</r>"


class Asked:
    """A session, asked line by line."""

    def __init__(self, program: str) -> None:
        self.run = subprocess.Popen([program, "session", "a.dtd", "r", "d.xml"], stdin=subprocess.PIPE, stdout=subprocess.PIPE)

    def ask(self, line: str) -> str:
        assert self.run.stdin and self.run.stdout
        self.run.stdin.write(f"{line}\n".encode())
        self.run.stdin.flush()
        return self.read()

    def read(self) -> str:
        """The next line of a reply."""
        assert self.run.stdout
        return self.run.stdout.readline().decode().strip()

    def peak(self) -> float:
        """The megabytes that the program has had at most."""
        lines = Path(f"/proc/{self.run.pid}/status").read_text(encoding="ascii").splitlines()
        return next(int(line.split()[1]) / 1024 for line in lines if line.startswith("VmHWM"))

    def end(self) -> None:
        self.run.communicate()


class Lists:
    """The words of the lists, and the moves that undo and redo take back and make again."""

    def __init__(self) -> None:
        self.words = [f"{number:0{KIDS}b}".replace("0", "b").replace("1", "c") for number in range(LISTS)]
        self.past: list[tuple[int, str]] = []
        self.undone: list[tuple[int, str]] = []

    def swap(self, number: int, word: str) -> tuple[int, str]:
        before = self.words[number]
        self.words[number] = word
        return number, before

    def move(self) -> str:
        """Makes a move, and gives its line."""
        way = random.choice(["insert"] * 3 + ["undo"] * bool(self.past) + ["redo"] * bool(self.undone))
        if way == "undo":
            self.undone.append(self.swap(*self.past.pop()))
        elif way == "redo":
            self.past.append(self.swap(*self.undone.pop()))
        else:
            number, kid = random.randrange(LISTS), random.choice("bc")
            word = self.words[number]
            at = random.randint(0, len(word))
            self.past.append(self.swap(number, word[:at] + kid + word[at:]))
            self.undone.clear()
            return f"insert 0.{number} {at} {kid}"
        return way


def tries(program: str, told: Expecting) -> None:
    lists = Lists()
    Path("d.xml").write_text(written(lists.words), encoding="ascii")
    session = Asked(program)
    session.ask("history")
    before = session.peak()
    told.expect("need, at first", session.ask("need") == f"need {sum(map(missing, lists.words))}")
    told.expect("the memory of need", session.peak() - before <= MOST, session.peak() - before)
    for _ in range(MOVES):
        line = lists.move()
        told.expect(line, session.ask(line).startswith("ok"))
        got = session.ask("need")
        told.expect(f"need behind {line}", got == f"need {sum(map(missing, lists.words))}", got)
    session.end()
    Path("d.xml").write_text(written(lists.words), encoding="ascii")
    fresh = Asked(program)
    told.expect("need of a fresh session", fresh.ask("need") == got)
    fresh.end()


def offer(session: Asked, told: Expecting, line: str) -> None:
    asked = session.ask(line)
    told.expect(line, asked.startswith("offer "), asked)
    for _ in range(int(asked.split()[1])):
        session.read()


def tries_whole(program: str, told: Expecting, pairs: int) -> None:
    """Asks `need` of a document with three lists that are valid but for some moves."""
    Path("d.xml").write_text("<r>" + f"<a>{'<b/><c/>' * pairs}<d/></a>" * 3 + "</r>", encoding="ascii")
    session = Asked(program)
    told.expect("need of a valid document", session.ask("need") == "need 0")
    for _ in range(MOVES * 8):
        number, other, kid = random.randrange(3), random.randrange(3), random.choice("bcd")
        at = random.choice([0, 2 * pairs, random.randint(0, 2 * pairs)])
        offer(session, told, f"offer 0.{number} {at} {at}")
        for of in random.choice([[other], [other] * 3, [number, other, number]]) if at else []:
            told.expect("a refused edit", session.ask(f"wrap 0.{of} 0 {at} b").startswith("no impossible"))
        if at == 0:
            told.expect("an edit", session.ask(f"wrap 0.{other} 0 0 b").startswith("ok"))
            told.expect("need behind it", session.ask("need") == "need 1")
            told.expect("undo of it", session.ask("undo").startswith("ok"))
        reply, word = session.ask(f"insert 0.{number} {at} {kid}"), "bc" * pairs
        told.expect(f"insert {at} {kid}", reply.startswith("no impossible" if kid == "d" else "ok"), reply)
        if kid != "d":
            told.expect("need of it", session.ask("need") == f"need {missing(word[:at] + kid + word[at:]) - 1}")
            told.expect("undo", session.ask("undo").startswith("ok"))
        told.expect("need of the valid document again", session.ask("need") == "need 0")
    session.end()


def main() -> int:
    program, told = os.path.abspath(sys.argv[1]), Expecting()
    random.seed(int(sys.argv[2]))
    with tempfile.TemporaryDirectory() as folder:
        os.chdir(folder)
        Path("a.dtd").write_text(DTD, encoding="ascii")
        tries(program, told)
        for pairs in PAIRS:
            tries_whole(program, told, pairs)
        os.chdir("/")
    return told.ended()


if __name__ == "__main__":
    sys.exit(main())
