"""Compares how a session cuts and joins texts with a model that keeps a text as the list of its units.

Words: PROGRAM ROUNDS SEED. A round is one text, of characters of one to four bytes, references, white space and literal CR LF, alone or mixed;
the first ones are long, or made of one kind of unit. It is cut at every place, the piece after the cut is put into an element, which shows
where it was cut, and both are undone; a place that is none is tried too. Then pieces of it are cut and joined at random, in all orders, and
shown. Prints each difference, and how many cases passed; ends with 1 where one failed.
"""
import os
import random
import subprocess
import sys
import tempfile

from lib.waiting import PATIENCE

DTD = "<!ELEMENT doc (#PCDATA|em)*><!ELEMENT em (#PCDATA)>"
KINDS = {
    "one byte": ["a", "b", " ", "\t", "'", ";", "#", "x", "]", "\u007f"],
    "two bytes": ["\u00e9", "\u0080", "\u07ff"],
    "three bytes": ["\u20ac", "\u0800", "\ufffd", "\ud7ff"],
    "four bytes": ["\U00010348", "\U00010000", "\U0010ffff"],
    "references": ["&amp;", "&lt;", "&gt;", "&apos;", "&quot;", "&#233;", "&#x1F600;", "&#32;", "&#0000000000000000000000000000000000000000038;"],
    "line ends": ["\r", "\n", "\r\n"],
}
MOVES = 60

passed = 0
failed = 0


def tell(ok, what):
    global passed, failed
    if ok:
        passed += 1
    else:
        failed += 1
        print(what)


def units_of(written):
    """The units of what was chosen: CR LF is two."""
    return [unit for item in written for unit in (item if item == "\r\n" else [item])]


def play(program, dtd, folder, units, lines):
    """What a session replies to these lines on a document with one text, as bytes."""
    path = os.path.join(folder, "d.xml")
    with open(path, "wb") as file:
        file.write(f"<doc>{''.join(units)}</doc>".encode())
    given = "".join(f"{line}\n" for line in lines).encode()
    ran = subprocess.run([program, "session", dtd, "doc", path], input=given, capture_output=True, timeout=PATIENCE)
    return ran.returncode, ran.stdout


def shown(pieces):
    """The reply to `show` where all pieces but the first stand in an element, each in its own."""
    first, *others = ["".join(piece) for piece in pieces]
    whole = f"<doc>{first}{''.join(f'<em>{other}</em>' for other in others)}</doc>".encode()
    return b"show %d\n%s\n" % (len(whole), whole)


def cut_everywhere(run, units, what):
    """Cuts the text at every place, each time the whole text, and at places that are none."""
    lines, replies = [], []
    for at in range(1, len(units)):
        lines += [f"split 0.0 {at}", "wrap 0 1 2 em", "show", "undo", "undo"]
        replies.append(b"ok 1 0 0\nok 2 0 0\n" + shown([units[:at], units[at:]]) + b"ok 1 0 0\nok 1 0 0\n")
    for at in (0, len(units), len(units) + 1, 4294967295):
        lines.append(f"split 0.0 {at}")
        replies.append(b"no shape range\n")
    status, output = run(units, lines)
    tell(status == 0, f"{what}: status {status}")
    for number, reply in enumerate(replies):
        tell(output.startswith(reply), f"{what}, cut {number + 1}: {output[:len(reply)]!r}, not {reply!r}")
        output = output[len(reply):]
    tell(not output, f"{what}: {output!r} is left over")


def cut_in_pieces(run, source, units, what):
    """Cuts and joins pieces at random, and shows them at last."""
    pieces, lines = [units], []
    for _ in range(MOVES):
        place = source.randrange(len(pieces))
        piece = pieces[place]
        if len(pieces) > 1 and source.random() < 0.3:
            place = min(place, len(pieces) - 2)
            pieces[place:place + 2] = [pieces[place] + pieces[place + 1]]
            lines.append(f"join 0.{place}")
        elif len(piece) > 1:
            at = source.choice([1, len(piece) - 1, source.randrange(1, len(piece))])
            pieces[place:place + 1] = [piece[:at], piece[at:]]
            lines.append(f"split 0.{place} {at}")
    moves = len(lines)
    lines += [f"wrap 0 {place} {place + 1} em" for place in range(1, len(pieces))] + ["show"]
    status, output = run(units, lines)
    reply = b"ok 1 0 0\n" * moves + b"ok 2 0 0\n" * (len(pieces) - 1) + shown(pieces)
    tell(status == 0 and output == reply, f"{what}, in pieces: status {status}, {output!r}, not {reply!r}")


def texts(source, rounds):
    """Texts with what they are: of each kind alone, long ones, and mixed ones."""
    every = [unit for kind in KINDS.values() for unit in kind]
    yield from ((f"{name} alone", [source.choice(kind) for _ in range(24)]) for name, kind in KINDS.items())
    yield "ASCII, long", list("some plain text, as it is. " * 20)
    yield "all kinds, long", [source.choice(every) for _ in range(400)]
    yield "few references, long", [source.choice("abc\u00e9\u20ac") if place % 90 else "&amp;" for place in range(1, 400)]
    yield "a reference first and last", ["&#x41;", *"ab", "&#66;"]
    yield "two units", ["&lt;", "\U00010348"]
    for number in range(rounds):
        kinds = source.sample(list(KINDS.values()), source.randint(1, 3))
        some = [unit for kind in kinds for unit in kind]
        yield f"text {number}", [source.choice(some) for _ in range(source.randint(2, 40))]


def is_legal(units):
    return "]]>" not in "".join(units)


def main():
    program, rounds, source = os.path.abspath(sys.argv[1]), int(sys.argv[2]), random.Random(int(sys.argv[3]))
    with tempfile.TemporaryDirectory() as folder:
        dtd = os.path.join(folder, "d.dtd")
        with open(dtd, "w", encoding="utf-8") as file:
            file.write(DTD)

        def run(units, lines):
            return play(program, dtd, folder, units, lines)

        for what, written in texts(source, rounds):
            units = units_of(written)
            if is_legal(units):
                cut_everywhere(run, units, what)
                cut_in_pieces(run, source, units, what)
    print(f"cuts: {passed} passed, {failed} failed")
    return 1 if failed else 0


if __name__ == "__main__":
    sys.exit(main())
