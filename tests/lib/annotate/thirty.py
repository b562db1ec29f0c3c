"""Thirty letters of a merchant, made up: each as a plain text and marked up, with what has a tag in it. Who writes to whom, and
of whom and what, comes again from letter to letter, as it does; dates don't."""
import random
from typing import NamedTuple

DTD = """<!ELEMENT letter (opener, body, closer)>
<!ELEMENT opener (dateline, salute)>
<!ELEMENT dateline (#PCDATA|placeName|date)*>
<!ELEMENT salute (#PCDATA)>
<!ELEMENT body (p+)>
<!ELEMENT p (#PCDATA|persName|placeName|shipName|date|lb)*>
<!ELEMENT closer (#PCDATA|persName)*>
<!ELEMENT persName (#PCDATA)>
<!ELEMENT placeName (#PCDATA)>
<!ELEMENT shipName (#PCDATA)>
<!ELEMENT date (#PCDATA)>
<!ELEMENT lb EMPTY>
<!ATTLIST persName key CDATA #IMPLIED>
<!ATTLIST placeName ref CDATA #IMPLIED>
<!ATTLIST date when CDATA #IMPLIED>
"""
PERSONS = {"Mr Adams": "adams", "Anna": "anna", "Pieter de Wit": "dewit", "Cornelis": "cornelis", "Captain Hay": "hay", "Madame Roux": "roux",
           "Isaac Levi": "levi", "Uncle Willem": "willem", "Dr Boot": "boot", "Miss Lane": "lane", "Jan Smit": "smit", "Lord Grey": "grey"}
PLACES = {"Leiden": "leiden", "London": "london", "Delft": "delft", "Cadiz": "cadiz", "Bordeaux": "bordeaux", "Danzig": "danzig", "Riga": "riga",
          "Lisbon": "lisbon"}
SHIPS = ["Hope", "Golden Lion", "Maria", "Concordia"]
SALUTES = ["Dear brother,", "Dear Sir,", "Honoured uncle,"]
CLOSERS = ["Yours, ", "Your obedient servant "]
MONTHS = ["January", "February", "March", "April", "May", "June", "July", "August", "September", "October", "November", "December"]
SENTENCES = [
    "{person} came from {place} with the {ship} and sends regards to {person}.",
    "I hear that {person} has sold the wool to {person}, who pays at {place}.",
    "The {ship} lies at {place}, and {person} waits there for the wind.",
    "Of {person} we have no word since he left {place}.",
    "{person} asks whether {person} will go to {place} again.",
    "The bill that {person} drew on {person} was not paid in {place}.",
    "Tell {person} that the {ship} was seen before {place}.",
]


class Letter(NamedTuple):
    """A letter: its text, the same marked up, its paragraphs, and each tag that goes round words alone, with its attributes."""

    plain: str
    whole: str
    salute: str
    place: str
    date: str
    closer: str
    paragraphs: list[str]
    tags: dict[str, tuple[str, list[tuple[str, str]]]]


def tag_of(name, pairs, text):
    return f"<{name}{''.join(f' {key}={chr(34)}{value}{chr(34)}' for key, value in pairs)}>{text}</{name}>"


def letters(count=30, seed=7):
    """So many letters."""
    chance = random.Random(seed)
    return [letter_of(chance, number) for number in range(count)]


def letter_of(chance, number):
    tags = {}

    def named(kind):
        pool = {"person": PERSONS, "place": PLACES, "ship": SHIPS}[kind]
        text = chance.choice(list(pool))
        name = {"person": "persName", "place": "placeName", "ship": "shipName"}[kind]
        attribute = {"person": "key", "place": "ref"}.get(kind)
        tags[text] = name, [(attribute, pool[text])] if attribute else []
        return text

    year, month, day = 1764 + number // 12, number % 12, chance.randint(1, 28)
    date, place = f"{day} {MONTHS[month]} {year}", named("place")
    tags[date] = "date", [("when", f"{year}-{month + 1:02}-{day:02}")]
    paragraphs = [" ".join(filled(chance.choice(SENTENCES), named) for _ in range(chance.randint(1, 3))) for _ in range(3)]
    salute, writer = chance.choice(SALUTES), named("person")
    closer = chance.choice(CLOSERS) + writer

    def marked(text):
        for words in sorted(tags, key=len, reverse=True):
            text = text.replace(words, f"\0{words}\1")
        return "".join(tag_of(*tags[part[1:]], part[1:]) if part.startswith("\0") else part for part in cut(text))

    body = "\n".join(f"<p>{marked(text)}</p>" for text in paragraphs)
    whole = (f"<letter><opener><dateline>{marked(f'{place}, {date}')}</dateline>\n<salute>{salute}</salute></opener><body>\n{body}</body>"
             f"<closer>\n{marked(closer)}</closer>\n</letter>\n")
    return Letter("\n".join([f"{place}, {date}", salute, *paragraphs, closer]) + "\n", whole, salute, place, date, closer, paragraphs, tags)


def filled(sentence, named):
    while "{" in sentence:
        before, _, rest = sentence.partition("{")
        kind, _, behind = rest.partition("}")
        sentence = before + named(kind) + behind
    return sentence


def cut(text):
    """Parts of a text, those between two signs with the first of them."""
    for at, part in enumerate(text.split("\0")):
        if at == 0:
            yield part
            continue
        words, _, rest = part.partition("\1")
        yield "\0" + words
        yield rest
