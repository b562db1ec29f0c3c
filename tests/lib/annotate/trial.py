"""The page of `clients/annotate`: a letter is finished in it, from a plain text to a valid, saved file, by mouse and
keyboard. Case of `annotate.py`."""
import shutil
import subprocess
import time

from .browser import Page
from .fixture import ARTICLE, Server, need, same, soon
from .letter import DTD, PLAIN, WHOLE
from selenium.webdriver.common.keys import Keys

# Whether what is missing in the chosen element stands at its tag, and may be taken over.
TAKES = "return document.querySelector('.chosen > #reason:not([hidden]) .take:not([hidden])') !== null"
# So many steps of a user it takes at least.
STEPS = 60


class User:
    """Counts what is done in the page; each step waits until it is made."""

    def __init__(self, page):
        self.page, self.steps = page, 0

    def done(self, moves):
        self.steps += 1
        soon(self.page.moves, moves, f"step {self.steps}")

    def wrap(self, name, words, until=None, **which):
        moves = self.page.moves()
        self.page.select(words, until, **which)
        self.page.take(name)
        self.done(moves + 1)

    def again(self, words, **which):
        """The last tag again round these words, by its key."""
        moves = self.page.moves()
        self.page.select(words, **which)
        self.page.open_menu()
        self.page.keys(Keys.ESCAPE)
        self.page.keys(Keys.F4)
        self.done(moves + 1)

    def refused(self, name, words, until, reason):
        """A tag that is refused, and why."""
        moves = self.page.moves()
        self.page.select(words, until)
        self.page.open_menu()
        self.page.keys(name, Keys.ENTER)
        soon(lambda: self.page.find("#menu .refusal").text, lambda text: reason in text, f"why {name} is refused")
        self.page.keys(Keys.ESCAPE)
        self.page.keys(Keys.ESCAPE)
        self.done(moves)

    def type(self, before, *keys):
        """Types before these words."""
        self.page.click_text(before)
        self.page.type(*keys)
        self.steps += 1

    def everywhere(self, count):
        """The last tag on all places of its text."""
        moves = self.page.moves()
        self.page.keys(Keys.SHIFT, Keys.F4)
        soon(lambda: self.page.find("#everywhere").is_displayed(), True, "the places")
        soon(lambda: len(self.page.texts("#everywhere li")), count, "so many places")
        self.page.press("#everywhere .tag-all")
        self.done(moves + 1)

    def missing(self, name):
        """Goes to the places that aren't finished up to this one, and takes over what is missing there."""
        moves = self.page.moves()
        for _ in range(8):
            self.page.keys(Keys.F8)
            self.steps += 1
            soon(lambda: self.page.js(TAKES), True, "what is missing is told")
            if self.page.texts(".chosen > .tag:not(.end)") == [name]:
                break
        self.page.press("#reason .take")
        self.done(moves + 1)

    def attribute(self, tag, nth, name, value):
        moves = self.page.moves()
        self.page.click_tag(tag, nth)
        self.page.open_menu()
        self.page.keys("attributes", Keys.ENTER)
        soon(lambda: self.page.find("#attributes").is_displayed(), True, "the form")
        self.page.keys(name, Keys.TAB, value)
        self.page.press("#attributes .set")
        self.done(moves + 1)

    def key(self, moves, *keys):
        self.page.keys(*keys)
        self.done(moves)

    def find(self, words):
        """Finds words, and goes back to the document with them selected."""
        self.page.keys(Keys.CONTROL, "f")
        self.page.js("document.querySelector('#finder input').select()")
        self.page.keys(words)
        soon(lambda: self.page.find("#finder output").text, lambda text: text.startswith("1 of"), f"{words} is found")
        self.page.keys(Keys.ESCAPE)
        self.steps += 1

    def around(self, tag, name):
        """An element round another one, by its menu."""
        moves = self.page.moves()
        self.page.click_tag(tag)
        self.page.choose("wrap", name)
        self.done(moves + 1)

    def erase(self, words, **which):
        """Takes a text away."""
        moves = self.page.moves()
        self.page.select(words, **which)
        self.page.open_menu()
        self.page.keys(Keys.ESCAPE)
        self.page.keys(Keys.DELETE)
        self.done(moves + 1)

    def action(self, tag, nth, action, name=None):
        """An action of an element's menu."""
        moves = self.page.moves()
        self.page.click_tag(tag, nth)
        if name:
            self.page.choose(action, name)
        else:
            self.page.take(action)
        self.done(moves + 1)

    def preview(self, title):
        """A look at what is missing in all."""
        self.page.press("#preview")
        soon(lambda: self.page.find("#completed h2").text, lambda text: text.startswith(title), "the preview")
        self.steps += 1
        self.page.press("#completed .close")
        self.done(self.page.moves())

    def insert(self, before, name):
        """An element without content before these words."""
        moves = self.page.moves()
        self.page.click_text(before)
        self.page.keys(Keys.CONTROL, Keys.ENTER)
        self.page.take(name)
        self.done(moves + 1)


def tag_the_frame(user):
    user.wrap("title", "Letter to Pieter")
    user.around("title", "teiHeader")
    user.wrap("text", "Leiden", "know why.")
    user.wrap("opener", "Leiden", "Dear brother,")
    user.wrap("dateline", "Leiden", "1764")
    user.wrap("placeName", "Leiden")
    user.wrap("date", "3 May 1764")
    user.wrap("salute", "Dear brother,")
    user.refused("opener", "I have", "Anna.", "opener")
    user.wrap("p", "I have", "to Anna.")
    user.wrap("p", "We saw:")
    user.wrap("list", "the Old Church", "the market.")
    user.wrap("item", "the Old Church")
    user.again("the New Church")
    user.again("the market.")
    user.erase("; ")
    user.erase("; ")
    user.wrap("p", "From Delft", "12 May.")
    user.wrap("closer", "Yours, Jan")
    user.refused("closer", "PS Greet", "know why.", "closer")
    user.wrap("postscript", "PS Greet", "know why.")
    user.missing("postscript")


def tag_the_names(user):
    user.wrap("persName", "Mr Adams")
    user.everywhere(1)
    user.wrap("placeName", "Delft")
    user.everywhere(1)
    user.wrap("persName", "Anna")
    user.everywhere(2)
    user.wrap("placeName", "Leiden", nth=1)
    user.everywhere(1)
    user.again("London")
    user.wrap("date", "12 May")
    user.insert("Jan", "lb")
    user.wrap("persName", "Jan")
    user.wrap("hi", "Old")
    user.again("New")
    user.refused("list", "New", None, "hi can't hold list")
    user.wrap("hi", "market")
    user.key(user.page.moves() - 1, Keys.CONTROL, "z")
    user.key(user.page.moves() + 1, Keys.CONTROL, "y")
    user.key(user.page.moves() - 1, Keys.CONTROL, "z")
    user.wrap("hi", "regards")
    user.action("hi", 0, "rename", "date")
    user.action("date", 1, "unwrap")


def finish(user):
    page = user.page
    user.attribute("date", 0, "when", "1764-05-03")
    user.attribute("date", 1, "when", "1764-05-12")
    user.attribute("persName", 0, "key", "adams")
    user.attribute("persName", 2, "key", "anna")
    user.attribute("persName", 3, "key", "jan")
    user.type("regards", "his ")
    user.type("Pieter", "his brother ")
    user.preview("Valid with 1 new element")
    user.find("know why")
    user.type("why.", Keys.SHIFT, Keys.ENTER)
    user.missing("teiHeader")
    page.press("#document .list.nothing")
    page.type("Jan")
    user.steps += 1


def finishes_a_letter(driver, program):
    with Server(program, None, ARTICLE, "TEI") as server:
        server.write(DTD, "letter.dtd")
        server.write(PLAIN, "plain.txt")
        server.words[2] = server.path("letter.dtd")
        server.start("--from", server.path("plain.txt"))
        user = User(Page(driver, server.url, unlocked=True))
        tag_the_frame(user)
        tag_the_names(user)
        finish(user)
        soon(user.page.status, "Valid", "the letter is valid")
        user.page.keys(Keys.CONTROL, "s")
        soon(lambda: user.page.find("#save").text, "Saved", "it is saved")
        user.steps += 1
        same(server.text(), '<?xml version="1.0" encoding="UTF-8"?>\n<!DOCTYPE TEI SYSTEM "letter.dtd">\n' + WHOLE, "the letter")
        ran = subprocess.run([program, "valid", server.words[2], "TEI", server.doc], capture_output=True, text=True)
        same(ran.stdout, "valid\n", "what the program says of it")
        need(user.steps >= STEPS, f"steps: {user.steps}")


# So many moves and keys a letter takes at most.
MOST_MOVES, MOST_KEYS = 45, 250
# The same letter, each place of a name with its key; where a line end stands in what is taken over is the program's choice.
SHORT = """<TEI><teiHeader><title>Letter to his brother Pieter</title><author>Jan</author></teiHeader>
<text><opener><dateline><placeName>Leiden</placeName>, <date when="1764-05-03">3 May 1764</date></dateline>
<salute>Dear brother,</salute></opener>
<p>I have met <persName key="adams">Mr Adams</persName> in <placeName>Delft</placeName>. <persName key="adams">Mr Adams</persName> sends his regards to \
<persName key="anna">Anna</persName>.</p>
<p>We saw:</p> <list><item>the <hi>Old</hi> Church</item> <item>the <hi>New</hi> Church</item> <item>the market.</item></list>
<p>From <placeName>Delft</placeName> he goes to <placeName>Leiden</placeName>, and from <placeName>Leiden</placeName> to \
<placeName>London</placeName> on <date when="1764-05-12">12 May</date>.</p><closer>
Yours, <lb/><persName key="jan">Jan</persName></closer>
<postscript><p>PS Greet <persName key="anna">Anna</persName>. <persName key="anna">Anna</persName> will know &#10;why.</p></postscript></text>
</TEI>
""".replace("\\\n", "")


class Counting(Page):
    """A window in which each key is counted, also those that are held."""

    pressed = 0

    def keys(self, *keys):
        self.pressed += sum(len(key) for key in keys)
        super().keys(*keys)


class Quick:
    """Marks up a letter as somebody does who knows the page. A row of a menu is taken by its digit, or by the shortest beginning of
    its name that brings it to the front; what is read there is on the screen."""

    def __init__(self, page):
        self.page, self.selected = page, 0

    def select(self, *words, **which):
        self.selected += 1
        self.page.select(*words, **which)
        self.page.open_menu()

    def bring(self, name):
        """The shortest beginning of a name that brings it to the front, typed."""
        for size in range(1, len(name) + 1):
            self.page.keys(name[size - 1])
            rows = soon(lambda: self.page.menu(), bool, "rows")
            if rows[0] == name:
                return

    def take(self, name):
        soon(lambda: name in self.page.menu(), True, f"{name} is offered")
        row = self.settled().index(name)
        if row < 9:
            return self.page.keys(str(row + 1))
        self.bring(name)
        self.page.keys(Keys.ENTER)

    def settled(self):
        """The rows once they don't move any more."""
        before = None
        while before != (before := self.page.menu()):
            time.sleep(0.4)
        return before

    def made(self, call, what):
        moves = self.page.moves()
        call()
        soon(self.page.moves, moves + 1, what)

    def wrap(self, name, words, until=None, **which):
        self.select(words, until, **which)
        self.made(lambda: self.take(name), f"{name} round {words}")

    def with_attributes(self, name, words, attributes, **which):
        self.select(words, **which)
        self.bring(name)
        self.page.keys(f" {attributes}")
        self.made(lambda: self.page.keys(Keys.ENTER), f"{name} with {attributes}")

    def everywhere(self, name, words, count, attributes=""):
        """The tag on all places of these words."""
        self.select(words)
        self.settled()
        self.bring(name)
        if attributes:
            self.page.keys(f" {attributes}")
        self.page.keys(Keys.SHIFT, Keys.ENTER)
        soon(lambda: len(self.page.texts("#everywhere li")), count, f"the places of {words}")
        soon(lambda: self.page.js("return document.activeElement.className"), "tag-all", "they can be tagged")
        self.made(lambda: self.page.keys(Keys.ENTER), f"{name} on all places of {words}")

    def lines(self, name, words, until, left=()):
        """The tag round each line but these."""
        self.select(words, until)
        self.settled()
        self.bring(name)
        self.page.keys(Keys.ALT, Keys.ENTER)
        soon(lambda: self.page.js("return document.activeElement.className"), "tag-all", "the lines")
        for each in left:
            self.page.press("#everywhere li input", each)
        self.made(lambda: self.page.press("#everywhere .tag-all"), f"{name} round each line")

    def again(self, words, **which):
        """The last tag again."""
        self.select(words, **which)
        self.made(lambda: self.page.keys(Keys.F4), f"the last tag round {words}")

    def type(self, before, *keys, **which):
        self.page.click_text(before, **which)
        self.made(lambda: self.page.type(*keys), f"typed before {before}")


def mark_up_quickly(user):
    page = user.page
    user.wrap("title", "Letter to Pieter")
    user.wrap("text", "Leiden", "know why.")
    user.wrap("salute", "Dear brother,")
    user.wrap("postscript", "PS Greet", "know why.")
    user.lines("p", "I have", "Yours, Jan", left=[1, 3])
    user.wrap("list", "the Old Church", "the market.")
    user.wrap("item", "the Old Church")
    user.again("the New Church")
    user.again("the market.")
    for _ in range(2):
        user.select(";")
        page.keys(Keys.ESCAPE)
        user.made(lambda: page.keys(Keys.DELETE), "a semicolon is taken away")
    user.wrap("p", "We saw:")
    user.everywhere("persName", "Mr Adams", 2, "key=adams")
    user.everywhere("persName", "Anna", 3, "key=anna")
    user.everywhere("placeName", "Leiden", 3)
    user.everywhere("placeName", "Delft", 2)
    user.again("London")
    user.with_attributes("date", "3 May 1764", "when=1764-05-03")
    user.with_attributes("date", "12 May", "when=1764-05-12")
    page.click_text("Jan")
    page.keys(Keys.CONTROL, Keys.ENTER)
    page.open_menu()
    user.made(lambda: user.take("lb"), "a line's end")
    user.with_attributes("persName", "Jan", "key=jan")
    user.wrap("hi", "Old")
    user.again("New")
    page.press("#preview")
    soon(lambda: page.find("#completed .all").is_displayed(), True, "what is missing")
    user.made(lambda: page.press("#completed .all"), "all of it is taken over")
    page.press("#document .list.nothing")
    user.made(lambda: page.type("Jan"), "the author")
    user.type("regards", "his ")
    user.type("Pieter", "his brother ")
    user.type("why.", Keys.SHIFT, Keys.ENTER)


def finishes_a_letter_in_few_keys(driver, program):
    """From a plain text to a valid file, by what makes a letter quick: moves and keys are counted."""
    with Server(program, None, ARTICLE, "TEI") as server:
        server.write(DTD, "letter.dtd")
        server.write(PLAIN, "plain.txt")
        server.words[2] = server.path("letter.dtd")
        server.start("--from", server.path("plain.txt"))
        page = Counting(driver, server.url, unlocked=True)
        user = Quick(page)
        mark_up_quickly(user)
        soon(page.status, "Valid", "the letter is valid")
        page.keys(Keys.CONTROL, "s")
        soon(lambda: page.find("#save").text, "Saved", "it is saved")
        text = server.text()
        same(text[text.index("<TEI"):], SHORT, "the letter")
        need(page.moves() <= MOST_MOVES and page.pressed <= MOST_KEYS, f"{page.moves()} moves, {page.pressed} keys")
        if shutil.which("xmllint"):
            ran = subprocess.run(["xmllint", "--noout", "--dtdvalid", server.words[2], server.doc], capture_output=True, text=True)
            # Of this DTD it says that a model isn't deterministic.
            same(ran.returncode, 0, f"what xmllint says of it: {ran.stderr}")


CASES = [finishes_a_letter, finishes_a_letter_in_few_keys]
