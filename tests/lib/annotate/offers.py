"""The page of `clients/annotate`: what is offered and refused, and what is missing. Cases of `annotate.py`."""
import os

from .browser import Page
from .fixture import ARTICLE, EXAMPLES, LETTER as DTD, Server, need, same, soon
from selenium.webdriver.common.keys import Keys

PLAIN = os.path.join(EXAMPLES, "letter.txt")
LETTER = "<letter><opener><salute>Dear brother,</salute></opener>\n<body><p>I have met Mr Adams in Leiden.</p></body></letter>\n"
# In a `note` of this one, `persName` begins with the letter that a `p` is called by.
NAMES = "<!ELEMENT doc (p|note)*><!ELEMENT p (#PCDATA|persName|place)*><!ELEMENT persName (#PCDATA)><!ELEMENT place (#PCDATA)><!ELEMENT note (p*)>"


def refusal(page):
    return page.find("#menu .refusal").text


def takes_a_typed_name(driver, program):
    """A declared name that is typed whole is the one that is taken, also where it is refused; a filtered one only where
    the text is no name."""
    with Server(program, LETTER) as server:
        page = Page(driver, server.url)
        page.select("Leiden")
        page.see_menu(["place", "date"], "what is offered")
        page.keys("p")
        soon(page.menu, ["p", "place", "person"], "the declared name that was typed comes first")
        page.keys(Keys.ENTER)
        soon(lambda: refusal(page), lambda text: "p can't hold p" in text, "it is refused there")
        same(page.moves(), 0, "no other tag was made")
        page.keys(Keys.ARROW_DOWN)
        page.keys(Keys.ENTER)
        soon(lambda: "in <place>Leiden</place>" in page.written(), True, "a row that an arrow key chose")
        page.select("Adams")
        page.open_menu()
        page.keys("pers")
        soon(page.menu, ["person", "pers"], "a text that is no name filters, and comes last")
        soon(lambda: page.texts("#choices .typed"), lambda texts: "no such element" in texts[0], "it is told that it isn't declared")
        page.keys(Keys.ENTER)
        soon(lambda: "<person>Adams</person>" in page.written(), True, "the filtered row is taken")
        page.select("have")
        page.open_menu()
        page.keys("persno", Keys.ENTER)
        soon(lambda: refusal(page), lambda text: "persno isn't declared" in text and "person" in text, "the nearest name is told")
        page.keys(Keys.ESCAPE)
    with Server(program, None, ARTICLE, "doc") as server:
        server.write(NAMES, "names.dtd")
        server.write("<doc>Words here</doc>")
        server.words[2] = server.path("names.dtd")
        server.start()
        page = Page(driver, server.url)
        page.wrap("p", "Words here")
        same(page.written(), "<doc><p>Words here</p></doc>", "an offered name before a longer one")


def tells_why(driver, program):
    """A refusal stands at the tag, with what is in the way outlined, until the next move."""
    with Server(program, "<doc>\n<head>Opening hours</head>Cafes opened early.</doc>\n", ARTICLE, "doc") as server:
        page = Page(driver, server.url)
        page.select("Cafes", "early.")
        page.open_menu()
        page.keys("head", Keys.ENTER)
        soon(lambda: refusal(page), lambda text: "doc is declared (head, sec+)" in text, "the declaration is told")
        same(page.js("return document.querySelector('#menu .refusal').role ?? document.querySelector('#menu .refusal').getAttribute('role')"), "alert", "it is an alert")
        same(page.texts(".refusing > .tag"), ["doc"], "the list is outlined")
        need("head" in page.texts(".in-way > .tag"), "so is the first head, which is in the way")
        page.keys(Keys.ESCAPE)
        soon(lambda: page.find("#reason").text, lambda text: "doc is declared (head, sec+)" in text, "it stands at the tag behind the menu")
        need(page.texts(".in-way > .tag"), "and the outlines stay")
        page.wrap("p", "Cafes", "early.")
        soon(lambda: (page.texts(".in-way"), page.find("#reason").is_displayed()), ([], False), "until the next move")
        page.select("early")
        page.open_menu()
        page.keys("br", Keys.ENTER)
        soon(lambda: refusal(page), lambda text: "br is declared EMPTY" in text, "an element that holds nothing")
        page.keys(Keys.ESCAPE)
        page.select("hours")
        page.open_menu()
        page.keys("list", Keys.ENTER)
        soon(lambda: refusal(page), lambda text: "head can't hold list" in text, "one that can't stand there")
        page.keys(Keys.ESCAPE)


def shows_what_is_impossible(driver, program):
    """A document that is opened impossible tells why at each red list, to eyes and ears."""
    with open(os.path.join(EXAMPLES, "letter-swapped.xml"), encoding="utf-8") as file:
        source = file.read()
    with Server(program, source.replace("<closer>", "<closer><lb>no</lb>")) as server:
        page = Page(driver, server.url)
        soon(lambda: page.texts(".why"), lambda texts: len(texts) == 3 and all(texts), "three reasons")
        need(any("closer stands before body" in text for text in page.texts(".why")), "one of them")
        need(any("lb is declared EMPTY" in text for text in page.texts(".why")), "another one")
        page.keys(Keys.F8)
        soon(lambda: page.texts("#reason [role=alert]"), lambda texts: "closer stands before body" in texts[0], "it is said to those who hear it")
        same(sorted(page.texts(".in-way > .tag")), ["body", "closer"], "what stands in each other's way")
        page.click_tag("lb")
        page.open_menu()
        soon(lambda: page.find("#menu .about").text, lambda text: "EMPTY" in text, "the menu of a red element tells it too")
        page.keys("unwrap", Keys.ENTER)
        soon(lambda: len(page.texts(".why")), 1, "a reason goes with its list")


def sorts_by_cost(driver, program):
    """First the names after which no more is missing, then by how many more, with which; what was used lately first."""
    with Server(program, None, ARTICLE, "doc") as server:
        server.write("<doc><head>Hours</head><sec><p>Cafes opened early. Tea came later.</p>Soup was served.</sec></doc>\n")
        server.start()
        page = Page(driver, server.url)
        page.select("Soup", "served.")
        page.open_menu()
        soon(page.notes, lambda rows: rows and all("counted" not in (group or "counted") for group, _, _ in rows), "all costs come")
        # What extends an element that is there comes before all names.
        rows = [row for row in page.notes() if row[0] != "one that is there"]
        same(rows[0][0], "no more is missing then", "the first group")
        groups = {label: (group, note) for group, label, note in rows}
        need(groups["p"][0] == "no more is missing then", "a paragraph costs nothing")
        same(groups["list"][0], "+3: then 3 more are missing", "a list costs three")
        soon(lambda: {label: note for _, label, note in page.notes()}["list"], "item ×2, p", "two items, and a paragraph beside the one that was missing")
        counts = [0 if group[0] != "+" else int(group[1:group.index(":")]) for group, _, _ in rows]
        same(counts, sorted(counts), "they stand in this order")
        page.keys("list", Keys.ENTER)
        soon(page.status, "4 elements missing in 1 place", "which is so")
        page.keys(Keys.CONTROL, "z")
        soon(page.moves, 0, "undo")
        page.wrap("em", "Tea")
        page.select("early")
        page.see_menu(["em"], "what was used last comes first")
        page.keys(Keys.ESCAPE)
        page.press("#redo")
        page.rest()
        same(page.moves(), 1, "an offer takes nothing back and makes nothing")


def tells_what_is_missing(driver, program):
    """F8 and a click on an amber tag tell what is missing there, and take it over."""
    with Server(program, "<letter><opener>Dear brother,</opener>\n<p>I have met Mr Adams.</p></letter>\n") as server:
        page = Page(driver, server.url)
        soon(page.status, "2 elements missing in 2 places", "what leads")
        page.keys(Keys.F8)
        soon(lambda: page.find("#reason").text, lambda text: "Missing here: ⟨body⟩" in text, "what is missing in the first place")
        page.keys(Keys.F8)
        soon(lambda: page.find("#reason").text, lambda text: "Missing here: ⟨salute⟩ round “Dear brother,”" in text, "and in the next one")
        page.press("#reason .take")
        soon(lambda: "<opener><salute>Dear brother,</salute></opener>" in page.written(), True, "it is taken over by the mouse")
        soon(page.status, "1 element missing in 1 place", "one is left")
        page.keys(Keys.F8)
        soon(lambda: page.texts(".chosen > .tag"), ["letter"], "the last one")
        page.keys(Keys.ENTER)
        page.open_menu()
        soon(lambda: page.menu()[0], "Take over what is missing", "the menu has it first")
        page.keys("Take", Keys.ENTER)
        soon(page.status, "Valid", "it is taken over by keys")
        same(page.moves(), 2, "two moves")
        page.keys(Keys.CONTROL, "z")
        page.keys(Keys.CONTROL, "z")
        soon(page.moves, 0, "both are taken back")


def takes_over_a_preview(driver, program):
    """All of what the preview shows, or one new element at a time."""
    with Server(program, None) as server:
        server.start("--from", PLAIN)
        page = Page(driver, server.url)
        before = page.written()
        page.press("#preview")
        title = lambda: page.find("#completed h2").text  # noqa: E731
        soon(title, lambda text: text.startswith("Valid with 4 new elements"), "the preview")
        new = page.texts("#completed .new > .tag:not(.end)")
        page.press("#completed .new > .tag:not(.end)", -1)
        soon(title, lambda text: text.startswith("Valid with 3 new elements"), "one is taken over")
        same(page.moves(), 1, "it is a move")
        page.js("document.querySelector('#completed .new > .tag').focus()")
        page.keys(Keys.ENTER)
        soon(title, lambda text: text.startswith("Valid with 2 new elements"), "another one by keys")
        page.press("#completed .all")
        soon(page.status, "Valid", "then all the others")
        same((page.moves(), len(new)), (3, 4), "in one move")
        page.keys(Keys.CONTROL, "s")
        soon(lambda: page.find("#save").text, "Saved", "the focus is back in the page")
        need(page.drawn() > 0 and os.system(f"{program} valid {DTD} letter {server.doc} >/dev/null") == 0, "the program finds it valid")
        for _ in range(3):
            page.keys(Keys.CONTROL, "z")
        soon(page.moves, 0, "all taken back")
        same(page.written(), before, "to where it began")


# Choices come in, and Enter and a click at once, which were meant for what stood there; and both again after a moment, by a clock of its own.
MOVED = """
const [done] = arguments
import('./menu.js').then(({ openMenu, setChoices, closeMenu }) => {
    let now = performance.now()
    performance.now = () => now
    const taken = []
    const named = (...labels) => labels.map((label) => ({ label, take: (label) => taken.push(label) }))
    const input = document.querySelector('#menu input')
    const enter = () => input.dispatchEvent(new KeyboardEvent('keydown', { key: 'Enter', bubbles: true }))
    const both = () => (enter(), document.getElementById('choice1').click())
    openMenu({ name: 'Names', box: () => document.body.getBoundingClientRect(), choices: named('a', 'b', 'c') })
    setChoices(named('b', 'a', 'c'))
    both()
    const early = taken.splice(0)
    now += 400
    both()
    setChoices(named('b', 'a', 'c'))
    both()
    closeMenu()
    done([early, taken])
})
"""


def takes_what_was_seen(driver, program):
    """A row that has just moved isn't taken for the one that stood there."""
    with Server(program, "<letter><opener>Dear brother,</opener></letter>\n") as server:
        page = Page(driver, server.url)
        same(page.driver.execute_async_script(MOVED), [[], ["b", "a", "b", "a"]], "what Enter and a click take")


CASES = [takes_a_typed_name, tells_why, shows_what_is_impossible, sorts_by_cost, tells_what_is_missing, takes_over_a_preview, takes_what_was_seen]
