"""The page of `clients/annotate`: its files, and what a window says of them. Cases of `annotate.py`."""
import os

from lib.beside import WIDE, Beside
from .browser import Page
from .fixture import ARTICLE, Server, need, same, soon
from selenium.webdriver.common.keys import Keys

LETTER = "<letter><opener><salute>Dear brother,</salute></opener>\n<body><p>I have met Mr Adams in Delft.</p></body></letter>\n"


def saves_beside(driver, program):
    """A document that another program has changed isn't written over; what is marked up goes to another file."""
    with Server(program, LETTER) as server:
        page = Page(driver, server.url)
        page.wrap("place", "Delft")
        server.write("<letter/>")
        page.keys(Keys.CONTROL, "s")
        soon(lambda: page.find("#beside").is_displayed(), True, "it is offered to save as another file")
        need("changed by another program" in page.tell(), "it is told why")
        same(page.find("#beside input").get_attribute("value"), "doc-marked.xml", "a name is proposed")
        page.keys("mine.xml", Keys.ENTER)
        soon(page.tell, lambda text: text.startswith("Written to "), "it is written")
        need("in <place>Delft</place>." in server.text("mine.xml"), "the document")
        same(server.text(), "<letter/>", "the other one")
        page.keys(Keys.CONTROL, "s")
        soon(lambda: page.find("#beside").is_displayed(), True, "once more")
        page.keys("../x.xml", Keys.ENTER)
        soon(page.tell, lambda text: "without a path" in text, "a path isn't followed")
        page.keys(Keys.CONTROL, "s")
        soon(lambda: page.find("#beside").is_displayed(), True, "and again")
        page.keys("mine.xml", Keys.ENTER)
        soon(page.tell, "mine.xml is there already", "nothing is written over")


def asks_how_to_save(driver, program):
    """A document that has another name isn't replaced unasked: it is written into, replaced, or written to another file."""
    with Server(program, LETTER) as server:
        os.link(server.doc, server.path("other.xml"))
        page = Page(driver, server.url)
        page.wrap("place", "Delft")
        page.keys(Keys.CONTROL, "s")
        soon(lambda: page.find("#ways").is_displayed(), True, "it is asked")
        need("1 more name" in page.find("#ways .about").text, "why")
        same(page.texts("#ways .choices button:not([hidden])"), ["Write into the file that is there", "Put another file in its place", "Save as another file"], "the ways")
        page.press("#ways .close")
        same((server.text(), page.find("#save").text), (LETTER, "Save"), "nothing is written")
        page.keys(Keys.CONTROL, "s")
        soon(lambda: page.find("#ways").is_displayed(), True, "it is asked again")
        page.press("#ways button[value=into]")
        soon(lambda: page.find("#save").text, "Saved", "it is written")
        same(server.text(), server.text("other.xml"), "under both names")
        page.wrap("date", "met")
        page.keys(Keys.CONTROL, "s")
        soon(lambda: page.find("#ways").is_displayed(), True, "and again")
        page.press("#ways button[value=replace]")
        soon(lambda: page.find("#save").text, "Saved", "it is written")
        need("<date>" in server.text() and "<date>" not in server.text("other.xml"), "another file in its place")


def saves_what_it_shows(driver, program):
    """A window that shows another document than the one to be saved is drawn anew, and nothing is written."""
    with Server(program, LETTER) as server:
        page = Page(driver, server.url)
        page.wrap("place", "Delft")
        page.js("return import('./app.js').then(({ app }) => { [...app.tree.all()].find(({ text }) => text === 'Delft').text = 'Delf' })")
        page.keys(Keys.CONTROL, "s")
        soon(page.tell, lambda text: "isn't the document" in text, "it is told")
        same((server.text(), page.find("#save").text), (LETTER, "Save"), "nothing is written")
        page.keys(Keys.CONTROL, "s")
        soon(lambda: page.find("#save").text, "Saved", "drawn anew, it is saved")
        need("<place>Delft</place>" in server.text(), "the document")


def asks_before_it_closes(driver, program):
    with Server(program, LETTER) as server:
        page = Page(driver, server.url)
        leaves = "const event = new Event('beforeunload', { cancelable: true }); dispatchEvent(event); return !event.defaultPrevented"
        same(page.js(leaves), True, "a document as it was is left")
        page.wrap("place", "Delft")
        same(page.js(leaves), False, "one with moves that aren't saved asks")
        page.keys(Keys.CONTROL, "s")
        soon(lambda: page.find("#save").text, "Saved", "saved")
        same(page.js(leaves), True, "one that is saved is left")


def goes_on_behind_dialogs(driver, program):
    """After a preview, and after help, the keys are the document's again."""
    with Server(program, LETTER) as server:
        page = Page(driver, server.url)
        for button, dialog in (("#preview", "#completed"), ("#help", "#keys")):
            page.press(button)
            soon(lambda: page.find(dialog).is_displayed(), True, dialog)
            page.keys(Keys.ENTER)
            soon(lambda: page.find(dialog).is_displayed(), False, f"{dialog} is closed")
            # The focus goes back after the event of its closing.
            page.rest()
            page.keys(Keys.CONTROL, "a")
            page.keys(Keys.ENTER)
            page.open_menu()
            page.keys(Keys.ESCAPE)


def names_wide_lists(driver, program):
    """Where no program tells what is missing, the head names the element that holds too much to count it."""
    with Beside(program) as beside:
        beside.tells("8 no limit", "8 no limit")
        with Server(beside.program, "<letter><opener><salute>Dear</salute></opener>" + "<p>one</p>" * 1100 + "</letter>") as server:
            page = Page(driver, server.url)
            soon(page.status, lambda text: "⟨letter⟩ holds too much" in text, "the head")
            page.keys(Keys.F8)
            soon(lambda: page.find("#reason").text, lambda text: "too wide to tell" in text, "at the tag")
            page.press("#preview")
            soon(lambda: page.find("#completed .view").text, lambda text: "⟨letter⟩ holds too much" in text, "the preview")


def counts_wide_lists(driver, program):
    """Where another program tells a range, the head, the tag and the preview do."""
    with Beside(program) as beside:
        beside.tells("0 need 1 to 2", "11 ")
        with Server(beside.program, WIDE, ARTICLE, "doc") as server:
            page = Page(driver, server.url)
            soon(page.status, lambda text: "1 to 2 elements missing" in text and "in 1 place" in text, "the head")
            page.keys(Keys.F8)
            soon(lambda: page.find("#reason").text, lambda text: text.startswith("Missing here, though fewer may do: ⟨"), "at the tag")
            page.press("#preview")
            soon(lambda: page.find("#completed h2").text, lambda text: "Valid with 2 new elements; fewer may do." in text, "the preview")


CASES = [saves_beside, asks_how_to_save, saves_what_it_shows, asks_before_it_closes, goes_on_behind_dialogs, names_wide_lists, counts_wide_lists]
