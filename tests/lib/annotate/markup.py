"""The page of `clients/annotate`: marking up by mouse and keyboard. Cases of `annotate.py`."""
import os
import re
import subprocess

from .browser import Page
from .fixture import ARTICLE, EXAMPLES, LETTER as DTD, Server, need, same, soon
from selenium.webdriver.common.keys import Keys

PLAIN = os.path.join(EXAMPLES, "letter.txt")
# What a document that is made of a plain text begins with.
DECLARATION = '<?xml version="1.0" encoding="UTF-8"?>\n'


def marks_up_a_letter(driver, program):
    """From a plain text to a valid document, with the mouse and the keyboard alone."""
    with Server(program, None) as server:
        server.start("--from", PLAIN)
        page = Page(driver, server.url)
        page.wrap("opener", "Leiden", "brother,")
        page.wrap("dateline", "Leiden", "1764")
        page.wrap("place", "Leiden")
        page.wrap("date", "3 May 1764")
        page.wrap("salute", "Dear", "brother,")
        page.wrap("body", "I have", "regards.")
        page.wrap("p", "I have", "Delft.")
        page.wrap("person", "Mr Adams")
        page.wrap("place", "Delft")
        page.wrap("p", "He sends", "regards.")
        page.wrap("closer", "Yours", "Anna")
        soon(page.status, "Valid", "the letter is valid")
        page.keys(Keys.CONTROL, "s")
        soon(lambda: page.find("#save").text, "Saved", "it is saved")
        same(server.text(), DECLARATION + LETTER, "the letter")
        ran = subprocess.run([program, "valid", DTD, "letter", server.doc], capture_output=True, text=True)
        same(ran.stdout, "valid\n", "what the program says of it")


LETTER = """<letter><opener><dateline><place>Leiden</place>, <date>3 May 1764</date></dateline>
<salute>Dear brother,</salute></opener>
<body><p>I have met <person>Mr Adams</person> in <place>Delft</place>.</p>
<p>He sends his regards.</p></body>
<closer>Yours, Anna</closer>
</letter>
"""


def refuses_where_it_was_asked(driver, program):
    with Server(program, LETTER) as server:
        page = Page(driver, server.url)
        page.select("met")
        page.see_menu(["place", "person", "date"], "what is offered in a paragraph, what stands in one first")
        same(len(page.menu()), 3, "no other name")
        page.keys("body", Keys.ENTER)
        soon(lambda: page.find("#menu .refusal").is_displayed(), True, "the refusal")
        need("p can't hold body" in page.find("#menu .refusal").text, "it tells why")
        same(page.texts(".refusing > .tag"), ["p"], "the list is shown")
        page.keys(Keys.ESCAPE)
        soon(lambda: (page.texts(".refusing > .tag"), page.menu(), page.moves()), (["p"], None, 0), "behind it, until the next move")
        soon(lambda: page.find("#reason").text, lambda text: "p can't hold body" in text, "the sentence stands at the tag")
        page.keys(Keys.ESCAPE)
        soon(lambda: (page.texts(".refusing"), page.find("#reason").is_displayed()), ([], False), "it is closed")
        page.select("met")
        page.open_menu()
        page.keys("lb", Keys.ENTER)
        soon(lambda: page.find("#menu .refusal").text, lambda text: "lb is declared EMPTY" in text, "an element that can't hold it")
        page.keys(Keys.ESCAPE)
        page.click_tag("salute")
        page.open_menu()
        page.keys("unwrap", Keys.ENTER)
        soon(page.moves, 1, "an unwrap that leaves something possible")
        soon(page.status, "1 element missing in 1 place", "which is told")
        same(page.texts(".element[data-verdict=possible] > .tag"), ["opener"], "and marked")


def edits_elements(driver, program):
    with Server(program, LETTER) as server:
        page = Page(driver, server.url)
        before = page.written()
        page.click_tag("person")
        page.choose("rename", "place")
        soon(lambda: "met <place>Mr Adams</place> in" in page.written(), True, "a rename")
        page.click_text("sends")
        page.keys(Keys.CONTROL, Keys.ENTER)
        page.take("lb")
        soon(lambda: "<p>He <lb></lb>sends" in page.written(), True, "an insertion at the caret")
        page.click_tag("closer")
        page.choose("insert first", "person")
        soon(lambda: "<closer><person></person>Yours" in page.written(), True, "an insertion in an element")
        page.click_tag("place", 2)
        page.choose("insert after", "date")
        soon(lambda: "Delft</place><date></date>" in page.written(), True, "an insertion beside an element")
        page.click_tag("date", 1)
        page.open_menu()
        page.keys("unwrap", Keys.ENTER)
        soon(lambda: "Delft</place>." in page.written(), True, "an unwrap")
        for left in (4, 3, 2, 1, 0):
            page.keys(Keys.CONTROL, "z")
            soon(page.moves, left, "undo")
        same(page.written(), before, "all undone")
        for made in (1, 2, 3):
            page.press("#redo")
            soon(page.moves, made, "redo")
        page.select("regards")
        page.open_menu()
        page.keys(Keys.ESCAPE)
        page.press("#history")
        soon(lambda: len(page.texts("#moves li")), 6, "the history, with what was undone")
        soon(lambda: page.texts("#moves .now"), ["new ⟨person⟩"], "where it stands")
        same(page.texts("#moves li")[1], "renamed: ⟨place⟩ round “Mr Adams”", "a move in words")
        page.click("#moves li button", 1)
        soon(page.moves, 1, "back to a move")
        page.click("#moves li button", 5)
        soon(page.moves, 5, "forth again, also behind a menu")
        page.press("#history")


def marks_up_by_keys(driver, program):
    """The same with the keyboard alone, as far as the elements of the letter go."""
    with Server(program, None) as server:
        server.start("--from", PLAIN)
        page = Page(driver, server.url)

        def wrap(name, *keys):
            for key in keys:
                page.keys(*key)
            page.keys(Keys.ENTER)
            moves = page.moves()
            page.take(name)
            soon(page.moves, moves + 1, name)

        down, end, home = [Keys.SHIFT, Keys.ARROW_DOWN], [Keys.SHIFT, Keys.END], [Keys.HOME]
        wrap("opener", down, end)
        wrap("salute", home, end)
        wrap("body", [Keys.ARROW_DOWN], home, down, end)
        wrap("p", home, end)
        wrap("closer", [Keys.ARROW_DOWN], home, end)
        page.keys(Keys.F8)
        soon(lambda: page.texts(".chosen > .tag"), ["opener"], "the next list")
        page.keys(Keys.CONTROL, "s")
        soon(lambda: page.find("#save").text, "Saved", "it is saved")
        same(server.text(), DECLARATION + KEYED, "the letter")


KEYED = """<letter><opener>Leiden, 3 May 1764
<salute>Dear brother,</salute></opener>
<body>I have met Mr Adams in Delft.
<p>He sends his regards.</p></body>
<closer>Yours, Anna</closer>
</letter>
"""


def selects_by_keys(driver, program):
    with Server(program, LETTER) as server:
        page = Page(driver, server.url)
        page.click_text("met")
        page.keys(Keys.SHIFT, Keys.CONTROL, Keys.ARROW_RIGHT)
        page.keys(Keys.SHIFT, Keys.ARROW_RIGHT)
        page.keys(Keys.ENTER)
        page.take("date")
        soon(lambda: re.search("<date>met M?</date>|<date>met</date>", page.written()) is not None, True, "a word selected by keys")
        page.keys(Keys.ALT, Keys.ARROW_UP)
        page.keys(Keys.ENTER)
        soon(lambda: page.find("#menu h2").text if page.menu() else "", lambda text: text.startswith("⟨"), "the menu of the element around")
        page.keys(Keys.ESCAPE)
        page.keys(Keys.CONTROL, "z")
        soon(page.moves, 0, "undo by keys")
        page.select("Adams", "in")
        soon(lambda: page.find("#menu h2").text, "Tags round text and ⟨person⟩ in ⟨p⟩", "what is cut by a selection is taken whole")
        page.take("lb")
        page.keys(Keys.ESCAPE)
        page.click_tag("opener")
        page.keys(Keys.ESCAPE)
        page.shift_click_tag("body")
        soon(lambda: page.menu() is not None and page.find("#menu h2").text, "Tags round 2 elements in ⟨letter⟩", "from element to element")
        page.keys(Keys.ESCAPE)


def goes_to_the_next(driver, program):
    sections = "".join(f"<sec><p>{k}</p>{'text' if k % 1000 == 999 else ''}</sec>" for k in range(4000))
    with Server(program, f"<doc><head/>{sections}</doc>", ARTICLE, "doc") as server:
        page = Page(driver, server.url)
        soon(page.status, "4 elements missing in 4 places", "so many")
        for k in (999, 1999, 2999, 3999, 999):
            page.keys(Keys.F8)
            soon(lambda: [text for text in page.texts(".chosen .text") if text.isdigit()], [str(k)], "the next one")
            soon(lambda: page.find(".chosen").is_displayed(), True, "it is in sight")
        page.keys(Keys.SHIFT, Keys.F8)
        soon(lambda: [text for text in page.texts(".chosen .text") if text.isdigit()], ["3999"], "the one before")


def shows_text_as_text(driver, program):
    text = "<p a=\"&lt;b>'\">Dear &lt;script>window.bad = 1&lt;/script>&amp; \"quotes\" 'x' 𐀀𝒜 e\u0301 end</p>"
    with Server(program, f"<letter><opener><salute/></opener><body>{text}</body></letter>\n") as server:
        page = Page(driver, server.url)
        need("<script>window.bad = 1</script>& \"quotes\" 'x' 𐀀𝒜" in page.written(), "the text as it is read")
        same(page.js("return [window.bad, document.scripts.length]"), [None, 1], "it isn't run")
        page.wrap("date", "𝒜")
        page.wrap("person", "script>& ", "quotes")
        page.keys(Keys.CONTROL, "s")
        soon(lambda: page.find("#save").text, "Saved", "saved")
        after = text.replace("script>&amp; \"quotes", "<person>script>&amp; \"quotes</person>").replace("𝒜", "<date>𝒜</date>")
        need(after in server.text(), f"each unit where it was, and written as it was: {server.text()}")
        need(page.tell() == "", "no fault is told")


def keeps_windows_together(driver, program):
    with Server(program, LETTER) as server:
        page = Page(driver, server.url)
        first = driver.current_window_handle
        driver.switch_to.new_window("tab")
        other = Page(driver, server.url)
        other.wrap("date", "regards")
        second = driver.current_window_handle
        driver.switch_to.window(first)
        soon(lambda: "<date>regards</date>" in page.written(), True, "what was done in the other window")
        same(page.moves(), 1, "the moves")
        driver.switch_to.window(second)
        driver.close()
        driver.switch_to.window(first)
        # What another browser does, a window hears of when it asks for something; then it does nothing but catch up.
        page.click_text("his")
        version = page.version()
        server.ask("undo", {"version": version, "window": "other"})
        page.keys(Keys.CONTROL, "z")
        soon(page.tell, lambda text: "another window" in text, "a window that is behind is told so")
        same((page.moves(), page.version()), (0, version + 1), "it has caught up")
        page.press("#redo")
        soon(page.moves, 1, "it goes on")


def finds_everything_again(driver, program):
    """The server is killed in mid-session; the document changes on the disk."""
    with Server(program, LETTER) as server:
        page = Page(driver, server.url)
        page.wrap("date", "regards")
        page.wrap("place", "sends")
        page.press("#undo")
        soon(page.moves, 1, "undo")
        server.process.kill()
        server.process.wait()
        page.press("#redo")
        soon(page.tell, lambda text: "has ended" in text, "a server that is gone is told")
        server.start()
        page = Page(driver, server.url)
        need("<date>regards</date>" in page.written(), "what was made is there")
        page.press("#redo")
        soon(lambda: "<place>sends</place>" in page.written(), True, "what was undone can be made again")
        same(page.moves(), 2, "the moves")
        server.write("<letter/>")
        page.keys(Keys.CONTROL, "s")
        soon(page.tell, lambda text: "changed by another program" in text, "a document that changed on disk isn't written over")
        same(server.text(), "<letter/>", "it")


def previews(driver, program):
    with Server(program, "<letter><opener>Dear brother,</opener>\n<body><p>I have met Mr Adams.</p></body></letter>\n") as server:
        page = Page(driver, server.url)
        page.press("#preview")
        soon(lambda: page.find("#completed h2").text, lambda text: text.startswith("Valid with 1 new element,"), "a preview")
        same(page.texts("#completed .new > .tag.start"), ["salute"], "what is new in it")
        same(page.texts("#document .element > .tag:not(.end)"), ["letter", "opener", "body", "p"], "the document is as it was")
        page.press("#completed .close")
        same(page.moves(), 0, "no move was made")


def opens_what_is_impossible(driver, program):
    with open(os.path.join(EXAMPLES, "letter-swapped.xml"), encoding="utf-8") as file:
        source = file.read()
    with Server(program, source) as server:
        page = Page(driver, server.url)
        soon(page.status, "1 place can't be finished", "it is told")
        same(page.texts("[data-verdict=impossible] > .tag"), ["letter"], "it is marked")
        page.click_tag("closer")
        page.open_menu()
        page.keys("unwrap", Keys.ENTER)
        soon(page.moves, 1, "an unwrap")


CASES = [marks_up_a_letter, refuses_where_it_was_asked, edits_elements, marks_up_by_keys, selects_by_keys, goes_to_the_next, shows_text_as_text, keeps_windows_together, finds_everything_again, previews, opens_what_is_impossible]
