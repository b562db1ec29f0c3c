"""The page of `clients/annotate`: new elements that are filled, split, joined and taken away, tags that reach further,
and what is taken over by another name. Cases of `annotate.py`."""
from .browser import Page
from .fixture import ARTICLE, Server, need, same, soon
from selenium.webdriver.common.keys import Keys

LETTER = ("<letter><opener><salute>Dear brother,</salute></opener>\n<body><p n='1'>I have met <person key='a'>Mr Adams</person> in Delft.</p>\n"
          "<p>He is well.</p></body></letter>\n")
# Both of these may stand round a text, at the same cost; `note` stands in a list of its own.
ALIKE = ("<!ELEMENT doc (sec+)><!ELEMENT sec (head, (para|simpara|verse)+)><!ELEMENT head (#PCDATA)><!ELEMENT para (#PCDATA|b)*>"
         "<!ELEMENT simpara (#PCDATA)><!ELEMENT verse (#PCDATA)><!ELEMENT b (#PCDATA)>")
DOC = "<doc><sec><head>A</head><simpara>One.</simpara><simpara>Two.</simpara></sec><sec>Three.<para>Four <b>five</b>.</para></sec></doc>"


def fills_what_is_new(driver, program):
    """The caret stands in a new element, and after one that is EMPTY; an empty one in a text has a slot to click into."""
    with Server(program, LETTER) as server:
        page = Page(driver, server.url, unlocked=True)
        page.click_text("He is")
        page.keys(Keys.CONTROL, Keys.ENTER)
        page.take("person")
        soon(lambda: "<p><person></person>He" in page.written(), True, "a new element")
        page.type("Tom")
        soon(lambda: "<p><person>Tom</person>He" in page.written(), True, "is filled by what is typed")
        page.click_text("is well")
        page.keys(Keys.CONTROL, Keys.ENTER)
        page.take("lb")
        page.type("and ")
        soon(lambda: "He <lb></lb>and is well" in page.written(), True, "after an EMPTY one")
        page.click_text("met")
        page.keys(Keys.CONTROL, Keys.ENTER)
        page.take("date")
        soon(lambda: "have <date></date>met" in page.written(), True, "another new element")
        page.click_text("well")
        same(page.js("return [...document.querySelectorAll('#document .slot')].length"), 1, "its slot, and none in an EMPTY one")
        page.press("#document .slot")
        soon(lambda: page.js("const { left, width } = document.getElementById('caret').getBoundingClientRect(); const slot = document.querySelector('#document .slot')"
                     ".getBoundingClientRect(); return left >= slot.left - 2 && left <= slot.right + 2 && width > 0"), True, "the caret stands in it")
        page.type("now")
        soon(lambda: "have <date>now</date>met" in page.written(), True, "a click goes into it")


def splits_and_joins(driver, program):
    """Enter in a paragraph splits it, its menu joins it with the next; each is one move, and keeps the attributes."""
    with Server(program, LETTER) as server:
        page = Page(driver, server.url)
        before = page.written()
        page.click_text("in Delft")
        page.keys(Keys.ENTER)
        page.see_menu(["Split ⟨p⟩ here"], "Enter offers to split what the caret is in")
        page.keys(Keys.ENTER)
        soon(lambda: "met <person>Mr Adams</person> </p><p>in Delft.</p>" in page.written(), True, "two in the place of one")
        same((page.moves(), page.texts("#document .attrs")), (1, ["n='1'", "key='a'"]), "one move, the first has the attributes")
        page.press("#lock")
        page.type("and ")
        soon(lambda: "<p>and in Delft.</p>" in page.written(), True, "the caret stands in the second")
        page.press("#lock")
        page.keys(Keys.CONTROL, "z")
        page.click_tag("p", 0)
        page.take("Join with")
        soon(lambda: "Mr Adams</person> in Delft.</p>" in page.written(), True, "joined again")
        same((page.moves(), page.written(), page.texts("#document .attrs")), (2, before, ["n='1'", "key='a'"]), "as it was")
        page.click_text("Adams")
        page.keys(Keys.ENTER)
        page.see_menu(["Split ⟨person⟩ here", "Split ⟨p⟩ here"], "in an element within: each that is round it")
        page.keys("⟨p⟩", Keys.ENTER)
        soon(lambda: "<p>I have met <person>Mr </person></p><p><person>Adams</person> in Delft.</p>" in page.written(), True, "both are split")
        page.keys(Keys.CONTROL, "z")
        soon(page.moves, 2, "one move")
        page.click_text("well")
        page.click_tag("p", 1)
        page.open_menu()
        page.keys("Split here", Keys.ENTER)
        soon(lambda: "<p>He is </p><p>well.</p>" in page.written(), True, "the tag's menu splits where the caret stood")
        page.press("#history")
        soon(lambda: page.texts("#moves li")[-1], "split: ⟨p⟩", "the history")
        page.press("#history")
        page.keys(Keys.CONTROL, "z")
        page.keys(Keys.CONTROL, "s")
        soon(lambda: page.find("#save").text, "Saved", "saved")
        same(server.text(), LETTER, "the document, with its attributes")


def deletes_what_was_chosen(driver, program):
    """Delete takes a chosen element away with its tags, when that was asked, and not while the text is locked."""
    with Server(program, LETTER) as server:
        page = Page(driver, server.url)
        page.click_tag("person")
        page.open_menu()
        page.keys(Keys.ESCAPE)
        page.keys(Keys.DELETE)
        same((page.open_menu(), page.find("#menu h2").text), (["Delete with content", "Join with the next", "Unwrap: remove its tags"], "Remove ⟨person⟩?"), "it is asked")
        page.keys(Keys.ENTER)
        soon(page.tell, lambda text: text.startswith("The text is locked"), "its text is locked")
        same(page.moves(), 0, "nothing is done")
        page.press("#lock")
        page.click_tag("person")
        page.open_menu()
        page.keys(Keys.ESCAPE)
        page.keys(Keys.DELETE)
        page.open_menu()
        page.keys(Keys.ENTER)
        soon(lambda: "I have met  in Delft." in page.written(), True, "an element with its text")
        page.click_tag("p", 0)
        page.open_menu()
        page.keys("Delete with", Keys.ENTER)
        soon(lambda: page.find("#menu h2").text, "Remove ⟨p⟩?", "the tag's menu asks too")
        page.keys(Keys.ENTER)
        soon(lambda: "Delft" not in page.written(), True, "a paragraph")
        same(page.moves(), 2, "each is one move")
        page.keys(Keys.CONTROL, "z")
        page.keys(Keys.CONTROL, "z")
        soon(page.moves, 0, "undo")
        page.keys(Keys.CONTROL, "s")
        page.click_tag("p", 1)
        page.take("Join with")
        soon(page.tell, lambda text: "no element after" in text, "the last has nothing to be joined with")


def widens_tags(driver, program):
    """What is selected round or beside an element may be its own: its attributes stay."""
    with Server(program, LETTER) as server:
        page = Page(driver, server.url)
        page.select("met", "Adams")
        page.see_menu(["⟨person⟩ extended to here"], "the first row")
        page.keys(Keys.ENTER)
        soon(lambda: "<person>met Mr Adams</person> in" in page.written(), True, "round what was selected")
        same((page.moves(), page.texts("#document .attrs")), (1, ["n='1'", "key='a'"]), "one move, with its attributes")
        page.select(" in")
        page.open_menu()
        page.keys(Keys.ESCAPE)
        page.keys(Keys.CONTROL, "z")
        soon(page.moves, 0, "undo")
        page.select("Adams", "in")
        page.see_menu(["⟨person⟩ extended to here"], "where a part of it is selected")
        page.keys("extended", Keys.ENTER)
        soon(lambda: "<person>Mr Adams in</person> Delft" in page.written(), True, "to the other side")
        page.select("Delft")
        need("extended" not in " ".join(page.open_menu()), "a blank between: it isn't touched")
        page.keys(Keys.ESCAPE)
        page.wrap("place", "Delft")
        page.select(".")
        page.see_menu(["⟨place⟩ extended to here"], "where it is touched")
        page.keys(Keys.ENTER)
        soon(lambda: "<place>Delft.</place>" in page.written(), True, "it reaches over what is beside it")
        page.keys(Keys.CONTROL, "s")
        soon(lambda: page.find("#save").text, "Saved", "saved")
        need("<person key='a'>Mr Adams in</person>" in server.text(), f"its attributes are in the document: {server.text()}")


def chooses_names(driver, program):
    """Of elements of the same cost the page shows the choice, what this document uses most first; all are taken over but
    those that have several."""
    with Server(program, None, ARTICLE, "doc") as server:
        server.write(ALIKE, "alike.dtd")
        server.write(DOC)
        server.words[2] = server.path("alike.dtd")
        server.start()
        page = Page(driver, server.url)
        soon(page.status, lambda text: text.startswith("1 element missing") or text.startswith("2 elements missing"), "what is missing")
        page.keys(Keys.F8)
        soon(lambda: page.find("#reason").text, lambda text: "Missing here" in text, "at the tag")
        page.press("#preview")
        soon(lambda: page.find("#completed h2").text, lambda text: text.startswith("Valid with"), "the preview")
        names = "return [...document.querySelectorAll('#completed select')].map((each) => [...each.options].map(({ text }) => text))"
        soon(lambda: page.js(names), lambda names: all(len(each) > 1 for each in names), "the choices")
        page.press("#completed .close")
        page.keys(Keys.ESCAPE)
    with Server(program, None, ARTICLE, "doc") as server:
        server.write(ALIKE, "alike.dtd")
        server.write(DOC.replace("<sec>Three.", "<sec><head>B</head>Three."))
        server.words[2] = server.path("alike.dtd")
        server.start()
        page = Page(driver, server.url)
        before = page.written()
        page.keys(Keys.F8)
        soon(lambda: page.js("return [...document.querySelectorAll('#reason select option')].map(({ text }) => text)"), ["simpara", "para", "verse"], "the choice at the tag")
        page.press("#preview")
        soon(lambda: page.js("return [...document.querySelectorAll('#completed select option')].map(({ text }) => text)"), ["simpara", "para", "verse"], "and in the preview")
        page.press("#completed .all")
        soon(page.tell, lambda text: text.startswith("An element that may have several names wasn't taken over"), "it isn't taken over with all")
        same((page.written(), page.moves()), (before, 0), "nothing else was missing")
        page.keys(Keys.ESCAPE)
        soon(lambda: page.find("#reason").is_displayed(), False, "the sentence is closed")
        page.keys(Keys.F8)
        soon(lambda: page.js("return document.querySelector('#reason:not([hidden]) select') !== null"), True, "at the tag again")
        page.js("const choice = document.querySelector('#reason select'); choice.value = 'verse'; choice.dispatchEvent(new Event('change'))")
        page.press("#reason .take")
        soon(lambda: "<verse>Three.</verse>" in page.written(), True, "by the name that was chosen")
        soon(page.status, "Valid", "at the same cost")
        page.keys(Keys.CONTROL, "z")
        soon(page.moves, 0, "undo")
        page.click_tag("sec", 1)
        page.open_menu()
        soon(lambda: page.menu()[:3], ["Take over what is missing", "Take over with ⟨para⟩", "Take over with ⟨verse⟩"], "and in the menu")
        page.keys("over with ⟨para", Keys.ENTER)
        soon(lambda: "<para>Three.</para>" in page.written(), True, "by its row")
        page.keys(Keys.CONTROL, "z")
        soon(page.moves, 0, "undo")
        page.press("#preview")
        soon(lambda: page.js("return document.querySelector('#completed select') !== null"), True, "the preview")
        page.js("const choice = document.querySelector('#completed select'); choice.value = 'para'; choice.dispatchEvent(new Event('change'));"
                "choice.closest('.tag').click()")
        soon(lambda: "<para>Three.</para>" in page.written(), True, "a click on the tag takes the name that was chosen")


CASES = [fills_what_is_new, splits_and_joins, deletes_what_was_chosen, widens_tags, chooses_names]
