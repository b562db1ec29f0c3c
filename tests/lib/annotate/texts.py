"""The page of `clients/annotate`: texts and attributes, the same tag again, and finding. Cases of `annotate.py`."""
from .browser import Page
from .fixture import ARTICLE, Server, need, same, soon
from selenium.webdriver.common.keys import Keys

BODY = "<p>I have met Mr Adams in Delft. Delft is fine; Delftware too.</p><p></p><p>He lives in Delft.</p>"
LETTER = f"<letter><opener><salute>Dear brother,</salute></opener>\n<body>{BODY}</body></letter>\n"
ATTLISTS = """<!ELEMENT doc (#PCDATA|q)*><!ENTITY % who "who CDATA #REQUIRED">
<!-- <!ATTLIST q no CDATA #IMPLIED> --><!ELEMENT q (#PCDATA)><!ATTLIST q %who; kind (said | written) 'said'>"""


def types_text(driver, program):
    """A caret, typing, deleting, line breaks, and what is typed in one go is one move."""
    with Server(program, LETTER) as server:
        page = Page(driver, server.url, unlocked=True)
        before = page.written()
        # All of it is typed in one go, however slow the machine is.
        page.js("const now = performance.now(); performance.now = () => now")
        page.click_text("have")
        page.type("now & ")
        page.type("then")
        page.type(Keys.SHIFT, Keys.ENTER)
        page.type("I ")
        need("<p>I now & then\nI have met" in page.written(), f"what was typed: {page.written()}")
        page.type(Keys.BACKSPACE)
        page.type(Keys.BACKSPACE)
        page.type(Keys.DELETE)
        need("<p>I now & then\nave met" in page.written(), "what keys took away")
        same(page.moves(), 1, "it is one move")
        page.keys(Keys.CONTROL, "z")
        soon(page.moves, 0, "undo")
        same(page.written(), before, "it is taken back in one go")
        page.select("Mr Adams")
        page.open_menu()
        page.keys(Keys.ESCAPE)
        page.type("Tom <& co>")
        need("met Tom <& co> in Delft" in page.written(), "a selection is typed over")
        page.press("#document .list.nothing")
        page.type("Hello 𝒜é")
        need("<p>Hello 𝒜é</p>" in page.written(), "text in an element that was empty")
        page.type(Keys.BACKSPACE)
        page.type(Keys.BACKSPACE)
        need("<p>Hello </p>" in page.written(), "a character is one, however it is stored")
        page.keys(Keys.CONTROL, "s")
        soon(lambda: page.find("#save").text, "Saved", "saved")
        need("met Tom &lt;&amp; co&gt; in Delft" in server.text() and "<p>Hello </p>" in server.text(), f"as it is written: {server.text()}")
        page.js("getSelection().removeAllRanges()")
        page.click_tag("opener")
        page.open_menu()
        page.keys(Keys.ESCAPE)
        page.keys("x")
        soon(lambda: page.find("#reason").text, lambda text: "Refused." in text and "opener" in text, "no text may stand there")


def compose(page, *steps):
    """What an input method has so far, step by step; the last step is what it puts."""
    for step in steps[:-1]:
        page.driver.execute_cdp_cmd("Input.imeSetComposition", {"text": step, "selectionStart": len(step), "selectionEnd": len(step)})
        soon(lambda: page.js("return document.getElementById('composed').textContent"), step, "it is shown at the caret")
    page.driver.execute_cdp_cmd("Input.insertText", {"text": steps[-1]})


def types_by_keyboards(driver, program):
    """Dead keys, input methods, and what a phone's keyboard corrects."""
    with Server(program, LETTER) as server:
        page = Page(driver, server.url, unlocked=True)
        # All of it is typed in one go, however slow the machine is.
        page.js("const now = performance.now(); performance.now = () => now")
        page.click_text("Adams")
        compose(page, "´", "é")
        soon(lambda: "met Mr éAdams" in page.written(), True, "a dead key")
        page.type("a")
        compose(page, "n", "ni", "nih", "你好")
        page.type("b")
        soon(lambda: "met Mr éa你好bAdams" in page.written(), True, "an input method, among keys")
        soon(lambda: page.js("return document.getElementById('composed').hidden"), True, "nothing more is shown")
        same(page.moves(), 1, "it is one move")
        version = page.version()
        compose(page, "x", "")
        page.type(Keys.BACKSPACE)
        soon(lambda: "met Mr éa你好Adams" in page.written(), True, "what is given up puts nothing")
        need(page.version() > version, "the key behind it does")
        page.select("fine", until="fine")
        page.open_menu()
        page.keys(Keys.ESCAPE)
        compose(page, "¨", "ö", "ö")
        soon(lambda: "Delft is ö;" in page.written(), True, "what is selected is typed over")
        # A keyboard of a phone replaces the word before the caret, and deletes by itself.
        page.js("""
        const field = document.activeElement
        const end = field.selectionStart
        field.setRangeText("Leyden was 𝒜", end - "Delft is ö".length, end, "end")
        field.dispatchEvent(new InputEvent("input", { inputType: "insertReplacementText" }))
        """)
        soon(lambda: "Leyden was 𝒜; Delftware" in page.written(), True, "words that are corrected")
        for _ in range(2):
            page.js("document.execCommand('delete')")
        soon(lambda: "Leyden was; Delftware" in page.written(), True, "a character is one")
        page.keys(Keys.CONTROL, Keys.BACKSPACE)
        soon(lambda: "Leyden ; Delftware" in page.written(), True, "a word by one key")
        for _ in range(70):
            page.js("document.execCommand('delete')")
        soon(lambda: "<p>; Delftware" in page.written(), True, "as far as the text goes, not as the field does")
        page.js("document.execCommand('insertText', false, 'So')")
        soon(lambda: "<p>So; Delftware" in page.written(), True, "and on")
        page.press("#document .list.nothing")
        compose(page, "`", "è")
        soon(lambda: "<p>è</p>" in page.written(), True, "in an element that was empty")


def keeps_the_caret(driver, program):
    """After a move, an undo and a menu the caret stands where it did, and keys go on from there."""
    with Server(program, LETTER) as server:
        page = Page(driver, server.url, unlocked=True)
        page.wrap("person", "Mr Adams")
        page.type("on")
        soon(lambda: "<person>Mr Adamson</person>" in page.written(), True, "behind what was tagged")
        page.keys(Keys.CONTROL, "z")
        soon(page.moves, 1, "undo")
        page.click_text("fine")
        page.keys(Keys.CONTROL, "z")
        soon(page.moves, 0, "undo of what is beside it")
        page.type("very ")
        soon(lambda: "Delft is very fine" in page.written(), True, "it stays")
        page.select("lives")
        page.open_menu()
        page.keys(Keys.ESCAPE)
        page.keys(Keys.ESCAPE)
        page.type("d")
        soon(lambda: "He livesd in" in page.written(), True, "behind what was selected")
        page.keys(Keys.ARROW_LEFT)
        page.type("!")
        soon(lambda: "He lives!d in" in page.written(), True, "an arrow key goes on from there")
        page.select("too.")
        page.open_menu()
        page.keys(Keys.ESCAPE)
        page.right_click_text("too.")
        need(str(page.open_menu()) and page.find("#menu h2").text.startswith("Tags round text"), "what is chosen keeps its menu")
        page.keys(Keys.ESCAPE)
        page.keys(Keys.SHIFT, Keys.ARROW_LEFT)
        soon(lambda: page.js("return import('./choose.js').then(({ chosen }) => chosen().run).then(({ from, to }) => to[1] - from[1])"), 3, "Shift goes on with the selection")
    with Server(program, "<doc><head>H</head><sec><p>ab<em>c</em>d</p></sec></doc>", ARTICLE, "doc") as server:
        page = Page(driver, server.url, unlocked=True)
        page.click_text("ab")
        page.type(Keys.DELETE)
        page.type(Keys.DELETE)
        page.type("x")
        soon(lambda: "<p>x<em>c</em>d</p>" in page.written(), True, "before an element, where the text is gone")


def pastes_text(driver, program):
    with Server(program, LETTER) as server:
        page = Page(driver, server.url, unlocked=True)
        page.click_text("lives")
        paste = """
        const data = new DataTransfer()
        data.setData('text/plain', arguments[0])
        data.setData('text/html', '<b>bold</b>')
        document.dispatchEvent(new ClipboardEvent('paste', { clipboardData: data, bubbles: true, cancelable: true }))
        """
        page.js(paste, "now\r\nand <then> ")
        soon(lambda: "<p>He now\nand <then> lives" in page.written(), True, "pasted as text")
        page.select("fine")
        page.open_menu()
        page.keys(Keys.ESCAPE)
        page.keys(Keys.CONTROL, "x")
        soon(lambda: "Delft is ;" in page.written(), True, "cut out")
        page.keys(Keys.CONTROL, "v")
        soon(lambda: "Delft is fine;" in page.written(), True, "pasted again")
        page.select("Adams", "Delft")
        page.open_menu()
        page.keys(Keys.ESCAPE)
        page.keys(Keys.CONTROL, "s")
        soon(lambda: page.find("#save").text, "Saved", "saved")
        need("He now&#10;and &lt;then&gt; lives" in server.text(), f"a line end in a script is a reference: {server.text()}")


def edits_attributes(driver, program):
    """A form of names and values: kept in the script, written at Save, taken back by undo; the session's answers
    stay."""
    with Server(program, None, ARTICLE, "doc") as server:
        server.write(ATTLISTS, "who.dtd")
        server.write("<doc>He said: <q when='then'  >yes</q>.</doc>")
        server.words[2] = server.path("who.dtd")
        server.start()
        page = Page(driver, server.url)

        def form(*keys):
            page.click_tag("q")
            page.open_menu()
            page.keys("attr", Keys.ENTER)
            soon(lambda: page.find("#attributes").is_displayed(), True, "the form")
            for key in keys:
                page.keys(key)

        form()
        need("who (CDATA, required), kind ((said | written)" in page.find("#attributes .about").text, "what the DTD declares")
        same(page.texts("#attributes td:last-child .note"), ["required", "not declared"], "what it requires, and doesn't declare")
        page.press("#attributes .add")
        page.keys("who", Keys.TAB, "Anna & \"Tom\" <")
        page.press("#attributes .set")
        soon(page.moves, 1, "a move")
        same(page.texts("#document .attrs"), ["when='then' who=\"Anna &amp; &quot;Tom&quot; &lt;\""], "it is shown on the tag")
        page.press("#document")
        page.keys(Keys.CONTROL, "s")
        soon(lambda: page.find("#save").text, "Saved", "saved")
        written = "<doc>He said: <q when='then' who=\"Anna &amp; &quot;Tom&quot; &lt;\">yes</q>.</doc>"
        same(server.text(), written, "the document")
        form()
        page.press("#attributes .add")
        page.keys("a b", Keys.TAB, "x")
        page.press("#attributes .set")
        soon(lambda: page.find("#attributes .refusal").text, lambda text: "a b" in text, "no name of XML")
        page.keys(Keys.ESCAPE)
        page.wrap("q", "He")
        page.keys(Keys.CONTROL, "z")
        page.keys(Keys.CONTROL, "z")
        soon(page.moves, 0, "undo")
        same(page.texts("#document .attrs"), ["when='then'"], "as it was")
        page.keys(Keys.CONTROL, "y")
        soon(page.moves, 1, "redo")
        server.stop()
        server.start()
        page = Page(driver, server.url)
        same((page.moves(), page.texts("#document .attrs")), (1, ["when='then' who=\"Anna &amp; &quot;Tom&quot; &lt;\""]), "the next start")
        page.press("#save")
        page.rest()
        same(server.text(), written, "what was saved")


def tags_again(driver, program):
    """The last tag by one key, and on all places of the same text."""
    with Server(program, LETTER) as server:
        page = Page(driver, server.url)
        page.wrap("person", "Mr Adams")
        page.select("brother")
        page.open_menu()
        page.keys(Keys.ESCAPE)
        page.keys(Keys.F4)
        soon(lambda: page.find("#reason").text, lambda text: "Refused" in text, "the last tag again is refused where it may not stand")
        page.select("He")
        page.open_menu()
        page.keys(Keys.ESCAPE)
        page.keys(Keys.F4)
        soon(lambda: "<person>He</person> lives" in page.written(), True, "the last tag again")
        page.wrap("place", "Delft")
        page.keys(Keys.SHIFT, Keys.F4)
        soon(lambda: page.find("#everywhere").is_displayed(), True, "the places of the same text")
        soon(lambda: page.texts("#everywhere mark"), ["Delft"] * 3, "each that has no such tag")
        same(page.js("return [...document.querySelectorAll('#everywhere li input')].map(({ checked }) => checked)"), [True, False, True], "a part of a word is left out")
        need("is fine" in page.texts("#everywhere .context")[0], "with what stands beside it")
        page.press("#everywhere li input", 1)
        page.press("#everywhere li input", 0)
        page.press("#everywhere .tag-all")
        soon(page.moves, 4, "one move")
        need("Delft is fine; <place>Delft</place>ware" in page.written() and "in <place>Delft</place>.</p></body>" in page.written(), "those that were ticked")
        page.keys(Keys.CONTROL, "z")
        soon(page.moves, 3, "undo")
        same(page.written().count("<place>"), 1, "all of them are taken back at once")


def finds(driver, program):
    """In the whole document, of which only what is in sight is drawn; its ends; its elements by name."""
    sections = "".join(f"<sec><title>Part {k}</title><p>Text of <em>part</em> {k}, long.</p></sec>" for k in range(3000))
    with Server(program, f"<doc><head>Big</head>{sections}</doc>", ARTICLE, "doc") as server:
        page = Page(driver, server.url, unlocked=True)
        page.keys(Keys.CONTROL, "f")
        page.keys("of part 2717")
        soon(lambda: page.find("#finder output").text, "1 of 1", "a text over tags, far away")
        soon(lambda: "Part 2717" in page.texts("#document .text"), True, "it is drawn")
        page.js("document.querySelector('#finder input').select()")
        page.keys("PART 29")
        soon(lambda: page.find("#finder output").text, "1 of 222", "a text in any case")
        page.keys(Keys.ENTER)
        page.keys(Keys.ENTER)
        page.keys(Keys.SHIFT, Keys.ENTER)
        soon(lambda: page.find("#finder output").text, "2 of 222", "the next ones, and the one before")
        page.js("document.querySelector('#finder input').select()")
        page.keys("part-29 (a*|[b])")
        soon(lambda: page.find("#finder output").text, "nothing found", "signs stand for themselves")
        page.js("document.querySelector('#finder input').select()")
        page.keys("nowhere")
        soon(lambda: page.find("#finder output").text, "nothing found", "what isn't there")
        page.js("document.querySelector('#finder input').select()")
        page.keys("part 2998")
        soon(lambda: page.find("#finder output").text, "1 of 2", "the last")
        page.keys(Keys.ESCAPE)
        soon(lambda: page.js("return [getSelection().toString(), document.activeElement.id]"), ["Part 2998", "typed"], "it is selected")
        page.keys(Keys.ENTER)
        page.open_menu()
        page.keys(Keys.ESCAPE)
        page.js("window.focused = []; document.addEventListener('focusin', ({ target }) => window.focused.push(target.id))")
        page.keys(Keys.CONTROL, Keys.HOME)
        soon(lambda: page.js("return document.getElementById('document').scrollTop"), 0, "the start")
        soon(lambda: page.js("return window.focused"), ["document", "typed"], "the document has the focus while arrow keys move, the field when they rest")
        page.keys(Keys.PAGE_DOWN)
        soon(lambda: page.js("return document.getElementById('document').scrollTop"), lambda top: top > 200, "a page on")
        page.keys(Keys.CONTROL, Keys.END)
        soon(lambda: " 2999, long." in page.texts("#document .text"), True, "the end is drawn")
        page.press("#list")
        soon(lambda: page.texts("#elements li"), ["doc 1", "em 3000", "head 1", "p 3000", "sec 3000", "title 3000"], "elements by name")
        page.click("#elements li button", 5)
        page.click("#elements li button", 5)
        soon(lambda: page.texts(".chosen .text"), ["Part 1"], "the second one of a name")
        soon(lambda: page.texts("#elements li")[5], "title 2 of 3000", "which is told")


CASES = [types_text, types_by_keyboards, keeps_the_caret, pastes_text, edits_attributes, tags_again, finds]
