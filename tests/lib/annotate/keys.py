"""The page of `clients/annotate`: no key reaches the text but one that is meant for it. Cases of `annotate.py`."""
import contextlib
import os
import re
import signal

from .browser import WHERE, Page
from .fixture import ARTICLE, Server, need, same, soon
from selenium.webdriver.common.actions.action_builder import ActionBuilder
from selenium.webdriver.common.keys import Keys

LETTER = "<letter><opener><salute>Dear brother,</salute></opener>\n<body><p>I burn his candle for Mr Adams in Delft.</p></body></letter>\n"
# So long after the mouse a key comes, in milliseconds.
WAITS = (0, 20, 50, 120, 300)
TYPED = "return [document.activeElement.closest('#menu') !== null, document.querySelector('#menu input').value]"


def at_once(page, words, wait, *keys):
    """Selects words with the mouse, and types so long after the button went up; without a word between page and test."""
    x, y, right, bottom = page.js(WHERE, words, 0)
    actions = ActionBuilder(page.driver, duration=5)
    pointer, keyboard = actions.pointer_action, actions.key_action
    pointer.move_to_location(round(x), round(y)).pointer_down().move_to_location(round(right), round(bottom)).pointer_up()
    for _ in range(4):
        keyboard.pause()
    if wait:
        pointer.pause(wait / 1000)
        keyboard.pause(wait / 1000)
    for key in keys:
        keyboard.key_down(key).key_up(key)
    actions.perform()


def click_and_type(page, words, *keys):
    """The same with a click before words."""
    x, y, _, _ = page.js(WHERE, words, 0)
    actions = ActionBuilder(page.driver, duration=5)
    actions.pointer_action.move_to_location(round(x), round(y)).pointer_down().pointer_up()
    for _ in range(3):
        actions.key_action.pause()
    for key in keys:
        actions.key_action.key_down(key).key_up(key)
    actions.perform()


@contextlib.contextmanager
def stopped(server):
    """What the server asks takes as long as this."""
    with open(f"/proc/{server.process.pid}/task/{server.process.pid}/children", encoding="ascii") as file:
        children = list(map(int, file.read().split()))
    for child in children:
        os.kill(child, signal.SIGSTOP)
    try:
        yield
    finally:
        for child in children:
            os.kill(child, signal.SIGCONT)


def has_the_focus_at_once(driver, program):
    """The menu is there, and has the keys, when the button goes up, however long its rows take; Enter waits for them."""
    with Server(program, LETTER) as server:
        page = Page(driver, server.url, unlocked=True)
        before = page.written()
        for wait in WAITS:
            with stopped(server):
                at_once(page, "candle", wait, "h", "i")
                same(page.js(TYPED), [True, "hi"], f"the menu's input, {wait} ms after the mouse")
                same((page.menu(), page.texts("#choices .hint")), ([], ["…"]), "its rows are still to come")
            page.open_menu()
            same((page.written(), page.moves()), (before, 0), "the text")
            same(page.js(TYPED), [True, "hi"], "what was typed stays")
            page.keys(Keys.ESCAPE)
        for wait in WAITS:
            moves = page.moves()
            with stopped(server):
                at_once(page, "candle", wait, *"date", Keys.ENTER)
                same(page.moves(), moves, "Enter is held")
            soon(lambda: "<date>candle</date>" in page.written(), True, "until the rows are there")
            page.keys(Keys.CONTROL, "z")
            soon(page.moves, 0, "undo")
            same(page.written(), before, "no key is in the text")
        with stopped(server):
            at_once(page, "candle", 0, "h", Keys.ESCAPE)
            same((page.menu(), page.written()), (None, before), "Escape closes it at once")
        soon(lambda: page.js("return document.body.ariaBusy"), "false", "the answer comes late")
        same(page.menu(), None, "and opens nothing")
        page.click_tag("p")
        same(page.js("return document.querySelector('#menu h2').textContent"), "⟨p⟩", "so is the menu of a tag")
        page.keys(Keys.ESCAPE)


def tags_again_before_keys(driver, program):
    """Keys that come right after the last tag again, or the same tag on all places, take the place of no text."""
    with Server(program, LETTER.replace("Delft.", "Delft. Delft is.")) as server:
        page = Page(driver, server.url, unlocked=True)
        page.wrap("place", "Delft")
        for words, keys in (("candle", (Keys.F4,)), ("Delft is", (Keys.SHIFT, Keys.F4))):
            page.select(words)
            page.open_menu()
            page.keys(Keys.ESCAPE)
            with stopped(server):
                page.keys(*keys)
                page.keys("h")
                page.keys("i")
            soon(lambda: page.js("return document.body.ariaBusy"), "false", "all of it is done")
        soon(lambda: page.find("#everywhere .about").text, lambda text: "without this tag" in text, "the places")
        page.press("#everywhere .close")
        need("his <place>candlehi</place> for" in page.written() and "Delft is." in page.written(), f"the texts are there: {page.written()}")
        page.select("brother")
        page.open_menu()
        page.keys(Keys.ESCAPE, Keys.F4)
        soon(lambda: page.find("#reason").text, lambda text: "Refused" in text, "it is refused")
        soon(lambda: page.js("return import('./choose.js').then(({ chosen }) => import('./place.js').then(({ plainTextOf }) => plainTextOf(chosen().run)))"), "brother", "it is selected again")
        page.click_tag("place")
        page.open_menu()
        page.keys("the same", Keys.ENTER)
        soon(lambda: page.find("#everywhere").is_displayed(), True, "by the menu of a tag")
        same(page.menu(), None, "which is closed then")
        page.press("#everywhere .close")
        same(page.menu(), None, "and stays so")


def locks_the_text(driver, program):
    """While it is locked no key, paste or input method changes the text, and a sentence says so; tags go on."""
    with Server(program, LETTER) as server:
        page = Page(driver, server.url)
        before = page.written()
        same(page.find("#lock").text, "Text locked", "it is locked at first")
        locked = lambda: page.find("#note").is_displayed() and page.tell().startswith("The text is locked")  # noqa: E731
        for key in ("x", " ", Keys.BACKSPACE, Keys.DELETE, "é"):
            page.click_text("candle")
            soon(locked, False, "a click takes the sentence away")
            page.keys(key)
            soon(locked, True, f"it is said after {key!r}")
        for what in ("paste", "cut"):
            page.select("candle")
            page.open_menu()
            page.keys(Keys.ESCAPE)
            page.js("const data = new DataTransfer(); data.setData('text/plain', 'x'); document.dispatchEvent(new ClipboardEvent(arguments[0], "
                    "{ clipboardData: data, bubbles: true, cancelable: true }))", what)
            soon(locked, True, f"it is said after {what}")
        page.click_text("candle")
        page.driver.execute_cdp_cmd("Input.insertText", {"text": "你好"})
        page.rest()
        same((page.written(), page.moves()), (before, 0), "the text")
        page.wrap("date", "candle")
        page.keys(Keys.CONTROL, "z")
        soon(page.moves, 0, "a tag, and its undo")
        page.press("#lock")
        same(page.find("#lock").text, "Text unlocked", "it is unlocked")
        page.click_text("candle")
        page.type("big ")
        soon(lambda: "his big candle" in page.written(), True, "then keys type")
        page.press("#lock")
        page.keys("x")
        soon(locked, True, "it is locked again")
        page.keys(Keys.CONTROL, "z")
        soon(page.moves, 0, "undo")
        same(page.written(), before, "the text as it was")


def keeps_a_menu_open(driver, program):
    """What another window does leaves the menu as it is, with what was typed; where its place is gone, it says so."""
    with Server(program, LETTER) as server:
        page = Page(driver, server.url, unlocked=True)

        def other(kind, words=None, name=None, tag=None):
            """A move of another browser's window, and what this one hears of it."""
            state = server.ask("state")
            rows, move = state["tree"], {"version": state["version"], "window": "other", "kind": kind, "name": name}
            if tag:
                move["node"] = next(row["id"] for row in rows if row.get("name") == tag)
            else:
                text = next(row for row in rows if words in row.get("text", ""))
                owner = next(row for row in reversed(rows[:rows.index(text)]) if row["depth"] == text["depth"] - 1)
                at = text["text"].index(words)
                move["place"] = {"list": owner["id"], "from": [text["id"], at], "to": [text["id"], at + len(words)]}
            need("changes" in server.ask("move", move), f"another window: {kind} {words or tag}")
            page.js("dispatchEvent(new Event('focus'))")
            soon(page.version, state["version"] + 1, "this one hears of it")

        page.select("Mr Adams")
        page.open_menu()
        page.keys("per")
        other("wrap", "Delft", "place")
        same(page.js(TYPED), [True, "per"], "the menu and its input stay")
        page.see_menu(["person"], "its rows are asked for again")
        page.keys("son", Keys.ENTER)
        soon(lambda: "<person>Mr Adams</person> in <place>Delft</place>" in page.written(), True, "and go to the place that was selected")
        same(page.tell(), "", "nothing is told")
        page.select("candle")
        page.open_menu()
        page.keys("da")
        other("wrap", "burn his candle", "date")
        page.open_menu()
        same(page.js(TYPED), [True, "da"], "where the place stands in another element now")
        page.keys(Keys.ESCAPE)
        page.click_tag("date")
        page.open_menu()
        moves = page.moves()
        other("unwrap", tag="date")
        soon(lambda: page.find("#menu .refusal").text, lambda text: "isn't there any more" in text, "a place that is gone is told in the menu")
        before = page.written()
        page.keys("x", Keys.ENTER)
        same((page.js(TYPED), page.written(), page.moves()), ([True, "x"], before, moves + 1), "it stays until Escape, and takes the keys")
        page.keys(Keys.ESCAPE)
        same(page.menu(), None, "Escape")


def loses_no_key(driver, program):
    """Undo, redo, a click and keys without a pause, in a document of 300 kB: each key is in the text, where it was clicked,
    and no other window is spoken of."""
    paragraphs = "".join(f"<p>Paragraph {k} of <em>many</em> words, {'of a long text ' * 6}and its end {k}.</p>" for k in range(2100))
    with Server(program, f"<doc><head>Big</head><sec>{paragraphs}</sec></doc>", ARTICLE, "doc") as server:
        page = Page(driver, server.url, unlocked=True)
        page.wrap("em", "Paragraph 3")
        page.wrap("em", "end 4.")
        want = page.js("return document.getElementById('document').textContent")
        for k in range(8):
            # Undo and redo of what is beside the place that is clicked on, and of what is in the same text.
            page.keys(Keys.CONTROL, "z")
            page.keys(Keys.CONTROL, "y")
            click_and_type(page, f"words, of a long text of a long text of a long text of a long text of a long text of a long text and its end {k + 1}.",
                           *f"now{k}! ")
            page.js("return import('./type.js').then(({ settled }) => settled())")
            soon(lambda: f"now{k}! words, of a long" in page.written(), True, f"what was typed in try {k}")
            same(page.tell(), "", "nothing is told")
        text = page.js("return document.getElementById('document').textContent")
        same(re.sub(r"now\d! ", "", text) == want, True, "the rest of the text is as it was")
        for k in range(4):
            with stopped(server):
                page.keys(Keys.CONTROL, "z")
                click_and_type(page, "Big", "A", "b")
                page.keys(Keys.CONTROL, "z")
                click_and_type(page, "Big", "C")
            soon(lambda: page.js("return document.body.ariaBusy"), "false", "all of it is done")
        same(page.js("return document.querySelector('#document .text').textContent"), "CBig", "an undo takes back what was typed before it, and not what comes after")
        same(page.tell(), "", "nothing is told")


def selects_with_the_mouse(driver, program):
    """A word by two clicks, a click into what is selected, and a scrollbar, which holds nothing up."""
    with Server(program, LETTER.replace("</p>", "</p>" + "<p>More of it.</p>" * 60)) as server:
        page = Page(driver, server.url, unlocked=True)
        x, y, _, _ = page.place_of("candle")
        # Two clicks are two, however slow the machine is.
        for count in (1, 2):
            for kind in ("mousePressed", "mouseReleased"):
                event = {"type": kind, "x": x + 3, "y": y, "button": "left", "clickCount": count}
                page.driver.execute_cdp_cmd("Input.dispatchMouseEvent", event)
        page.open_menu()
        same(page.js("return import('./choose.js').then(({ chosen }) => import('./place.js').then(({ plainTextOf }) => plainTextOf(chosen().run)))"), "candle", "a word")
        page.keys(Keys.ESCAPE)
        page.select("his candle for")
        page.open_menu()
        page.keys(Keys.ESCAPE)
        page.click_text("ndle for")
        same(page.menu(), None, "a click into it opens nothing")
        page.type("X")
        soon(lambda: "his caXndle for" in page.written(), True, "and keys go where it was")
        right, top = page.js("const { right, top } = document.getElementById('document').getBoundingClientRect(); return [right, top]")
        need(page.js("const host = document.getElementById('document'); return host.offsetWidth > host.clientWidth"), "there is a scrollbar")
        actions = ActionBuilder(page.driver, duration=5)
        actions.pointer_action.move_to_location(round(right) - 4, round(top) + 60).pointer_down().pointer_up()
        actions.perform()
        page.keys("Y")
        soon(lambda: "his caXYndle for" in page.written(), True, "keys go on")


def types_on_behind_another_window(driver, program):
    """What another window did meanwhile loses no key, and isn't spoken of where nothing was lost."""
    with Server(program, LETTER) as server:
        page = Page(driver, server.url, unlocked=True)
        page.click_text("candle")
        state = server.ask("state")
        text = next(row for row in state["tree"] if "candle" in row.get("text", ""))
        owner = next(row["id"] for row in state["tree"] if row.get("name") == "p")
        place = {"list": owner, "from": [text["id"], 0], "to": [text["id"], 6]}
        need("changes" in server.ask("move", {"version": state["version"], "window": "other", "kind": "wrap", "place": place, "name": "date"}), "another window")
        page.keys("big ")
        soon(lambda: "<date>I burn</date> his big candle" in page.written(), True, "the keys are where they were typed")
        same(page.tell(), "", "nothing was lost, and nothing is told")


CASES = [has_the_focus_at_once, tags_again_before_keys, locks_the_text, keeps_a_menu_open, loses_no_key, selects_with_the_mouse, types_on_behind_another_window]
