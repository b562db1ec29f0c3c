"""A window of a headless browser on the page of `clients/annotate`, as a user handles it: by mouse and keyboard.

Needs Chromium, its driver and Selenium (Debian's `chromium`, `chromium-driver`, `python3-selenium`).
"""
import shutil
import sys

sys.dont_write_bytecode = True

from .fixture import soon  # noqa: E402
from lib.waiting import PATIENCE  # noqa: E402
from selenium import webdriver  # noqa: E402
from selenium.common.exceptions import WebDriverException  # noqa: E402
from selenium.webdriver.chrome.service import Service  # noqa: E402
from selenium.webdriver.common.action_chains import ActionChains  # noqa: E402
from selenium.webdriver.common.actions.action_builder import ActionBuilder  # noqa: E402
from selenium.webdriver.common.by import By  # noqa: E402
from selenium.webdriver.common.keys import Keys  # noqa: E402

# Where the words of a text are on the page: the middle of the first occurrence's first and last character, after so
# many others.
WHERE = """
const [words, nth] = arguments
const walk = document.createTreeWalker(document.getElementById('document'), NodeFilter.SHOW_TEXT,
    (node) => node.parentElement.closest('.text, .leaf') ? NodeFilter.FILTER_ACCEPT : NodeFilter.FILTER_REJECT)
const places = []
let text = ''
while (walk.nextNode()) {
    for (let at = 0; at < walk.currentNode.data.length; at += 1) places.push([walk.currentNode, at])
    text += walk.currentNode.data
}
let at = -1
for (let left = nth; left >= 0; left -= 1) at = text.indexOf(words, at + 1)
if (at < 0) return null
const box = (place, length) => {
    const range = document.createRange()
    range.setStart(...places[place])
    range.setEnd(places[place][0], places[place][1] + length)
    const boxes = range.getClientRects()
    return boxes[0]
}
box(at, 1) // lays the page out
places[at][0].parentElement.scrollIntoView({ block: 'nearest' })
const first = box(at, 1), last = box(at + words.length - 1, 1)
return [first.left + 0.1, (first.top + first.bottom) / 2, last.right - 0.1, (last.top + last.bottom) / 2]
"""


def browser():
    options = webdriver.ChromeOptions()
    options.binary_location = shutil.which("chromium")
    # The sandbox can't be had as root, as in a container; the page is this repository's own.
    for word in ("--headless=new", "--no-sandbox", "--disable-dev-shm-usage", "--window-size=1200,800"):
        options.add_argument(word)
    options.set_capability("goog:loggingPrefs", {"browser": "ALL"})
    # A window that is behind another does its work too.
    for word in ("background-timer-throttling", "backgrounding-occluded-windows", "renderer-backgrounding"):
        options.add_argument(f"--disable-{word}")
    driver = begun(options)
    driver.set_page_load_timeout(PATIENCE)
    driver.set_script_timeout(PATIENCE)
    return driver


def begun(options):
    """A browser. On a busy machine it may not be there in the time that its driver gives it."""
    for _ in range(4):
        try:
            return webdriver.Chrome(service=Service(shutil.which("chromedriver")), options=options)
        except WebDriverException as fault:
            print(f"no browser: {fault}", flush=True)
    return webdriver.Chrome(service=Service(shutil.which("chromedriver")), options=options)


class Page:
    """A window of the browser, as a user handles it."""

    def __init__(self, driver, url, unlocked=False):
        self.driver = driver
        driver.get(url)
        self.window = driver.current_window_handle
        soon(lambda: self.js("return document.getElementById('next').textContent"), lambda text: text != "…", "the page opens")
        if unlocked:
            self.js("document.getElementById('lock').click()")

    def js(self, code, *words):
        return self.driver.execute_script(code, *words)

    def find(self, css):
        return self.driver.find_element(By.CSS_SELECTOR, css)

    def all(self, css):
        return self.driver.find_elements(By.CSS_SELECTOR, css)

    def texts(self, css):
        return self.js("return [...document.querySelectorAll(arguments[0])].map((each) => each.textContent)", css)

    def pointer(self):
        actions = ActionBuilder(self.driver, duration=20)
        return actions, actions.pointer_action

    def select(self, words, until=None, nth=0, nth_until=0):
        """Selects text with the mouse, from the first words up to the end of others."""
        place = end = self.place_of(words, nth)
        if until:
            end, place = self.place_of(until, nth_until), self.place_of(words, nth)
        actions, pointer = self.pointer()
        pointer.move_to_location(*map(round, place[:2])).pointer_down()
        pointer.move_to_location(*map(round, end[2:])).pointer_up()
        actions.perform()

    def place_of(self, words, nth=0):
        """Where words stand, as soon as they are there and the page has come to rest."""
        self.rest()
        return soon(lambda: self.js(WHERE, words, nth), bool, f"{words!r} is on the page")

    def click_text(self, words, nth=0):
        """Puts the caret before these words."""
        x, y, _, _ = self.place_of(words, nth)
        actions, pointer = self.pointer()
        pointer.move_to_location(round(x), round(y)).click()
        actions.perform()
        self.rest()

    def rest(self):
        """Waits for what the page does after an event, until it has all its answers, and all that moves has come to
        rest."""
        self.driver.execute_async_script(RESTED)

    def right_click_text(self, words):
        x, y, _, _ = self.place_of(words)
        actions, pointer = self.pointer()
        pointer.move_to_location(round(x) + 2, round(y)).context_click()
        actions.perform()

    def click_tag(self, name, nth=0):
        self.rest()
        soon(lambda: self.js(TAGS, name)[nth].click(), None, f"a click on the tag {name}")

    def shift_click_tag(self, name):
        self.rest()
        tag = soon(lambda: self.js(TAGS, name)[0], bool, f"a tag {name}")
        ActionChains(self.driver).key_down(Keys.SHIFT).click(tag).key_up(Keys.SHIFT).perform()

    def press(self, css, nth=0):
        """Clicks with the mouse on one of what is there, as soon as it is there and nothing lies over it."""
        self.rest()
        if self.js(FOLDED, css):
            self.find("#more").click()
        soon(lambda: self.all(css)[nth].click(), None, f"a click on {css}")

    def keys(self, *keys):
        chain = ActionChains(self.driver)
        held = [key for key in keys if key in (Keys.CONTROL, Keys.SHIFT, Keys.ALT)]
        for key in held:
            chain.key_down(key)
        chain.send_keys(*(key for key in keys if key not in held))
        for key in held:
            chain.key_up(key)
        chain.perform()

    def menu(self):
        """The choices of the menu; none where it is closed."""
        return None if not self.find("#menu").is_displayed() else self.js(CHOICES)

    def see_menu(self, want, what):
        """Waits for these choices at the front of the menu, also where what they cost comes in later."""
        self.open_menu()
        soon(lambda: self.menu()[:len(want)], want, what)

    def open_menu(self):
        soon(lambda: self.menu() is not None and self.find("#menu h2").text, lambda name: name, "the menu opens")
        soon(lambda: self.js("return document.getElementById('menu').ariaBusy"), "false", "its rows come")
        return self.menu()

    def take(self, text):
        """Types and takes the first choice."""
        self.open_menu()
        moves = self.moves()
        self.keys(text, Keys.ENTER)
        soon(lambda: self.menu() is None or self.moves() != moves or self.find("#menu .refusal").is_displayed(), True, f"{text} is taken")

    def choose(self, action, text):
        """An action of an element's menu, and then a name."""
        self.open_menu()
        title = self.find("#menu h2").text
        self.keys(action, Keys.ENTER)
        soon(lambda: self.find("#menu h2").text, lambda now: now != title, action)
        self.take(text)

    def wrap(self, name, words, until=None, **which):
        moves = self.moves()
        self.select(words, until, **which)
        self.take(name)
        soon(self.moves, moves + 1, f"{name} round {words!r}")

    def moves(self):
        return self.js("return import('./app.js').then((page) => page.app.state.made)")

    def version(self):
        return self.js("return import('./app.js').then((page) => page.app.state.version)")

    def status(self):
        """What the head says of the whole: what is missing, and in how many places."""
        # Where counting was slow it has to be asked for.
        self.js("document.querySelector('#missing button')?.click()")
        return f"{self.find('#next').text} {self.find('#missing').text}".strip()

    def notes(self):
        """The choices of the menu with their notes, each after the name of its group."""
        return self.js(NOTES)

    def type(self, *keys):
        """Types where the caret stands, and waits until all of it is made."""
        version = self.version()
        self.keys(*keys)
        soon(lambda: self.version() > version and self.js(SETTLED), True, f"{keys!r} is typed")

    def written(self):
        """The document as boxes, written as tags."""
        return self.js(WRITTEN)

    def tell(self):
        return self.find("#note span").text

    def click(self, css, nth):
        """Clicks on what may be drawn anew at any time."""
        self.js("document.querySelectorAll(arguments[0])[arguments[1]].click()", css, nth)

    def drawn(self):
        return self.js("return document.querySelectorAll('*').length")


# What was put off by events before this one is done by then, and drawn.
RESTED = """
const [done] = arguments
const moves = () => document.getAnimations().some((each) => each.playState === 'running' && each.effect.getComputedTiming().endTime < Infinity)
const isBusy = () => document.body.ariaBusy === 'true'
const look = () => (isBusy() ? setTimeout(look, 20) : moves() ? requestAnimationFrame(look) : setTimeout(done))
setTimeout(() => requestAnimationFrame(() => setTimeout(look)))
"""
# Whether a button stands among those that are folded away.
FOLDED = "const all = document.getElementById('others'); return all !== null && all.contains(document.querySelector(arguments[0])) && getComputedStyle(all).display === 'none'"
SETTLED = "return import('./type.js').then(({ settled }) => settled()).then(() => true)"
NOTES = """
let group = null
const rows = []
for (const item of document.querySelectorAll('#choices li')) {
    if (item.matches('.group')) group = item.textContent
    else if (item.role === 'option') rows.push([group, item.firstChild.data, item.querySelector('.note')?.textContent ?? ''])
}
return rows
"""
TAGS = "return [...document.querySelectorAll('#document .tag:not(.end)')].filter((tag) => tag.firstChild.data === arguments[0])"
# The labels of the choices, without their notes and groups.
CHOICES = "return [...document.querySelectorAll('#choices [role=option]')].map((each) => each.firstChild.data)"
# What the page shows, as text: a box as a pair of tags.
WRITTEN = """
const write = (node) => {
    if (node.nodeType === Node.TEXT_NODE) return node.data
    if (node.matches('.tag, .why, #reason')) return ''
    const inside = [...node.childNodes].map(write).join('')
    if (!node.classList.contains('element')) return inside
    const name = node.querySelector(':scope > .tag').firstChild.data
    return `<${name}>${inside}</${name}>`
}
return write(document.getElementById('document'))
"""
