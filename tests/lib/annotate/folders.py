"""The page of `clients/annotate`: a folder of documents, its list, and the way from one to the next. Cases of `annotate.py`."""
import json
import os

from .browser import Page
from .fixture import Server, need, same, soon
from .views import CONTRASTS, narrow, scheme
from selenium.webdriver.common.keys import Keys

VALID = "<letter><opener><salute>Dear</salute></opener><body><p>I met {}.</p></body></letter>\n"
ROWS = "return [...document.querySelectorAll('tbody tr')].map((row) => [...row.children].slice(1).map((cell) => cell.innerText.split('\\n')[0].trim()))"


def opened(server, files):
    """A server on a folder with these files."""
    os.mkdir(server.path("letters"))
    for name, text in files.items():
        server.write(text, f"letters/{name}")
    server.words[4] = server.path("letters")
    server.start()
    return server


class Drawer(Page):
    """A window on the list."""

    def __init__(self, driver, url):
        self.driver = driver
        driver.get(url)
        self.window = driver.current_window_handle

    def rows(self):
        return self.js(ROWS)

    def document(self):
        """The same window, once a document has come in it."""
        soon(lambda: self.js("return document.getElementById('next')?.textContent ?? '…'"), lambda text: text != "…", "a document is opened")

    def done(self):
        path = os.path.join(self.server.folder, "letters.pvtag")
        with open(path, encoding="utf-8") as file:
            return json.load(file)["done"]


def goes_from_one_to_the_next(driver, program):
    """The list, a document that is opened, marked up and done, the next one, which a plain text begins, and the list again."""
    files = {"1.xml": VALID.format("him").replace("<salute>Dear</salute>", "Dear"), "2.xml": VALID.format("her"), "3.txt": "Dear Anna", "4.xml": "<letter>"}
    with Server(program, None) as server:
        page = Drawer(driver, opened(server, files).url)
        page.server = server
        rows = soon(page.rows, lambda rows: len(rows) == 4 and all(row[1] != "…" for row in rows), "all are judged")
        same(rows[:3], [["1.xml", "◦ not finished", "1", "valid", ""], ["2.xml", "✓ valid", "", "valid", ""], ["3.txt", "plain text", "", "", ""]], "the rows")
        same(rows[3][1], "✕ no document", "what can't be read")
        same(page.find("#count").text, "0 of 4 done, 1 valid", "how many there are")
        page.press("tbody input", 1)
        soon(lambda: page.find("#count").text, "1 of 4 done, 1 valid", "one is done")
        same(page.done(), ["2.xml"], "it is kept")
        page.press("#left")
        soon(lambda: [row[0] for row in page.rows()], ["1.xml", "3.txt", "4.xml"], "only what isn't done")
        page.press("#onward")
        page.document()
        same((driver.title, page.find("#drawer").text), ("1.xml", "‹ letters"), "the first of them")
        page.wrap("person", "him")
        page.keys(Keys.SHIFT, Keys.F9)
        soon(lambda: driver.title, "3.xml", "the next one that isn't done")
        page.document()
        need("<person>him</person>" in server.text("letters/1.xml"), "the one before was saved")
        same(page.done(), ["1.xml", "2.xml"], "and is done")
        same(server.text("letters/3.xml").splitlines()[-1], "<letter>Dear Anna</letter>", "it was begun")
        same(page.find("#done").get_attribute("aria-checked"), "false", "it isn't done")
        page.press("#done")
        soon(lambda: page.find("#done").get_attribute("aria-checked"), "true", "now it is")
        page.keys(Keys.F9)
        soon(lambda: page.tell(), lambda text: "<" in text or "ends" in text or "4.xml" in text, "the last one can't be opened, and why")
        same((page.find("#drawer").is_displayed(), page.js("return location.pathname.endsWith('/4.xml/')")), (True, True), "its page says so")
        page.find("#drawer").click()
        soon(lambda: [row[0] for row in page.rows()], ["4.xml"], "the list shows what isn't done, as before")
        page.press("#left")
        soon(lambda: len(page.rows()), 4, "or all")
        with server.process.stdout:
            server.process.terminate()
            soon(lambda: page.tell(), lambda text: "program has ended" in text, "an end is told")


def shows_the_list_to_all(driver, program):
    """In light, dark and a phone's width, with a contrast of 4.5, nothing wider than the window, and by keys."""
    files = {f"letter {number}.xml": VALID.format("him") for number in range(3)} | {"bad.xml": VALID.format("x").replace("<opener>", "<closer>x</closer><opener>"), "new.txt": "x"}
    with Server(program, None) as server:
        page = Drawer(driver, opened(server, files).url)
        soon(page.rows, lambda rows: len(rows) == 5 and all(row[1] != "…" for row in rows), "all are judged")
        for name in ("light", "dark"):
            scheme(driver, name)
            low = [row for row in page.js(CONTRASTS) if row[2] < row[3]]
            same(low, [], f"contrasts in {name}")
        page.keys(Keys.TAB, Keys.TAB, Keys.TAB, " ")
        soon(lambda: page.find("#count").text, lambda text: text.startswith("1 of 5 done"), "one is marked by keys")
        page.keys(Keys.TAB, Keys.ENTER)
        page.document()
        same(driver.title, "bad.xml", "and opened")
        driver.back()
        soon(lambda: len(page.rows()), 5, "back")
        narrow(driver)
        soon(lambda: page.js("return document.documentElement.scrollWidth <= innerWidth"), True, "no wider than a phone")


CASES = [goes_from_one_to_the_next, shows_the_list_to_all]
