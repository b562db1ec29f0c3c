"""The page of `clients/annotate` for everyone: what is told to those who hear it, contrasts, dark and narrow windows,
fingers. Cases of `annotate.py`."""
import time

from .browser import Page
from .fixture import ARTICLE, Server, need, same, soon
from selenium.webdriver.common.keys import Keys

LETTER = "<letter><opener>Dear brother,</opener>\n<closer>Yours</closer><body n='1'><p>I have met <person>Mr Adams</person>.</p><p></p></body></letter>\n"
# Each text that is seen, with its contrast: the relation of the luminances of its colour and of the nearest ground
# after it.
CONTRASTS = """
const channel = (value) => (value /= 255) <= 0.03928 ? value / 12.92 : ((value + 0.055) / 1.055) ** 2.4
const parts = (colour) => colour.match(/[\\d.]+/g).map(Number)
const luminance = ([r, g, b]) => 0.2126 * channel(r) + 0.7152 * channel(g) + 0.0722 * channel(b)
const ground = (element) => {
    for (let at = element; at; at = at.parentElement) {
        const [r, g, b, a = 1] = parts(getComputedStyle(at).backgroundColor)
        if (a === 1) return [r, g, b]
    }
    return parts(getComputedStyle(document.body).backgroundColor)
}
const contrast = (one, other) => {
    const [low, high] = [luminance(one), luminance(other)].sort((a, b) => a - b)
    return (high + 0.05) / (low + 0.05)
}
const rows = []
for (const element of document.querySelectorAll('body *')) {
    const own = [...element.childNodes].some((node) => node.nodeType === Node.TEXT_NODE && node.data.trim())
    const box = element.getBoundingClientRect()
    const style = getComputedStyle(element)
    if (box.width < 2 || style.visibility === 'hidden' || element.closest('[hidden]')) continue
    if (own) rows.push([element.className || element.id || element.tagName, element.textContent.slice(0, 20),
                        contrast(parts(style.color), ground(element)) * Number(style.opacity), 4.5])
    const hasBorder = element.matches('button, input, .element.block') && parseFloat(style.borderLeftWidth) > 0 && parseFloat(style.borderTopWidth) > 0
        && parts(style.borderTopColor)[3] !== 0
    if (hasBorder) rows.push(['border of ' + (element.className || element.id), element.textContent.slice(0, 20),
                              contrast(parts(style.borderTopColor), ground(element.parentElement)), 3])
}
return rows
"""


def scheme(driver, name):
    driver.execute_cdp_cmd("Emulation.setEmulatedMedia", {"features": [{"name": "prefers-color-scheme", "value": name}]})


def narrow(driver):
    driver.execute_cdp_cmd("Emulation.setDeviceMetricsOverride", {"width": 375, "height": 720, "deviceScaleFactor": 1, "mobile": False})


def tells_those_who_hear(driver, program):
    """Each element and its verdict stand in the accessibility tree, with a role, a level and a name; so do the menu and
    its field."""
    with Server(program, LETTER) as server:
        page = Page(driver, server.url)
        soon(lambda: page.texts(".why"), lambda texts: all(texts), "the reason")
        nodes = driver.execute_cdp_cmd("Accessibility.getFullAXTree", {})["nodes"]
        rows = [(node["name"]["value"], *(each["value"]["value"] for each in node["properties"] if each["name"] == "level"))
                for node in nodes if node.get("role", {}).get("value") == "treeitem"]
        want = [("letter, can't be finished, “Dear brother, Yours I have met Mr Adams.”", 1), ("opener, not finished, “Dear brother,”", 2),
                ("closer, “Yours”", 2), ("body, n='1', “I have met Mr Adams.”", 2), ("p, “I have met Mr Adams.”", 3), ("p", 3), ("person, “Mr Adams”", 4)]
        same(sorted(rows), sorted(want), "the elements")
        texts = [node["name"]["value"] for node in nodes if node.get("role", {}).get("value") == "StaticText"]
        need("Dear brother," in texts and any("closer" in text for text in texts), "the texts are there too")
        page.click_tag("opener")
        page.open_menu()
        same(page.js("return document.activeElement.ariaLabel"), "The name of an element", "the menu's field has a name")
        chosen = page.js("return document.getElementById(document.activeElement.getAttribute('aria-activedescendant'))?.ariaSelected")
        same(chosen, "true", "the choice is told")
        page.keys(Keys.ESCAPE)
        page.keys(Keys.ALT, Keys.ARROW_RIGHT)
        same(page.js("return document.getElementById(document.activeElement.getAttribute('aria-activedescendant'))?.ariaLabel"), "closer, “Yours”", "what is chosen is told")
        same(page.js("return [...document.querySelectorAll('#document [role=treeitem]')].map((each) => [each.ariaPosInSet, each.ariaSetSize].join(' of '))"),
             ["1 of 1", "1 of 3", "2 of 3", "3 of 3", "1 of 2", "1 of 1", "2 of 2"], "which of how many each is")
        page.select("met")
        page.take("place")
        soon(lambda: page.js("return document.querySelector('[aria-label^=place]')?.ariaLabel"), "place, “met”", "a new one")
        soon(lambda: page.js("return document.querySelector('[aria-label^=person]').ariaPosInSet"), "2", "the other is the second now")
        style = page.js("const { outlineStyle, outlineWidth } = getComputedStyle(document.getElementById('document')); return [outlineStyle, outlineWidth]")
        same(style, ["solid", "2px"], "the focus is seen")
        unnamed = [node for node in nodes if node.get("role", {}).get("value") in ("button", "textbox", "combobox", "searchbox") and not node["name"]["value"]]
        same(len(unnamed), 0, "each button and field has a name")


def has_contrast(driver, program):
    """In light and dark, with a menu, a refusal, panels and dialogs."""
    for name in ("light", "dark"):
        scheme(driver, name)
        with Server(program, LETTER) as server:
            page = Page(driver, server.url)

            def look(where):
                page.rest()
                low = [row for row in page.js(CONTRASTS) if row[2] < row[3] - 0.02]
                same(low, [], f"contrasts in {name}, {where}")

            soon(lambda: page.texts(".why"), lambda texts: all(texts), "the reason")
            look("the document")
            page.select("have")
            page.open_menu()
            page.keys("body", Keys.ENTER)
            soon(lambda: page.find("#menu .refusal").is_displayed(), True, "a refusal")
            look("a refusal")
            page.keys(Keys.ESCAPE)
            look("a refusal at the tag")
            page.keys(Keys.ESCAPE)
            page.click_tag("opener")
            page.open_menu()
            soon(lambda: page.texts("#menu .about"), lambda texts: all(texts), "what is missing")
            look("what is missing")
            page.keys("unwrap", Keys.ENTER)
            soon(page.moves, 1, "an unwrap")
            page.press("#undo")
            soon(page.moves, 0, "undo")
            page.press("#history")
            look("the history")
            page.press("#list")
            look("the elements")
            page.keys(Keys.CONTROL, "f")
            page.keys("dear")
            look("finding")
            page.keys(Keys.ESCAPE)
            page.keys(Keys.F1)
            look("help")
        with Server(program, LETTER.replace("<closer>Yours</closer>", "")) as server:
            page = Page(driver, server.url)
            page.press("#preview")
            soon(lambda: page.texts("#completed .new"), lambda texts: len(texts) > 0, "the preview")
            look("the preview")


def fits_a_phone(driver, program):
    """375 pixels wide: the head in one row, panels over the text, no scrolling aside; a finger selects."""
    narrow(driver)
    driver.execute_cdp_cmd("Emulation.setTouchEmulationEnabled", {"enabled": True})
    with Server(program, LETTER.replace("<closer>Yours</closer>", "")) as server:
        page = Page(driver, server.url, unlocked=True)
        soon(page.status, lambda text: text.startswith("1 element missing"), "what leads")
        page.rest()
        tops = page.js("return [...document.querySelectorAll('body > header > *')].map((each) => each.getBoundingClientRect()).filter(({ width }) => width).map(({ top, bottom }) => (top + bottom) / 2 | 0)")
        need(max(tops) - min(tops) <= 2, f"the head is one row: {tops}")
        width = "return [document.documentElement.scrollWidth, document.getElementById('document').scrollWidth - document.getElementById('document').clientWidth]"
        soon(lambda: page.js(width), [375, 0], "nothing sticks out")
        page.press("#list")
        soon(lambda: page.find("#elements").is_displayed(), True, "a panel")
        box = page.js("const { left, right } = document.getElementById('elements').getBoundingClientRect(); return [left >= 0, right]")
        same((box, page.js(width)), ([True, 375], [375, 0]), "it stands over the text")
        page.press("#elements header button")
        tap(driver, page, "#document .tag[data-tag]")
        page.open_menu()
        soon(lambda: page.js("const { left, right, bottom } = document.getElementById('menu').getBoundingClientRect(); return [left, right, bottom]"), [0, 375, 720], "the menu is at the foot")
        need(page.js("return document.activeElement.tagName") not in ("INPUT", "TEXTAREA"), "no keyboard comes up")
        page.js("document.dispatchEvent(new KeyboardEvent('keydown', { key: 'Escape', bubbles: true }))")
        soon(page.menu, None, "it is closed")
        need(page.js("return document.activeElement.tagName") not in ("INPUT", "TEXTAREA"), "nor then")
        tap(driver, page, "#document p .text, #document .text")
        soon(lambda: page.js("return document.activeElement.id"), "typed", "a text that is tapped has the keyboard")
        soon(lambda: page.js("const { top, left } = document.getElementById('typed').getBoundingClientRect(); return top > 0 && left > 0"), True, "at the caret")
        # The handles of a finger change the selection; here it is made as they do.
        page.js("const text = document.querySelector('#document .element.block p, #document .text'); getSelection().setBaseAndExtent(text.firstChild, 0, text.firstChild, 4)")
        soon(lambda: page.menu() is not None and page.find("#menu h2").text, lambda text: str(text).startswith("Tags round"), "a selection opens its menu")
    driver.execute_cdp_cmd("Emulation.setTouchEmulationEnabled", {"enabled": False})


def tap(driver, page, css):
    page.rest()
    x, y = page.js("const { left, right, top, bottom } = document.querySelector(arguments[0]).getBoundingClientRect(); return [(left + right) / 2, (top + bottom) / 2]", css)
    driver.execute_cdp_cmd("Input.dispatchTouchEvent", {"type": "touchStart", "touchPoints": [{"x": x, "y": y}]})
    driver.execute_cdp_cmd("Input.dispatchTouchEvent", {"type": "touchEnd", "touchPoints": []})


def keeps_forced_colours(driver, program):
    """Where colours are forced, what is chosen, refused and in the way still has its outline, and verdicts have their
    signs."""
    driver.execute_cdp_cmd("Emulation.setEmulatedMedia", {"features": [{"name": "forced-colors", "value": "active"}]})
    with Server(program, LETTER) as server:
        page = Page(driver, server.url)
        sign = "return getComputedStyle(document.querySelector(arguments[0]), '::after').content"
        same([page.js(sign, f"#document [data-verdict={verdict}] > .tag") for verdict in ("possible", "impossible")], ['" ◦"', '" ✕"'], "the signs")
        page.keys(Keys.F8)
        soon(lambda: page.texts(".in-way > .tag"), lambda texts: len(texts) == 2, "what is in the way")
        same(page.js("return getComputedStyle(document.querySelector('.in-way')).outlineStyle"), "dashed", "its outline")


def begins_where_it_was_left(driver, program):
    """A window that is loaded again, and a program that is begun again, show the place that was looked at, the caret, and the panel."""
    lines = "".join(f"<p>Paragraph {number} of many, with more words in it.</p>" for number in range(400))
    with Server(program, f"<doc><head>H</head><sec><head>x</head>{lines}</sec></doc>", ARTICLE, "doc") as server:
        page = Page(driver, server.url)
        page.press("#list")
        page.js("document.getElementById('document').scrollTop = 6000")
        first = "const { left, top, width } = document.getElementById('document').getBoundingClientRect();" \
            "return document.elementFromPoint(left + width / 2, top + 60).closest('[data-id]').textContent.slice(0, 14)"
        seen = soon(lambda: page.js(first), lambda text: text.startswith("Paragraph"), "a place far down")
        page.click_text(f"{seen.strip()} of")
        time.sleep(1.2)
        for again in (driver.refresh, lambda: (server.stop(), server.start(), driver.get(server.url))):
            again()
            soon(lambda: page.js("return document.getElementById('next').textContent"), lambda text: text != "…", "it opens")
            number = int(seen.split(" ")[1])
            soon(lambda: int(page.js(first).split(" ")[1]), lambda at: abs(at - number) <= 2, f"the place, near paragraph {number}")
            soon(lambda: page.find("#elements").is_displayed(), True, "the panel")
            caret = "return import('./choose.js').then(({ caretPlace }) => caretPlace()?.to[0]?.text.slice(0, 14))"
            soon(lambda: page.js(caret), seen, "the caret")


def tells_changes_outside(driver, program):
    """Where another program has written the file, that is told when the window has the focus again."""
    with Server(program, LETTER) as server:
        page = Page(driver, server.url)
        page.js("dispatchEvent(new Event('focus'))")
        page.rest()
        same(page.find("#note").is_displayed(), False, "nothing is told")
        server.write(LETTER.replace("met", "seen"))
        page.js("dispatchEvent(new Event('focus'))")
        soon(page.tell, lambda text: text.startswith("The file was changed by another program"), "it is told")
        page.press("#note button")
        page.js("dispatchEvent(new Event('focus'))")
        page.rest()
        same(page.find("#note").is_displayed(), False, "once")


def colours_names(driver, program):
    """A name has one colour wherever it stands, and others mostly another, which can be told from the ground in light and dark."""
    with Server(program, LETTER) as server:
        page = Page(driver, server.url)
        hues = page.js("return import('./draw.js').then(({ hues }) => [...hues.values()])")
        need(len(hues) == 11 and all(abs(one - other) > 10 for at, one in enumerate(hues) for other in hues[:at]), f"hues: {hues}")
        drawn = page.js("return [...document.querySelectorAll('#document .element')].map((each) => [each.querySelector('.tag').firstChild.data, each.style.getPropertyValue('--hue')])")
        same(len({tuple(row) for row in drawn}), len({name for name, _ in drawn}), "the same name has the same")
        draw = """
        const canvas = document.createElement('canvas').getContext('2d', { willReadFrequently: true })
        const rgb = (colour) => { canvas.fillStyle = colour; canvas.fillRect(0, 0, 1, 1); return [...canvas.getImageData(0, 0, 1, 1).data].slice(0, 3) }
        const channel = (value) => (value /= 255) <= 0.03928 ? value / 12.92 : ((value + 0.055) / 1.055) ** 2.4
        const luminance = ([r, g, b]) => 0.2126 * channel(r) + 0.7152 * channel(g) + 0.0722 * channel(b)
        const ground = luminance(rgb(getComputedStyle(document.getElementById('document')).backgroundColor))
        const named = getComputedStyle(document.documentElement).getPropertyValue('--named')
        const contrast = (hue) => { const own = luminance(rgb(`oklch(${named} ${hue})`)); return (Math.max(own, ground) + 0.05) / (Math.min(own, ground) + 0.05) }
        return Math.min(...Array.from({ length: 360 }, (_, hue) => contrast(hue)))
        """
        for name in ("light", "dark"):
            scheme(driver, name)
            need(page.js(draw) >= 3, f"the least contrast in {name}: {page.js(draw)}")


CASES = [tells_those_who_hear, has_contrast, fits_a_phone, keeps_forced_colours, begins_where_it_was_left, tells_changes_outside, colours_names]
