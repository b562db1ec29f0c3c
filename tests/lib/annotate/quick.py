"""The page of `clients/annotate`: what makes a letter quick: a tag round each line, rows by their digits, and the list of what
is missing. Cases of `annotate.py`."""
from .browser import Page
from .fixture import ARTICLE, LETTER as DTD, Server, need, same, soon
from selenium.webdriver.common.keys import Keys

BODY = "<body>\nOne line here,\nand two.\n\nThree\nlines.\n</body>"
LETTER = f"<letter><opener><salute>Dear brother,</salute></opener>{BODY}</letter>\n"
# Whether the menu covers a part of what is chosen.
COVERS = """
const menu = document.getElementById('menu').getBoundingClientRect()
const [range] = CSS.highlights.get('chosen')
const isOver = ({ left, right, top, bottom }) => left < menu.right && right > menu.left && top < menu.bottom && bottom > menu.top
return [...range.getClientRects()].some(isOver)
"""


def tags_each_line(driver, program):
    """Alt+Enter in the menu, or its box, puts the tag round each line or paragraph that stays ticked; one move."""
    with Server(program, LETTER) as server:
        page = Page(driver, server.url)
        page.select("One", "lines.")
        page.open_menu()
        page.keys("p")
        page.keys(Keys.ALT, Keys.ENTER)
        soon(lambda: page.texts("#everywhere .context"), ["One line here, and two.", "Three lines."], "paragraphs, since there are some")
        same(page.menu(), None, "the menu is closed")
        page.js("const cut = document.querySelector('#everywhere .cut'); cut.value = 'lines'; cut.dispatchEvent(new Event('change'))")
        soon(lambda: page.texts("#everywhere .context"), ["One line here,", "and two.", "Three", "lines."], "or lines")
        page.press("#everywhere li input", 2)
        page.press("#everywhere .tag-all")
        soon(page.moves, 1, "one move")
        want = "<body>\n<p>One line here,</p>\n<p>and two.</p>\n\nThree\n<p>lines.</p>\n</body>"
        soon(lambda: want in page.written(), True, "those that were ticked")
        page.keys(Keys.CONTROL, "z")
        soon(page.moves, 0, "undo")
        page.select("One", "lines.")
        page.open_menu()
        page.press("#menu .each")
        page.keys("p", Keys.ENTER)
        soon(lambda: page.js("return document.activeElement.className"), "tag-all", "by the box in the menu, and then by Enter")
        page.keys(Keys.ENTER)
        soon(lambda: "<body><p>One line here,\nand two.</p><p>Three\nlines.</p></body>" in page.written(), True, "each paragraph")
        page.select("brother")
        page.open_menu()
        same(page.find("#menu .each").is_displayed(), False, "one line has no pieces")
        page.keys(Keys.ESCAPE)


def takes_rows_by_digits(driver, program):
    """A digit takes the row that has it, where nothing is typed; while rows are still to come it does nothing."""
    with Server(program, LETTER.replace("<body>", "<body><p>I met him.</p>")) as server:
        page = Page(driver, server.url)
        page.select("him")
        page.see_menu(["place", "date", "person"], "what is offered")
        same(page.js("return [...document.querySelectorAll('#choices [data-digit]')].map((each) => each.dataset.digit)"), ["1", "2", "3"], "its digits")
        page.keys("3")
        soon(lambda: "I met <person>him</person>." in page.written(), True, "the third row")
        page.select("met")
        page.see_menu(["person"], "what stands there already comes first")
        page.keys("9")
        same((page.moves(), page.js("return document.querySelector('#menu input').value")), (1, ""), "there is no such row")
        page.keys("p1")
        same(page.js("return document.querySelector('#menu input').value"), "p1", "behind a letter it is typed")
        page.keys(Keys.ESCAPE)


def lists_what_is_missing(driver, program):
    """Each place that isn't finished, with its sentence; it is gone to, and taken over there."""
    source = "<letter><opener>Dear brother,</opener>" + BODY + "<closer>Yours</closer></letter>\n"
    with Server(program, source) as server:
        page = Page(driver, server.url)
        page.press("#lacks")
        soon(lambda: page.texts("#lacking .sentence"), lambda texts: len(texts) == 2 and all("Missing here" in text for text in texts), "two places")
        same(page.texts("#lacking .name"), ["opener", "body"], "in the order of the document")
        page.press("#lacking li .open", 1)
        soon(lambda: page.texts(".chosen > .tag:not(.end)"), ["body"], "a click goes there")
        page.press("#lacking .take")
        soon(lambda: "<opener><salute>Dear brother,</salute></opener>" in page.written(), True, "it is taken over")
        soon(lambda: page.texts("#lacking .name"), ["body"], "and isn't listed any more")
        same(page.moves(), 1, "one move")
    with Server(program, LETTER.replace("<body>", "<closer>x</closer><body>")) as server:
        page = Page(driver, server.url)
        page.press("#lacks")
        soon(lambda: page.texts("#lacking .sentence"), lambda texts: "closer stands before body" in texts[0], "why one can't be finished")


def keeps_words_in_sight(driver, program):
    """The menu covers nothing of what is chosen, and F8 brings a tag a third from the top, also of a tall element."""
    lines = "".join(f"Line {number} of a long text.\n" for number in range(60))
    with Server(program, f"<doc><head>H</head><sec><p>{lines}</p>{lines}</sec><sec><p>{lines}</p></sec></doc>", ARTICLE, "doc") as server:
        page = Page(driver, server.url)
        for first, last in (("Line 1 ", "Line 3 of"), ("Line 8 ", "Line 17 of"), ("Line 12 ", "Line 18 of")):
            page.select(first, last)
            page.open_menu()
            soon(lambda: page.js(COVERS), False, f"the menu beside {first}to {last}")
            page.keys("nothing", Keys.ENTER)
            soon(lambda: page.find("#menu .refusal").is_displayed(), True, "a refusal makes it larger")
            soon(lambda: page.js(COVERS), False, "and it covers nothing then")
            page.keys(Keys.ESCAPE)
            page.keys(Keys.ESCAPE)
        page.keys(Keys.F8)
        soon(lambda: page.find("#reason").text, lambda text: "Missing here" in text, "what is missing")
        third = "const { top, height } = document.getElementById('document').getBoundingClientRect();" \
            "return Math.abs(document.querySelector('.chosen > .tag').getBoundingClientRect().top - top - height / 3) < 40 || document.getElementById('document').scrollTop === 0"
        soon(lambda: page.js(third), True, "a third from the top")
        soon(lambda: page.js("const { top, bottom } = document.getElementById('reason').getBoundingClientRect(); return top > 0 && bottom < innerHeight"), True, "its sentence is in sight")


def has_a_palette(driver, program):
    """Tags with attributes, made from the page: Alt and a key puts one, a click does, and the key alone where the text is
    locked; its colour is that of its elements."""
    with Server(program, None, ARTICLE, "letter") as server:
        with open(DTD, encoding="utf-8") as file:
            server.write(file.read(), "own.dtd")
        server.write(LETTER.replace("<body>", "<body><p>I met Mr Adams, and Tom.</p>"))
        server.words[2] = server.path("own.dtd")
        server.start()
        page = Page(driver, server.url)
        page.press("#colours")
        page.press("#palette .edit")
        page.keys("a", Keys.TAB, "person", Keys.TAB, "key=\"adams\"", Keys.TAB, "red")
        page.press("#tags-of .set")
        soon(lambda: page.find("#tags-of .refusal").text, lambda text: "red" in text, "a colour of another form")
        page.js("document.querySelector('#tags-of td:nth-child(4) input').value = '#b3541e'")
        page.press("#tags-of .set")
        soon(lambda: page.texts("#palette li"), ["a person key=\"adams\""], "the palette")
        same(server.text("tags.txt").splitlines()[-1], "a  person key=\"adams\"  #b3541e", "its file")
        page.select("Mr Adams")
        page.open_menu()
        page.keys(Keys.ALT, "a")
        soon(lambda: "met <person>Mr Adams</person>," in page.written(), True, "with the menu open")
        same((page.moves(), page.menu(), page.texts("#document .attrs")), (1, None, ["key=\"adams\""]), "one move, with its attributes")
        colour = "return getComputedStyle(document.querySelector('#document .inline .inline')).borderBottomColor"
        same(page.js(colour), "rgb(179, 84, 30)", "its colour")
        page.select("Tom")
        page.open_menu()
        page.keys(Keys.ESCAPE)
        page.keys("a")
        soon(lambda: "and <person>Tom</person>." in page.written(), True, "its key alone, while the text is locked")
        page.keys(Keys.CONTROL, "z")
        soon(page.moves, 1, "undo")
        page.press("#lock")
        page.click_text("Tom")
        page.type("a")
        soon(lambda: "and aTom." in page.written(), True, "while it isn't, the key is text")
        page.select("aTom")
        page.open_menu()
        page.press("#palette li button")
        soon(lambda: "and <person>aTom</person>." in page.written(), True, "a click")
        server.stop()
        server.start()
        page = Page(driver, server.url)
        soon(lambda: page.js(colour), "rgb(179, 84, 30)", "it is there at the next start")


def tells_reasons_one_can_read(driver, program):
    """The first names of a long model, all of it on demand, and what may stand there instead; the DTD's comment on a name is
    the tip of its tag and of its row."""
    inline = "hi foreign name date place person abbr num corr sic gap note ref".split()
    dtd = f"<!ENTITY % inline '{'|'.join(inline)}'><!ELEMENT doc (head, p+)><!ELEMENT head (#PCDATA)><!-- A paragraph. --><!ELEMENT p (#PCDATA|%inline;)*>"
    dtd += "<!-- Highlighted words. -->" + "".join(f"<!ELEMENT {name} (#PCDATA)>" for name in inline)
    with Server(program, None, ARTICLE, "doc") as server:
        server.write(dtd, "own.dtd")
        server.write("<doc><head>x</head><p>One two</p></doc>")
        server.words[2] = server.path("own.dtd")
        server.start()
        page = Page(driver, server.url)
        same(page.js("return [...document.querySelectorAll('#document .tag:not(.end)')].map(({ title }) => title)"), ["", "", "A paragraph."], "the tips of tags")
        page.select("two")
        page.see_menu(["hi", "foreign"], "what is offered")
        same(page.js("return document.querySelector('#choices [role=option]').title"), "Highlighted words.", "the tip of a row")
        page.keys("head", Keys.ENTER)
        told = "p takes text, hi, foreign … (14). What may stand here: hi, foreign, name. its content model"
        soon(lambda: " ".join(page.find("#menu .refusal").text.split()), lambda text: told in text, "why")
        page.press("#menu .refusal summary")
        soon(lambda: page.find("#menu .refusal details code").text, "(#PCDATA|" + "|".join(inline) + ")*", "the model")
        page.keys(Keys.ESCAPE)
        soon(lambda: page.find("#reason").text, lambda text: "p takes text" in text, "at the tag too")


def suggests_tags(driver, program):
    """F7 goes to words that were tagged the same way three times: Enter tags them and goes to the next, Delete passes them."""
    tagged = "<person key='adams'>Mr Adams</person> "
    body = f"<body><p>{tagged * 3}and Mr Adams; </p><p>Mr Adams, Mr Adams and Mr Adams.</p></body>"
    with Server(program, LETTER.replace(BODY, body)) as server:
        page = Page(driver, server.url)
        page.keys(Keys.F7)
        soon(lambda: page.texts("#suggestions mark"), ["Mr Adams"] * 4, "the places")
        soon(lambda: page.js("return document.activeElement.closest('#suggestions li') === document.querySelector('#suggestions li')"), True, "the first has the keys")
        same(page.texts("#suggestions .note")[0], "was ⟨person key=\"adams\"⟩ 3 times; 4 here", "what it was")
        page.keys(Keys.ENTER)
        soon(lambda: "and <person>Mr Adams</person>; </p>" in page.written(), True, "it is tagged")
        soon(lambda: len(page.texts("#suggestions mark")), 3, "three are left")
        soon(lambda: page.js("return document.activeElement.closest('#suggestions li') === document.querySelector('#suggestions li')"), True, "the next has the keys")
        page.keys(Keys.DELETE)
        same(len(page.texts("#suggestions mark")), 2, "one is passed")
        page.keys(Keys.ENTER)
        soon(lambda: "<p>Mr Adams, <person>Mr Adams</person> and Mr Adams.</p>" in page.written(), True, "and the one after it is tagged")
        soon(lambda: len(page.texts("#suggestions mark")), 1, "what was passed doesn't come again")
        same(page.moves(), 2, "each is one move")
        page.keys(Keys.CONTROL, "z")
        soon(page.moves, 1, "undo")


def copies_over_tags(driver, program):
    """What is copied over tags is their text."""
    with Server(program, LETTER.replace(BODY, "<body><p>I met <person>Mr Adams</person> in Delft.</p></body>")) as server:
        page = Page(driver, server.url)
        page.js("document.addEventListener('copy', (event) => { window.copied = event.clipboardData.getData('text/plain') })")
        page.select("met", "Delft")
        page.open_menu()
        page.keys(Keys.ESCAPE)
        page.keys(Keys.CONTROL, "c")
        soon(lambda: page.js("return window.copied"), "met Mr Adams in Delft", "the text")


def tags_places_with_attributes(driver, program):
    """The same tag on all places has the attributes of the one that it is taken from, but for an identifier; or others, or none."""
    body = "<body><p>I met <person key='adams' xml:id='a'>Mr Adams</person>. Mr Adams is well.</p></body>"
    with Server(program, LETTER.replace(BODY, body)) as server:
        page = Page(driver, server.url)
        for typed, want in ((None, ['key="adams"']), ("", []), ('key=ad type="a b"', ['key="ad" type="a b"'])):
            page.click_tag("person")
            page.open_menu()
            page.keys("the same", Keys.ENTER)
            soon(lambda: page.js("return document.querySelector('#everywhere .with:not([hidden]) input').value"), 'key="adams"', "its attributes")
            if typed is not None:
                page.js("document.querySelector('#everywhere .with input').value = arguments[0]", typed)
            page.press("#everywhere .tag-all")
            soon(page.moves, 1, "one move")
            soon(lambda: page.texts("#document .attrs")[1:], want, f"the attributes, {typed}")
            soon(lambda: "</person>. <person>Mr Adams</person> is" in page.written(), True, "the tag")
            page.keys(Keys.CONTROL, "z")
            soon(page.moves, 0, "undo")
        page.click_tag("person")
        page.open_menu()
        page.keys("the same", Keys.ENTER)
        soon(lambda: page.texts("#everywhere li"), lambda rows: len(rows) == 1, "the places")
        page.js("document.querySelector('#everywhere .with input').value = 'adams'")
        page.press("#everywhere .tag-all")
        soon(lambda: page.find("#everywhere .refusal").text, lambda text: text.startswith("Attributes are written as"), "what isn't any is told")
        same(page.moves(), 0, "nothing was made")
        page.press("#everywhere .close")


def takes_attributes_behind_a_name(driver, program):
    """Attributes that are typed after a name come with the tag, in one move; on all places of the text by Shift+Enter, on each line
    by Alt+Enter."""
    body = "<body><p>I met Mr Adams. Mr Adams is well.</p>\nOne\nTwo\n</body>"
    with Server(program, LETTER.replace(BODY, body)) as server:
        page = Page(driver, server.url)
        page.select("Mr Adams")
        page.open_menu()
        page.keys("pers key=adams type='a b'")
        soon(lambda: page.notes()[0], lambda row: row[1:] == ["person", 'key="adams" type="a b"'], "they stand beside the name")
        page.keys(Keys.ENTER)
        soon(lambda: page.texts("#document .attrs"), ['key="adams" type="a b"'], "the tag has them")
        same(page.moves(), 1, "one move")
        page.keys(Keys.CONTROL, "z")
        soon(page.moves, 0, "undo")
        page.select("Mr Adams")
        page.open_menu()
        same(page.find("#menu .all").is_displayed(), True, "all places are told")
        page.keys("person key=adams")
        page.keys(Keys.SHIFT, Keys.ENTER)
        soon(lambda: page.js("return document.activeElement.className"), "tag-all", "the places of the text")
        same((page.menu(), page.js("return document.querySelector('#everywhere .with input').value")), (None, 'key="adams"'), "with what was typed")
        page.keys(Keys.ENTER)
        soon(lambda: page.texts("#document .attrs"), ['key="adams"'] * 2, "both have them")
        same(page.moves(), 1, "one move")
        page.select("One", "Two")
        page.open_menu()
        page.keys("p n=1")
        page.keys(Keys.ALT, Keys.ENTER)
        soon(lambda: page.js("return document.activeElement.className"), "tag-all", "the lines")
        page.keys(Keys.ENTER)
        soon(lambda: page.texts("#document .attrs")[2:], ['n="1"'] * 2, "each line has them")
        page.click_tag("p", 1)
        page.choose("rename", "lb n=2")
        soon(lambda: page.find("#menu .refusal").is_displayed(), True, "a refusal")
        page.keys(Keys.ESCAPE, Keys.ESCAPE)
        page.select("well")
        page.open_menu()
        page.keys("person key=a b=", Keys.ENTER)
        soon(lambda: page.texts("#document .attrs")[2:3], ['key="a" b=""'], "an empty one")
        page.select("One")
        page.open_menu()
        page.keys("person x=1 adams", Keys.ENTER)
        soon(lambda: page.find("#menu .refusal").text, lambda text: "as key=adams or" in text, "what can't be read is told")
        same(page.moves(), 3, "nothing was made")
        page.keys(Keys.ESCAPE)


def tags_all_suggestions(driver, program):
    """All suggestions that stay ticked are tagged in one move, each by its own tag."""
    body = "<body><p>{}</p><p>Mr Adams of Delft and Mr Adams.</p></body>"
    tagged = '<person key="adams">Mr Adams</person>, <place>Delft</place>; ' * 3
    with Server(program, LETTER.replace(BODY, body.format(tagged))) as server:
        page = Page(driver, server.url)
        page.keys(Keys.SHIFT, Keys.F7)
        soon(lambda: page.texts("#everywhere mark"), ["Mr Adams", "Delft", "Mr Adams"], "the places")
        same(page.texts("#everywhere .note")[0], '⟨person key="adams"⟩', "with their tags")
        soon(lambda: page.js("return document.activeElement.className"), "tag-all", "Enter takes them")
        page.press("#everywhere li input", 2)
        page.press("#everywhere .tag-all")
        soon(lambda: "<p><person>Mr Adams</person> of <place>Delft</place> and Mr Adams.</p>" in page.written(), True, "those that were ticked")
        same((page.moves(), len(page.texts("#document .attrs"))), (1, 4), "one move, with attributes")
        page.keys(Keys.F7)
        soon(lambda: page.texts("#suggestions mark"), ["Mr Adams"], "one is left")
        same(page.find("#suggestions .all").is_displayed(), False, "which needs no list")
        page.keys(Keys.CONTROL, "z")
        soon(lambda: len(page.texts("#suggestions mark")), 3, "taken back in one")
        page.press("#suggestions .all")
        soon(lambda: page.js("return document.activeElement.className"), "tag-all", "the button lists them too")
        page.keys(Keys.ENTER)
        soon(lambda: page.texts("#suggestions mark"), [], "all of them")
        page.keys(Keys.SHIFT, Keys.F7)
        soon(page.tell, lambda text: text.startswith("No words that were tagged"), "nothing is left")


def completes_values(driver, program):
    """The form offers the values of a key, with the names that a table has for them, and changes all ticked elements of the same words;
    so does the list of places."""
    body = "<body><p>I met <person>Mr Adams</person>, <person n='1'>Mr Adams</person>; Mr Adams.</p></body>"
    with Server(program, None) as server:
        server.write(LETTER.replace(BODY, body))
        server.write("adams,Mr Adams\nrix,Mr Rix\n", "names.csv")
        with open(DTD, encoding="utf-8") as file:
            server.write(file.read() + "<!ATTLIST person key CDATA #IMPLIED n CDATA #IMPLIED>", "own.dtd")
        server.words[2] = server.path("own.dtd")
        server.start("--names", server.path("names.csv"))
        page = Page(driver, server.url)
        page.click_tag("person")
        page.open_menu()
        page.keys("attributes", Keys.ENTER)
        soon(lambda: page.find("#attributes").is_displayed(), True, "the form")
        page.keys("key")
        options = "return [...document.querySelectorAll('#attributes tbody datalist option')].map((each) => [each.value, each.text])"
        soon(lambda: page.js(options), [["adams", "Mr Adams"], ["rix", "Mr Rix"]], "the values, that of these words first")
        page.keys(Keys.TAB, "adams")
        soon(lambda: page.texts("#attributes tbody .note"), ["Mr Adams"], "what the value stands for")
        same(page.find("#attributes .also summary").text, "the same on 1 other of these words", "the other")
        page.press("#attributes .also summary")
        page.press("#attributes .every input")
        page.press("#attributes .set")
        soon(lambda: page.texts("#document .attrs"), ['key="adams"', "n='1' key=\"adams\""], "both have it")
        same(page.moves(), 1, "one move")
        page.select("Mr Adams", nth=2)
        page.open_menu()
        page.keys("person")
        page.keys(Keys.SHIFT, Keys.ENTER)
        soon(lambda: page.js("return [...document.querySelectorAll('#known-tags option')].map((each) => each.value)"), ['key="adams"', 'n="1" key="adams"'], "the tags of these words")
        page.press("#everywhere .close")
        page.select("Mr Adams", nth=2)
        page.open_menu()
        page.keys("person ")
        soon(lambda: [row[1:] for row in page.notes()], [["person", ""], ["person", 'key="adams"'], ["person", 'n="1" key="adams"']], "after a name, what it had before")
        page.keys("n")
        soon(lambda: [row[2] for row in page.notes()], ["n", 'n="1" key="adams"'], "that begins so")
        page.keys(Keys.ARROW_DOWN, Keys.ENTER)
        soon(lambda: page.texts("#document .attrs")[2:], ['n="1" key="adams"'], "an arrow key takes it")


def puts_comments(driver, program):
    """A comment by a tag's menu, a flag by its key, one that stands there changed by a click; all in a list, and written at Save."""
    body = "<body><!-- whose? --><p>I met <person>Mr Adams</person>.</p></body>"
    with Server(program, LETTER.replace(BODY, body)) as server:
        page = Page(driver, server.url)
        page.click_tag("person")
        page.open_menu()
        page.keys("comment", Keys.ENTER)
        soon(lambda: page.find("#comment").is_displayed(), True, "the form")
        page.keys("the elder--or")
        page.press("#comment .set")
        soon(lambda: page.find("#comment .refusal").text, lambda text: "no two hyphens" in text, "what can't stand in one is told")
        page.js("document.querySelector('#comment textarea').value = 'the elder?'")
        page.find("#comment textarea").click()
        page.keys(Keys.CONTROL, Keys.ENTER)
        soon(lambda: page.texts(".tag .remark"), [" ✎"], "it has a sign")
        same(page.js("return document.querySelector('.tag .remark').title"), "the elder?", "that says it")
        page.click_tag("salute")
        page.open_menu()
        page.keys(Keys.ESCAPE)
        page.keys(Keys.F2)
        soon(lambda: page.texts(".tag .flag"), [" ⚑"], "a flag")
        soon(lambda: page.js("return document.querySelector('[aria-label^=salute]').ariaLabel"), "salute, comment: to check, “Dear brother,”", "for those who hear it")
        page.press("#document [data-comment]")
        soon(lambda: page.js("return document.querySelector('#comment textarea').value"), "whose?", "the one that stands there")
        page.press("#comment .drop")
        soon(lambda: page.js("return document.querySelector('#document [data-comment]') === null"), True, "it is away")
        page.press("#said")
        soon(lambda: page.texts("#remarks li"), ["salute ⚑ to check", "person the elder?"], "all of them")
        page.keys(Keys.CONTROL, "z")
        soon(lambda: page.texts("#remarks li .note"), ["⚑ to check", "whose?", "the elder?"], "taken back")
        page.press("#remarks li button", 2)
        soon(lambda: page.texts(".chosen > .tag:not(.end)"), ["person ✎"], "a click goes there")
        page.keys(Keys.CONTROL, "s")
        soon(lambda: page.find("#save").text, "Saved", "saved")
        want = LETTER.replace(BODY, body).replace("<salute>", "<!-- to check --><salute>").replace("<person>", "<!-- the elder? --><person>")
        same(server.text(), want, "the file")


def finds_by_patterns(driver, program):
    """Find takes a pattern, and looks in attributes too; all that was found gets a tag, in one move."""
    body = "<body><p>On 3 May 1764 I met <person key='adams'>Mr Adams</person>, on <date>12 May 1764</date> him.</p><p>1 June 1765, 2 Ju<lb n='x'/>ly 1765</p></body>"
    with Server(program, LETTER.replace(BODY, body)) as server:
        page = Page(driver, server.url)

        def look(by, text):
            page.js("const by = document.querySelector('#finder select'); by.value = arguments[0]; by.dispatchEvent(new Event('change'))", by)
            page.js("document.querySelector('#finder input').select()")
            page.keys(text)

        def told():
            return page.find("#finder output").text

        page.keys(Keys.CONTROL, "f")
        look("pattern", r"\d+ \w+ \d{4}")
        soon(told, "1 of 4", "dates")
        look("pattern", "(")
        soon(told, lambda text: text.startswith("no pattern"), "what is none is told")
        look("words", r"\d+")
        soon(told, "nothing found", "as words it stands for itself")
        look("attributes", "adams")
        soon(told, "1 of 1", "in attributes")
        same((page.texts(".chosen > .tag:not(.end) .attrs"), page.find("#finder [value=tag]").is_displayed()), (["key='adams'"], False), "the element")
        page.keys(Keys.ESCAPE)
        same(page.texts(".chosen > .tag:not(.end)"), ["person key='adams'"], "it is chosen then")
        page.keys(Keys.CONTROL, "f")
        look("pattern", r"\d+ \w+ \d{4}")
        soon(told, "1 of 4", "the pattern again")
        page.press("#finder [value=tag]")
        soon(lambda: page.find("#menu h2").text, "Tags round all 3 that were found", "the menu")
        page.open_menu()
        page.keys("date n=1", Keys.ENTER)
        soon(lambda: page.texts("#everywhere mark"), ["3 May 1764", "1 June 1765"], "where there is no such tag")
        soon(lambda: page.js("return document.activeElement.className"), "tag-all", "they can be tagged")
        page.keys(Keys.ENTER)
        soon(lambda: page.texts("#document .attrs"), ['n="1"', "key='adams'", 'n="1"', "n='x'"], "both, with attributes")
        same((page.moves(), page.written().count("<date>")), (1, 3), "in one move")


def ends_patterns_that_take_forever(driver, program):
    """A pattern that takes forever is ended after a while, or by the next one; keys and other windows wait for none."""
    body = f"<body><p>{'a' * 60}b, {'a' * 60}b and Mr Adams</p></body>"
    with Server(program, LETTER.replace(BODY, body)) as server:
        page = Page(driver, server.url)
        page.keys(Keys.CONTROL, "f")
        page.js("const by = document.querySelector('#finder select'); by.value = 'pattern'; by.dispatchEvent(new Event('change'))")
        page.keys("(a+)+$")
        soon(lambda: page.find("#finder output").text, "…", "it is looked for")
        soon(lambda: page.find("#finder output").text, "the pattern takes too long", "it is ended")
        page.keys(" ", Keys.BACK_SPACE)
        soon(lambda: page.find("#finder output").text, "…", "again")
        soon(lambda: page.find("#finder output").text, "the pattern takes too long", "ended once more")
        # From now on only the next one ends it, or that the bar is closed.
        page.js("const wait = window.setTimeout; window.setTimeout = (call, time, ...more) => wait(call, 1000 * time, ...more)")
        page.keys(" ", Keys.BACK_SPACE)
        soon(lambda: page.find("#finder output").text, "…", "and again")
        page.js("document.querySelector('#finder input').select()")
        page.keys("A.ams")
        soon(lambda: page.find("#finder output").text, "1 of 1", "the next one")
        page.keys(Keys.HOME, "(a+)+$|")
        page.keys(Keys.ESCAPE)
        soon(lambda: page.find("#finder").is_displayed(), False, "closed meanwhile")


def shows_its_source(driver, program):
    """The source as it would be written, what has changed since it was saved, and when the last move was kept."""
    with Server(program, LETTER) as server:
        page = Page(driver, server.url)
        same(page.find("#kept").text, "", "nothing was kept yet")
        page.select("brother")
        page.open_menu()
        page.keys(Keys.ESCAPE)
        page.keys(Keys.F2)
        soon(lambda: page.js("return document.getElementById('kept').textContent"), lambda text: text.startswith("kept ") and ":" in text, "when it was kept")
        page.press("#written")
        want = LETTER.replace("<salute>", "<!-- to check --><salute>")
        soon(lambda: page.js("return document.querySelector('#source pre').textContent"), want, "the source")
        page.press("#source input")
        soon(lambda: page.texts("#source ins"), ["<!-- to check -->"], "what is new")
        page.press("#source .close")
        page.keys(Keys.CONTROL, "s")
        soon(lambda: page.find("#save").text, "Saved", "saved")
        page.press("#written")
        soon(lambda: page.find("#source .about").text, "Nothing has changed since it was saved.", "nothing then")
        page.press("#source input")
        soon(lambda: page.js("return document.querySelector('#source pre').textContent"), want, "the source again")
        page.js("document.addEventListener('click', ({ target }) => { if (target.download) window.got = [target.download, target.href.slice(0, 5)] }, true)")
        page.js("HTMLAnchorElement.prototype.click = function () { window.got = [this.download, this.href.slice(0, 5)] }")
        page.press("#source [data-kind=html]")
        soon(lambda: page.js("return window.got"), ["doc.html", "blob:"], "a file to be taken away")
        page.press("#source .close")


def prints_all(driver, program):
    """On paper there is all of a long document, and nothing else."""
    lines = "".join(f"<p>Paragraph {number} of many.</p>" for number in range(900))
    with Server(program, f"<doc><head>H</head><sec><head>x</head>{lines}</sec></doc>", ARTICLE, "doc") as server:
        page = Page(driver, server.url)
        need("Paragraph 899 of" not in page.written(), "only what is near sight is drawn")
        page.js("dispatchEvent(new Event('beforeprint'))")
        need(page.written().count("<p>") == 900, "all of it, to be printed")
        driver.execute_cdp_cmd("Emulation.setEmulatedMedia", {"media": "print"})
        same([page.find(css).is_displayed() for css in ("#document", "body > header", "#moves")], [True, False, False], "what is printed")
        same(page.js("const { scrollHeight, clientHeight } = document.getElementById('document'); return scrollHeight <= clientHeight + 2"), True, "nothing is hidden by scrolling")
        driver.execute_cdp_cmd("Emulation.setEmulatedMedia", {"media": ""})
        page.js("dispatchEvent(new Event('afterprint'))")
        soon(lambda: page.written().count("<p>") < 900, True, "and less again")


CASES = [tags_each_line, takes_rows_by_digits, lists_what_is_missing, keeps_words_in_sight, has_a_palette, tells_reasons_one_can_read, suggests_tags, copies_over_tags, tags_places_with_attributes, takes_attributes_behind_a_name, tags_all_suggestions, completes_values, puts_comments, finds_by_patterns, ends_patterns_that_take_forever, shows_its_source, prints_all]
