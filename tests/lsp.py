"""Tries what `clients/lsp` answers by a scripted client: diagnostics, completion, actions, hover, symbols, names,
positions.

Words: PROGRAM, and the names of cases where not all are wanted. Prints each difference, and how many cases passed;
ends with 1 where one failed.
"""
import json
import os
import random
import re
import sys
import tempfile
import tracemalloc

sys.dont_write_bytecode = True
sys.path.insert(0, os.path.join(os.path.dirname(os.path.dirname(os.path.abspath(__file__))), "clients"))

from lib.lsp_client import CAPABILITIES, DRAFT, EXAMPLES, LETTER, URI, Client  # noqa: E402
from lib.lsp_client import at, codes, edited, edits_of, finished, need, run_cases, same, uri_of  # noqa: E402
from lib.waiting import until  # noqa: E402
from pvtag.attributes import python_with_lxml  # noqa: E402
from pvtag.session import Session  # noqa: E402


# Diagnostics.
def tells_what_is_missing(program):
    with Client(program) as client:
        client.open(URI, DRAFT)
        told = client.diagnostics(URI, finished)
        same(codes(told), ["missing", "possible"], "a draft")
        hint = next(each for each in told if each["code"] == "possible")
        same((hint["severity"], hint["range"]["start"]), (4, {"line": 1, "character": 8}), "the hint")
        need("`opener`" in hint["message"] and "(dateline?, salute)" in hint["message"], hint["message"])
        count = next(each for each in told if each["code"] == "missing")
        same((count["severity"], count["range"]["start"]), (3, {"line": 1, "character": 0}), "the number")
        need("1 element is missing" in count["message"], count["message"])
        start = DRAFT.index("Dear")
        client.change(URI, start, start, "<salute>")
        same(codes(client.diagnostics(URI)), ["fault", "missing", "possible"], "half a change")
        end = client.documents[URI][0].index("</opener>")
        client.change(URI, end, end, "</salute>")
        same(client.diagnostics(URI), [], "a valid document")
        client.tell("textDocument/didClose", {"textDocument": {"uri": URI}})
        closed = client.wait(
            lambda each: each.get("method") == "textDocument/publishDiagnostics" and "version" not in each["params"]
        )
        same(closed["params"]["diagnostics"], [], "a closed document")


def tells_what_stands_in_the_way(program):
    with Client(program) as client, open(os.path.join(EXAMPLES, "letter-swapped.xml"), encoding="utf-8") as file:
        text = LETTER + file.read()
        client.open(URI, text)
        told = client.diagnostics(URI, lambda told: told and "Nothing that" not in told[0]["message"])
        same(codes(told), ["impossible"] * 2, "two kids")
        same([each["severity"] for each in told], [1, 1], "how bad")
        same(
            [each["range"]["start"] for each in told],
            [{"line": 2, "character": 0}, {"line": 3, "character": 0}],
            "the kids",
        )
        need("closer" in told[0]["message"] and "(line 3)" in told[0]["message"], told[0]["message"])
        same(told[0]["relatedInformation"][0]["location"]["range"], told[1]["range"], "the other kid")
        same(list(client.actions(URI, (60, 60), ["quickfix"])), [], "nothing is to be inserted")
        client.open(URI, f"{LETTER}<letter><opener/><body>{'<p><zz/></p>' * 60}</body></letter>", 2)
        told = client.diagnostics(URI, lambda told: "isn't declared" in told[0]["message"])
        same(codes(told), ["impossible"] * 25 + ["more", "possible"], "the first of many lists, each name once")


def keeps_what_was_told(program):
    """While a tag is half typed, what was told stays at its place, and the fault stands beside it."""
    with Client(program) as client, open(os.path.join(EXAMPLES, "letter-swapped.xml"), encoding="utf-8") as file:
        text = LETTER + file.read()
        client.open(URI, text)
        before = client.diagnostics(URI, lambda told: told and "(line 3)" in told[0]["message"])
        place = text.index("<opener>")
        client.change(URI, place, place, "<!-- a line\n and more --><")
        now = client.diagnostics(URI)
        same(codes(now), ["fault", "impossible", "impossible"], "half a tag")
        others = [each for each in now if each["code"] == "impossible"]
        same([each["range"]["start"]["line"] for each in others], [each["range"]["start"]["line"] + 1 for each in before], "their lines")
        need("(line 4)" in others[0]["message"], others[0]["message"])
        same(others[0]["relatedInformation"][0]["location"]["range"], others[1]["range"], "the other kid")
        # What stood in a part that is gone is told no more.
        place = client.documents[URI][0].index("<closer>")
        client.change(URI, place, place + 8, "<")
        same(codes(client.diagnostics(URI)), ["fault", "impossible"], "a tag that is gone")
    # The tag of a root that nothing else names, and a document type declaration.
    for front, half, options in (("", "<letter", {"dtd": os.path.join(EXAMPLES, "letter.dtd")}), (LETTER, LETTER[:-3], None)):
        with Client(program, options=options) as client:
            client.open(URI, text := front + "<letter><opener/></letter>")
            same(codes(client.diagnostics(URI, finished)), ["missing", "possible", "possible"], "a draft")
            client.change(URI, len(half), len(half) + 1, "")
            told = codes(client.diagnostics(URI))
            need("fault" in told and "possible" in told, f"{half}: {told}")
            client.change(URI, len(half), len(half), text[len(half)])
            same(codes(client.diagnostics(URI, finished)), ["missing", "possible", "possible"], "the draft again")
            if front:
                client.change(URI, 0, len(front), "")
                same(client.diagnostics(URI), [], "it has no DTD any more")


def tells_faults(program):
    with Client(program) as client:
        for number, (text, line, character) in enumerate(
            (
                ("<letter><opener></letter>", 1, 16),
                ("<letter>&;</letter>", 1, 8),
                ("<letter>", 1, 8),
                ("<letter></letter></letter>", 1, 17),
            )
        ):
            uri = uri_of(f"fault-{number}.xml")
            client.open(uri, LETTER + text)
            told = client.diagnostics(uri)
            same((codes(told), told[0]["range"]["start"]), (["fault"], {"line": line, "character": character}), text)
        client.open(URI, "<!DOCTYPE letter SYSTEM 'letter.dtd'>\n" + "<letter>" * 513)
        same(codes(client.diagnostics(URI)), ["fault"], "513 elements in one another")


# Attributes, entities and subsets.
STRICT = """<!ATTLIST letter id ID #REQUIRED lang NMTOKEN "en" kind (private|business) #REQUIRED>
<!ATTLIST p rend (italic|plain) "plain" n NMTOKEN #IMPLIED><!ATTLIST person key IDREF #IMPLIED>"""
WITH_SUBSET = """<!DOCTYPE letter SYSTEM "strict.dtd" [
<!ENTITY me "Anna"> <!-- ]> -->
]>
<letter id="a" kind="private"><opener><salute>Dear &me;</salute></opener><body><p>&me; and &none;</p></body></letter>
"""


def tells_attributes(program):
    if python_with_lxml() is None:
        print("skipped: attributes (no lxml, package python3-lxml)")
        return
    with tempfile.TemporaryDirectory() as folder, Client(program) as client:
        with open(os.path.join(EXAMPLES, "letter.dtd"), encoding="utf-8") as file, open(f"{folder}/strict.dtd", "w", encoding="utf-8") as strict:
            strict.write(file.read() + STRICT)
        uri, front = uri_of("a.xml", folder), '<!DOCTYPE letter SYSTEM "strict.dtd">\n'
        body = "<!-- <letter id='no'> --><opener><salute>Dear</salute></opener><body><p rend='itallic'>I</p><p/><p n='1'><person key='b'/></p></body></letter>"
        text = f"{front}<letter id='a' >{body}"
        client.open(uri, text)
        told = client.diagnostics(uri, bool)
        same(codes(told), ["attribute"] * 3, "missing and wrong")
        messages = [(each["severity"], each["range"]["start"]["character"], each["message"]) for each in told]
        need("lacks the attribute `kind`" in messages[0][2] and messages[0][:2] == (2, 1), messages)
        need("Most like it" not in messages[1][2] and "must be `italic` or `plain`" in messages[1][2] and messages[1][0] == 1, messages)
        need("refers to the ID `b`" in messages[2][2], messages)
        # Names: those that are missing in the tag, required ones first; values; IDs. None in what is no tag.
        for piece in (" <p ", " <p rend='"):
            place = text.index("I<")
            client.change(uri, place, place, f"<!--{piece} -->")
            same(client.labels(uri, place + 4 + len(piece)), [], f"{piece} in a comment")
            client.change(uri, place, place + len(piece) + 8, "")
        same(client.labels(uri, text.index(" >") + 1), ["kind", "lang"], "names")
        for piece, place, wanted in (
            (' kind="', text.index(" >"), ["private", "business"]),
            (' lang="', text.index(" >"), ["en"]),
            (" r", text.index("<p/>") + 2, ["rend", "n"]),
        ):
            client.change(uri, place, place, piece)
            same(client.labels(uri, place + len(piece)), wanted, piece)
            client.change(uri, place, place + len(piece), "")
        same(client.labels(uri, text.index("'b'") + 2), ["a"], "IDs")
        place = text.index("rend=") + 2
        value = client.ask("textDocument/hover", client.about(uri, place))["contents"]["value"]
        need('(italic | plain) "plain"' in value and "`italic` or `plain`" in value, value)
        value = client.ask("textDocument/hover", client.about(uri, text.index("<letter") + 3))["contents"]["value"]
        need("Attributes: required " in value and "`kind`" in value, value)
        # A subset and entities.
        client.open(uri, WITH_SUBSET, 2)
        told = client.diagnostics(uri, bool)
        same([(each["code"], each["range"]["start"]) for each in told], [("entity", {"line": 3, "character": WITH_SUBSET.splitlines()[3].index("&none;")})], "an entity that isn't declared")
        client.open(uri, WITH_SUBSET.replace(" and &none;", "<salute>&me;</salute>"), 3)
        told = client.diagnostics(uri, lambda told: told and "`salute`" in told[0]["message"])
        column = WITH_SUBSET.splitlines()[3].index(" and &none;")
        same((codes(told), told[0]["range"]["start"]), (["impossible"], {"line": 3, "character": column}), "a place behind a subset")
        client.open(uri, WITH_SUBSET.replace("<salute>Dear &me;</salute>", "&me; &me;").replace(" and &none;", ""), 4)
        same(codes(client.diagnostics(uri, finished)), ["missing", "possible"], "elements that are missing")
        # Under a DTD that declares none, one diagnostic says it of all.
        client.open(URI, DRAFT.replace("<p>", "<p a='b' c='d'>"))
        told = client.diagnostics(URI, lambda told: "attribute" in codes(told))
        same((codes(told), [each["severity"] for each in told if each["code"] == "attribute"]), (["attribute", "missing", "possible"], [3]), "no ATTLIST")


# Elements whose attributes the DTD requires: one value of some is possible.
REQUIRED = """<!ELEMENT doc (head, p*)> <!ELEMENT head (title)> <!ATTLIST head kind (main) #REQUIRED> <!ELEMENT title (#PCDATA)>
<!ATTLIST title lang NMTOKEN #REQUIRED> <!ELEMENT p (#PCDATA|hi)*> <!ELEMENT hi (#PCDATA)>
<!ATTLIST hi rend (it) #REQUIRED n CDATA #REQUIRED m CDATA #IMPLIED>"""


def gives_attributes(program):
    """What is inserted has the attributes that the DTD requires, where one value is possible; what it lacks is said."""
    if python_with_lxml() is None:
        print("skipped: attributes of new elements (no lxml, package python3-lxml)")
        return
    capabilities = json.loads(json.dumps(CAPABILITIES))
    capabilities["textDocument"]["completion"]["completionItem"]["snippetSupport"] = True
    with tempfile.TemporaryDirectory() as folder:
        with open(f"{folder}/required.dtd", "w", encoding="utf-8") as file:
            file.write(REQUIRED)
        uri, text = uri_of("a.xml", folder), '<!DOCTYPE doc SYSTEM "required.dtd">\n<doc><p>some words</p></doc>\n'
        whole = text.replace("<doc>", '<doc><head kind="main"><title></title></head>')
        for able, hi in (CAPABILITIES, 'hi rend="it"></hi>'), (capabilities, 'hi rend="it">$0</hi>'):
            with Client(program, able) as client:
                client.open(uri, text)
                client.diagnostics(uri, finished)
                place = text.index("words")
                client.change(uri, place, place, "<")

                def item():
                    about = client.about(uri, place + 1)
                    return next(each for each in client.ask("textDocument/completion", about)["items"] if each["label"] == "hi")

                # On a busy machine an insertion doesn't wait for what is declared of attributes.
                need(until(lambda: item()["textEdit"]["newText"] == hi), f"completed: {item()}")
                need("lacks `n`, which the DTD requires" in item()["documentation"], f"what is lacking: {item()}")
                client.change(uri, place, place + 1, "")
                found = client.actions(uri, (place, place + 5), ["refactor"])
                same([*found], ["Wrap in <hi>, which lacks `n`"], "a wrap")
                (wrap,) = found.values()
                same(edited(text, edits_of(wrap["edit"])), text.replace("words", '<hi rend="it">words</hi>'), "wrapped")
                action = client.ask("codeAction/resolve", client.actions(uri, (0, 0))["Insert 2 missing elements"])
                same(edited(text, edits_of(action["edit"])), whole, "inserted")
                said = client.wait(lambda each: each.get("method") == "window/showMessage", "what is lacking")
                need("`title` lacks `lang`." in said["params"]["message"], said)


def tells_ill_formed_entities(program):
    """What an entity brings that isn't of the form of XML is a fault at the reference."""
    text = '<!DOCTYPE letter SYSTEM "letter.dtd" [\n<!ENTITY e "]]>">\n]>\n<letter><opener><salute>&e;</salute></opener><body><p>x</p></body></letter>\n'
    with Client(program) as client:
        client.open(URI, text)
        told = client.diagnostics(URI, bool)
        same((codes(told), told[0]["severity"], told[0]["range"]["start"]), (["fault"], 1, place_of(text, "&e;")), "the place")
        need("`&e;` has `]]>` in its text" in told[0]["message"], told)
        client.open(URI, text.replace("]]>\"", "]]\""), 2)
        same(client.diagnostics(URI, lambda told: not told), [], "it is a document")


def ends_older_work(program):
    """Each key begins the work anew; at its end the newest text alone is told of."""
    # A machine may be so busy that a text between stands for a while, so this is tried again.
    need(any(tells_of_the_newest_alone(program) for _ in range(10)), "texts between were judged to the end")


def tells_of_the_newest_alone(program):
    with Client(program) as client:
        client.open(URI, DRAFT)
        place = DRAFT.index("Delft")
        with client.at_once():
            for letter in "abcdefghij":
                client.change(URI, place, place, letter)
        told = client.diagnostics(URI, finished)
        same(codes(told), ["missing", "possible"], "the newest text")
        return all(
            each["params"].get("version") in (1, 11)
            for each in client.aside
            if each.get("method", "").endswith("publishDiagnostics")
        )


# What may stand here.
def completes(program):
    with Client(program) as client:
        client.open(URI, DRAFT)
        client.diagnostics(URI)
        place = DRAFT.index("Dear")
        for piece in ("<", "<sa", "<p"):
            client.change(URI, place, place, piece)
            same(
                sorted(client.labels(URI, place + len(piece))),
                ["date", "dateline", "place", "salute"],
                f"before the text, behind {piece}",
            )
            client.change(URI, place, place + len(piece), "")
        end = DRAFT.index("</opener>")
        client.change(URI, end, end, "<")
        same(sorted(client.labels(URI, end + 1)), ["date", "place", "salute"], "behind the text")
        client.change(URI, end, end + 1, "</")
        same(client.labels(URI, end + 2), ["opener"], "an end tag")
        client.change(URI, end, end + 2, "")
        for piece in (" <", " </", " <!-- </", " <p ", ' <p n="'):
            for context in (f"<!--{piece.replace('!--', '')} -->", f"<![CDATA[{piece} ]]>", f"<?x{piece} ?>"):
                client.change(URI, end, end, context)
                same(client.labels(URI, end + len(context.rstrip("->]?")) - 1), [], context)
                client.change(URI, end, end + len(context), "")
        same(client.labels(URI, place), [], "no tag is typed")
        for before, behind in ("<!-- <? -->", "<?x ?>"), ("<![CDATA[<!--]]>", "<!-- -->"), ("<!-- <![CDATA[ -->", "<![CDATA[ ]]>"):
            client.open(URI, text := DRAFT.replace(" met", f"{before} < met{behind}"), 99)
            need("person" in client.labels(URI, text.index(" < met") + 2), f"between {before} and {behind}")


def completes_what_was_chosen(program):
    """What is completed makes the tags whole, also where an editor has put a `>` after the `<`."""
    with Client(program) as client:
        client.open(URI, DRAFT)
        place = DRAFT.index("met")
        for piece, behind in (("<", 0), ("<>", 1)):
            client.change(URI, place, place, piece)
            text = client.documents[URI][0]
            items = {
                each["label"]: each
                for each in client.ask("textDocument/completion", client.about(URI, place + 1))["items"]
            }
            same(sorted(items), ["date", "lb", "person", "place"], "in a paragraph")
            same(edited(text, [items["lb"]["textEdit"]]), DRAFT.replace("met", "<lb/>met"), f"EMPTY behind {piece}")
            same(
                edited(text, [items["person"]["textEdit"]]),
                DRAFT.replace("met", "<person></person>met"),
                f"a pair behind {piece}",
            )
            client.change(URI, place, place + len(piece), "")
        tag = DRAFT.index("<opener>") + 3
        items = {each["label"]: each for each in client.ask("textDocument/completion", client.about(URI, tag))["items"]}
        need("salute" in items, f"other names for a tag: {[*items]}")
        changed = edited(DRAFT, [items["salute"]["textEdit"], *items["salute"]["additionalTextEdits"]])
        same(changed, DRAFT.replace("opener>", "salute>"), "both tags")
    # Emacs makes the second edit where the first has shifted it, unless it stands on another line.
    for name in (None, "Eglot"):
        with Client(program, name=name) as client:
            client.open(URI, DRAFT)
            same(client.labels(URI, tag), [], "an end tag on the same line")
            client.open(URI, DRAFT.replace("</opener>", "\n</opener>"), 2)
            need("salute" in client.labels(URI, tag), "an end tag on another line")


def orders_names(program):
    """What the model allows directly comes first, by use below the same parent, then what needs more elements."""
    text = DRAFT.replace("<p>I have", "<p><date>May</date><date>June</date><place>Delft</place>I have")
    with Client(program) as client:
        client.open(URI, text)
        client.diagnostics(URI, finished)

        def labels(place):
            items = client.ask("textDocument/completion", client.about(URI, place))["items"]
            items.sort(key=lambda each: each["sortText"])
            return [(each["label"], each.get("detail", "").split(" ")[0]) for each in items]

        start = text.index("met Mr")
        client.change(URI, start, start, "<")
        # What is known after a request on a busy machine is used by the next one.
        wanted = ["date", "place", "person", "lb"]
        need(until(lambda: [name for name, _ in labels(start + 1)] == wanted), f"by use: {labels(start + 1)}")
        client.change(URI, start, start + 1, "")
        start = text.index("Dear")
        client.change(URI, start, start, "<")
        found = until(lambda: (found := labels(start + 1))[0][0] == "salute" and dict(found)["place"] == "+1")
        need(found, f"what is missing: {labels(start + 1)}")


def asks_for_one_of_many(program):
    """Of more than 20 wraps the others are asked for."""
    capabilities = CAPABILITIES | {"workspace": {"workspaceEdit": {"documentChanges": True}, "applyEdit": True}}
    with tempfile.TemporaryDirectory() as folder, Client(program, capabilities) as client:
        names = [f"n{number}" for number in range(30)]
        with open(f"{folder}/many.dtd", "w", encoding="utf-8") as file:
            file.write(f"<!ELEMENT a (#PCDATA|{'|'.join(names)})*>" + "".join(f"<!ELEMENT {name} (#PCDATA)>" for name in names))
        uri, text = uri_of("many.xml", folder), "<!DOCTYPE a SYSTEM 'many.dtd'>\n<a>one two</a>\n"
        client.open(uri, text)
        client.diagnostics(uri)
        start = text.index("one")
        actions = client.actions(uri, (start, start + 3), ["refactor"])
        same([len(actions), [*actions][-1]], [21, "Wrap in… (30 names)"], "actions")
        many = actions["Wrap in… (30 names)"]
        same(client.ask("codeAction/resolve", many), many, "it has no edits, but a command")
        number = client.begin("workspace/executeCommand", many["command"])
        asked = client.wait(lambda each: each.get("method") == "window/showMessageRequest", "a question")
        same(sorted(each["title"] for each in asked["params"]["actions"]), sorted(f"<{name}>" for name in names), "all names")
        client.send({"jsonrpc": "2.0", "id": asked["id"], "result": {"title": "<n29>"}})
        applied = client.wait(lambda each: each.get("method") == "workspace/applyEdit", "an edit")
        client.send({"jsonrpc": "2.0", "id": applied["id"], "result": {"applied": True}})
        same(edited(text, edits_of(applied["params"]["edit"])), text.replace("one", "<n29>one</n29>"), "the wrap")
        same(client.answer(number)["result"], None, "the answer")


def completes_while_typing(program):
    """A text of which only the front is there; and a document of nothing."""
    with Client(program) as client:
        for text, labels in (
            (LETTER + "<", ["letter"]),
            (LETTER + "<letter><", None),
            (LETTER + "<letter><opener><salute>Dear</", ["salute"]),
            (LETTER + "<letter><opener><salute>Dear</salute></opener><bo", None),
        ):
            client.open(URI, text)
            found = client.labels(URI, len(text))
            same(found, labels, text) if labels else need("body" in found and found[0] != "letter", f"{text}: {found}")


# Actions.
def wraps(program):
    with Client(program) as client:
        client.open(URI, DRAFT)
        client.diagnostics(URI, finished)
        start = DRAFT.index(" Mr Adams ")
        actions = client.actions(URI, (start, start + 10), ["refactor"])
        same(sorted(actions), [f"Wrap in <{name}>" for name in ("date", "person", "place")], "what is offered")
        changed = edited(DRAFT, edits_of(actions["Wrap in <person>"]["edit"]))
        same(changed, DRAFT.replace("Mr Adams", "<person>Mr Adams</person>"), "blanks are left out")
        same(
            actions["Wrap in <person>"]["edit"]["documentChanges"][0]["textDocument"],
            {"uri": URI, "version": 1},
            "its version",
        )
        same([*client.actions(URI, (start, DRAFT.index("</body>") + 3), ["refactor"])], [], "half an element")
        same([*client.actions(URI, (start, start + 1), ["refactor"])], [], "blanks alone")


def keeps_references(program):
    """A wrap takes in a reference as a whole, a move keeps it as it is written, and the outline shows it so."""
    front = '<!DOCTYPE letter SYSTEM "letter.dtd" [<!ENTITY me "Anna"><!ENTITY no " ">]>\n<letter>'
    opener, body = "<opener><salute>Dear &me;</salute></opener>", "<body><p>\U0001d4b3 &me;, &no; and I</p></body>"
    text = f"{front}{opener}{body}</letter>\n"
    with Client(program) as client:
        client.open(URI, text)
        client.diagnostics(URI, lambda told: not told)
        place, blank = text.index("&me;, "), text.index("&no;")
        for start, end, wrapped in (
            (place + 1, place + 3, "&me;"), (place, place + 2, "&me;"), (place - 2, place + 2, "\U0001d4b3 &me;"),
            (place + 2, place + 5, "&me;,"), (blank + 1, blank + 8, "&no; and"), (blank - 1, blank + 1, "&no;"),
        ):
            found = client.actions(URI, (start, end), ["refactor"])["Wrap in <person>"]
            before, _, behind = text.rpartition(wrapped)
            same(edited(text, edits_of(found["edit"])), f"{before}<person>{wrapped}</person>{behind}", text[start:end])
        (letter,) = client.ask("textDocument/documentSymbol", {"textDocument": {"uri": URI}})
        same(letter["children"][0]["children"][0]["detail"], "Dear &me;", "a text's front")
        swapped = f"{front}{body}{opener}</letter>\n"
        client.open(URI, swapped, 9)
        for tag, title in ("<body>", "Move <body> after <opener>"), ("<opener>", "Move <opener> before <body>"):
            place = swapped.index(tag) + 1
            found = client.actions(URI, (place, place), ["quickfix"])[title]
            same(edited(swapped, edits_of(found["edit"])), text, title)


def changes_tags(program):
    with Client(program) as client:
        client.open(URI, DRAFT)
        client.diagnostics(URI, finished)
        tag = DRAFT.index("<opener>") + 2
        # The names with which no more elements are missing come first. On a busy machine they are known a moment later.
        titles = ["Unwrap <opener>", *(f"Rename to <{name}>" for name in ("salute", "dateline", "place", "date"))]
        found = until(lambda: [*client.actions(URI, (tag, tag), ["refactor.rewrite"])] == titles)
        actions = client.actions(URI, (tag, tag), ["refactor.rewrite"])
        need(found, f"what is offered: {[*actions]}")
        items = client.ask("textDocument/completion", client.about(URI, tag))["items"]
        told = [(each["label"], each["detail"].split(" ")[0]) for each in sorted(items, key=lambda each: each["sortText"])]
        same(told[1:4], [("salute", "(#PCDATA)"), ("dateline", "+1"), ("place", "+2")], "other names of the tag")
        same(
            edited(DRAFT, edits_of(actions["Rename to <salute>"]["edit"])),
            DRAFT.replace("opener>", "salute>"),
            "renamed",
        )
        same(
            edited(DRAFT, edits_of(actions["Unwrap <opener>"]["edit"])),
            DRAFT.replace("<opener>", "").replace("</opener>", ""),
            "unwrapped",
        )
        end = DRAFT.index("</p>")
        same(
            [*client.actions(URI, (end, end))],
            [
                "Insert 1 missing element",
                "Unwrap <p>",
                *(f"Rename to <{name}>" for name in ("place", "date", "person")),
            ],
            "at an end tag",
        )


def mends_lists(program):
    """In a list that is impossible the names are those that it has room for, and moves that mend it are quick fixes."""
    text = DRAFT.replace("<p>I have met", "<p>I <para>have</para> met")
    with Client(program) as client:
        client.open(URI, text)
        told = client.diagnostics(URI, lambda told: any("isn't declared" in each["message"] for each in told))
        start = text.index("I <para")
        client.change(URI, start, start, "<")
        same(sorted(client.labels(URI, start + 1)), ["date", "lb", "person", "place"], "names beside what stands in the way")
        client.change(URI, start, start + 1, "")
        same(sorted(client.labels(URI, text.index("<para") + 4)), ["date", "person", "place"], "other names")
        place = text.index("<para>")
        names = ("place", "date", "person")
        fixes = ["Unwrap <para>", *(f"Rename to <{name}>" for name in names)]
        for span in ((place + 1, place + 1), (place, place + 6)):
            found = client.actions(URI, span, ["quickfix"])
            same(sorted(found), sorted(fixes), "quick fixes")
            same({each["kind"] for each in found.values()}, {"quickfix"}, "their kind")
            same([*client.actions(URI, span, ["refactor"])], [], "nothing else is of use")
        error = next(each for each in told if each["code"] == "impossible")
        params = client.about(URI, span=(place, place + 6), context={"diagnostics": [error], "only": ["quickfix"]})
        actions = client.ask("textDocument/codeAction", params)
        need(all(each["diagnostics"] == [error] for each in actions), "the error that they mend")
        changed = edited(text, edits_of(next(each for each in actions if each["title"] == fixes[0])["edit"]))
        same(changed, DRAFT, "unwrapped")
        start = text.index("Mr Adams")
        same(sorted(client.actions(URI, (start, start + 8), ["refactor"])), sorted(f"Wrap in <{name}>" for name in names), "a wrap")
        # A root that can't be one.
        for number, name in enumerate(("lettr", "body")):
            text = f"{LETTER}<{name}><opener><salute>Dear</salute></opener><body><p>I</p></body></{name}>"
            client.open(URI, text, 6 + number)
            client.diagnostics(URI, lambda told: "impossible" in codes(told))
            place = text.index(f"<{name}") + 2
            found = client.actions(URI, (place, place), ["quickfix"])
            need("Rename to <letter>" in found, f"{name}: {[*found]}")
            changed = edited(text, edits_of(found["Rename to <letter>"]["edit"]))
            same(changed, text.replace(f"<{name}>", "<letter>", 1).removesuffix(f"{name}>") + "letter>", "the root")
            need("letter" in client.labels(URI, place), "the root's names")
        # A kid that has a place elsewhere.
        with open(os.path.join(EXAMPLES, "letter-swapped.xml"), encoding="utf-8") as file:
            text = LETTER + file.read()
        client.open(URI, text, 9)
        place = text.index("<closer>") + 1
        found = client.actions(URI, (place, place), ["quickfix"])
        need("Move <closer> after <body>" in found, [*found])
        client.open(URI, edited(text, edits_of(found["Move <closer> after <body>"]["edit"])), 10)
        need("impossible" not in codes(client.diagnostics(URI)), "moved")


def inserts_what_is_missing(program):
    want = DRAFT.replace("Dear brother,", "<salute>Dear brother,</salute>")
    for capabilities in (
        CAPABILITIES,
        CAPABILITIES | {"textDocument": {"codeAction": {"codeActionLiteralSupport": {}}}, "workspace": {}},
    ):
        with Client(program, capabilities) as client:
            client.open(URI, DRAFT)
            client.diagnostics(URI, finished)
            action = client.actions(URI, (0, 0))["Insert 1 missing element"]
            if "edit" not in action:
                action = client.ask("codeAction/resolve", action)
            same(edited(DRAFT, edits_of(action["edit"])), want, "completed")
    with Client(program) as client:
        text = (
            "<!DOCTYPE doc SYSTEM 'article.dtd'>\r\n<doc a='1' >\r\n <head/><sec b='\U0001f600' />\U0001f600</doc >\r\n"
        )
        client.open(URI, text)
        client.diagnostics(URI, finished)
        action = client.ask("codeAction/resolve", next(iter(client.actions(URI, (0, 0)).values())))
        changed = edited(text, edits_of(action["edit"]))
        need(re.sub("</?(sec|p|list)>", "", changed) == text, f"other bytes have changed: {changed!r}")
        client.open(URI, changed, 2)
        same(client.diagnostics(URI, lambda told: not told), [], "it is valid")
        client.documents[URI] = [text, 1]
        same(
            client.error("codeAction/resolve", {"title": "x", "data": {"uri": URI, "version": 1}}),
            -32801,
            "an older version",
        )


def makes_pairs_of_short_tags(program):
    with Client(program) as client:
        text = LETTER + "<letter><opener n='1' /><body/></letter>"
        client.open(URI, text)
        client.diagnostics(URI, finished)
        title = next(title for title in client.actions(URI, (0, 0)) if title.startswith("Insert"))
        changed = edited(text, edits_of(client.ask("codeAction/resolve", client.actions(URI, (0, 0))[title])["edit"]))
        need(changed.startswith(LETTER + "<letter><opener n='1' ><salute></salute></opener><body>"), changed)


# Hover, symbols, tags.
def shows(program):
    with Client(program) as client:
        client.open(URI, DRAFT)
        value = client.ask("textDocument/hover", client.about(URI, DRAFT.index("<opener>") + 1))["contents"]["value"]
        need(
            "<!ELEMENT opener (dateline?, salute)>" in value and "1 element is missing in it, as `salute`" in value,
            value,
        )
        value = client.ask("textDocument/hover", client.about(URI, DRAFT.index("</p>") + 1))["contents"]["value"]
        need("<!ELEMENT p (" in value and "valid" in value, value)
        same(client.ask("textDocument/hover", client.about(URI, DRAFT.index("Adams"))), None, "a text")
        symbols = client.ask("textDocument/documentSymbol", {"textDocument": {"uri": URI}})
        same(
            [(each["name"], [kid["name"] for kid in each["children"]]) for each in symbols],
            [("letter", ["opener", "body"])],
            "the outline",
        )
        same(symbols[0]["children"][0]["detail"], "Dear brother,", "a text's front")


def renames(program):
    with Client(program) as client:
        client.open(URI, DRAFT)
        for tag in ("<opener>", "</opener>"):
            place = DRAFT.index(tag) + len(tag) - 2
            same(client.ask("textDocument/prepareRename", client.about(URI, place))["placeholder"], "opener", tag)
            edit = client.ask("textDocument/rename", client.about(URI, place, newName="salute"))
            same(edited(DRAFT, edits_of(edit)), DRAFT.replace("opener>", "salute>"), tag)
            linked = client.ask("textDocument/linkedEditingRange", client.about(URI, place))["ranges"]
            same([each["start"]["character"] for each in linked], [9, 31], "both names")
        same(client.ask("textDocument/prepareRename", client.about(URI, DRAFT.index("Adams"))), None, "a text")
        for name in ("body", "nothing", "1", "", "a b", "x\ny", "\ud800"):
            same(
                client.error("textDocument/rename", client.about(URI, place, newName=name)),
                -32803,
                f"the name {name!r}",
            )
        alone = uri_of("alone.xml")
        client.open(alone, "<a>x</a>")
        for name in ("a b", "x>", "\ud800"):
            same(client.error("textDocument/rename", client.about(alone, 1, newName=name)), -32803, "without a DTD")
        same(len(edits_of(client.ask("textDocument/rename", client.about(alone, 1, newName="é😀")))), 2, "without a DTD")
        text = LETTER + "<letter><opener></letter>"
        client.open(URI, text, 2)
        same(
            client.ask("textDocument/linkedEditingRange", client.about(URI, text.index("opener"))), None, "a tag alone"
        )


# Where things are.
DTD = """<!-- <!ELEMENT b EMPTY> -->
<!ENTITY % more SYSTEM "more.mod"> %more;
<!ELEMENT a (b|c)*>
<!ELEMENT c EMPTY>
"""


def place_of(text, piece):
    line = text[: text.index(piece)].count("\n")
    return {"line": line, "character": len(text[: text.index(piece)]) - text[: text.index(piece)].rfind("\n") - 1}


def defines(program):
    """A name's declaration, in the DTD's file or in a module of it."""
    with tempfile.TemporaryDirectory() as folder, Client(program) as client:
        for name, text in (("a.dtd", DTD), ("more.mod", "<!-- <!ELEMENT\n b EMPTY> -->\n<!-- é --><!ELEMENT b (c)>")):
            with open(os.path.join(folder, name), "w", encoding="utf-8") as file:
                file.write(text)
        uri, text = uri_of("d.xml", folder), "<!DOCTYPE a SYSTEM 'a.dtd'>\n<a><b><c/></b><b/></a>"
        client.open(uri, text)
        found = client.ask("textDocument/definition", client.about(uri, text.index("<c/>") + 1))
        if found is None:
            print("skipped: definitions in modules (no lxml, package python3-lxml)")
            return
        same((found["uri"], found["range"]["start"]), (uri_of("a.dtd", folder), {"line": 3, "character": 10}), "a file")
        found = client.ask("textDocument/definition", client.about(uri, text.index("</b>") + 3))
        same((found["uri"], found["range"]["start"]), (uri_of("more.mod", folder), {"line": 2, "character": 20}), "a module")
        same(client.ask("textDocument/definition", client.about(uri, 1)), None, "no tag")
        # What isn't read of the DTD declares nothing.
        with open(os.path.join(folder, "e.dtd"), "w", encoding="utf-8") as file:
            file.write('<!ENTITY x "<!ELEMENT b (c)>"><!ENTITY % no "IGNORE"><!ELEMENT a (b, b)>\n<![ IGNORE [<!ELEMENT b (a)>]]>\n')
            file.write("<![%no;[<!ELEMENT b (b)>]]>\n<!ELEMENT b (c?)>\n<!ELEMENT c EMPTY>")
        client.open(uri, text.replace("a.dtd", "e.dtd"), 2)
        found = client.ask("textDocument/definition", client.about(uri, text.index("<b>") + 1))
        same((found["uri"], found["range"]["start"]), (uri_of("e.dtd", folder), {"line": 3, "character": 10}), "beside what isn't read")


def refers(program):
    """Other elements of a name, both tags of one, what folds, what is selected, what is linked to."""
    text = LETTER + "<letter>\n<body>\n<p>One</p>\n<!-- two\nlines --><p>Two</p>\n</body>\n</letter>\n"
    with Client(program) as client:
        client.open(URI, text)
        about = client.about(URI, text.index("<p>") + 1, context={"includeDeclaration": False})
        found = client.ask("textDocument/references", about)
        same([each["range"]["start"] for each in found], [{"line": 3, "character": 1}, {"line": 5, "character": 10}], "references")
        about = client.about(URI, text.index("<p>") + 1, context={"includeDeclaration": True})
        same(len(client.ask("textDocument/references", about)), 3, "the declaration too")
        found = client.ask("textDocument/documentHighlight", client.about(URI, text.index("</body>") + 3))
        same([each["range"]["start"] for each in found], [{"line": 2, "character": 1}, {"line": 6, "character": 2}], "both tags")
        same(client.ask("textDocument/documentHighlight", client.about(URI, text.index("Two"))), [], "a text")
        found = client.ask("textDocument/foldingRange", {"textDocument": {"uri": URI}})
        lines = sorted((each["startLine"], each["endLine"], each.get("kind")) for each in found)
        same(lines, [(1, 6, None), (2, 5, None), (4, 5, "comment")], "what folds")
        place = place_of(text, "One")
        (found,) = client.ask("textDocument/selectionRange", {"textDocument": {"uri": URI}, "positions": [place]})
        pieces = []
        while found:
            start, end = (at(text, found["range"][side]) for side in ("start", "end"))
            pieces.append(text[start:end])
            found = found.get("parent")
        same(pieces[:2], ["One", "<p>One</p>"], "the text, the element")
        same((len(pieces), pieces[-1]), (7, text), "all up to the document")
        need(all(one in other for one, other in zip(pieces, pieces[1:])), pieces)
        deep = LETTER + "<p>" * 1000 + "x" + "</p>" * 1000
        client.open(URI, deep, 4)
        (found,) = client.ask("textDocument/selectionRange", {"textDocument": {"uri": URI}, "positions": [place_of(deep, "x")]})
        count = 1
        while "parent" in found:
            found, count = found["parent"], count + 1
        same((count, at(deep, found["range"]["start"])), (201, 0), "selections in a document of 1,000 elements in one another")
        text = "<?xml-model href='article.dtd'?>\n" + text
        client.open(URI, text, 5)
        found = client.ask("textDocument/documentLink", {"textDocument": {"uri": URI}})
        same([each["target"] for each in found], [uri_of("article.dtd"), uri_of("letter.dtd")], "links")
        same(found[1]["range"]["start"], place_of(text, "letter.dtd"), "where one is")
        provided = client.told["capabilities"]
        need("documentFormattingProvider" not in provided, "nothing is formatted")


def tells_what_is_no_xml(program):
    """Without a DTD: whether the text is well-formed."""
    with Client(program) as client:
        client.open(URI, "<a>\n<b></a>")
        (told,) = client.diagnostics(URI)
        same((told["code"], told["range"]["start"]["line"]), ("fault", 1), "a tag that isn't closed")
        client.change(URI, 7, 7, "</b>")
        same(client.diagnostics(URI), [], "it is")
        same([each for each in client.aside if each.get("method") == "window/showMessage"], [], "no message")


def reads_rows_as_they_come(program):
    """The lists that aren't valid are those of the verdicts, however many rows come."""
    with tempfile.NamedTemporaryFile("w", suffix=".xml") as file:
        file.write(f"<letter><opener/><body>{'<p/><p><zz/></p><p><body/></p><p>One</p>' * 1500}</body></letter>")
        file.flush()
        with Session([program], os.path.join(EXAMPLES, "letter.dtd"), "letter", file.name) as session:
            rows = [row for row in session.verdicts() if row.verdict != "valid"]
            bad, others = ([row.path for row in rows if (row.verdict == "impossible") == is_bad] for is_bad in (True, False))
            found = session.unsettled(50, 500)
            same((found.lists, found.bad), (len(rows), len(bad)), "how many")
            same((found.first_bad, found.first), (bad[:50], others[:500]), "the first")
            need(len(bad) > 1000, "many are impossible")
            same(session.unsettled(10**6, 10**6), (len(rows), len(bad), bad, others), "all")
            same(session.need().why, "impossible", "what comes after it")


# What random documents are made of, beside elements.
BESIDE = ["text ", "<!-- <a> </a> -->", "<![CDATA[<a>]]>", "<?p <b?>", "\u00e9"]
TAGGED = ["<{0}>{1}</{0}>", "<{0} x='1'>{1}</{0} >", '<{0} y="a>b" >{1}</{0}>']


def random_element(dice, depth=0):
    name = dice.choice(["a", "ab", "b", "a-b"])
    if depth > 5 or dice.random() < 0.2:
        return f"<{name}/>"
    kids = [random_element(dice, depth + 1) if dice.random() < 0.5 else dice.choice(BESIDE) for _ in range(dice.choice([0, 1, 2, 4]))]
    return dice.choice(TAGGED).format(name, "".join(kids))


def finds_tags(_):
    """A tag is found by what stands near as by the lists that it stands in."""
    from lsp.nodes import Tree
    from lsp.reading import Whole

    def shown(tag):
        if tag is None:
            return None
        it = tag.element
        return tag.start, tag.end, it.start, it.inside, it.closes, it.end, it.at, it.owner.start, it.owner.name, it.depth()

    dice = random.Random(5)
    for _ in range(60):
        data = (dice.choice(["", "<!DOCTYPE a>\n", "<!-- <a> -->"]) + random_element(dice) + dice.choice(["", "\n", "<!-- <a/> -->"])).encode()
        whole = Whole(data)
        for offset in range(len(data) + 1):
            same(shown(whole.tag(offset)), shown(Tree.tag(whole, offset)), f"the tag at {offset} of {data!r}")


def reads_nodes(_):
    """The nodes of a document are the same whether it is known to be one or not; a list of many takes little memory."""
    from lsp.lists import cut, kids_of
    from lsp.reading import Typed, Whole

    def shown(node):
        if node.kind != "element":
            return tuple(node)
        return node.name, node.start, node.inside, node.closes, node.end, node.at, [shown(kid) for kid in node.kids]

    dice = random.Random(6)
    for _ in range(60):
        data = (dice.choice(["", "<!DOCTYPE a>\n"]) + random_element(dice) + dice.choice(["", "\n"])).encode()
        typed, whole = Typed(data), Whole(data)
        same(shown(typed.top), shown(whole.top), f"the nodes of {data!r}")
        for _ in range(20):
            start, end = sorted(dice.randint(0, len(data)) for _ in range(2))
            one, other = (tree.around(start) for tree in (typed, whole))
            need(one.is_same(other) and one is typed.around(start), f"the element at {start} of {data!r}")
            same(cut(one, data, start, end), cut(other, data, start, end), f"{start} to {end} of {data!r}")
    data = b"<a>%b</a>" % (b"<p>some words</p>" * 50_000)
    for read in (Typed, Whole):
        tracemalloc.start()
        tree = read(data)
        same((len(tree.root.kids), len(kids_of(tree.root, data))), (50_000, 50_000), "kids")
        peak = tracemalloc.get_traced_memory()[1]
        tracemalloc.stop()
        need(peak < 6 * len(data), f"{read.__name__}: {peak / len(data):.1f} times the text")


# Positions.
def counts_positions(program):
    """Characters outside the BMP, all line ends, UTF-16 and UTF-8; all other bytes stay."""
    text = LETTER + "<letter>\r\n<opener>\U0001f600 Dear\rél\U0001d11e brother,</opener>\n<body>\r\n</body></letter>"
    for encodings in ([], ["utf-32", "utf-8", "utf-16"]):
        capabilities = CAPABILITIES | {"general": {"positionEncodings": encodings}}
        width = (lambda part: len(part.encode())) if encodings else None
        more = {"width": width} if width else {}
        with Client(program, capabilities) as client:
            same(
                client.told["capabilities"]["positionEncoding"],
                "utf-8" if encodings else "utf-16",
                "how positions are counted",
            )
            client.open(URI, text)
            told = client.diagnostics(URI, finished)
            need("possible" in codes(told), told)
            start = text.index("\U0001d11e")
            actions = client.ask(
                "textDocument/codeAction",
                client.about(URI, span=(start, start + 5), context={"diagnostics": []}, **more),
            )
            action = next(each for each in actions if each["title"] == "Wrap in <place>")
            same(
                edited(text, edits_of(action["edit"]), **more),
                text.replace("\U0001d11e bro", "<place>\U0001d11e bro</place>"),
                "wrapped",
            )
            client.change(URI, start, start + 1, "\U0001f601é", **more)
            place = client.documents[URI][0].index("<body>") + 2
            same(
                client.ask("textDocument/hover", client.about(URI, place, **more))["range"]["start"]["line"],
                4,
                "behind a change",
            )
            far = {"textDocument": {"uri": URI}, "position": {"line": 10**6, "character": 10**6}}
            same(client.ask("textDocument/linkedEditingRange", far), None, "behind the end")


def takes_changes_in_order(program):
    with Client(program) as client:
        client.open(URI, "")
        client.tell(
            "textDocument/didChange",
            {
                "textDocument": {"uri": URI, "version": 2},
                "contentChanges": [
                    {"text": LETTER + "<letter></letter>"},
                    {
                        "range": {"start": {"line": 1, "character": 8}, "end": {"line": 1, "character": 8}},
                        "text": "<opener/>",
                    },
                    {
                        "range": {"start": {"line": 1, "character": 9}, "end": {"line": 1, "character": 15}},
                        "text": "body",
                    },
                ],
            },
        )
        symbols = client.ask("textDocument/documentSymbol", {"textDocument": {"uri": URI}})
        same([kid["name"] for kid in symbols[0]["children"]], ["body"], "three changes")


CASES = [
    tells_what_is_missing,
    tells_what_stands_in_the_way,
    keeps_what_was_told,
    tells_faults,
    tells_attributes,
    gives_attributes,
    tells_ill_formed_entities,
    ends_older_work,
    completes,
    completes_what_was_chosen,
    orders_names,
    asks_for_one_of_many,
    completes_while_typing,
    wraps,
    keeps_references,
    changes_tags,
    mends_lists,
    inserts_what_is_missing,
    makes_pairs_of_short_tags,
    shows,
    defines,
    refers,
    tells_what_is_no_xml,
    reads_rows_as_they_come,
    finds_tags,
    reads_nodes,
    renames,
    counts_positions,
    takes_changes_in_order,
]


if __name__ == "__main__":
    wanted = [case for case in CASES if case.__name__ in sys.argv[2:]] or CASES
    sys.exit(1 if run_cases(wanted, os.path.abspath(sys.argv[1])) else 0)
