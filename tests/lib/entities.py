"""Parameter entities put in place, written from docs/FORMATS.md alone; forms of items that the checkers share with it."""
import re

CHAR = "[\t\n\r\u0020-\ud7ff\ue000-\ufffd\U00010000-\U0010ffff]"
START = ("[:A-Z_a-z\u00c0-\u00d6\u00d8-\u00f6\u00f8-\u02ff\u0370-\u037d\u037f-\u1fff\u200c-\u200d\u2070-\u218f\u2c00-\u2fef\u3001-\ud7ff"
         "\uf900-\ufdcf\ufdf0-\ufffd\U00010000-\U000effff")
NAME = START + "](?:" + START + "\\-.0-9\u00b7\u0300-\u036f\u203f-\u2040])*"
S = "[ \t\r\n]"
REFERENCE = re.compile(f"%({NAME});")
LITERAL = f"(?:\"(?:(?!\"){CHAR})*\"|'(?:(?!'){CHAR})*')"
INSIDE = re.compile(f"(?:(?![<>%'\"]){CHAR}|{LITERAL}|%{NAME};)*")
COMMENT = re.compile(f"<!--(?:(?!-){CHAR}|-(?!-){CHAR})*-->")
INSTRUCTION = re.compile(f"<\\?(?!(?i:xml)(?:{S}|\\?>))({NAME})(?:{S}(?:(?!\\?>){CHAR})*)?\\?>")
PARAMETER = re.compile(f"<!ENTITY{S}+%{S}+({NAME}){S}+({LITERAL}){S}*>")
EXTERNAL = re.compile(f"<!ENTITY{S}+%{S}+{NAME}{S}+(?:SYSTEM|PUBLIC)")
DECLARATION = re.compile(f"(<!(?:ELEMENT|ATTLIST|ENTITY|NOTATION))(?={S})")
CHARACTER = re.compile("&#(?:([0-9]+)|x([0-9a-fA-F]+));")
GENERAL = re.compile(f"&{NAME};")
TEXT_DECLARATION = re.compile(
    f"<\\?xml(?={S}+(?:version|encoding|standalone))(?:{S}+version{S}*={S}*(?:'1\\.[0-9]+'|\"1\\.[0-9]+\"))?"
    f"(?:{S}+encoding{S}*={S}*(?i:'utf-8'|\"utf-8\"|'us-ascii'|\"us-ascii\"))?"
    f"(?:{S}+standalone{S}*={S}*(?:'yes'|\"yes\"|'no'|\"no\"))?{S}*\\?>")


class Fault(Exception):
    pass


class Reading:
    def __init__(self):
        self.declared = {}
        self.reading = []
        self.references = 0
        self.placed = 0

    # The text of an entity that is referred to here, read by this function.
    def referred(self, name, read, judge=None):
        if name not in self.declared:
            raise Fault("undeclared")
        if name in self.reading:
            raise Fault("recursive")
        text = self.declared[name]
        self.references += 1
        self.placed += len(text.encode())
        if self.references > 65536 or self.placed > 16777216:
            raise Fault("limit")
        if judge and not judge(text):
            raise Fault("syntax")
        self.reading.append(name)
        found = read(text)
        self.reading.pop()
        return found

    def value(self, text):
        found = ""
        at = 0
        while at < len(text):
            if text[at] not in "%&":
                found += text[at]
                at += 1
                continue
            item = REFERENCE.match(text, at)
            if item:
                found += self.referred(item[1], self.value)
            elif item := GENERAL.match(text, at):
                found += item[0]
            elif (item := CHARACTER.match(text, at)) and is_character(item):
                found += chr(number(item))
            else:
                raise Fault("syntax")
            at = item.end()
        return found

    def inside(self, text):
        found = ""
        at = 0
        while at < len(text):
            item = REFERENCE.match(text, at)
            if item:
                found += " " + self.referred(item[1], self.inside, is_inside) + " "
            else:
                item = re.compile(LITERAL).match(text, at) or re.compile(".", re.DOTALL).match(text, at)
                found += item[0]
            at = item.end()
        return found

    def between(self, text, is_file=False):
        found = ""
        at = 0
        after_parameter = False
        while at < len(text):
            if text[at] in " \t\r\n":
                found += text[at]
                at += 1
                continue
            if item := COMMENT.match(text, at) or INSTRUCTION.match(text, at):
                found += item[0]
                at = item.end()
            elif item := REFERENCE.match(text, at):
                found += " " + self.referred(item[1], self.between) + " "
                at = item.end()
            elif (item := PARAMETER.match(text, at)) and is_value(item[2][1:-1]):
                given = self.value(item[2][1:-1])
                self.declared.setdefault(item[1], given)
                after_parameter = True
                at = item.end()
            elif item := self.declaration_at(text, at):
                word, held = item
                found += word + self.inside(held) + ">"
                at += len(word) + len(held) + 1
            elif text.startswith("<![", at):
                raise Fault("conditional")
            elif EXTERNAL.match(text, at):
                raise Fault("external")
            elif is_file:
                return found + (" " if after_parameter else "") + text[at:]
            else:
                raise Fault("syntax")
        return found

    def declaration_at(self, text, at):
        word = DECLARATION.match(text, at)
        if not word:
            return None
        held = INSIDE.match(text, word.end())
        return (word[1], held[0]) if text.startswith(">", held.end()) else None

    def file(self, text):
        head = "\ufeff" if text.startswith("\ufeff") else ""
        declaration = TEXT_DECLARATION.match(text, len(head))
        head += declaration[0] if declaration else ""
        return head + self.between(text[len(head):], True)


def number(item):
    return int(item[1]) if item[1] else int(item[2], 16)


def is_character(item):
    code = number(item)
    return code < 0x110000 and re.fullmatch(CHAR, chr(code)) is not None


def is_inside(text):
    return INSIDE.fullmatch(text) is not None


def is_value(text):
    at = 0
    while at < len(text):
        if text[at] in "%&":
            item = REFERENCE.match(text, at) or GENERAL.match(text, at) or CHARACTER.match(text, at)
            if not item or item[0].startswith("&#") and not is_character(item):
                return False
            at = item.end()
        elif re.match(CHAR, text[at]):
            at += 1
        else:
            return False
    return True
