"""Reads the nodes of a text: of one that is being typed, and of one that the program has read."""
import functools
import re
from array import array
from collections.abc import Iterator

from .nodes import END, ITEM, KINDS, LOOSE, NAME, SLASH, START, TEXT, Element, Kids, Leaf, Node, Tag, Tree

# Items that are looked for up to the text's end, and how they end.
SOUGHT = ((b"<![CDATA[", b"]]>"), (b"<?", b"?>"), (b"<!DOCTYPE", b">"))
# An element of a document with nothing but a text in it.
SIMPLE = re.compile(rb"<" + NAME + rb"(?>(?:[^<>\"']|\"[^\"<]*\"|'[^'<]*')*)(?<!/)>[^<]*</[^<>]*>")
HIDDEN = re.compile(rb"<!--(?s:.*?)-->|<\?(?s:.*?)\?>|<!\[CDATA\[(?s:.*?)\]\]>")


def may_be_whole(data: bytes) -> bool:
    """Whether each item that is looked for has an end, so that none is looked for up to the text's end again and again."""
    ends = (*SOUGHT[:2], (b"<!--", b"-->"))
    return all(data.rfind(start) <= data.rfind(end) for start, end in ends) and data.count(b"<!DOCTYPE") < 2


def items(data: bytes) -> Iterator[re.Match[bytes]]:
    """The items of a text. Where many that never end would each be looked for up to its end, none of that kind is
    looked for."""
    is_loose = (
        any(data.count(start, data.rfind(end) + 1) > 20 for start, end in SOUGHT) or data.count(b"<!DOCTYPE") > 20
    )
    return (LOOSE if is_loose else ITEM).finditer(data)


def front(data: bytes) -> tuple[list[bytes], str]:
    """The items before the first element, as far as they are whole, and the element's name, "" where it isn't there."""
    found, at = list[bytes](), 0
    while (item := ITEM.match(data, at)) and item.lastindex is not None:
        if item.lastindex == START:
            return found, item[1].decode(errors="replace")
        found.append(item[0])
        at = item.end()
    return found, ""


class Typed(Tree):
    """The nodes of a text that needn't be a document. As many of its tags as there are pairs make elements: an end tag
    closes the elements in it that have none, one that closes nothing is passed over, and so is a `<` that begins
    nothing. Texts beside these are one.
    """

    def __init__(self, data: bytes) -> None:
        super().__init__(data)
        # Of each node its start and its end, where the end tag of an element starts, and the number of the next node that isn't
        # in it; nodes in the order of the text.
        self.starts, self.ends, self.closes, self.nexts = (array("I") for _ in range(4))
        self.read()
        self.top.grown = functools.partial(self.kids_of, number=-1)

    def read(self) -> None:
        starts, ends, nexts = self.starts, self.ends, self.nexts
        # The elements that are open, with their names, and how many of each name are; the last kid of the innermost one, where
        # that is a text.
        opened, names, counts, text = list[int](), list[bytes](), dict[bytes, int](), -1
        for item in items(self.data):
            group, (start, end), number = item.lastindex, item.span(), len(starts)
            if group == END:
                if counts.get(item[2]):
                    self.close(opened, names, counts, item)
                    text = -1
                continue
            if group == TEXT and text >= 0:
                ends[text] = end
                continue
            if group != START and (group not in KINDS or not opened):
                continue
            text = number if group == TEXT else -1
            starts.append(start)
            ends.append(end)
            self.closes.append(end)
            nexts.append(number + 1)
            if group == START and self.data[end - 2] != SLASH:
                opened.append(number)
                names.append(item[1])
                counts[item[1]] = counts.get(item[1], 0) + 1
        for number in opened:
            self.closes[number] = ends[number] = len(self.data)
            nexts[number] = len(starts)

    def close(self, opened: list[int], names: list[bytes], counts: dict[bytes, int], item: re.Match[bytes]) -> None:
        """Closes the element that an end tag belongs to, with those in it that are open."""
        while True:
            number, name = opened.pop(), names.pop()
            counts[name] -= 1
            is_own = name == item[2]
            self.closes[number], self.ends[number] = item.start(), item.end() if is_own else item.start()
            self.nexts[number] = len(self.starts)
            if is_own:
                return

    def kids_of(self, owner: Element, number: int) -> Kids:
        numbers, at = array("I"), number + 1
        last = self.nexts[number] if number >= 0 else len(self.starts)
        while at < last:
            numbers.append(at)
            at = self.nexts[at]
        starts = array("I", (self.starts[each] for each in numbers))
        return Kids(starts, 0, lambda place, start, _: self.made(owner, place, numbers[place]))

    def made(self, owner: Element, place: int, number: int) -> Node:
        start, end = self.starts[number], self.ends[number]
        item = ITEM.match(self.data, start)
        if item is None or item.lastindex != START:
            return Leaf(KINDS[item.lastindex or TEXT] if item is not None else "text", start, end)
        made = Element(item[1], owner, place, start, item.end())
        made.closes, made.end = self.closes[number], end
        made.grown = functools.partial(self.kids_of, number=number)
        return made


class Whole(Tree):
    """The nodes of a document that the program has read. The kids of an element are looked for when they are wanted."""

    def __init__(self, data: bytes) -> None:
        super().__init__(data)
        # No tag stands in what is hidden.
        self.plain = (
            HIDDEN.sub(lambda item: item[0][:2] + b"-" * (len(item[0]) - 3) + b">", data)
            if HIDDEN.search(data)
            else data
        )
        at = 0
        while (item := ITEM.match(data, at)) and item.lastindex != START:
            at = item.end()
        self.top.known = [self.element(self.top, 0, at)]

    def first_list(self) -> None:
        """Reads the root's list, which almost all paths go through."""
        root = self.root
        if root is not None:
            len(root.kids)

    def element(self, owner: Element, number: int, at: int, closes: int | None = None) -> Element:
        """The element whose start tag stands here; where its end tag does, if that is known."""
        item = ITEM.match(self.data, at)
        assert item is not None and item.lastindex == START
        made = Element(item[1], owner, number, at, item.end())
        if self.data[made.inside - 2] != SLASH:
            made.closes = self.closing(made.name, made.inside) if closes is None else closes
            made.end = self.plain.index(b">", made.closes) + 1
            made.grown = self.kids_of
        return made

    def tag(self, offset: int) -> Tag | None:
        """The tag at an offset, found by what stands near: the lists round it, which may be long, aren't read for it."""
        at = self.plain.rfind(b"<", self.top.known[0].start, offset + 1)
        found = self.tag_at(at) if at >= 0 else None
        if found is None and at == offset:
            at = self.plain.rfind(b"<", self.top.known[0].start, offset)
            found = self.tag_at(at) if at >= 0 else None
        return found if found is not None and offset <= found.end else None

    def tag_at(self, at: int) -> Tag | None:
        """The tag that stands here, if it is one."""
        item = ITEM.match(self.data, at)
        if item is None or item.lastindex not in (START, END):
            return None
        is_end = item.lastindex == END
        made = self.element(self.top, 0, self.opening(item[2], at) if is_end else at, at if is_end else None)
        if made.start > self.top.known[0].start:
            made.placed = self.place_of
        return Tag(made, *item.span())

    def place_of(self, element: Element) -> tuple[Element, int]:
        """The owner of an element, and its number among the kids there."""
        owner = self.top
        while True:
            at = owner.kid_at(element.start)
            kid = owner.kids[at]
            assert isinstance(kid, Element)
            if kid.start == element.start:
                return owner, at
            owner = kid

    def opening(self, name: bytes, at: int) -> int:
        """Where the start tag stands that an end tag of this name belongs to, which stands at `at`."""
        plain, depth, closer, opener = self.plain, 1, b"</" + name, b"<" + name
        while True:
            start = plain.rindex(opener, 0, at)
            while plain[start + len(opener)] not in b"/> \t\r\n":
                start = plain.rindex(opener, 0, start)
            end = start
            while (end := plain.find(closer, end + 1, at)) >= 0:
                depth += plain[end + len(closer)] in b"> \t\r\n"
            item = ITEM.match(self.data, start)
            assert item is not None
            depth -= self.data[item.end() - 2] != SLASH
            if depth == 0:
                return start
            at = start

    def kids_of(self, owner: Element) -> Kids:
        starts, at, closes = array("I"), owner.inside, owner.closes
        while at < closes:
            starts.append(at)
            item = SIMPLE.match(self.data, at)
            if item is None:
                item = ITEM.match(self.data, at)
                assert item is not None
                if item.lastindex == START and self.data[item.end() - 2] != SLASH:
                    at = self.plain.index(b">", self.closing(item[1], item.end())) + 1
                    continue
            at = item.end()
        return Kids(starts, closes, functools.partial(self.kid, owner))

    def kid(self, owner: Element, number: int, start: int, end: int) -> Node:
        """A kid of which it is known where it ends."""
        item = ITEM.match(self.data, start)
        assert item is not None and item.lastindex is not None
        if item.lastindex != START:
            return Leaf(KINDS[item.lastindex], start, end)
        is_short = end == item.end()
        return self.element(owner, number, start, None if is_short else self.plain.rindex(b"</", start, end))

    def closing(self, name: bytes, at: int) -> int:
        """Where the end tag stands that closes an element of this name, whose start tag ends at `at`."""
        plain, depth, closer, opener = self.plain, 1, b"</" + name, b"<" + name
        while True:
            end = plain.index(closer, at)
            while plain[end + len(closer)] not in b"> \t\r\n":
                end = plain.index(closer, end + 1)
            if plain.find(opener, at, end) >= 0:
                depth += self.opened(opener, at, end)
            depth -= 1
            if depth == 0:
                return end
            at = end + len(closer)

    def opened(self, opener: bytes, at: int, end: int) -> int:
        """How many start tags of a name stand here; tags `<a/>` aren't counted."""
        count = 0
        while (at := self.plain.find(opener, at, end)) >= 0:
            item = ITEM.match(self.data, at)
            assert item is not None
            count += item[1] == opener[1:] and self.data[item.end() - 2] != SLASH
            at = item.end()
        return count
