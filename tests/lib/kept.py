"""Whether a completion keeps what its document has; documents that have one."""
import re

from lib.counting import need
from lib.search import MOST, grammar
from lib.trees import Grammar, items_of

TAG = r"""<(?:[^<>"']|"[^"]*"|'[^']*')*>"""
TOKEN = re.compile(rf"<!--.*?-->|<\?.*?\?>|<!\[CDATA\[.*?\]\]>|{TAG}|&[^;]*;|[^<&]", re.S)


# Nodes: a token, or (start tag, kids, end tag); the kids and the end tag of an empty-element tag are none.
def nodes_of(text):
    """The nodes of a whole document, those beside its root with it."""
    levels = [[]]
    for token in TOKEN.findall(text):
        if token.startswith("</"):
            kids = levels.pop()
            levels[-1][-1] = (levels[-1][-1], kids, token)
        elif not re.match("<[^!?]", token):
            levels[-1].append(token)
        elif token.endswith("/>"):
            levels[-1].append((token, None, None))
        else:
            levels[-1].append(token)
            levels.append([])
    return levels[0]


def parts_of(text):
    """What stands before the root, the root, and what stands after it."""
    nodes = nodes_of(text)
    at, = [at for at, node in enumerate(nodes) if isinstance(node, tuple)]
    return nodes[:at], nodes[at], nodes[at + 1:]


def elements_in(node):
    return 1 + sum(map(elements_in, node[1] or [])) if isinstance(node, tuple) else 0


def tokens_of(node):
    if isinstance(node, str):
        return [node]
    start, kids, end = node
    return [start] if kids is None else [start, *(token for kid in kids for token in tokens_of(kid)), end]


class Keeping:
    """How far in a document's tokens the nodes of a completion may lead."""

    def __init__(self, tokens):
        self.tokens = tokens
        self.found = {}

    def behind_all(self, nodes, places):
        for node in nodes:
            places = {end for place in places for end in self.behind(node, place)}
        return places

    def behind(self, node, place):
        key = id(node), place
        if key not in self.found:
            self.found[key] = self.kept(node, place) | self.inserted(node, place)
        return self.found[key]

    def token(self, place):
        return self.tokens[place] if place < len(self.tokens) else None

    def kept(self, node, place):
        """Where the node stands in the document itself."""
        token = self.token(place)
        if isinstance(node, str) or node[1] is None:
            return {place + 1} if token == (node if isinstance(node, str) else node[0]) else set()
        start, kids, end = node
        ends = self.behind_all(kids, {place + 1})
        if token == start:
            return {at + 1 for at in ends if self.token(at) == end}
        # The tag of an empty element that got kids.
        name = re.match("<[^ \t\r\n/>]+", start).group()[1:]
        return ends & {place + 1} if kids and token == start[:-1] + "/>" and end == f"</{name}>" else set()

    def inserted(self, node, place):
        if isinstance(node, str) or node[1] is None:
            return set()
        start, kids, end = node
        is_plain = re.fullmatch("<[^ \t\r\n/>]+>", start) and end == "</" + start[1:]
        return self.behind_all(kids, {place}) if is_plain else set()


def names_in(dtd):
    return re.findall(r"<!ELEMENT\s+(\S+)", dtd)


def check_kept(text, body, count):
    """The body has the document's texts and tags in their order, and so many elements more."""
    before, root, after = parts_of(text)
    body_before, body_root, body_after = parts_of(body)
    need((before, after) == (body_before, body_after), "something beside the root is another")
    tokens = tokens_of(root)
    need(len(tokens) in Keeping(tokens).behind(body_root, 0), "texts or tags aren't kept")
    need(elements_in(body_root) == elements_in(root) + count, "another number of elements")


def kind_of(search, tree, root, count):
    """How the case is counted; by the search, the number must be the least one."""
    least = search.least((*items_of(tree),), ("children", ("name", root)), MOST)
    if least <= MOST:
        need(count == least, f"{count} elements are missing, and the least is {least}")
        return "valid" if least == 0 else "completed"
    need(count is None or count > MOST, f"{count} elements are missing, and the search finds none so few")
    return "impossible" if count is None else "larger"


def productive_grammar():
    """Models for some names, two of which at least have valid elements, and the search by them."""
    while True:
        _, models = grammar()
        search = Grammar(models)
        if len(search.sizes) >= 2:
            return models, search
