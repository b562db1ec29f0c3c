"""A copy of the tree, as a page of `clients/annotate` keeps one by what it is told."""


class Copy:
    """Takes the whole tree, or what changed of it."""

    def __init__(self):
        self.version, self.nodes, self.root = None, {}, None

    def take(self, state):
        if "tree" in state:
            self.nodes = {0: {"id": 0, "kind": "element", "kids": []}}
            line = [self.nodes[0]]
            for row in state["tree"]:
                node = {**row, "kids": []}
                self.nodes[node["id"]] = node
                del line[row["depth"]:]
                line[-1]["kids"].append(node)
                line.append(node)
        else:
            for move in state["changes"]:
                for change in move["changes"]:
                    self.apply(change)
        self.version = state["version"]

    def apply(self, change):
        if "rename" in change:
            self.nodes[change["rename"]]["name"] = change["name"]
        elif "attributes" in change:
            self.nodes[change["attributes"]]["attrs"] = change["attrs"]
        elif "comment" in change:
            node = self.nodes[change["comment"]]
            node["note" if node["kind"] == "element" else "text"] = change["text"]
        else:
            kids = self.nodes[change["list"]]["kids"]
            kids[change["from"]:change["to"]] = [self.given(told) for told in change["kids"]]

    def given(self, told):
        if isinstance(told, int):
            return self.nodes[told]
        node = {**told, "kids": [self.nodes[kid] for kid in told.get("kids", ())]}
        if "of" in told:
            node["text"] = "".join(self.nodes[number]["text"][start:end] for number, start, end in told["of"])
        self.nodes[node["id"]] = node
        return node

    def outline(self):
        """Names, attributes and texts, texts side by side as one."""
        rows, todo = [], [(1, kid) for kid in reversed(self.nodes[0]["kids"])]
        while todo:
            depth, node = todo.pop()
            if node["kind"] == "text":
                if rows and rows[-1][:2] == (depth, "text") and not rows[-1][3]:
                    rows[-1] = (depth, "text", rows[-1][2] + node["text"], False)
                else:
                    rows.append((depth, "text", node["text"], False))
            elif node["kind"] == "element":
                if node.get("note"):
                    rows.append((depth, "misc", node["note"], True))
                rows.append((depth, node["name"], node.get("attrs", "") or "", True))
                todo.append((depth, {"kind": "end"}))
                todo.extend((depth + 1, kid) for kid in reversed(node["kids"]))
            elif node["kind"] == "end":
                rows.append((depth, "/", "", True))
            elif node["text"]:
                rows.append((depth, node["kind"], node["text"], True))
        return rows
