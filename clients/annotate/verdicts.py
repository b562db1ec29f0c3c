"""The verdicts of the lists that a move has changed, as far as the program's reply settles them.

The reply to an edit says how many lists are open and how many are impossible now. No others have changed, so these numbers say how many of the changed
ones are: mostly all or none of them. Where they leave a choice, the program is asked for the verdicts of all lists.
"""
from collections.abc import Mapping

from pvtag.document import Node


def verdicts_of(changed: Mapping[Node, tuple[bool, bool]], more_open: int, more_bad: int) -> dict[Node, str] | None:
    """The verdicts of the lists that were changed and are there, where so many more lists are open now, and so many more impossible; none where
    these numbers leave a choice. Of each list it is told whether it was there before, with the verdict that it has still, and whether it is now."""
    before = [node.verdict for node, (was_there, _) in changed.items() if was_there]
    nodes = [node for node, (_, is_there) in changed.items() if is_there]
    counts = {"possible": more_open + before.count("possible"), "impossible": more_bad + before.count("impossible")}
    counts["valid"] = len(nodes) - sum(counts.values())
    verdict = max(counts, key=counts.__getitem__)
    is_settled = min(counts.values()) == 0 and counts[verdict] == len(nodes)
    return dict.fromkeys(nodes, verdict) if is_settled else None
