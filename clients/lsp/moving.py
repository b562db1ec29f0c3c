"""Diagnostics of an older text at their places in a newer one, while that is no document: a tag in it is half typed."""
import re
from typing import Any

from .text import Json, Text

LINE = re.compile(r"\(line (\d+)\)")


class Change:
    """What differs between two texts, as one part that was put in place of another: what is before it and after it is
    the same in both."""

    def __init__(self, old: Text, new: Text) -> None:
        self.old, self.new = old, new
        self.front = common(old.data, new.data)
        most = min(len(old.data), len(new.data)) - self.front
        self.back = min(most, common(old.data[::-1], new.data[::-1]))

    def place(self, offset: int, is_end: bool) -> int | None:
        """Where a place is now; none where what stood there is gone. What is put in right at an end isn't counted in."""
        is_before, is_after = offset <= self.front, offset >= len(self.old.data) - self.back
        if is_before and (is_end or not is_after):
            return offset
        return offset + len(self.new.data) - len(self.old.data) if is_after else None

    def range(self, told: Json) -> Json | None:
        start, end = self.place(self.old.offset(told["start"]), False), self.place(self.old.offset(told["end"]), True)
        return None if start is None or end is None else self.new.range(start, max(start, end))

    def line(self, found: re.Match[str]) -> str:
        """The line that a sentence speaks of."""
        place = self.place(self.old.line_end(int(found[1]) - 1), False)
        return found[0] if place is None else f"(line {self.new.position(place)['line'] + 1})"

    def moved(self, told: list[Json]) -> list[Json]:
        """Those of the older text whose places are still there."""
        found = list[Json]()
        for each in told:
            place = self.range(each["range"])
            if place is None:
                continue
            message = LINE.sub(self.line, each["message"])
            found.append(each | {"range": place, "message": message})
            if "relatedInformation" in each:
                found[-1]["relatedInformation"] = [it for it in map(self.related, each["relatedInformation"]) if it]
        return found

    def related(self, told: Any) -> Json | None:
        place = self.range(told["location"]["range"])
        return None if place is None else told | {"location": told["location"] | {"range": place}}


def common(one: bytes, other: bytes) -> int:
    """How many bytes are the same from the start on."""
    low, high = 0, min(len(one), len(other))
    while low < high:
        middle = (low + high + 1) // 2
        if one[low:middle] == other[low:middle]:
            low = middle
        else:
            high = middle - 1
    return low
