"""What `pvlong` tells where no time is left, and how long it may take."""
import contextlib
import os
from collections.abc import Iterator

from lib.counting import need, same
from lib.search import write
from lib.wide_rows import ROWS, try_heavy
from lib.wide_trial import EXAMPLES, Programs, judge, try_example


@contextlib.contextmanager
def within(seconds: str) -> Iterator[None]:
    """Gives `pvlong` so many seconds."""
    os.environ["PVLONG_SECONDS"] = seconds
    try:
        yield
    finally:
        del os.environ["PVLONG_SECONDS"]


def try_late_row(both: Programs, dtd: str, root: str, kids: str, least: int) -> None:
    write("row.dtd", dtd)
    text = f"<{root}>{kids}</{root}>"

    def judged() -> str:
        told = judge(both, "row.dtd", root, text)
        need(told.least <= least <= told.most, f"{told.line!r} where {least} are missing")
        return "exact" if told.least == told.most else "between"

    both.case("late", judged, lambda: text)


def try_late(both: Programs) -> None:
    """Where no time is left: bounds and completions of the examples and of long lists, which may be further apart; and what are seconds."""
    with within("0"):
        for dtd, (root, names) in EXAMPLES.items():
            for name in names:
                try_example(both, dtd, root, name, "late")
        for row in ROWS:
            try_late_row(both, *row)
        try_heavy(both)
    for seconds in ("4294967295", "", "x", "01", "+1", "1.5", "4294967296"):
        wanted = (0, b"need 1\n") if seconds == "4294967295" else (2, b"usage\n")
        with within(seconds):
            both.case("seconds", lambda wanted=wanted: same(both.long("need", "good.dtd", "a", "good.xml"), wanted, "need") or "as told",
                      lambda seconds=seconds: seconds)
