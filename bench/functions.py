"""Measures what each function of a crate takes to be proved, and what of its compiled body that follows. Words: the repository's folder, and a crate; how
many functions are listed, 40 where none is told.

The crate is checked from nothing by one process, in a copy; the libraries below it are taken from `crates/*/out/rlib`, and the kit proves them first where
they aren't there. A function's seconds are those that the check took from the line that tells of the one before it up to its own, in processor time; what
comes before the first and after the last is told apart. Its calls, and those of them that drop a value, are counted in its compiled body, which is
there where the crate's own library is built (`rt all check`, `rt lib`). Measured on 387 functions, 0.27 + 0.072 c + 0.0043 c^2 seconds for c calls of what
the kit generates for a function came near what it takes: a large value that is dropped at one exit, in a function of its own, is what saves most.
"""
import json
import os
import re
import subprocess
import sys
import tempfile
from collections.abc import Iterator
from pathlib import Path
from typing import Any, NamedTuple

sys.path.append(str(Path(__file__).resolve().parent.parent / "tools"))
sys.dont_write_bytecode = True
from processes import Held, end_all, spent_by  # noqa: E402

CHECKED = re.compile(r"checked (\S+), \d+ of \d+")


class Body(NamedTuple):
    """How many calls a compiled body has, and how many of them drop a value."""
    calls: int
    drops: int


def called(body: Any) -> Iterator[str]:
    """The names of what a body calls, as often as it does."""
    if isinstance(body, dict):
        for key, value in body.items():
            if key == "Call":
                yield next(names(value), "")
            yield from called(value)
    elif isinstance(body, list):
        for value in body:
            yield from called(value)


def names(call: Any) -> Iterator[str]:
    """The texts in a call, the name of its function first."""
    if isinstance(call, str):
        yield call
    elif isinstance(call, dict | list):
        for value in call.values() if isinstance(call, dict) else call:
            yield from names(value)


def bodies(top: Path, crate: str) -> dict[str, Body]:
    """The compiled bodies of a crate whose library is built."""
    file = top / "crates" / crate / "out/rlib" / f"{crate}.rlib/toolchain/mir.json"
    if not file.is_file():
        return {}
    found = {}
    for name, function in json.loads(file.read_text()):
        calls = list(called(function["body"]))
        found[name.removeprefix(f"{crate}::")] = Body(len(calls), sum(it.endswith("::drop") for it in calls))
    return found


def copied(top: Path, crate: str, to: Path) -> Path:
    """A copy of the crates in which this one hasn't been checked; its folder."""
    (to / ".git").mkdir(parents=True)
    words = ["cp", "-al", "crates.txt", "HANDLES", "crates", str(to)]
    if subprocess.run(words, cwd=top, stderr=subprocess.DEVNULL, check=False).returncode:
        subprocess.run(["cp", "-a", *words[2:]], cwd=top, check=True)
    folder = to / "crates" / crate
    subprocess.run(["rm", "-rf", folder / "out"], check=True)
    return folder


def seconds(folder: Path) -> tuple[list[tuple[str, float]], float, float, bool]:
    """What each function took, in order; what came before the first and after the last; and whether the crate was proved."""
    run = subprocess.Popen(["rt", "check", "--progress", "--jobs", "1"], cwd=folder, stdin=subprocess.DEVNULL, stdout=subprocess.PIPE, stderr=subprocess.STDOUT,
                           text=True, start_new_session=True)
    told, first, last = [], 0.0, 0.0
    try:
        for line in run.stdout or ():
            found, now = CHECKED.search(line), spent_by(run)
            if found:
                told.append((found[1], now - last))
                first = first or now
            last = now if found or told else last
        status = run.wait()
    finally:
        end_all(run)
    if told:
        told[0] = told[0][0], 0.0
    return told, first, max(last - first - sum(it for _, it in told), 0), status == 0


def main() -> int:
    words = sys.argv[2:]
    if not words or not (Path(sys.argv[1]) / "crates" / words[0] / "src").is_dir():
        print("usage: bench/run functions CRATE [NUMBER]", file=sys.stderr)
        return 2
    Held()
    top, crate, most = Path(sys.argv[1]), words[0], int(words[1]) if len(words) > 1 else 40
    with tempfile.TemporaryDirectory(prefix="pvtag-functions-", dir=os.environ.get("TMPDIR")) as room:
        told, first, rest, is_proved = seconds(copied(top, crate, Path(room) / "top"))
    built = bodies(top, crate)
    print(f"{'seconds':>8}{'calls':>7}{'drops':>7}  function")
    for name, took in sorted(told, key=lambda it: -it[1])[:most]:
        body = built.get(name.removeprefix(f"{crate}::"))
        print(f"{took:8.1f}" + (f"{body.calls:7}{body.drops:7}" if body else f"{'':14}") + f"  {name}")
    print(f"{sum(took for _, took in told):.0f} seconds of a processor for {len(told)} functions, {first:.0f} up to the first, {rest:.0f} after the last")
    wide = [name for name, body in built.items() if body.calls > 40 or body.drops > 10]
    print(f"{len(built)} compiled bodies; more than forty calls or ten drops: {', '.join(wide) or 'none'}")
    if not is_proved:
        print("the crate isn't proved, so these aren't all")
    return int(not is_proved)


if __name__ == "__main__":
    sys.exit(main())
