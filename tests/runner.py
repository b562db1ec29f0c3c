"""Tries tests/run.py on checks that hang with children, print odd bytes, or lack tools. The last line tells how many passed."""
import contextlib
import io
import os
import signal
import subprocess
import sys
import tempfile
from pathlib import Path

import run as runner
from lib.waiting import PATIENCE, until
from processes import session_of  # noqa: E402

BAD = b"\xff\x00\nexpansions of a: 3 passed, 0 failed\n"
# It starts a process of a session of its own, and doesn't end.
HANGS = "import subprocess, sys, time; run = subprocess.Popen(['sleep', '4321'], start_new_session=True); print(run.pid, flush=True); time.sleep(4321)"
passed = failed = 0


def expect(what: str, holds: bool, shown: object = "") -> None:
    global passed, failed
    passed, failed = passed + holds, failed + (not holds)
    if not holds:
        print(f"{what}: {shown!r}")


def check(words: list[str], seconds: int = 30, tools: tuple[str, ...] = ()) -> runner.Check:
    return runner.Check("one", "what is tried", list(tools), seconds, words)


def result(words: list[str], **more: object) -> tuple[runner.Result, str]:
    return runner.Runs().result_of(check(words, **more))  # type: ignore[arg-type]


def is_running(number: int) -> bool:
    with contextlib.suppress(OSError):
        return b") Z " not in Path(f"/proc/{number}/stat").read_bytes()
    return False


def has_ended(number: int) -> bool:
    return until(lambda: not is_running(number))


def try_counts() -> None:
    for text, status, wanted in (("3 passed, 1 failed\n", 1, (3, 1)), ("against xmllint: 3 passed, 0 failed\n", 0, (3, 0)), ("", 0, (0, 1)),
                                 ("3 passed, 0 failed\n", 1, (3, 1)), ("3 passed, 0 failed\n", None, (3, 1)), ("0 passed, 0 failed\n", 0, (0, 1)),
                                 ("skipped: all\n0 passed, 0 failed\n", 0, (0, 0)), ("9 passed, 9 failed\n3 passed, 0 failed\n", 0, (3, 0))):
        expect("what a check tells", runner.counted(text, status) == wanted, (text, status))


def try_checks(folder: Path) -> None:
    odd = folder / "odd"
    odd.write_bytes(BAD)
    told, shown = result(["cat", str(odd)])
    expect("odd bytes", (told.passed, told.failed) == (3, 0) and "\ufffd" in shown, told)
    shown, seconds = "", 1
    while not shown[:1].isdigit() and seconds < PATIENCE:
        # So many seconds that it has begun by then.
        seconds *= 2
        told, shown = result([sys.executable, "-c", HANGS], seconds=seconds)
    expect("a check that hangs", told.failed == 1 and "out of time" in shown and has_ended(int(shown.split()[0])), shown)
    told, shown = result(["/nothing/there"])
    expect("no such command", told.failed == 1 and "status 127" in shown, shown)
    told, shown = result(["true"], tools=("no-such-tool",))
    expect("a tool is missing", told.is_skipped and told.failed == 0 and "no no-such-tool" in shown, shown)


def try_again(folder: Path) -> None:
    """What fails beside others is run once more, alone; what fails then has failed."""
    once = f"rm {folder}/once 2>/dev/null && echo 1 passed, 2 failed || echo 3 passed, 0 failed"
    (folder / "once").touch()
    with contextlib.redirect_stdout(io.StringIO()) as said:
        told = runner.run([check(["sh", "-c", once]), check(["echo", "5 passed, 1 failed"]), check(["echo", "7 passed, 0 failed"])])
    counts = sorted((it.passed, it.failed, it.is_second) for it in told)
    expect("a second try", counts == [(3, 0, True), (5, 1, True), (7, 0, False)], counts)
    expect("both are shown", said.getvalue().count("once more, alone") == 2 and "1 passed, 2 failed" in said.getvalue(), said.getvalue())


def try_interrupted() -> None:
    """A run of checks that is ended takes all with it, and doesn't begin the others."""
    script = ("import sys; sys.path.insert(0, sys.argv[1]); import run; "
              f"run.CHECKS = [run.Check('a', '', [], 4000, [sys.executable, '-c', {HANGS!r}]) for _ in range(40)]; run.main([])")
    for number in (signal.SIGINT, signal.SIGTERM):
        ended = subprocess.Popen([sys.executable, "-c", script, str(runner.TOP / "tests")], stdout=subprocess.PIPE, stderr=subprocess.PIPE,
                                 start_new_session=True)
        begun = until(lambda: [pid for pid in session_of(ended.pid) if pid != ended.pid])
        os.kill(ended.pid, number)
        # None of the checks ends by itself.
        ended.communicate(timeout=PATIENCE)
        expect("it ends", ended.returncode == 128 + number, ended.returncode)
        expect("with all that it began", bool(begun) and all(map(has_ended, begun)), begun)


def main() -> int:
    with tempfile.TemporaryDirectory(prefix="pvtag-runner-") as folder:
        try_counts()
        try_checks(Path(folder))
        try_again(Path(folder))
        try_interrupted()
    print(f"{passed} passed, {failed} failed")
    return 1 if failed else 0


if __name__ == "__main__":
    sys.exit(main())
