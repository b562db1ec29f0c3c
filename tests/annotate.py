"""Drives `clients/annotate` in a headless browser, by mouse and keyboard alone.

Words: PROGRAM, and names of cases, all where there are none. Needs Chromium, its driver and Selenium (Debian's
`chromium`, `chromium-driver`, `python3-selenium`); skipped where they are missing. Each case begins a server of its own
on a document of its own. Prints each difference, and how many cases passed; ends with 1 where one failed. Where SHOTS
is set, a failed case leaves a picture of the page in that folder.
"""
import contextlib
import os
import random
import shutil
import subprocess
import sys
import traceback

sys.dont_write_bytecode = True

from lib.annotate.fixture import Fault, same  # noqa: E402

# Where cases stand, and what they share.
CASES = os.path.join("lib", "annotate")
SHARED = ("fixture.py", "browser.py")


def python_with_selenium():
    """This Python, or else that of the system, where it has Selenium."""
    for python in (sys.executable, "/usr/bin/python3"):
        if os.path.exists(python) and subprocess.run([python, "-c", "import selenium"], capture_output=True).returncode == 0:
            return python
    return None


def cases():
    from lib.annotate import drawing, files, filling, folders, keys, markup, offers, quick, texts, trial, views

    modules = (keys, filling, markup, offers, quick, texts, views, files, folders, drawing, trial)
    return [case for module in modules for case in module.CASES]


def run(case, program):
    """Runs one case in a browser of its own; whether it passed."""
    from lib.annotate.browser import browser

    driver = None
    try:
        driver = browser()
        case(driver, program)
        # A server that is ended answers no more; a page in which nobody has clicked may not ask before it closes.
        told = [entry["message"] for entry in driver.get_log("browser")]
        faults = [message for message in told if "net::ERR_" not in message and "'beforeunload'" not in message]
        same(faults, [], "the browser's log")
        return True
    except Exception as fault:
        # Whatever a case raises, the others are run.
        print(f"{case.__name__}: {fault if isinstance(fault, Fault) else repr(fault)}{where(fault)}", flush=True)
        if driver is not None and "SHOTS" in os.environ:
            with contextlib.suppress(Exception):
                driver.save_screenshot(os.path.join(os.environ["SHOTS"], f"{case.__name__}.png"))
        return False
    finally:
        if driver is not None:
            with contextlib.suppress(Exception):
                driver.quit()


def where(fault):
    """The line of the case that has failed."""
    lines = [frame for frame in traceback.extract_tb(fault.__traceback__) if CASES in frame.filename and not frame.filename.endswith(SHARED)]
    return f" ({os.path.basename(lines[-1].filename)}, line {lines[-1].lineno})" if lines else ""


def main():
    python = python_with_selenium()
    missing = [tool for tool in ("chromium", "chromedriver") if shutil.which(tool) is None]
    missing += [] if python else ["python3-selenium"]
    if missing:
        print(f"skipped: the page in a browser (no {', '.join(missing)})\nannotate: 0 passed, 0 failed")
        return 0
    if python != sys.executable:
        os.execv(python, [python, *sys.argv])
    random.seed(1)
    program, wanted = os.path.abspath(sys.argv[1]), sys.argv[2:]
    results = [run(case, program) for case in cases() if not wanted or case.__name__ in wanted]
    print(f"annotate: {sum(results)} passed, {results.count(False)} failed")
    return not all(results)


if __name__ == "__main__":
    sys.exit(main())
