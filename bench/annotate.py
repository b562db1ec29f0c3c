"""What the page of `clients/annotate` takes, on documents of 300 kB and 3 MB: to open, and for a move and its undo,
from the request until it is drawn.

Words: PROGRAM, and folders of further copies of this repository, which are measured in turn with this one. Needs what
`tests/annotate.py` needs. Prints the least processor time of some runs, in milliseconds: that of the server with its
session, and that of the page's thread.
"""
import os
import subprocess
import sys
import tempfile
import time

TOP = os.path.dirname(os.path.dirname(os.path.abspath(__file__)))
sys.dont_write_bytecode = True
sys.path.insert(0, os.path.join(TOP, "tests"))

from annotate import python_with_selenium  # noqa: E402

PYTHON = python_with_selenium()
if PYTHON not in (None, sys.executable):
    os.execv(PYTHON, [PYTHON, *sys.argv])

from lib.annotate.browser import browser  # noqa: E402
from lib.annotate.fixture import ARTICLE, soon  # noqa: E402

RUNS = 2
SECTION = "<sec><title>Section {0}</title><p>Text of section {0}, <em>with</em> emphasis, and some more words of it.</p></sec>"
SIZES = {"300 kB": 3000, "3 MB": 30000}
# A move or an undo, until the page has drawn what came of it.
CHANGE = """
const [name, done] = arguments
import('./app.js').then(async ({ app, change }) => {
    const text = [...app.tree.all()].find((node) => node.kind === 'text' && node.text.startsWith('Text of'))
    const place = { list: text.owner.id, from: [text.id, 0], to: [text.id, 4] }
    await change(name, name === 'move' ? { kind: 'wrap', place, name: 'em' } : {})
    requestAnimationFrame(() => requestAnimationFrame(() => done(true)))
})
"""
TICK = os.sysconf("SC_CLK_TCK") / 1000


class Watch:
    """Reads processor times, in milliseconds."""

    def __init__(self, driver, server):
        self.driver, self.server = driver, server
        driver.execute_cdp_cmd("Performance.enable", {"timeDomain": "threadTicks"})

    def read(self):
        metrics = {row["name"]: row["value"] for row in self.driver.execute_cdp_cmd("Performance.getMetrics", {})["metrics"]}
        return used_by(self.server.pid), 1000 * metrics["TaskDuration"]


def used_by(process):
    """The processor time of a process and of those that it began and that still run."""
    with open(f"/proc/{process}/stat", encoding="ascii", errors="replace") as file:
        words = file.read().rpartition(")")[2].split()
    with open(f"/proc/{process}/task/{process}/children", encoding="ascii") as file:
        children = file.read().split()
    return sum(map(int, words[11:15])) / TICK + sum(map(used_by, children))


def measure(top, program, doc):
    """The times of opening, of a move and of its undo, after a first one that isn't measured."""
    words = [sys.executable, os.path.join(top, "clients", "annotate", "annotate"), ARTICLE, "doc", doc, "--program", program]
    driver = browser()
    driver.set_script_timeout(120)
    try:
        with subprocess.Popen(words, stdout=subprocess.PIPE, text=True) as server:
            watch = Watch(driver, server)
            driver.get(server.stdout.readline().split()[-1])
            soon(lambda: driver.execute_script("return document.getElementById('next').textContent"), lambda text: text != "…", "the page opens", 240)
            time.sleep(1)
            times, before = [watch.read()], watch.read()
            for name in ("move", "undo", "move", "undo"):
                driver.execute_async_script(CHANGE, name)
                now = watch.read()
                times.append([later - earlier for earlier, later in zip(before, now)])
                before = now
            server.terminate()
        return [times[0], *times[3:]]
    finally:
        driver.quit()


def main():
    program, tops = os.path.abspath(sys.argv[1]), [TOP, *map(os.path.abspath, sys.argv[2:])]
    for size, count in SIZES.items():
        rows = {top: [] for top in tops}
        for _ in range(RUNS):
            for top in tops:
                with tempfile.TemporaryDirectory() as folder:
                    doc = os.path.join(folder, "doc.xml")
                    with open(doc, "w", encoding="utf-8") as file:
                        file.write("<doc><head>Big</head>" + "".join(SECTION.format(number) for number in range(count)) + "</doc>")
                    rows[top].append(measure(top, program, doc))
        for top in tops:
            told = [" + ".join(str(round(min(column))) for column in zip(*step)) for step in zip(*rows[top])]
            print(f"{size}, server + page: opened {told[0]} ms, a move {told[1]} ms, its undo {told[2]} ms ({top})", flush=True)


if __name__ == "__main__":
    main()
