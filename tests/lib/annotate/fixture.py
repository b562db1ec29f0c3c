"""What the tests of `clients/annotate` share: waiting, comparing, and a server on a document in a folder of its own."""
import http.client
import json
import os
import re
import shutil
import signal
import subprocess
import sys
import tempfile
import time

from lib.counting import Fault, need, same
from lib.waiting import PATIENCE

try:
    from selenium.common import exceptions as browsers
except ImportError:
    browsers = None

TOP = os.path.abspath(os.path.join(__file__, *[os.pardir] * 4))
FOLDER = os.path.join(TOP, "clients", "annotate")
EXAMPLES = os.path.join(TOP, "examples")
LETTER = os.path.join(EXAMPLES, "letter.dtd")
ARTICLE = os.path.join(EXAMPLES, "article.dtd")
DRAFT = "<letter><opener>Dear brother,</opener>\n<body><p>I have met Mr Adams in Delft.</p></body></letter>\n"


# What is kept of a user's windows is kept for these tests alone.
STATE = tempfile.TemporaryDirectory()
os.environ["XDG_STATE_HOME"] = STATE.name

# What is raised where something isn't there yet, or is just being drawn anew.
NOT_YET = (LookupError, TypeError, ValueError, AttributeError, FileNotFoundError)
if browsers is not None:
    NOT_YET += (browsers.NoSuchElementException, browsers.StaleElementReferenceException, browsers.ElementNotInteractableException,
                browsers.ElementClickInterceptedException, browsers.MoveTargetOutOfBoundsException, browsers.JavascriptException)


def soon(get, want, what, seconds=PATIENCE):
    """Waits until this is so; what raises for what isn't there yet isn't so yet."""
    end = time.monotonic() + seconds
    while True:
        try:
            got = get()
            if got == want or callable(want) and want(got):
                return got
            told = repr(got)
        except NOT_YET as fault:
            told = f"{type(fault).__name__}: {str(fault).strip().splitlines()[:1]}"
        need(time.monotonic() < end, f"{what}: {told}{'' if callable(want) else f' for {want!r}'}")
        time.sleep(0.03)


class Server:
    """An annotate on a document in a folder of its own."""

    def __init__(self, program, source, dtd=LETTER, root="letter"):
        self.folder = tempfile.mkdtemp()
        self.doc = os.path.join(self.folder, "doc.xml")
        self.words = [sys.executable, os.path.join(FOLDER, "annotate"), dtd, root, self.doc, "--program", program]
        self.process = None
        if source is not None:
            self.write(source)

    def __enter__(self):
        if os.path.exists(self.doc):
            self.start()
        return self

    def start(self, *more):
        self.process = subprocess.Popen([*self.words, *more], stdout=subprocess.PIPE, stderr=subprocess.PIPE, text=True)
        line = self.process.stdout.readline()
        need(line.startswith("annotate: open http"), f"the server began with {line!r}, {'' if line else self.process.stderr.read()!r}")
        self.url = line.split()[-1]
        self.port, self.token = re.fullmatch(r"http://127\.0\.0\.1:(\d+)/([\w-]{32})/", self.url).groups()

    def stop(self, number=signal.SIGINT):
        self.process.send_signal(number)
        return self.wait()

    def wait(self):
        """The status, and what was written as faults."""
        status = self.process.wait(timeout=PATIENCE)
        return status, self.process.stderr.read()

    def path(self, name="doc.xml"):
        return os.path.join(self.folder, name)

    def write(self, text, name="doc.xml"):
        with open(self.path(name), "w", encoding="utf-8", newline="") as file:
            file.write(text)

    def text(self, name="doc.xml"):
        with open(self.path(name), encoding="utf-8", newline="") as file:
            return file.read()

    def files(self):
        return sorted(os.listdir(self.folder))

    def request(self, method, path, body=None, **headers):
        """The status and the body; a header that is none isn't sent."""
        connection = http.client.HTTPConnection("127.0.0.1", int(self.port), timeout=PATIENCE)
        connection.putrequest(method, path, skip_host=True, skip_accept_encoding=True)
        given = {"Host": f"127.0.0.1:{self.port}", **{name.replace("_", "-"): value for name, value in headers.items()}}
        if body is not None:
            given.setdefault("Content-Length", str(len(body)))
        for name, value in given.items():
            if value is not None:
                connection.putheader(name, value)
        connection.endheaders()
        if body is not None:
            connection.send(body)
        answer = connection.getresponse()
        text, self.headers = answer.read(), answer.headers
        connection.close()
        return answer.status, text

    def ask(self, name, what=None, status=200, **headers):
        """What the page would be answered."""
        given = {"Origin": f"http://127.0.0.1:{self.port}", "Content_Type": "application/json", **headers}
        got, text = self.request("POST", f"/{self.token}/{name}", json.dumps(what or {}).encode(), **given)
        same(got, status, f"the status of {name}")
        return json.loads(text) if status == 200 else text

    def __exit__(self, *_):
        if self.process is not None:
            if self.process.poll() is None:
                self.process.kill()
                self.process.wait()
            self.process.stdout.close()
            self.process.stderr.close()
        shutil.rmtree(self.folder)


def fault_of(call):
    """What it raises; none where it doesn't."""
    try:
        call()
    except Exception as fault:
        return fault
    return None


def run_cases(name, cases):
    """Runs them, prints what failed and how many passed; the status."""
    passed, failed = 0, 0
    for case in cases:
        try:
            case()
            passed += 1
        except Exception as fault:
            failed += 1
            print(f"{case.__name__}: {fault}" if isinstance(fault, Fault) else f"{case.__name__}: {fault!r}")
    print(f"{name}: {passed} passed, {failed} failed")
    return failed > 0
