"""Cases that are judged and counted, and what is wrong with one."""
import re
import subprocess


class Fault(Exception):
    pass


def need(holds, what):
    if not holds:
        raise Fault(what)


def same(got, want, what):
    need(got == want, f"{what}: {got!r} for {want!r}")


def output(program, *words, script=""):
    ran = subprocess.run([program, *words], input=script.encode(), capture_output=True)
    return ran.returncode, ran.stdout


class Expecting:
    """What is expected one by one, and how much of it passed."""

    def __init__(self) -> None:
        self.passed = self.failed = 0

    def expect(self, what: str, holds: bool, shown: object = "") -> None:
        self.passed, self.failed = self.passed + holds, self.failed + (not holds)
        if not holds:
            print(f"{what}: {str(shown)[:800]}", flush=True)

    def ended(self) -> int:
        """Says how much passed, and gives the status of the test."""
        print(f"{self.passed} passed, {self.failed} failed")
        return int(self.failed > 0)


class Counting:
    """How many cases of a program passed, and how often each answer came."""

    def __init__(self, program):
        self.program = program
        self.passed = self.failed = 0
        self.answers = {}

    def tell(self, name, judged):
        """Counts what is judged, which gives an answer, or tells what is wrong."""
        try:
            answer = judged()
            self.passed += 1
        except Exception as fault:
            answer = None
            self.failed += 1
            print(f"{name}: {type(fault).__name__}: {fault}", flush=True)
        return answer

    def row(self, case, given, wanted):
        """What a case answers to a pack or a denial that stands in the test."""
        def judged():
            answer = case.answer(given)
            need(answer == wanted, f"{answer}, and not {wanted}")

        self.tell(f"{given[:200]!r}", judged)

    def count(self, name, judged):
        """Counts the answer too, without its numbers."""
        answer = re.sub(" [0-9.]*$", "", self.tell(name, judged) or "failed")
        self.answers[answer] = self.answers.get(answer, 0) + 1
