"""What tests of wide lists share: a program with `pvlong` beside it, or a stand-in for that, and a document that is too wide to count."""
import contextlib
import os
import tempfile

# Under a DTD of so many parts a session takes lists of some four thousand kids, and not so many.
MANY_PARTS = f"<!ELEMENT r (a*, b)><!ELEMENT a EMPTY><!ELEMENT b EMPTY><!ELEMENT n ({','.join(['a?'] * 8_000)})>"
TOO_MANY = "<a/>" * 4500
WIDE = f"<doc>{'<p>words</p>' * 3000}</doc>"
VALID = WIDE.replace("<doc>", "<doc><head></head><sec>").replace("</doc>", "</sec></doc>")
# It keeps a line for each run, and the seconds that it is given, and inserts what a wide document lacks. One that is held waits; one that is slow
# waits a tenth of a second for each that it is given, and six minutes where it is given none.
STAND_IN = r"""#!/bin/sh
echo "$1" >>"$0.runs"
echo "$PVLONG_SECONDS" >"$0.seconds"
while [ -e "$0.held" ]; do sleep 0.05; done
left=${PVLONG_SECONDS:-3600}
while [ -e "$0.slow" ] && [ "$left" -gt 0 ]; do
    sleep 0.1
    left=$((left - 1))
done
read -r status line <"$0.$1"
case $line in
"") sed 's|<doc\([^>]*\)>|<doc\1><head></head><sec>|; s|</doc>|</sec></doc>|' "$4" ;;
*) echo "$line" ;;
esac
exit "$status"
"""


class Beside:
    """A program with another beside it: `pvlong`, or a stand-in for it."""

    def __init__(self, program, other=None):
        self.place = tempfile.TemporaryDirectory()
        self.folder, self.program = self.place.name, os.path.join(self.place.name, "pvtag")
        self.other = os.path.join(self.folder, "pvlong")
        os.symlink(program, self.program)
        if other is not None:
            os.symlink(other, self.other)
            return
        with open(self.other, "w", encoding="utf-8") as file:
            file.write(STAND_IN)
        os.chmod(self.other, 0o755)
        self.tells("0 need 2", "0 ")

    def tells(self, count, completion, check="0 valid"):
        """What it answers from now on, each after its status; a completed document where no line is told."""
        for name, answer in (("need", count), ("complete", completion), ("check", check)):
            with open(f"{self.other}.{name}", "w", encoding="utf-8") as file:
                file.write(answer + "\n")

    @contextlib.contextmanager
    def held(self):
        """It waits, and keeps count anew."""
        for name in ("held", "runs"):
            with open(f"{self.other}.{name}", "w", encoding="utf-8"):
                pass
        yield
        with contextlib.suppress(FileNotFoundError):
            os.unlink(f"{self.other}.held")

    @contextlib.contextmanager
    def slow(self):
        """It looks as long as it may."""
        with open(f"{self.other}.slow", "w", encoding="utf-8"):
            pass
        yield
        os.unlink(f"{self.other}.slow")

    def seconds(self):
        """How many seconds it was given, in its last run."""
        with open(f"{self.other}.seconds", encoding="utf-8") as file:
            return file.read().strip()

    def is_running(self):
        return os.path.getsize(f"{self.other}.runs") > 0

    def __enter__(self):
        return self

    def __exit__(self, *_):
        self.place.cleanup()
