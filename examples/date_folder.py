"""Tags the dates in all letters of a folder. Words: DTD ROOT FOLDER TO, where TO is a new folder for what comes of them."""
import re
import sys
import time
from pathlib import Path

sys.path[:0] = ["clients", "/usr/lib/pvtag/clients"]
from pvtag.program import find
from pvtag.session import Ended, Session

DATE = re.compile(r"\d{1,2} [A-Z][a-z]+ \d{4}")
dtd, root, folder, to = sys.argv[1:]
program, begun, made, refused = find(), time.monotonic(), 0, 0
Path(to).mkdir()
for file in sorted(Path(folder).glob("*.xml")):
    try:
        with Session(program, dtd, root, file) as session:
            for path, text in reversed(session.texts()):
                for found in reversed(list(DATE.finditer(text))):
                    if session.wrap_text(path, *found.span(), "date"):
                        made += 1
                    else:
                        refused += 1
                        print(f"{file}: no room in {path}: {found[0]}", file=sys.stderr)
            Path(to, file.name).write_bytes(session.show())
    except Ended as ended:
        print(f"{file}: {ended.line}", file=sys.stderr)
took = time.monotonic() - begun
print(f"{made} dates tagged, {refused} had no room, {(made + refused) / took:.0f} a second")
