import re, sys
sys.path[:0] = ["clients", "/usr/lib/pvtag/clients"]
from pvtag.program import find
from pvtag.session import Session
with Session(find(), *sys.argv[1:4]) as session:
    for path, text in reversed(session.texts()):
        for found in reversed(list(re.finditer(r"\d{1,2} [A-Z][a-z]+ \d{4}", text))):
            if not session.wrap_text(path, *found.span(), "date"):
                print(f"no room in {path}: {found[0]}", file=sys.stderr)
    sys.stdout.buffer.write(session.show())
