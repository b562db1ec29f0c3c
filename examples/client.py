import os, subprocess, sys
program = "./pvtag" if os.path.isfile("./pvtag") else "pvtag"
pvtag = subprocess.Popen([program, "session"] + sys.argv[1:], stdin=subprocess.PIPE, stdout=subprocess.PIPE)
def ask(line):
    pvtag.stdin.write(line.encode() + b"\n")
    pvtag.stdin.flush()
    reply = pvtag.stdout.readline().decode()
    if reply.startswith(("show ", "completed ")):
        return pvtag.stdout.read(int(reply.split()[-1]) + 1).decode()
    if reply.startswith(("history ", "verdicts ", "offer ")):
        return reply + "".join(pvtag.stdout.readline().decode() for _ in range(int(reply.split()[1])))
    return reply
for line in ("wrap 0.0 0 1 p", "offer 0.0 0 1", "wrap 0.0 0 1 salute", "show"):
    print(line, "->", ask(line), end="")
