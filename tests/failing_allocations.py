"""Lets each allocation of a session fail in turn, and then those of the other commands, of `check` on lists that one thread judges, and on more.

Words: PROGRAM MOST. A C compiler makes a library that is loaded before the C library and lets allocation number N give nothing; N goes up
until a run asks for fewer, or up to MOST. Where a run ends with status 5, or with 10 for want of words, it must have written nothing. Else
one line at most answers `no memory`, and the replies to the other lines must be those to the script without this line: each edit of the
script, `undo`, `redo`, `need`, `complete` and `offer` stand between `show` and `history`, which tell whether anything changed. An edit of each
kind is made, undone and made again; each line that does so must have been without memory in two runs at least, since its reply and its change
take some each. The other commands must end with status 5 and write nothing, or answer as with ample memory; of the allocations of `check`
before the last verdicts one in FEW is tried, or one in FEWER where the document is opened for threads. Prints each difference, and how many runs passed; ends with 1 where one failed.
"""
import os
import subprocess
import sys
import tempfile
from collections import Counter

LIBRARY = r"""
#include <errno.h>
#include <stdio.h>
#include <stdlib.h>
#include <sys/syscall.h>
#include <unistd.h>
extern void *__libc_malloc(size_t), *__libc_calloc(size_t, size_t), *__libc_realloc(void *, size_t), *__libc_memalign(size_t, size_t);
static long left = -1;
__attribute__((constructor)) static void begin(void) { left = atol(getenv("FAIL_AT")); }
static void count(void) { if (getenv("COUNTED")) dprintf(2, "%ld", -left); }
__attribute__((destructor)) static void end(void) { count(); }
// By this a program with threads ends, and then no destructor runs.
void _exit(int status) { count(); for (;;) syscall(SYS_exit_group, status); }
static int fails(void) {
    if (__atomic_sub_fetch(&left, 1, __ATOMIC_SEQ_CST)) return 0;
    write(2, "failed", 6);
    errno = ENOMEM;
    return 1;
}
void *malloc(size_t n) { return fails() ? 0 : __libc_malloc(n); }
void *calloc(size_t n, size_t m) { return fails() ? 0 : __libc_calloc(n, m); }
void *realloc(void *p, size_t n) { return fails() ? 0 : __libc_realloc(p, n); }
void *memalign(size_t a, size_t n) { return fails() ? 0 : __libc_memalign(a, n); }
void *aligned_alloc(size_t a, size_t n) { return fails() ? 0 : __libc_memalign(a, n); }
int posix_memalign(void **p, size_t a, size_t n) { return fails() || !(*p = __libc_memalign(a, n)) ? 12 : 0; }
"""

DTD = """<!ELEMENT doc (head, sec+)>
<!ELEMENT head (#PCDATA)>
<!ELEMENT sec (title?, p*)>
<!ELEMENT title (#PCDATA)>
<!ELEMENT p (#PCDATA|em|br)*>
<!ELEMENT em (#PCDATA)>
<!ELEMENT br EMPTY>
"""
DOCUMENT = '<?xml version="1.0"?>\n<doc lang="en">Hello, you&amp;me<em/></doc>\n'

MOVES = ["wrap 0 0 1 br", "need", "complete", "offer 0 0 1", "split 0.0 5", "undo", "redo", "wrap 0 0 1 head", "undo", "redo",
         "text 0.1 a&nbsp;", "text 0.1 you", "undo", "redo", "addtext 0 2 !", "undo", "redo", "join 0.1", "undo", "redo",
         "deltext 0.0.0", "undo", "redo", "undo", "wrap 0 1 3 p", "wrap 0 1 2 sec", "rename 0.1 title", "rename 0.0 title", "undo", "redo",
         "offer 0.1", "offer 0.9", "unwrap 0.1.0.1", "undo", "redo", "undo", "insert 0.1.0 1 br", "undo", "redo", "unwrap 0.9", "nothing",
         "undo", "undo", "wrap 0 0 1 br", "redo", "undo", "addtext 0 9 x", "redo"]
# What a line begins with that makes an edit, undoes one, or makes one again.
MAKING = ["wrap", "insert", "unwrap", "rename", "split", "join", "text", "addtext", "deltext", "undo", "redo"]


def script_of():
    lines = ["show", "history"]
    for move in MOVES:
        lines += [move, "show", "history"]
    return [*lines, "quit", "show"]


def run(program, script, fail_at, library):
    environment = {"LD_PRELOAD": library, "FAIL_AT": str(fail_at)}
    text = "".join(f"{line}\n" for line in script).encode()
    ran = subprocess.run([program, "session", "a.dtd", "doc", "d.xml"], input=text, capture_output=True, env=environment)
    return ran.returncode, ran.stdout, ran.stderr == b"failed"


def replies_of(output, script):
    """The replies, one for each line that has one."""
    replies, rest = [], output
    for _ in script:
        if not rest:
            break
        line, rest = rest.split(b"\n", 1)
        words = line.split()
        if words[0] in (b"show", b"completed"):
            size = int(words[-1])
            line, rest = line + b"\n" + rest[:size], rest[size + 1:]
        if words[0] in (b"history", b"offer"):
            more = rest.split(b"\n", int(words[1]))
            line, rest = b"\n".join([line, *more[:-1]]), more[-1]
        replies.append(line)
    return replies, rest


class Trial:
    def __init__(self, program, library):
        self.program, self.library, self.script = program, library, script_of()
        self.without = {}
        self.passed = self.failed = self.reached = 0
        # By the number of a line, how many runs had no memory for it.
        self.silent = Counter()

    def output_without(self, number):
        """The replies to the script without this line; all of it where there is none."""
        if number not in self.without:
            script = [line for at, line in enumerate(self.script) if at != number]
            status, output, _ = run(self.program, script, 0, self.library)
            assert status == 0, f"status {status} with ample memory"
            self.without[number] = output
        return self.without[number]

    def fault(self, status, output):
        """What is wrong with a run; nothing where it is right."""
        if status in (5, 10):
            return f"output with status {status}" if output else None
        if status != 0:
            return f"status {status}"
        replies, rest = replies_of(output, self.script)
        silent = [at for at, reply in enumerate(replies) if reply == b"no memory"]
        if rest or len(silent) > 1:
            return "more than one line without memory, or bytes behind the replies"
        self.silent.update(silent)
        kept = b"".join(reply + b"\n" for reply in replies if reply != b"no memory")
        if kept != self.output_without(silent[0] if silent else None):
            return f"the line {self.script[silent[0]]!r} changed something" if silent else "other replies, and no line without memory"
        return None

    def try_at(self, number):
        """Whether the run got as far as this allocation."""
        status, output, reached = run(self.program, self.script, number, self.library)
        if reached:
            self.reached += 1
            fault = self.fault(status, output)
            self.failed += fault is not None
            self.passed += fault is None
            if fault:
                print(f"allocation {number}: {fault}, status {status}, output {output!r}")
        return reached

    def untried(self):
        """What isn't made in the script; and the lines that make something and were without memory in less than two runs."""
        replies, _ = replies_of(self.output_without(None), self.script)
        making = [at for at, reply in enumerate(replies) if reply.startswith(b"ok ")]
        made = {self.script[at].split()[0] for at in making}
        yield from (f"no {word} was made" for word in MAKING if word not in made)
        seldom = [at for at in making if self.silent[at] < 2]
        yield from (f"line {at}, {self.script[at]!r}: without memory in {self.silent[at]} runs" for at in seldom)


# Lists that are judged by a table: by one thread while the text is read, or so many tokens that the document is opened for threads.
LISTS_DTD = "<!ELEMENT r (a*)><!ELEMENT a (b, c)><!ELEMENT b (#PCDATA)><!ELEMENT c EMPTY>"
LISTS = f"<r>{('<a>' + 400 * '<![CDATA[x]]>' + '</a>') * 24}</r>"
MORE_LISTS = f"<r>{('<a>' + 2800 * '<![CDATA[x]]>' + '</a>') * 24}</r>"
# Of a run with more than MANY allocations the last ones, which are more than those of the verdicts, are all tried, and one in FEW of the others.
MANY, LAST, FEW, FEWER = 1500, 800, 41, 1009


class AnswerTrial:
    """A command that answers once, with an allocation that fails: the answer with ample memory, or want of memory."""

    def __init__(self, program, library, words, begins, few=FEW):
        self.words, self.name, self.library, self.few = [program, *words], words[0], library, few
        self.passed = self.failed = self.silent = 0
        counted = self.run({"FAIL_AT": "0", "COUNTED": "1"})
        self.wanted, self.count = (counted.returncode, counted.stdout), int(counted.stderr)
        if self.wanted[0] != 0 or not self.wanted[1].startswith(begins):
            self.failed += 1
            print(f"{self.name}, with ample memory: {self.wanted}")

    def run(self, environment):
        return subprocess.run(self.words, capture_output=True, env={"LD_PRELOAD": self.library, **environment})

    def try_at(self, number):
        ran = self.run({"FAIL_AT": str(number)})
        is_silent = ran.returncode in (5, 10) and ran.stdout == b""
        self.silent += is_silent
        if is_silent or (ran.returncode, ran.stdout) == self.wanted:
            self.passed += 1
        else:
            self.failed += 1
            print(f"{self.name}, allocation {number}: status {ran.returncode}, output {ran.stdout!r}")

    def try_all(self):
        for number in range(1, self.count + 1):
            if self.failed < 20 and (self.count <= MANY or number % self.few == 0 or number > self.count - LAST):
                self.try_at(number)
        print(f"{self.name}: {self.count} allocations, {self.passed + self.failed} tried, {self.silent} without memory")
        if self.silent == 0:
            print(f"no {self.name} was without memory")
            self.failed += 1


# Ranges beside the document's text, which become the document with a head, a sec and an em.
TEXT = "Hello, you&amp;me"
RANGES = "0 6 0 head\n7 13 0 sec\n7 13 1 p\n7 10 2 em\n"


def answers_of(program, library):
    """The commands that answer once: `check` on lists that one thread judges, and two; `complete` and `verify` of its pack; `why` and `deny` of its
    denial; and the others."""
    yield AnswerTrial(program, library, ["dtd", "a.dtd"], b"doc children ")
    yield AnswerTrial(program, library, ["valid", "a.dtd", "doc", "v.xml"], b"valid\n")
    yield AnswerTrial(program, library, ["drill", "3"], b"drill 3 ")
    yield AnswerTrial(program, library, ["check", "l.dtd", "r", "l.xml"], b"possible 24\n")
    yield AnswerTrial(program, library, ["check", "l.dtd", "r", "m.xml"], b"possible 24\n", FEWER)
    complete = AnswerTrial(program, library, ["complete", "a.dtd", "doc", "d.xml"], b"pvpack 1\n")
    with open("d.pack", "wb") as file:
        file.write(complete.wanted[1])
    yield complete
    yield AnswerTrial(program, library, ["verify", "a.dtd", "doc", "d.xml", "d.pack"], b"accepted ")
    why = AnswerTrial(program, library, ["why", "a.dtd", "doc", "i.xml"], b"pvdeny 1\n")
    with open("i.denial", "wb") as file:
        file.write(why.wanted[1])
    yield why
    yield AnswerTrial(program, library, ["deny", "a.dtd", "doc", "i.xml", "i.denial"], b"denied ")
    yield AnswerTrial(program, library, ["standoff", "a.dtd", "doc", "t.txt", "r.txt"], b"valid\n")


def main():
    program, most = os.path.abspath(sys.argv[1]), int(sys.argv[2])
    with tempfile.TemporaryDirectory() as folder:
        os.chdir(folder)
        for name, text in [("a.dtd", DTD), ("d.xml", DOCUMENT), ("v.xml", "<doc><head/><sec/></doc>"), ("i.xml", "<doc><sec/><head/></doc>"), ("l.dtd", LISTS_DTD), ("l.xml", LISTS), ("m.xml", MORE_LISTS),
                           ("t.txt", TEXT), ("r.txt", RANGES), ("failing.c", LIBRARY)]:
            with open(name, "w", encoding="utf-8") as file:
                file.write(text)
        library = os.path.join(folder, "failing.so")
        subprocess.run(["cc", "-shared", "-fPIC", "-w", "-o", library, "failing.c"], check=True)
        trial = Trial(program, library)
        number = 1
        while number <= most and trial.failed < 20 and trial.try_at(number):
            number += 1
        gaps = list(trial.untried())
        answers = list(answers_of(program, library))
        for answer in answers:
            answer.try_all()
        os.chdir("/")
    print(f"allocations {trial.reached}, lines without memory {sum(trial.silent.values())}")
    if number > most:
        print(f"more than {most} allocations: the rest is untried")
        trial.failed += 1
    for gap in gaps:
        print(gap)
        trial.failed += 1
    passed = trial.passed + sum(answer.passed for answer in answers)
    failed = trial.failed + sum(answer.failed for answer in answers)
    print(f"failing allocations: {passed} passed, {failed} failed")
    sys.exit(1 if failed else 0)


main()
