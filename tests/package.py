"""Tries `tools/package`: made twice it is the same, it installs into a bare root, each command runs there, and removal leaves nothing.

Words: PVTAG PVLONG, the programs, which are packed. The bare root has this machine's libc and Debian's Python alone; it needs root's rights. The last line tells how
many passed.
"""
import filecmp
import gzip
import os
import re
import shutil
import subprocess
import sys
import tempfile
import urllib.request
from pathlib import Path

from lib.counting import Expecting
from lib.waiting import PATIENCE

TOP = Path(__file__).resolve().parent.parent
PYTHON = "/usr/bin/python3"


class Trial(Expecting):
    """A clone that has the programs, and what passed."""

    def __init__(self, folder: Path, programs: list[Path]) -> None:
        super().__init__()
        self.folder, self.clone, self.root = folder, folder / "clone", folder / "root"
        subprocess.run(["git", "clone", "-q", str(TOP), str(self.clone)], check=True)
        for name, program in zip(("pvtag", "pvlong", "pvmany"), programs):
            subprocess.run([self.clone / "tools/build", name, "--put", str(program)], check=True)

    def make(self, name: str, **more: str) -> list[Path]:
        made = subprocess.run([self.clone / "tools/package", self.folder / name], env={**os.environ, **more}, stdout=subprocess.PIPE, text=True,
                              check=False)
        return [Path(line) for line in made.stdout.splitlines()]

    def inside(self, *words: str, given: str = "") -> subprocess.CompletedProcess[str]:
        """Runs a command in the bare root."""
        return subprocess.run(["chroot", self.root, *words], input=given, capture_output=True, text=True, timeout=PATIENCE, check=False)


def same_bytes(trial: Trial) -> tuple[Path, Path]:
    """Both packages, made twice."""
    one = trial.make("one")
    mask = os.umask(0o077)
    two = trial.make("two", LC_ALL="C", TZ="Asia/Tokyo")
    os.umask(mask)
    trial.expect("two packages", [it.suffix for it in one] == [".deb", ".gz"], one)
    trial.expect("the same twice", len(one) == len(two) and all(map(filecmp.cmp, one, two, [False] * len(one))))
    epoch = subprocess.run(["git", "log", "-1", "--format=%ct"], cwd=trial.clone, capture_output=True, text=True, check=True).stdout.strip()
    told = trial.make("three", SOURCE_DATE_EPOCH=epoch)
    trial.expect("the same by its variable", all(map(filecmp.cmp, one, told, [False] * len(one))))
    trial.expect("no number of seconds", trial.make("four", SOURCE_DATE_EPOCH="now") == [])
    shallow = trial.folder / "shallow"
    subprocess.run(["git", "clone", "-q", "--depth", "1", f"file://{trial.clone}", shallow], check=True)
    shutil.copytree(trial.clone / "build", shallow / "build")
    made = subprocess.run([shallow / "tools/package", trial.folder / "four"], capture_output=True, text=True, check=False)
    trial.expect("a shallow clone, which has no number of commits", made.returncode == 1 and "shallow" in made.stderr, made)
    with (trial.clone / "README.md").open("a") as page:
        page.write("more\n")
    trial.expect("what isn't committed is refused", trial.make("four") == [])
    subprocess.run(["git", "checkout", "-q", "."], cwd=trial.clone, check=True)
    return one[0], one[1]


# What the package puts on the path.
COMMANDS = ("pvtag", "pvlong", "pvmany", "pvtag-annotate", "pvtag-complete", "pvtag-flatten", "pvtag-lsp", "pvtag-mark", "pvtag-ranges", "pvtag-report", "pvtag-standoff", "pvtag-why")


def copy_file(root: Path, file: str) -> None:
    to = root / file.lstrip("/")
    to.parent.mkdir(parents=True, exist_ok=True)
    shutil.copy(file, to)


def libraries(file: str) -> list[str]:
    """What the loader takes for a program: libraries and itself."""
    lines = subprocess.run(["ldd", file], capture_output=True, text=True, check=False).stdout.splitlines()
    return [word for line in lines for word in line.split() if word.startswith("/")]


def bare_root(trial: Trial, programs: list[Path]) -> None:
    """A root with libc, a shell and Debian's Python."""
    for folder in ("dev", "proc", "tmp", "etc", "usr/bin", "usr/lib", "var/lib/dpkg/info", "var/lib/dpkg/updates"):
        (trial.root / folder).mkdir(parents=True, exist_ok=True)
    for name in ("bin", "lib", "lib64"):
        (trial.root / "usr" / name).mkdir(exist_ok=True)
        (trial.root / name).symlink_to(f"usr/{name}")
    (trial.root / "var/lib/dpkg/status").touch()
    (trial.root / "dev/null").touch()
    version = os.path.realpath(PYTHON)
    for file in {PYTHON, version, "/bin/sh", "/usr/bin/env", *libraries(PYTHON), *libraries("/bin/sh"), *libraries("/usr/bin/env"),
                 *(needed for program in programs for needed in libraries(str(program)))}:
        copy_file(trial.root, file)
    shutil.copytree(f"/usr/lib/{Path(version).name}", trial.root / "usr/lib" / Path(version).name, symlinks=True,
                    ignore=shutil.ignore_patterns("__pycache__", "test", "idlelib", "config-*", "ensurepip"), ignore_dangling_symlinks=True)
    for file in (trial.root / "usr/lib" / Path(version).name / "lib-dynload").glob("*.so"):
        for needed in libraries(str(file)):
            copy_file(trial.root, needed)


def dpkg(trial: Trial, *words: str) -> subprocess.CompletedProcess[str]:
    return subprocess.run(["dpkg", f"--root={trial.root}", "--force-depends", "--force-script-chrootless", *words], capture_output=True, text=True, check=False)


def files_in(root: Path) -> set[str]:
    return {str(it.relative_to(root)) for it in root.rglob("*") if "var/lib/dpkg" not in str(it) and "var/log" not in str(it)}


def try_installed(trial: Trial, deb: Path) -> None:
    """Each command on the examples, in the root."""
    before = files_in(trial.root)
    done = dpkg(trial, "--install", str(deb))
    trial.expect("it installs", done.returncode == 0, done.stderr)
    letter = ["/usr/share/doc/pvtag/examples/letter.dtd", "letter", "/usr/share/doc/pvtag/examples/letter.xml"]
    swapped = [*letter[:2], "/usr/share/doc/pvtag/examples/letter-swapped.xml"]
    for what, words, status, wanted in (
        ("the program", ["pvtag", "valid", *letter], 0, "valid\n"),
        ("an unknown word", ["pvtag", "--version"], 2, "usage\n"),
        ("the other program", ["pvlong", "need", *letter], 0, "need 0\n"),
        ("the program for many documents", ["pvmany", "valid", *letter[:2]], 0, ""),
        ("its words", ["pvmany", "--help"], 0, "usage: pvmany valid DTD ROOT\n"),
        ("reasons", ["pvtag-why", *swapped], 0, "`closer`"),
        ("a report", ["pvtag-report", *letter], 0, '"verdict": "valid"'),
        ("the page's words", ["pvtag-annotate", "--help"], 0, "usage: "),
        ("flattening without lxml", ["pvtag-flatten", letter[0]], 2, ""),
    ):
        if (trial.root / "usr/bin" / words[0]).is_symlink() or words[0] in ("pvtag", "pvlong", "pvmany"):
            told = trial.inside(*words)
            trial.expect(what, told.returncode == status and wanted in told.stdout, (told.returncode, told.stdout, told.stderr))
        else:
            trial.expect(f"{words[0]} is there", False)
    if (trial.root / "usr/bin/pvtag-lsp").is_symlink():
        body = '{"jsonrpc":"2.0","id":1,"method":"initialize","params":{"capabilities":{}}}'
        told = trial.inside("pvtag-lsp", given=f"Content-Length: {len(body)}\r\n\r\n{body}")
        trial.expect("the language server", '"capabilities"' in told.stdout, (told.returncode, told.stdout, told.stderr))
    for words, sentence in ((["pvtag"], "pvtag: a command is expected first"), (["pvtag", "--version"], "pvtag: `--version` is no command"),
                            (["pvtag", "check", "none.dtd", "a", "none.xml"], "pvtag: none.dtd: there is no such file\n"), (["pvlong", "need"], "pvlong: need takes 3")):
        told = trial.inside(*words)
        trial.expect("a sentence", told.stderr.startswith(sentence) and told.returncode == (3 if "none" in sentence else 2), (words, told))
    told = trial.inside("/bin/sh", "-c", "cd /usr/bin; PATH=/nowhere; ./pvmany --version")
    version = (trial.root / "usr/share/doc/pvtag/built").read_text().splitlines()[0].partition(" ")[2]
    trial.expect("its version", (told.returncode, told.stdout) == (0, f"pvmany {version}\n"), told)
    told = trial.inside("/bin/sh", "-c", "cd /usr/bin; PATH=/nowhere; ./pvtag valid " + " ".join(letter))
    trial.expect("the script alone, without other commands", (told.returncode, told.stdout, told.stderr) == (0, "valid\n", ""), told)
    opens_page(trial, letter)
    names = sorted(it.name for it in (trial.root / "usr/bin").glob("pv*"))
    trial.expect("each command", names == sorted(COMMANDS), names)
    for name in COMMANDS:
        trial.expect("completion of each command", (trial.root / "usr/share/bash-completion/completions" / name).is_file(), name)
        with gzip.open(trial.root / f"usr/share/man/man1/{name}.1.gz", "rt") as file:
            manual = file.read()
        trial.expect("what the manual tells", "rattle-kit" in manual or name not in ("pvtag", "pvlong", "pvmany"), manual[-600:])
        told = trial.inside(name, "--help").stdout if name not in ("pvtag", "pvlong", "pvtag-flatten") else ""
        trial.expect("it names itself as it was called", not told or told.startswith(f"usage: {name} "), told[:200])
        options = set(re.findall("^ {2,}(?:-., )?(--[a-z-]+)", told, re.MULTILINE))
        trial.expect("the completion of its options", options <= set(completed(name, "-")), (name, options))
        lacking = [it for it in re.findall("--([a-z-]+)", told) if it != "help" and f"Fl -{it}" not in manual]
        trial.expect("the options of the manual", lacking == [], (name, lacking))
        if shutil.which("mandoc"):
            lines = subprocess.run(["mandoc", "-Tlint"], input=manual, capture_output=True, text=True, check=False).stdout.splitlines()
            faults = [line for line in lines if "outdated mandoc.db" not in line and "referenced manual not found" not in line]
            trial.expect("the manual, by mandoc", faults == [], faults)
    built = (trial.root / "usr/share/doc/pvtag/built").read_text()
    trial.expect("what it is made of", "commit: " in built and "rattle-kit" in built, built)
    trial.expect("and that the programs were put there", "program came from: a file of the name pvtag, put in place by hand\n" in built
                 and "proved by: not recorded for pvtag, pvlong and pvmany\n" in built, built)
    done = dpkg(trial, "--purge", "pvtag")
    left = files_in(trial.root) - before
    trial.expect("removal leaves nothing", done.returncode == 0 and left == set(), (done.stderr, left))


def completed(*words: str) -> list[str]:
    """What bash completes the last of these words to."""
    script = 'source "$0"; COMP_WORDS=("$@") COMP_CWORD=$(($# - 1)); $(complete -p "${1##*/}" | sed "s/.*-F \\([^ ]*\\) .*/\\1/"); printf "%s\\n" "${COMPREPLY[@]}"'
    told = subprocess.run(["bash", "-c", script, TOP / "tools/completion.bash", *words], capture_output=True, text=True, timeout=PATIENCE, check=False)
    return told.stdout.split()


def opens_page(trial: Trial, letter: list[str]) -> None:
    """The page on a letter of a user, until it is ended."""
    (trial.root / "tmp/letter.xml").write_bytes((trial.root / letter[2].lstrip("/")).read_bytes())
    words = ["chroot", trial.root, "pvtag-annotate", *letter[:2], "/tmp/letter.xml"]
    with subprocess.Popen(words, stdout=subprocess.PIPE, stderr=subprocess.PIPE, text=True) as server:
        line = server.stdout.readline() if server.stdout else ""
        try:
            with urllib.request.urlopen(line.split()[-1] if line else "http://127.0.0.1:1/", timeout=PATIENCE) as page:
                trial.expect("the page opens", page.status == 200 and b"<title>" in page.read())
        except OSError as fault:
            trial.expect("the page opens", False, (line, fault))
        server.terminate()
        trial.expect("it ends without a fault", server.wait(timeout=PATIENCE) == 0 and server.stderr is not None and server.stderr.read() == "")
    (trial.root / "tmp/letter.xml").unlink()


def runs_from_folder(trial: Trial, tar: Path) -> None:
    """What the other package holds, where it was unpacked: it finds the program beside itself, by no path."""
    root = trial.folder / "unpacked"
    root.mkdir()
    subprocess.run(["tar", "-xzf", tar, "-C", root], check=True)
    swapped = [TOP / "examples/letter.dtd", "letter", TOP / "examples/letter-swapped.xml"]
    told = subprocess.run([root / "usr/bin/pvtag-why", *swapped], capture_output=True, text=True, check=False)
    trial.expect("reasons, from a folder", told.returncode == 0 and "`closer`" in told.stdout, told)


def try_completion(trial: Trial) -> None:
    """Commands, and the roots of a DTD whose name has a blank; what is typed isn't run."""
    odd = trial.folder / "a b.dtd"
    shutil.copy(TOP / "examples/letter.dtd", odd)
    script = 'source "$0"; COMP_WORDS=("$@") COMP_CWORD=$(($# - 1)); _pvtag; echo "${COMPREPLY[@]}"'
    program, other = str(trial.clone / "build/pvtag"), str(trial.clone / "build/pvlong")
    blank, quoted = str(odd).replace(" ", "\\ "), f"'{odd}'"
    for words, wanted in ((["c"], "check complete"), (["check", blank, "l"], "letter lb"), (["check", quoted, "bo"], "body"),
                          (["check", f"$(touch {trial.folder}/run)", "l"], ""), (["check", blank, "letter", "x"], ""), (["drill", ""], "")):
        told = subprocess.run(["bash", "-c", script, TOP / "tools/completion.bash", program, *words], capture_output=True, text=True, check=False)
        trial.expect("a completion", told.stdout == f"{wanted}\n", (words, told))
    where = trial.folder / "commands"
    where.mkdir()
    (where / "pvtag").symlink_to(program)
    for words, wanted in ((["pvtag-why", str(odd).replace(" ", "\\ "), "l"], ["letter", "lb"]), (["pvtag-report", "--format", "tsv", blank, "bo"], ["body"]),
                          (["pvtag-report", "--format", "t"], ["tsv"]), (["pvtag-mark", "--c"], ["--cut"]), (["pvtag-ranges", blank, "l"], []),
                          (["pvtag-why", f"$(touch {trial.folder}/run)", "l"], [])):
        told = completed(str(where / words[0]), *words[1:])
        trial.expect("a completion of a client", told == wanted, (words, told))
    unbuilt = trial.folder / "unbuilt"
    subprocess.run(["git", "clone", "-q", str(TOP), str(unbuilt)], check=True)
    trial.expect("nothing is built for a completion", completed(str(unbuilt / "pvtag"), "check", blank, "l") == [] and not (unbuilt / "build").exists())
    for words, wanted in ((["n"], "need"), ([""], "check need complete"), (["need", blank, "l"], "letter lb")):
        told = subprocess.run(["bash", "-c", script, TOP / "tools/completion.bash", other, *words], capture_output=True, text=True, check=False)
        trial.expect("a completion of pvlong", told.stdout == f"{wanted}\n", (words, told))
    for words, wanted in (([""], "valid check need --help --version"), (["c"], "check"), (["need", blank, "l"], "letter lb")):
        told = subprocess.run(["bash", "-c", script, TOP / "tools/completion.bash", str(trial.clone / "build/pvmany"), *words], capture_output=True, text=True,
                              check=False)
        trial.expect("a completion of pvmany", told.stdout == f"{wanted}\n", (words, told))
    trial.expect("nothing typed is run", not (trial.folder / "run").exists())


def try_lintian(trial: Trial, deb: Path) -> None:
    if not shutil.which("lintian"):
        print("skipped: lintian (it isn't installed)")
        return
    told = subprocess.run(["lintian", "--fail-on", "error", str(deb)], capture_output=True, text=True, check=False)
    trial.expect("no error by lintian", told.returncode == 0, told.stdout)


def main() -> int:
    programs = [Path(word).resolve() for word in sys.argv[1:]]
    for tool in ("git", "dpkg-deb", "dpkg", "chroot", "ldd"):
        if not shutil.which(tool):
            print(f"skipped: the package (no {tool})\n0 passed, 0 failed")
            return 0
    with tempfile.TemporaryDirectory(prefix="pvtag-package-") as folder:
        trial = Trial(Path(folder), programs)
        try_completion(trial)
        deb, tar = same_bytes(trial)
        runs_from_folder(trial, tar)
        try_lintian(trial, deb)
        if os.geteuid() == 0 and os.path.exists(PYTHON):
            bare_root(trial, programs)
            try_installed(trial, deb)
        else:
            print("skipped: the package in a bare root (it needs root's rights and Debian's Python)")
    return trial.ended()


if __name__ == "__main__":
    sys.exit(main())
