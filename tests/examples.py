"""Runs the examples in the comments of the crates: the blocks of code in `///` comments. The kit compiles them without proofs, as tests of one crate
over a copy of the sources. In an example `rt` is the runtime, `alloc` its allocator and `steps` a counter; names are those of its module, of its
crate, and of the crates below. A test that an example names as its source, as `test_layers: fronts`, has to be there.

Words: `--names`, to look at the names alone. Prints each example that failed, and how many passed; ends with 1 where one failed.
"""
import re
import subprocess
import sys
import tempfile
from collections.abc import Iterator
from pathlib import Path
from typing import NamedTuple

TOP = Path(__file__).resolve().parent.parent
sys.path.append(str(TOP / "tools"))
sys.dont_write_bytecode = True
from sources import copy, needs  # noqa: E402

# Where names of other crates are looked for, the lowest first.
CRATES = ["pv_chars", "pv_steps", "pv_model", "pv_dtd", "pv_tree", "pv_read", "pv_productive", "pv_fresh", "pv_edit", "pv_cache", "pv_session"]
BLOCK = re.compile(r"^ *///(?: .*)?\n *///\n */// ```rust\n((?: *///.*\n)+?) */// ```$", re.MULTILINE)
SOURCE = re.compile(r"\b(test_\w+): (\w+)|\((test_\w+), `(\w+)`\)")
RESULT = re.compile(r"^test (\w+)::(\w+) \.\.\. (\w+)", re.MULTILINE)
CRATE, CASE = "test_examples", "example_{}"


class Example(NamedTuple):
    """A block of code: its crate, the module in which it stands, its line there, and the code."""
    crate: str
    module: str
    line: int
    code: str


def examples() -> Iterator[Example]:
    for crate in CRATES:
        for file in sorted((TOP / "crates" / crate / "src").rglob("*.rt")):
            text = file.read_text(encoding="utf-8")
            for found in BLOCK.finditer(text):
                code = "".join(line.strip().removeprefix("///").removeprefix(" ") + "\n" for line in found[1].splitlines())
                yield Example(crate, file.stem, text.count("\n", 0, found.start(1)) + 1, code)


def exported(crate: str) -> dict[str, str]:
    """The names that a crate's root exports, each with its path."""
    text = (TOP / "crates" / crate / "src" / "lib.rt").read_text(encoding="utf-8")
    uses = re.findall(r"^pub use \w+(?:::\w+)*::(\{[^}]*\}|\w+);", text, re.MULTILINE)
    return {name.strip(): crate for it in uses for name in it.strip("{}").split(",") if name.strip()}


def of_module(crate: str, module: str) -> dict[str, str]:
    """The functions of a module, where it is public."""
    folder = TOP / "crates" / crate / "src"
    if f"\npub mod {module};" not in (folder / "lib.rt").read_text(encoding="utf-8"):
        return {}
    return {name: f"{crate}::{module}" for name in re.findall(r"^pub fn (\w+)", (folder / f"{module}.rt").read_text(encoding="utf-8"), re.MULTILINE)}


def module_of(crate: str, module: str, found: list[Example]) -> str:
    """The module of tests for the examples of a module."""
    known: dict[str, str] = {}
    for it in reversed(CRATES):
        known |= exported(it)
    known |= exported(crate) | of_module(crate, module)
    names = {name for example in found for name in re.findall(r"\w+\b(?!!)", re.sub(r"//.*", "", example.code))}
    lines = [f"//! Examples of {crate}, {module}.", ""]
    lines += [f"use {known[name]}::{name};" for name in sorted(names) if name in known]
    lines += ["use std::alloc::Global;", "use std::process::Abort;", "use std::test::Fail;"]
    if "steps" in names:
        lines += ["use pv_steps::Steps;", "use std::marker::Brand;", "use std::sync::ledger::{Blank, Ledger};"]
    for example in found:
        case = CASE.format(example.line)
        code = "".join(f"    {it}\n" for it in [*example.code.splitlines(), "Ok(())"])
        if re.search(r"\bsteps\b", example.code):
            head, call = "<L: Ledger>(rt: &impl Abort, alloc: Global, blank: Blank)", "::<Brand>(&rt, rt.alloc(), Blank::new(1))"
            code = f"    let mut steps = Steps::<L>::start(blank);\n{code}"
        else:
            head, call = "(rt: &impl Abort, alloc: Global)", "(&rt, rt.alloc())"
        lines += ["", f"fn in_{case}{head} -> Result<(), Fail> {{", f"{code}}}", ""]
        lines += ["#[test]", f"fn {case}(rt: HostRuntime) -> Result<(), Fail> {{", f"    in_{case}{call}", "}"]
    return "\n".join([*lines, ""])


def run(found: list[Example]) -> tuple[set[tuple[str, str]], str]:
    """The examples that passed, by module and case, and what the kit printed."""
    with tempfile.TemporaryDirectory() as folder:
        top = Path(folder) / "top"
        copy(needs(*CRATES), top)
        source = top / "crates" / CRATE / "src"
        source.mkdir(parents=True)
        with (top / "crates.txt").open("a") as crates:
            crates.write(f"{CRATE} tests_may=Threads: {' '.join(CRATES)}\n")
        modules: dict[tuple[str, str], list[Example]] = {}
        for example in found:
            modules.setdefault((example.crate, example.module), []).append(example)
        for (crate, module), those in modules.items():
            (source / f"{crate}_{module}.rt").write_text(module_of(crate, module, those), encoding="utf-8")
        declared = "".join(f"#[cfg(test)]\nmod {crate}_{module};\n" for crate, module in sorted(modules))
        (source / "lib.rt").write_text(f"//! Examples of comments.\n#![tactic(auto)]\n\n{declared}", encoding="utf-8")
        ran = subprocess.run(["rt", "try", "--test"], cwd=source.parent, capture_output=True, text=True, errors="replace")
        printed = ran.stdout + ran.stderr
    return {(module, case) for module, case, result in RESULT.findall(printed) if result == "ok"}, printed


def lost_sources() -> list[str]:
    """What is named as the source of an example, and isn't there."""
    lost = []
    for crate in CRATES:
        for file in sorted((TOP / "crates" / crate / "src").rglob("*.rt")):
            for found in SOURCE.finditer("".join(re.findall(r"///.*\n", file.read_text(encoding="utf-8")))):
                of, name = found[1] or found[3], found[2] or found[4]
                if not any(f"fn {name}(" in it.read_text(encoding="utf-8") for it in (TOP / "crates" / of / "src").rglob("*.rt")):
                    lost.append(f"{file.relative_to(TOP)}: {of} has no test {name}")
    return lost


def main(words: list[str]) -> int:
    lost, found = lost_sources(), list(examples())
    for line in lost:
        print(line)
    if words == ["--names"]:
        print(f"{len(found)} examples, {len(lost)} sources that aren't there")
        return int(bool(lost))
    passed, printed = run(found)
    failed = [it for it in found if (f"{it.crate}_{it.module}", CASE.format(it.line)) not in passed]
    for it in failed:
        print(f"crates/{it.crate}/src/{it.module}.rt:{it.line}: the example fails, or isn't compiled")
    if failed:
        print(printed[-4000:])
    print(f"examples: {len(found) - len(failed)} passed, {len(failed) + len(lost)} failed")
    return int(bool(failed or lost))


if __name__ == "__main__":
    sys.exit(main(sys.argv[1:]))
