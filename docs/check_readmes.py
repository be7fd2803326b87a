#!/usr/bin/env python3
"""Prints what the READMEs of crates leave out: public calls that are not named, those with a `requires` first, and sections;
and the files and the modules of definitions that they name and their crates have not.

Usage, at the top of the repository: docs/check_readmes.py [CRATE ..]
"""
import re
import sys
from pathlib import Path

TOP = Path(__file__).resolve().parent.parent
CALL = re.compile(r"^([ \t]*)pub fn (\w+)", re.MULTILINE)
BODY = re.compile(r"^\s*\{", re.MULTILINE)
IMPL = re.compile(r"^impl(?:<[^\n{]*?>)?\s+(?:[\w:<>, ]+ for )?(\w+)", re.MULTILINE)
EXPORT = re.compile(r"^pub use (?:\w+::)+(?:\{([^}]*)\}|(\w+))\s*;", re.MULTILINE)
SECTIONS = ("reading order", "no clause says")
FILE = re.compile(r"`(\w+\.rt)`")
MODULES = re.compile(r"((?:`\w+`(?:, | and )?)+) \(specs\)")


def exported(crate):
    """The names that the root of a crate gives to those above it."""
    root = crate / "src/lib.rt"
    text = root.read_text() if root.exists() else ""
    names = [name for many, one in EXPORT.findall(text) for name in (many or one).split(",")]
    return {name.split(" as ")[-1].strip() for name in names}


def public_calls(crate):
    """Each call that a crate gives to those above it, as (name, the lines of its `requires`), in the order of its files."""
    names = exported(crate)
    for path in sorted((crate / "src").glob("**/*.rt")):
        text = re.sub(r"//[^\n]*", "", path.read_text())
        for call in CALL.finditer(text):
            owners = IMPL.findall(text[: call.start()])
            owner = owners[-1] if call[1] and owners else ""
            if (owner or call[2]) in names:
                body = BODY.search(text, call.end())
                contract = text[call.start() : body.start() if body else None]
                requires = re.findall(r"^\s*requires.*", contract, re.MULTILINE)
                yield f"{owner}::{call[2]}" if owner else call[2], [line.strip() for line in requires]


def left_out(crate):
    readme = (crate / "README.md").read_text()
    unnamed = [it for it in public_calls(crate) if not re.search(rf"\b{it[0].split('::')[-1]}\b", readme)]
    for name, requires in sorted(unnamed, key=lambda it: not it[1]):
        yield f"{name} is not named" + "".join(f"; {line}" for line in requires)
    is_library = (crate / "src/lib.rt").exists() and not crate.name.endswith("_tests")
    for section in SECTIONS:
        if is_library and section not in readme:
            yield f"no section: {section}"


def not_there(crate):
    readme = (crate / "README.md").read_text()
    for name in FILE.findall(readme):
        if not any(crate.glob(f"src/**/{name}")):
            yield f"no file: {name}"
    for name in re.findall(r"`(\w+)`", " ".join(MODULES.findall(readme))):
        if not any(crate.glob(f"specs/**/{name}.antt")):
            yield f"no module of definitions: {name}"


def main():
    crates = sys.argv[1:] or sorted(path.parent.name for path in TOP.glob("crates/*/README.md"))
    for name in crates:
        for line in [*left_out(TOP / "crates" / name), *not_there(TOP / "crates" / name)]:
            print(f"{name}: {line}")


if __name__ == "__main__":
    main()
