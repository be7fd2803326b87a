#!/usr/bin/env python3
"""Writes docs/GRAPH.md: for each crate of crates.txt the crates whose code it calls, apart from those that only its contracts
and proofs cite.

Usage, at the top of the repository: docs/crate_graph.py
"""
import re
from functools import cache
from pathlib import Path

TOP = Path(__file__).resolve().parent.parent
CALLED = re.compile(r"^\s*(?:pub )?use (\w+)(?:::|;)", re.MULTILINE)
NAMED = re.compile(r"\b(\w+)::(?=\w)")
# a crate passes on what lies below it: `mega_durable::mega_core`, `Rattle.mega_durable.specs.of_core`
PASSED = re.compile(r"\bmega_\w+::(?=mega_)")
PASSES = re.compile(r"^pub use (?:mega_\w+::)*mega_\w+;$", re.MULTILINE)
PASSED_IN_PROOFS = re.compile(r"\bRattle\.\w+\.(specs|proofs)\.of_(\w+)")
CITED = re.compile(r"\bRattle\.(\w+)\.")


def crates():
    """The crates of the repository, lowest first."""
    lines = (TOP / "crates.txt").read_text().splitlines()
    return [line.split(":")[0] for line in lines if line and not line.startswith("#")]


def text_of(crate, pattern):
    return "\n".join(path.read_text() for path in sorted((TOP / "crates" / crate).glob(pattern)))


def uses(crate, known):
    """What the code of a crate calls, and what only its contracts, definitions and proofs cite."""
    code = "\n".join(line for line in text_of(crate, "src/**/*.rt").splitlines() if "ghost use" not in line)
    code = PASSED.sub("", PASSES.sub("", code))
    called = {name for name in CALLED.findall(code) + NAMED.findall(code) if name in known and name != crate}
    all_text = text_of(crate, "src/**/*.rt") + text_of(crate, "specs/**/*.antt") + text_of(crate, "proofs/**/*.antt")
    all_text = PASSED_IN_PROOFS.sub(r"Rattle.mega_\2.\1", all_text)
    cited = {name for name in CITED.findall(all_text) if name in known and name != crate}
    return called, cited - called


def longest_chain(order, below):
    """The longest list of crates each of which uses the one before it."""

    @cache
    def chain(crate):
        return max((chain(name) for name in sorted(below[crate], key=order.index)), key=len, default=()) + (crate,)

    return max((chain(crate) for crate in order), key=len)


def shown(names):
    return ", ".join(name.removeprefix("mega_") for name in names)


def main():
    order = crates()
    used = {crate: uses(crate, set(order)) for crate in order}
    by_code = longest_chain(order, {crate: called for crate, (called, _) in used.items()})
    by_all = longest_chain(order, {crate: called | cited for crate, (called, cited) in used.items()})
    lines = [
        "# Graph",
        "",
        "Which crates the code of each crate calls, apart from those that only its contracts, definitions and proofs cite. Written by",
        "`docs/crate_graph.py` out of the sources, the lowest crates first; names stand without `mega_`.",
        "",
        f"The longest chain by code has {len(by_code)} crates: {shown(by_code)}.",
        "",
        f"With what proofs cite it has {len(by_all)}: {shown(by_all)}.",
        "",
        "| crate | its code calls | only contracts and proofs cite |",
        "|---|---|---|",
    ]
    for crate in order:
        called, cited = (shown(sorted(names, key=order.index)) for names in used[crate])
        lines.append(f"| `{crate.removeprefix('mega_')}` | {called} | {cited} |")
    (TOP / "docs/GRAPH.md").write_text("\n".join(lines) + "\n")


if __name__ == "__main__":
    main()
