#!/usr/bin/env python3
"""Compares what the definitions of a run make of an input, as the checker computes it, with a transcript, item by item.

    docs/compare.py FOLDER CASES.. [--only NAME..] [--most ITEMS] [--batch N] [--keep]
    docs/compare.py FOLDER [CASES..] --gen N --seed S --program PATH [..]

FOLDER is made anew, outside the repository; with --keep it is brought up to date, and its libraries that have not changed stay. It holds a
crate over the libraries of this checkout, with one function for each case, whose clause says that the lines of the run of the definitions
are those of the transcript; N cases are checked at a time. CASES are folders with files NAME.in and NAME.out. With --gen, N small schedules
are drawn instead, half of them mutations of CASES where there are some, and the program at PATH replays each. Of a case with more than
ITEMS items the longest front of its schedule that has no more is compared.
"""
import argparse
import pathlib
import re
import shutil
import sys

sys.path.insert(0, str(pathlib.Path(__file__).resolve().parent / "compare"))
from alignment import Alignment  # noqa: E402
from crate import Claim, ScratchCrate, is_scratch, make, words_to_unfold  # noqa: E402
from schedules import drawn  # noqa: E402


class Case:
    """An input, with the transcript that it must lead to."""

    def __init__(self, name, given, transcript):
        self.name = re.sub(r"\W", "_", name)
        self.expected = transcript.splitlines(keepends=True)
        parts = re.split(rb"^---\r?(?:\n|\Z)", given, maxsplit=1, flags=re.M)
        self.header, self.has_mark = parts[0], len(parts) > 1
        self.lines = parts[1].split(b"\n") if self.has_mark else []
        if self.lines and not self.lines[-1]:
            self.lines.pop()
        self.all_items = len(self.expected)
        walk = Alignment(self.lines, self.expected)
        self.cuts, self.ends = walk.cuts, walk.ends

    def shorten(self, most):
        """Keeps the longest front of the schedule that leads to at most so many items."""
        if self.all_items > most:
            count = max(number for number, end in enumerate(self.ends) if end <= most or number == 0)
            self.lines, self.expected = self.lines[:count], self.expected[: self.ends[count]]

    def size(self):
        whole = f"{self.all_items} items"
        return whole if len(self.expected) == self.all_items else f"{len(self.expected)} of {whole}"


def cases_of(folders, only):
    return [
        Case(path.stem, path.read_bytes(), path.with_suffix(".out").read_bytes())
        for folder in folders
        for path in sorted(pathlib.Path(folder).glob("*.in"))
        if not only or path.stem in only
    ]


class Comparison:
    """What the checker finds of claims in a scratch crate."""

    def __init__(self, folder, keep):
        self.crate, self.words = ScratchCrate(folder), words_to_unfold()
        if folder.exists() and not is_scratch(folder):
            raise SystemExit(f"{folder} is there, and no folder of this script made it")
        if not keep:
            shutil.rmtree(folder, ignore_errors=True)
        make(folder)

    def verdicts(self, claims):
        self.crate.write(claims, self.words)
        return self.crate.check(claims)

    def told(self, cases):
        """Returns what is told of each case."""
        found = self.verdicts([Claim(it) for it in cases])
        told = {"proved": lambda case: "agrees", "refused": self.where}
        return [(case, told.get(found[case.name], lambda case: found[case.name])(case)) for case in cases]

    def where(self, case):
        """Tells at which item a case differs; or where its run does not compute, if the checker does not see that it differs there."""
        number = self.first_refused(case)
        found = self.verdicts([Claim(case, number, f"Some {number}")])
        return f"differs at item {number}" if "proved" in found.values() else f"does not compute at item {number}"

    def first_refused(self, case):
        """Returns the length of the shortest front that is refused: between two of which the shorter agrees, a dozen more are tried."""
        low, high = 0, max(len(case.expected), 1) + 1
        while high - low > 1:
            fronts = sorted({low + (high - low) * number // 12 for number in range(1, 12)} - {low, high})
            found = self.verdicts([Claim(case, front) for front in fronts])
            agreed = [front for front in fronts if found[f"{case.name}_{front}"] == "proved"]
            low = max(agreed, default=low)
            high = min([front for front in fronts if front > low], default=high)
        return high


def options():
    parser = argparse.ArgumentParser(description=__doc__, formatter_class=argparse.RawDescriptionHelpFormatter)
    parser.add_argument("folder", type=pathlib.Path)
    parser.add_argument("cases", nargs="*")
    parser.add_argument("--only", nargs="*", default=[])
    parser.add_argument("--most", type=int, default=600)
    parser.add_argument("--batch", type=int, default=16)
    parser.add_argument("--keep", action="store_true")
    parser.add_argument("--gen", type=int, default=0)
    parser.add_argument("--seed", type=int, default=1)
    parser.add_argument("--program")
    return parser.parse_args()


def main():
    words = options()
    if words.gen:
        texts = [path.read_bytes() for folder in words.cases for path in sorted(pathlib.Path(folder).glob("*.in"))]
        cases = [Case(*it) for it in drawn(words.program, words.gen, words.seed, texts)]
    else:
        cases = cases_of(words.cases, words.only)
    for case in cases:
        case.shorten(words.most)
    cases.sort(key=lambda it: len(it.expected))
    comparison, is_fine = Comparison(words.folder.resolve(), words.keep), True
    for at in range(0, len(cases), words.batch):
        for case, told in comparison.told(cases[at : at + words.batch]):
            print(f"{case.name}: {told} ({case.size()})", flush=True)
            is_fine = is_fine and told in ("agrees", "too large")
    sys.exit(not is_fine)


if __name__ == "__main__":
    main()
