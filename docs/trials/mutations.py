#!/usr/bin/env python3
"""Replays inputs that were changed at random, and schedules that the program draws, and counts how the program ends.

    docs/trials/mutations.py PROGRAM --count 1000 --seed 1 CASES..
    docs/trials/mutations.py PROGRAM --drawn 500 --lines 100

Each of CASES is an input of `PROGRAM replay`. A change drops, doubles or swaps lines, or changes bytes, of the header too. Every run must end with a
named status, say on its last line what the status says, and write again what it wrote where it is run again. With --drawn, `PROGRAM gen` draws that many
schedules for each number of nodes from 1 to 9, with the seeds from --seed on. Each must be replayed to its end with status 0, and its summary must count
its lines; then one change is made in it, and the run ends as that of any changed input."""
import argparse, collections, random, re, subprocess, sys

LAST = {3: rb"header [1-9]\n", 4: rb"refused [1-9][0-9]* (schedule|world) [1-8]\n"}


def changed(draw, text):
    lines = text.split(b"\n")
    for _ in range(draw.choice([1, 1, 2, 4])):
        at = draw.randrange(len(lines))
        kind = draw.randrange(5)
        if kind == 0 and len(lines) > 1:
            del lines[at]
        elif kind == 1:
            lines.insert(draw.randrange(len(lines) + 1), lines[at])
        elif kind == 2:
            other = draw.randrange(len(lines))
            lines[at], lines[other] = lines[other], lines[at]
        elif lines[at]:
            place = draw.randrange(len(lines[at]))
            byte = bytes([draw.randrange(256)]) if kind == 3 else draw.choice([b"0", b"1", b"9", b'"', b"}", b"-", b""])
            lines[at] = lines[at][:place] + byte + lines[at][place + 1 :]
    return b"\n".join(lines)


def ended(program, text, *words):
    ran = subprocess.run([program, "replay", *words], input=text, stdout=subprocess.PIPE, timeout=60)
    return ran.returncode, ran.stdout


def drawn(program, seed, nodes, lines):
    """The schedule that the program draws from a seed."""
    words = ["--seed", str(seed), "--count", str(lines), "--nodes", str(nodes)]
    return subprocess.run([program, "gen", *words], stdout=subprocess.PIPE, check=True).stdout


def wrong(status, out):
    """What is wrong with an end, if anything."""
    if status not in (0, 3, 4):
        return f"status {status}"
    last = out[out.rfind(b"\n", 0, len(out) - 1) + 1 :]
    if status in LAST and not re.fullmatch(LAST[status], last):
        return f"status {status} with the last line {last[:80]!r}"
    return None


class Counts:
    """How runs ended, and how many of them ended wrong."""

    def __init__(self, name):
        self.name, self.by_status, self.bad = name, collections.Counter(), 0

    def note(self, what, status, why):
        self.by_status[status] += 1
        if why:
            self.bad += 1
            print(f"{what}: {why}")

    def tell(self):
        print(f"{self.name}: " + ", ".join(f"status {status}: {count}" for status, count in sorted(self.by_status.items())))
        return self.bad


def change_cases(program, draw, cases, count):
    """Replays so many inputs, each with changes, and every fiftieth of them again."""
    counts = Counts("changed")
    for number in range(count):
        text = changed(draw, draw.choice(cases))
        status, out = ended(program, text)
        again = number % 50 or ended(program, text) == (status, out)
        counts.note(number, status, wrong(status, out) or (None if again else "another output the second time"))
    return counts.tell()


def replay_drawn(program, draw, seeds, lines):
    """Replays a drawn schedule for each seed and number of nodes as it is, its summary, and the schedule with changes."""
    whole, counted, after = Counts("drawn"), Counts("their summaries"), Counts("drawn and changed")
    for seed in seeds:
        for nodes in range(1, 10):
            text, what = drawn(program, seed, nodes, lines), f"seed {seed}, {nodes} nodes"
            status, _ = ended(program, text)
            whole.note(what, status, None if status == 0 else "not to its end")
            status, out = ended(program, text, "--summary")
            counted.note(what, status, None if out.startswith(b"events %d\n" % lines) else "another number of events")
            text = changed(draw, text)
            status, out = ended(program, text)
            after.note(what + ", changed", status, wrong(status, out))
    return whole.tell() + counted.tell() + after.tell()


def main():
    words = argparse.ArgumentParser()
    words.add_argument("program")
    words.add_argument("cases", nargs="*")
    words.add_argument("--count", type=int, default=1000)
    words.add_argument("--seed", type=int, default=1)
    words.add_argument("--drawn", type=int, default=0)
    words.add_argument("--lines", type=int, default=100)
    given = words.parse_intermixed_args()
    draw, bad = random.Random(given.seed), 0
    if given.cases:
        bad += change_cases(given.program, draw, [open(it, "rb").read() for it in given.cases], given.count)
    if given.drawn:
        bad += replay_drawn(given.program, draw, range(given.seed, given.seed + given.drawn), given.lines)
    sys.exit(1 if bad else 0)


main()
