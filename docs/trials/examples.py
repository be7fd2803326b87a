#!/usr/bin/env python3
"""Checks that the examples are as their table and the trials have them.

    docs/trials/examples.py PROGRAM

Each file of examples/ has a first line that says what it shows, is one of the trials (which may be without that line), and has a row in the table of
examples/README.md: the status, the number of lines where it is told, and what is quoted in the third column, each of which must be a line of what is
written, the front of one (before ` ..`) or its first word. The last row is of what `PROGRAM gen` draws, which is a trial too, and of its summary."""
import pathlib, re, subprocess, sys

ROOT = pathlib.Path(__file__).resolve().parents[2]
DATA = ROOT / "crates/mega_trials/data"
ROW = re.compile(r"^\| `(\S+)\.schedule` \| .* \| (.*) \| ([0-9]+) \|$")
DRAWN = re.compile(r"^\| `megastore (gen .*) \| megastore (replay --summary)` \| .* \| (.*) \| ([0-9]+) \|$")


def without_first(text):
    """An input without the line that says what it shows."""
    return text.partition(b"\n")[2] if text.startswith(b"# ") else text


def replayed(program, text, *words):
    ran = subprocess.run([program, *words], input=text, stdout=subprocess.PIPE)
    return ran.returncode, ran.stdout.decode().splitlines()


def is_told(words, line):
    """Whether these words are the line, its front, or its first word."""
    return line == words or line.split(" ")[0] == words or words.endswith(" ..") and line.startswith(words[:-2])


def faults_of(told, status, ended):
    """What of a row is not so: its status, its number of lines, and what it quotes."""
    if ended[0] != int(status):
        yield f"status {ended[0]}, not {status}"
    for number in re.findall(r"([0-9]+) lines", told):
        if len(ended[1]) != int(number):
            yield f"{len(ended[1])} lines, not {number}"
    for words in re.findall(r"`([^`]+)`", told):
        if not any(is_told(words, line) for line in ended[1]):
            yield f"no line {words}"


def main(program):
    trials = {without_first(one.read_bytes()) for one in DATA.glob("*.in")}
    rows, faults = {}, []
    for line in (ROOT / "examples/README.md").read_text().splitlines():
        row, drawn = ROW.match(line.replace(r"\|", "|")), DRAWN.match(line.replace(r"\|", "|"))
        if row:
            rows[row[1]] = row[2], row[3]
        elif drawn:
            text = subprocess.run([program, *drawn[1].split()], stdout=subprocess.PIPE, check=True).stdout
            faults += [("gen", "no trial")] if text not in trials else []
            faults += [("gen", fault) for fault in faults_of(drawn[3], drawn[4], replayed(program, text, *drawn[2].split()))]
            rows["gen"] = drawn[3], drawn[4]
    files = {one.stem: one.read_bytes() for one in (ROOT / "examples").glob("*.schedule")}
    faults += [(name, "no row") for name in files.keys() - rows.keys()] + [(name, "no file") for name in rows.keys() - files.keys() - {"gen"}]
    for name, text in sorted(files.items()):
        faults += [] if text.startswith(b"# ") else [(name, "its first line does not say what it shows")]
        faults += [] if without_first(text) in trials else [(name, "no trial")]
        faults += [(name, fault) for fault in faults_of(*rows.get(name, ("", "0")), replayed(program, text, "replay")) if name in rows]
    for name, fault in faults:
        print(f"{name}: {fault}")
    print(f"{len(files)} examples, {len(faults)} faults")
    sys.exit(1 if faults else 0)


main(*sys.argv[1:])
