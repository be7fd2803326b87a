"""Small inputs that are drawn, each with the transcript that a program gives for it."""
import random
import subprocess

LINES = 24


def generated(program, draw):
    """Returns the front of a schedule that the program draws, for one to three nodes."""
    options = ["--seed", str(draw.randrange(2**32)), "--count", str(LINES), "--nodes", str(draw.randint(1, 3))]
    text = subprocess.run([program, "gen", *options], capture_output=True, check=True).stdout
    return changed(text, draw, draw.randint(0, 2))


def changed(text, draw, times):
    """Returns an input with lines of its schedule dropped, doubled or swapped, so many times, and cut to a few lines."""
    header, _, rest = text.partition(b"---\n")
    lines = [it for it in rest.split(b"\n") if it]
    begin = draw.randrange(max(len(lines) - LINES, 0) + 1) if draw.random() < 0.2 else 0
    lines = lines[begin : begin + LINES]
    for _ in range(times):
        if len(lines) < 2:
            break
        at, other = draw.randrange(len(lines)), draw.randrange(len(lines))
        way = draw.choice(["drop", "double", "swap"])
        if way == "drop":
            del lines[at]
        elif way == "double":
            lines.insert(other, lines[at])
        else:
            lines[at], lines[other] = lines[other], lines[at]
    return header + b"---\n" + b"".join(it + b"\n" for it in lines)


def drawn(program, count, seed, texts):
    """Yields names, inputs and transcripts; every second one is a mutation of these texts, where there are any."""
    draw = random.Random(seed)
    small = [it for it in texts if b"---\n" in it and len(it) < 8000]
    for number in range(1, count + 1):
        given = changed(draw.choice(small), draw, draw.randint(1, 2)) if small and number % 2 == 0 else generated(program, draw)
        run = subprocess.run([program, "replay"], input=given, capture_output=True, timeout=60)
        if run.returncode not in (0, 3, 4):
            raise SystemExit(f"drawn {number} of seed {seed}: the program ended with {run.returncode}")
        yield f"drawn_{seed}_{number}", given, run.stdout
