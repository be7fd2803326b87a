#!/usr/bin/env python3
"""Makes the trials of stops: for each kind of step, its node is cut off at each device call of the step, for each image of
what is pending, until one run ends without a stop; then it starts again and the cluster goes on.

    docs/trials/stops.py PROGRAM FOLDER

PROGRAM replays (`PROGRAM replay` reads a header and a schedule, and writes a transcript). Each trial is FOLDER/stop-NAME.in with
its transcript and summary beside it: small enough that docs/compare.py compares it with the definitions."""
import json, subprocess, sys

HEADER = '''nodes = ["full", "full", "full"]
schema = "CREATE SCHEMA S; CREATE TABLE User { required int64 user_id; required string name; } PRIMARY KEY(user_id), ENTITY GROUP ROOT;"
---
'''
CALLS, IMAGES = range(5), range(3)
APPEND = 4


class Trial:
    """A schedule that grows, with the transcript that it leads to so far."""

    def __init__(self, program, header=HEADER):
        self.program, self.header, self.lines, self.clocks = program, header, [], {}

    def do(self, **event):
        self.lines.append(json.dumps(event, separators=(",", ":")))

    def text(self):
        return self.header + "".join(line + "\n" for line in self.lines)

    def replayed(self, *words):
        ran = subprocess.run([self.program, "replay", *words], input=self.text().encode(), stdout=subprocess.PIPE)
        if ran.returncode:
            sys.exit(f"status {ran.returncode}: {ran.stdout[-200:]}\n{self.text()[-600:]}")
        return ran.stdout.decode()

    def waiting(self):
        """The messages that were neither taken nor dropped: number, sender, receiver and kind, oldest first."""
        sent, gone = {}, set()
        for words in (line.split() for line in self.replayed().splitlines()):
            if words[0] == "sent":
                sent[int(words[1])] = (int(words[1]), int(words[2]), int(words[3]), words[4])
            elif words[0] in ("taken", "dropped", "drop"):
                gone.add(int(words[1]))
        return [sent[number] for number in sorted(sent) if number not in gone]

    def put(self, node, user):
        row = {"user_id": user, "name": f"u{user}"}
        self.do(do="txn", node=node, group=["User", [user]], checks=[], reads=[], writes=[{"put": "User", "row": row}], sends=[])

    def tick(self, node, by):
        self.clocks[node] = self.clocks.get(node, 0) + by
        self.do(do="tick", node=node, now=self.clocks[node])

    def drain(self, most=1000):
        self.do(do="drain", most=most)

    def start(self, node):
        self.clocks[node] = 0
        self.do(do="start", node=node)

    def until(self, kind, to):
        """Delivers until a message of this kind to this node is the oldest that waits, and gives its number."""
        for _ in range(60):
            waiting = self.waiting()
            if not waiting:
                break
            if waiting[0][2:] == (to, kind):
                return waiting[0][0]
            self.drain(1)
        sys.exit(f"no {kind} to {to} came\n{self.text()[-900:]}")

    def is_down(self, node):
        found = False
        for words in (line.split() for line in self.replayed().splitlines()):
            if words[:2] == ["crash", str(node)]:
                found = True
            elif words[:2] == ["start", str(node)]:
                found = False
        return found


def each_stop(trial, image, step, node=2):
    """Cuts the step of this node at each call, and goes on."""
    for number, calls in enumerate(CALLS):
        event = step(trial, 10 * image + number + 1)
        trial.do(do="fuse", node=node, calls=calls, image=image)
        event()
        if trial.is_down(node) != (calls < APPEND):
            sys.exit(f"a fuse of {calls} calls: down {trial.is_down(node)}\n{trial.text()[-600:]}")
        if calls < APPEND:
            trial.start(node)
        trial.do(do="fuse", node=node, calls=1000000, image=0)
        trial.drain()
        for one in (1, 2, 3):
            trial.tick(one, 60)
        trial.drain()


def accept(trial, user):
    trial.put(1, user)
    number = trial.until("accept", 2)
    return lambda: trial.do(do="deliver", message=number)


def promise(trial, user):
    """Node 1 puts and its first accept is lost; its patience with the leader ends, and it prepares."""
    trial.put(1, user)
    number = trial.until("accept", 1)
    trial.do(do="drop", message=number)
    trial.drain()
    trial.tick(1, 60)
    number = trial.until("prepare", 2)
    return lambda: trial.do(do="deliver", message=number)


def decide(trial, user):
    trial.put(1, user)
    number = trial.until("decide", 2)
    return lambda: trial.do(do="deliver", message=number)


def have(trial, user):
    """Node 2 lost what node 1 told it of a decision, and reads: another node tells it what was decided."""
    trial.put(1, user)
    trial.do(do="drop", message=trial.until("decide", 2))
    trial.drain()
    trial.do(do="read", node=2, mode="current", group=["User", [user]], rows=[])
    number = trial.until("have", 2)
    return lambda: trial.do(do="deliver", message=number)


def at_decision(trial):
    """Delivers until the next delivery lets node 2 decide, and gives that delivery."""
    for _ in range(60):
        before = trial.replayed()
        trial.drain(1)
        if "\ndecide 2 " in trial.replayed()[len(before):]:
            trial.lines.pop()
            return lambda: trial.drain(1)
    sys.exit(f"no decision came\n{trial.text()[-900:]}")


def own_decide(trial, user):
    """The vote that settles the put of node 2 arrives: it decides, applies and answers."""
    trial.put(2, user)
    return at_decision(trial)


def fill(trial, user):
    """A put is accepted at its leader alone; a read of node 2 finds no vote elsewhere, and the vote arrives that settles a no-op."""
    trial.put(1, user)
    trial.do(do="drop", message=trial.until("accepted", 1))
    trial.drain()
    trial.do(do="read", node=2, mode="current", group=["User", [user]], rows=[])
    trial.do(do="drop", message=trial.until("prepare", 1))
    return at_decision(trial)


def grant(trial, user):
    """A cell of node 2 grants the lease that node 1, which started anew, asks for."""
    trial.do(do="crash", node=1)
    trial.start(1)
    trial.tick(1, 60)
    number = trial.until("acquire", 2)
    return lambda: trial.do(do="deliver", message=number)


def lapse(trial, user):
    """The clock of node 2, which ticked in this start, passes a lease that its cell granted, whose node is silent."""
    trial.tick(2, 60)
    trial.tick(1, 60)
    trial.drain()
    trial.clocks[2] += 400
    return lambda: trial.do(do="tick", node=2, now=trial.clocks[2])


def start(trial, user):
    trial.put(1, user)
    trial.drain()
    trial.do(do="crash", node=2)
    return lambda: trial.start(2)


STEPS = {
    "accept": accept,
    "promise": promise,
    "decide": decide,
    "have": have,
    "own-decide": own_decide,
    "fill": fill,
    "grant": grant,
    "lapse": lapse,
    "start": start,
}


def main(program, folder):
    for name, step in STEPS.items():
        for image in IMAGES:
            trial = Trial(program)
            each_stop(trial, image, step)
            at = f"{folder}/stop-{name}-{image}"
            for ending, text in (("in", trial.text()), ("out", trial.replayed()), ("summary", trial.replayed("--summary"))):
                with open(f"{at}.{ending}", "w") as file:
                    file.write(text)
            print(at, len(trial.lines), "lines,", trial.replayed().count("\n"), "items,", trial.replayed().count("\ncrash"), "stops")


main(*sys.argv[1:])
