"""Which items of a transcript belong to which line of a schedule, and where the fuse of a data device cut.

The definitions leave it open where such a fuse cuts, so the transcript tells it: a crash that no line asks for.
"""
import json


def object_of(line):
    """Returns the object that a line is, or an empty one."""
    try:
        found = json.loads(line)
    except (ValueError, RecursionError):
        return {}
    return found if isinstance(found, dict) else {}


class Alignment:
    """Walks through the lines of a schedule and the items of its transcript."""

    def __init__(self, lines, expected):
        self.items = [it.decode("utf-8", "replace").split() for it in expected]
        self.events = [object_of(it) for it in lines]
        last = self.items[-1] if self.items else []
        self.refused = int(last[1]) if last[:1] == ["refused"] else len(lines) + 1
        self.at, self.taken, self.starts, self.cuts = 0, set(), {}, []
        while self.word() == "start":
            self.note_start()
        # how many items there are before the first line and behind each
        self.ends = [self.at]
        for number, event in enumerate(self.events, 1):
            if number < self.refused:
                self.take(event, self.events[number] if number + 1 < self.refused and number < len(lines) else {})
            self.ends.append(len(self.items) if number >= self.refused else self.at)

    def word(self):
        return self.items[self.at][0] if self.at < len(self.items) else ""

    def note_start(self):
        node, start = self.items[self.at][1:3]
        self.starts[node] = int(start)
        self.at += 1

    def take(self, event, following):
        """Goes over the items of one line."""
        what = event.get("do")
        if what == "fuse":
            return
        if what == "drain":
            self.drain(event.get("most", 0), following)
        elif what == "start":
            self.start(following)
        else:
            self.step(following)

    def step(self, following):
        """Goes over an event's own item and what follows in its step; a crash right behind it is a cut, unless the next line asks for it."""
        own = self.at
        if self.word() == "taken":
            self.taken.add(self.items[own][1])
        self.at += 1
        if self.word() == "crash" and not self.asks_for_crash(following):
            self.cuts.append((own, "AsItWas"))
            self.at += 1
        while self.at < len(self.items) and self.is_within():
            self.at += 1

    def asks_for_crash(self, following):
        return following.get("do") == "crash" and self.items[self.at][1] == str(following.get("node"))

    def is_within(self):
        return self.word() not in ("tick", "begin", "taken", "dropped", "crash", "start", "cut", "refused")

    def drain(self, most, following):
        for _ in range(most):
            if self.word() != "taken" or self.items[self.at][1] in self.taken:
                return
            self.step(following)
        if self.word() == "cut":
            self.at += 1

    def start(self, following):
        """A start that is cut shows the crash alone; whether its record is kept shows at the next start of the node."""
        if self.word() == "start":
            self.note_start()
            while self.at < len(self.items) and self.is_within():
                self.at += 1
            return
        node = self.items[self.at][1]
        later = next((int(it[2]) for it in self.items[self.at :] if it[:2] == ["start", node]), 0)
        is_kept = later > self.starts.get(node, 0) + 1
        self.cuts.append((self.at, "Recorded" if is_kept else "AsItWas"))
        self.starts[node] = self.starts.get(node, 0) + is_kept
        self.at += 1
