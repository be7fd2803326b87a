#!/usr/bin/env python3
"""Three nodes on one machine: puts are acknowledged, one node is killed and starts again, and no acknowledged put is missing.

    examples/cluster/run.py [--program PATH]            shows what is asked and answered
    examples/cluster/run.py [--program PATH] --figures  measures puts, local reads, batches and the longest turn beside the bare disk

The nodes stand in a temporary folder, talk over the loopback, and are ended at the end. ./build makes the program.
"""
import argparse
import json
import pathlib
import sys
import tempfile

from cluster import Client, Cluster, end_within, find_program, put_note, read_notes
from figures import measure

USERS = (1, 2, 3)


class Notes:
    """The puts that were acknowledged, by user and note."""

    def __init__(self, client):
        self.client = client
        self.texts = {}
        self.next = 0

    def put(self, node, user):
        """Writes the next note of a user at a node, and again where it is not known to be committed."""
        self.next += 1
        text = f"note {self.next} at node {node}"
        for _ in range(5):
            answer = self.client.ask(node, put_note(user, self.next, text))
            print(f"  node {node}: put note {self.next} of user {user}: {answer}")
            if answer and answer.startswith("committed "):
                self.texts[user, self.next] = text
                return
        raise SystemExit(f"node {node} acknowledges no put")

    def missing(self, node):
        """Reads all notes at a node, and gives the acknowledged puts that are not there."""
        found = {}
        for user in USERS:
            answer = self.client.ask(node, read_notes(user)) or ""
            print(f"  node {node}: read user {user}: {answer}")
            if answer.startswith("read "):
                rows = [row for table, row in json.loads(answer.split(" ", 2)[2]) if table == "Note"]
                found.update({(user, row["note_id"]): row["text"] for row in rows})
        return [put for put, text in self.texts.items() if found.get(put) != text]


def show(cluster, client):
    """Puts at three nodes, at two while one is down, and reads at that one once it is back."""
    notes = Notes(client)
    print("three nodes are up")
    for node in cluster.numbers():
        for user in USERS:
            notes.put(node, user)
    print("node 3 is killed")
    cluster.kill(3)
    for node in (1, 2):
        for user in USERS:
            notes.put(node, user)
    print("node 3 starts again")
    cluster.start(3)
    client.wait_for(3)
    missing = notes.missing(3)
    print(f"{len(notes.texts) - len(missing)} of {len(notes.texts)} acknowledged puts are there")
    return 1 if missing else 0


def main():
    parser = argparse.ArgumentParser(description=__doc__, formatter_class=argparse.RawDescriptionHelpFormatter)
    parser.add_argument("--program", type=pathlib.Path, help="the program, where ./build did not make it")
    parser.add_argument("--folder", type=pathlib.Path, help="where the temporary folder is made")
    parser.add_argument("--slower", type=int, default=1, metavar="N", help="N times as long leases and rounds, for a busy machine")
    parser.add_argument("--figures", action="store_true", help="measure")
    parser.add_argument("--positions", type=int, default=50_000, metavar="N", help="how many positions the logs get before the longest turn is told")
    given = parser.parse_args()
    program = (given.program or find_program()).resolve()
    end_within((300 if given.figures else 120) * given.slower)
    with tempfile.TemporaryDirectory(prefix="megastore-", dir=given.folder) as folder:
        with Cluster(folder, program, slower=given.slower) as cluster:
            client = Client(cluster)
            for node in cluster.numbers():
                client.wait_for(node)
            return measure(cluster, client, given.positions) if given.figures else show(cluster, client)


if __name__ == "__main__":
    sys.exit(main())
