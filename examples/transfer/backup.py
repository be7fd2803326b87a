#!/usr/bin/env python3
"""A group backed up, wiped and restored: what a backup has of a node's log comes back in a cluster that has nothing.

    examples/transfer/backup.py [--program PATH]

Three nodes take puts of a user's notes and are killed. The user's group is backed up from the log of node 1. Three other nodes, with nothing on
their devices, are asked the lines that `restore` makes of the backup, and then show the notes; so does a restore at an earlier position.
"""
import argparse
import json
import pathlib
import subprocess
import sys
import tempfile

sys.path.insert(0, str(pathlib.Path(__file__).resolve().parents[1] / "cluster"))
from cluster import Client, Cluster, end_within, find_program, put_note, read_notes  # noqa: E402

USER = 1
GROUP = "018000000000000001"
TEXTS = ("first", "second", "third")


def run(program, words, given, folder):
    """The status of a call of the program in a folder, and the lines that it writes."""
    ended = subprocess.run([str(program), *words], cwd=folder, input=given, capture_output=True, check=False)
    return ended.returncode, ended.stdout.decode().splitlines()


def back_up(cluster, node):
    """The lines of a backup of the group, through all that the log of a node tells."""
    words = ["backup", "--number", str(node), "--group", GROUP, "--at"]
    header = cluster.header.read_bytes()
    status, lines = run(cluster.program, [*words, "1000000"], header, cluster.place(node))
    print(f"  backup --at 1000000: {lines[0]}, status {status}")
    entries = lines[0].split()[1]
    status, lines = run(cluster.program, [*words, entries], header, cluster.place(node))
    print(f"  backup --at {entries}: {lines[0]} and {len(lines) - 1} entries, status {status}")
    return lines


def restore(cluster, lines, at):
    """The requests that bring back the rows of a backup at a position."""
    given = cluster.header.read_bytes() + "".join(f"{line}\n" for line in lines).encode()
    status, puts = run(cluster.program, ["restore", "--at", str(at)], given, cluster.folder)
    print(f"  restore --at {at}: {len(puts)} puts, status {status}")
    wishes = [json.loads(put) for put in puts]
    for wish in wishes:
        del wish["node"]
    return wishes


def notes_at(client, node):
    """The texts of the user's notes, as a current read at a node shows them."""
    answer = client.ask(node, read_notes(USER)) or ""
    rows = json.loads(answer.split(" ", 2)[2]) if answer.startswith("read ") else []
    return [row["text"] for table, row in rows if table == "Note"]


def up(cluster):
    """A client of a cluster whose nodes answer."""
    client = Client(cluster)
    for node in cluster.numbers():
        client.wait_for(node)
    return client


def make_backup(folder, given):
    """The lines of a backup of a cluster that takes three puts and is killed, and the cluster's folder."""
    with Cluster(folder, given.program, slower=given.slower) as cluster:
        client = up(cluster)
        for number, text in enumerate(TEXTS, 1):
            print(f"  put note {number}: {client.ask(1, put_note(USER, number, text))}")
        cluster.end()
        print("the nodes are killed, and the log of node 1 is backed up")
        return back_up(cluster, 1)


def brought_back(folder, given, lines, at):
    """The notes that a cluster with nothing on its devices has behind a restore."""
    with Cluster(folder, given.program, slower=given.slower) as cluster:
        client = up(cluster)
        for wish in restore(cluster, lines, at):
            answer = client.ask(2, wish)
            print(f"  put again at node 2: {answer}")
        return notes_at(client, 3)


def main():
    parser = argparse.ArgumentParser(description=__doc__, formatter_class=argparse.RawDescriptionHelpFormatter)
    parser.add_argument("--program", type=pathlib.Path, help="the program, where ./build did not make it")
    parser.add_argument("--slower", type=int, default=1, metavar="N", help="N times as long leases and rounds, for a busy machine")
    given = parser.parse_args()
    given.program = (given.program or find_program()).resolve()
    end_within(120 * given.slower)
    with tempfile.TemporaryDirectory(prefix="megastore-") as folder:
        places = [pathlib.Path(folder) / name for name in ("old", "new", "earlier")]
        for place in places:
            place.mkdir()
        print("three nodes are up")
        lines = make_backup(places[0], given)
        print("three nodes with nothing on their devices are up")
        whole = brought_back(places[1], given, lines, len(lines) - 1)
        print(f"node 3 shows {whole}")
        print("three more, for the rows behind the first two entries")
        early = brought_back(places[2], given, lines, 2)
        print(f"node 3 shows {early}")
    return 0 if (whole, early) == (list(TEXTS), list(TEXTS[:2])) else 1


if __name__ == "__main__":
    sys.exit(main())
