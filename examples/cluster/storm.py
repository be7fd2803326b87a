#!/usr/bin/env python3
"""Strange datagrams at a running node: nothing changes, nothing ends, and a put is answered afterwards.

    examples/cluster/storm.py [--program PATH] [--count N] [--seed S]

N datagrams (100,000 where nothing is said) come from a client's address and from that of the other node, which is not running: noise,
messages that are cut or go on, messages of no right sender or receiver, requests that are no object, and answers that no operation waits for.
"""
import argparse
import pathlib
import random
import socket
import struct
import sys
import tempfile
import time

from cluster import HEAD, TOKEN, Client, Cluster, end_within, find_program, put_note, read_notes, request_message

GROUP = bytes.fromhex("018000000000000001")
PROBE_EACH = 100
VALUES = "cells = 1\nlease = 1000000000\n"
STILL = {"tick", "got", "put", "begin", "answer"}


def field(value):
    return struct.pack(">I", len(value)) + value


def op_of(node, start, number):
    return struct.pack(">BII", node, start, number)


def message(kind, sender, to, fields):
    return HEAD.pack(b"MS\x01", kind, sender, to) + fields


def known_messages(sender, to):
    """One message of each kind of a node's, by its number."""
    op, group, n = op_of(1, 7, 9), field(GROUP), struct.pack(">Q", 1)
    zero = struct.pack(">I", 0) + op_of(0, 0, 0)
    ballot = struct.pack(">I", 1) + op
    entry = field(bytes.fromhex("01") + b"\x00" + b"\x01" + bytes(16))
    epoch, clock = struct.pack(">II", 9, 9), struct.pack(">Q", 5)
    fields = {
        1: op + group,
        2: op + group + n,
        3: op + group + n + zero + entry,
        4: op + group + n + zero + entry,
        5: op + group + n + zero + ballot + b"\x00",
        6: op + group + n + ballot,
        7: op + group + n + ballot + b"\x00",
        8: op + group + n,
        9: op + group + n,
        10: op + b"\x01\x01",
        11: op + b"\x01\x01",
        12: op + b"\x01\x01",
        13: group + n + entry,
        14: op + group + n,
        15: op + group + n + entry,
        16: op + group + n,
        17: b"\x01" + epoch + clock,
        18: b"\x01" + epoch + clock,
        19: b"\x01" + epoch + epoch,
    }
    return {kind: message(kind, sender, to, rest) for kind, rest in fields.items()}


class Storm:
    """Strange datagrams, drawn from a seed; each is one that a node takes and that changes nothing."""

    def __init__(self, seed):
        self.random = random.Random(seed)
        self.own = known_messages(2, 1)
        self.others = known_messages(2, 3)

    def noise(self):
        most = 65_507 if self.random.random() < 0.001 else 200
        return self.random.randbytes(self.random.randrange(most + 1))

    def torn(self):
        """A message that is cut, or goes on."""
        whole = self.random.choice(list(self.own.values()))
        if self.random.random() < 0.5:
            return whole[: self.random.randrange(len(whole))]
        return whole + self.random.randbytes(self.random.randrange(1, 20))

    def altered(self):
        """A message with other bytes at some places, whose sender is no client."""
        bytes_of = bytearray(self.random.choice(list(self.own.values())))
        for _ in range(self.random.randrange(1, 4)):
            bytes_of[self.random.randrange(len(bytes_of))] = self.random.randrange(256)
        bytes_of[4] = self.random.randrange(1, 256)
        return bytes(bytes_of)

    def misdirected(self):
        return self.random.choice(list(self.others.values()))

    def broken_request(self):
        """A request whose text is no object, or is to another node."""
        whole = request_message(1, self.random.getrandbits(60), put_note(1, 1, "changed"))
        if self.random.random() < 0.2:
            return whole[:5] + b"\x02" + whole[6:]
        start = HEAD.size + TOKEN.size
        text = whole[start : self.random.randrange(start, len(whole))]
        return whole[: HEAD.size] + TOKEN.pack(self.random.getrandbits(60), len(text)) + text

    def unasked(self):
        """An answer to an operation that is not open, or of a lock cell for an epoch that is not there; of the other node."""
        return self.own[self.random.choice((2, 4, 5, 7, 9, 11, 12, 16, 18, 19))]

    def of_client(self):
        return self.random.choice((self.noise, self.torn, self.altered, self.misdirected, self.broken_request))()

    def of_node(self):
        return self.random.choice((self.noise, self.torn, self.misdirected, self.unasked))()


def settle(log):
    """Waits until nothing was appended to a node's log for a while, and gives what it holds."""
    held = log.read_bytes()
    for _ in range(40):
        time.sleep(0.5)
        now = log.read_bytes()
        if now == held:
            return now
        held = now
    raise SystemExit("the log goes on")


def expect(what, is_so):
    print(f"{what}: {'yes' if is_so else 'NO'}")
    return 0 if is_so else 1


def rage(cluster, client, storm, count):
    """Sends the storm, a few datagrams at a time, and gives whether the node went on answering."""
    with socket.socket(socket.AF_INET, socket.SOCK_DGRAM) as node:
        node.bind(cluster.address(2))
        for number in range(count):
            if number % 2:
                node.sendto(storm.of_node(), cluster.address(1))
            else:
                client.socket.sendto(storm.of_client(), cluster.address(1))
            is_last = number + 1 == count
            if (is_last or number % PROBE_EACH == 0) and not client.ask(1, read_notes(1, "snapshot")):
                return False
    return True


def words_behind(record, start):
    """The first words of the lines of a record from an offset on, and how many there are of each."""
    counts = {}
    with record.open("rb") as lines:
        lines.seek(start)
        for line in lines:
            word = line.split(b" ", 1)[0].strip().decode()
            counts[word] = counts.get(word, 0) + 1
    return counts


def try_storm(cluster, client, storm, count):
    client.wait_for(1)
    put = client.ask(1, put_note(1, 1, "before"))
    before = client.ask(1, read_notes(1))
    log = cluster.place(1) / "mega.log"
    held, start = settle(log), cluster.record(1).stat().st_size
    answered = rage(cluster, client, storm, count)
    words = words_behind(cluster.record(1), start)
    print(f"{count} strange datagrams were sent, {words.get('got', 0)} datagrams were got")
    failed = expect("a put was answered before", bool(put) and put.startswith("committed"))
    failed += expect("the node answered all the while", answered and cluster.is_up(1))
    failed += expect("nearly all of them came", words.get("got", 0) > count * 0.99)
    failed += expect("its record shows no change", set(words) <= STILL)
    failed += expect("its log is as it was", log.read_bytes() == held)
    failed += expect("its rows are as they were", client.ask(1, read_notes(1)) == before)
    after = client.ask(1, put_note(1, 2, "after"))
    failed += expect("a put is answered afterwards", bool(after) and after.startswith("committed"))
    return 1 if failed else 0


def main():
    parser = argparse.ArgumentParser(description=__doc__, formatter_class=argparse.RawDescriptionHelpFormatter)
    parser.add_argument("--program", type=pathlib.Path, help="the program, where ./build did not make it")
    parser.add_argument("--slower", type=int, default=1, metavar="N", help="N times as long rounds, for a busy machine")
    parser.add_argument("--count", type=int, default=100_000)
    parser.add_argument("--seed", type=int, default=1)
    given = parser.parse_args()
    program = (given.program or find_program()).resolve()
    end_within(600 * given.slower)
    with tempfile.TemporaryDirectory(prefix="megastore-") as folder:
        cluster = Cluster(folder, program, kinds=("full", "read"), slower=given.slower, values=VALUES)
        cluster.start(1)
        try:
            return try_storm(cluster, Client(cluster), Storm(given.seed), given.count)
        finally:
            cluster.end()


if __name__ == "__main__":
    sys.exit(main())
