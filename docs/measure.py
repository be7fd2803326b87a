#!/usr/bin/env python3
"""Measures replays of a built program: processor seconds and memory, for schedules that grow.

    docs/measure.py PROGRAM steps                one node alone, 10,000 to 1,000,000 deliveries of the messages of puts
    docs/measure.py PROGRAM drawn                lines of `gen --seed 7 --nodes 5`, 10,000 to 1,000,000
    docs/measure.py PROGRAM puts                 puts to one group of three nodes, each drained, 1,000 to 100,000
    docs/measure.py PROGRAM open                 puts of eight nodes in blocks of 500 that are open at once, 500 to 20,000
    docs/measure.py PROGRAM apart                the same puts, each drained before the next, 500 to 20,000
    docs/measure.py PROGRAM queues               messages that one group sends to another, each entered and handled by pumps, 250 to 4,000
    docs/measure.py PROGRAM ticks                as many groups as ticks at one node, 500 to 8,000

Each line says how many lines were replayed, the seconds, the greatest memory, and how long a line took of those behind the line before.
"""
import resource
import subprocess
import sys
import tempfile

SCHEMA = r"CREATE SCHEMA S; CREATE TABLE User { required int64 user_id; required string name; } PRIMARY KEY(user_id), ENTITY GROUP ROOT;"
HEADER = '''schema = "{schema}"
nodes = [{nodes}]
---
'''
DRAIN = '{"do":"drain","most":100}\n'


def put(node, user, number):
    row = '{"put":"User","row":{"user_id":%d,"name":"N%d"}}' % (user, number)
    return '{"do":"txn","node":%d,"group":["User",[%d]],"checks":[],"reads":[],"writes":[%s],"sends":[]}\n' % (node, user, row)


def steps(out, count):
    """One node that is all of the cluster: each put is a begin and four messages, which the node sends to itself."""
    out.write(HEADER.format(schema=SCHEMA, nodes='"full"'))
    for number in range(count // 5):
        out.write(put(1, number % 1000, number))
        out.write(DRAIN)


def puts(out, count):
    out.write(HEADER.format(schema=SCHEMA, nodes='"full", "full", "full"'))
    for number in range(count):
        out.write(put(1 + number % 3, 7, number))
        out.write(DRAIN)


def in_blocks(out, count, block):
    """Puts of eight nodes, each to a group of its own in a block, with a drain behind each block. A node has at most 64 operations open, so that all 500 of a block may be."""
    out.write(HEADER.format(schema=SCHEMA, nodes=", ".join(['"full"'] * 8)))
    for number in range(count):
        out.write(put(1 + number % 8, number % 500, number))
        if number % block == block - 1:
            out.write('{"do":"drain","most":1000000}\n')


def open_at_once(out, count):
    in_blocks(out, count, 500)


def apart(out, count):
    in_blocks(out, count, 1)


BANK = r"CREATE SCHEMA Bank; CREATE TABLE Account { required int64 id; required int64 balance; } PRIMARY KEY(id), ENTITY GROUP ROOT;"
ONE = "00000000000000010201800000000000000201"


def queues(out, count):
    """Each message moves 1 from account 1 to account 2: a transaction that sends it, a pump that enters it, and one that handles it."""
    out.write(HEADER.format(schema=BANK, nodes='"full"'))
    for account in (1, 2):
        row = '{"put":"Account","row":{"id":%d,"balance":0}}' % account
        out.write('{"do":"txn","node":1,"group":["Account",[%d]],"checks":[],"reads":[],"writes":[%s],"sends":[]}\n' % (account, row))
        out.write(DRAIN)
    send = '{"to":["Account",[2]],"queue":"credit","payload":"%s"}' % ONE
    for _ in range(count):
        out.write('{"do":"txn","node":1,"group":["Account",[1]],"checks":[],"reads":[],"writes":[],"sends":[%s]}\n' % send)
        out.write(DRAIN)
        for what in ("enter", "handle"):
            out.write('{"do":"pump","node":1,"what":"%s"}\n' % what)
            out.write(DRAIN)


def ticks(out, count):
    """A put to each of so many groups, and then so many ticks, at which nothing is due."""
    out.write(HEADER.format(schema=SCHEMA, nodes='"full"'))
    for number in range(count):
        out.write(put(1, number, number))
        out.write(DRAIN)
    for number in range(count):
        out.write('{"do":"tick","node":1,"now":%d}\n' % (10 + number))


def run(program, name, count):
    with tempfile.NamedTemporaryFile("w+", suffix=".schedule") as it:
        if name == "drawn":
            subprocess.run([program, "gen", "--seed", "7", "--count", str(count), "--nodes", "5"], stdout=it, check=True)
        else:
            {"steps": steps, "puts": puts, "open": open_at_once, "apart": apart, "queues": queues, "ticks": ticks}[name](it, count)
        it.flush()
        it.seek(0)
        words = ["/usr/bin/env", "python3", "-c", CHILD, program]
        told = subprocess.run(words, stdin=it, capture_output=True, text=True, check=True).stdout.split()
    return float(told[0]), int(told[1])


CHILD = """
import resource, subprocess, sys
subprocess.run([sys.argv[1], "replay", "--summary"], stdin=sys.stdin, stdout=subprocess.DEVNULL, check=True)
used = resource.getrusage(resource.RUSAGE_CHILDREN)
print(used.ru_utime + used.ru_stime, used.ru_maxrss)
"""

COUNTS = {
    "steps": (10_000, 100_000, 1_000_000),
    "drawn": (10_000, 100_000, 1_000_000),
    "puts": (1_000, 10_000, 50_000, 100_000),
    "open": (500, 5_000, 20_000),
    "apart": (500, 5_000, 20_000),
    "queues": (250, 500, 1_000, 2_000, 4_000),
    "ticks": (500, 1_000, 2_000, 4_000, 8_000),
}


def main():
    program, name = sys.argv[1:3]
    before, spent = 0, 0.0
    for count in COUNTS[name]:
        seconds, kilobytes = run(program, name, count)
        each = (seconds - spent) / (count - before) * 1e6
        print(f"{name} {count:9,}: {seconds:7.2f} s, {kilobytes / 1000:7.0f} MB, {each:6.1f} microseconds each", flush=True)
        before, spent = count, seconds


main()
