#!/usr/bin/env python3
"""A transfer between two groups that happens whole or not at all, wherever its driver is killed.

    examples/transfer/run.py [--program PATH]

Three nodes have two accounts, each a group of its own. A driver (`megastore two`) of a transfer is held still again and again, and is killed once both
groups are locked and nothing is decided; another one recovers the change by its name, and no money has moved. A driver that is left alone makes the transfer.
"""
import argparse
import json
import pathlib
import signal
import subprocess
import sys
import tempfile
import time

sys.path.insert(0, str(pathlib.Path(__file__).resolve().parents[1] / "cluster"))
from cluster import Client, Cluster, end_within, find_program  # noqa: E402

SCHEMA = (
    "CREATE SCHEMA Bank; "
    "CREATE TABLE Account { required int64 id; required int64 balance; } PRIMARY KEY(id), ENTITY GROUP ROOT; "
    "CREATE TABLE TwoPlan { required string gid; required int32 state; required bytes plan; } PRIMARY KEY(gid), ENTITY GROUP ROOT; "
    "CREATE TABLE AccountTwo { required int64 id; required string gid; } PRIMARY KEY(id), ENTITY GROUP KEY(id) REFERENCES Account; "
    "CREATE TABLE AccountDone { required int64 id; required string gid; required bool commit; } "
    "PRIMARY KEY(id, gid), ENTITY GROUP KEY(id) REFERENCES Account;"
)
START = {1: 100, 2: 0}
AMOUNT = 30
TURNS = 100_000


def put(account, balance):
    """A write of an account's balance."""
    return {"put": "Account", "row": {"id": account, "balance": balance}}


def transfer(gid):
    """The line of the change that moves the amount from account 1 to account 2."""
    parts = []
    for account, change in ((1, -AMOUNT), (2, AMOUNT)):
        check = {"is": "Account", "key": [account], "property": "balance", "values": [START[account]]}
        parts.append({"group": ["Account", [account]], "checks": [check], "writes": [put(account, START[account] + change)]})
    return json.dumps({"gid": gid, "parts": parts})


class Bank:
    """The accounts of a cluster, and those who drive changes of them."""

    def __init__(self, cluster):
        self.cluster = cluster
        self.client = Client(cluster)
        for node in cluster.numbers():
            self.client.wait_for(node)

    def open_accounts(self):
        for account, balance in START.items():
            wish = {"do": "txn", "group": ["Account", [account]], "checks": [], "reads": [], "writes": [put(account, balance)], "sends": []}
            print(f"  account {account} has {balance}: {self.client.ask(1, wish)}")

    def driver(self, gid, recovers=False):
        """A process that drives a change by requests to node 2."""
        words = [str(self.cluster.program), "two", "--node", "2", "--turns", str(TURNS), *(["--recover", gid] if recovers else [])]
        process = subprocess.Popen(words, stdin=subprocess.PIPE, stdout=subprocess.PIPE, cwd=self.cluster.folder)
        process.stdin.write((self.cluster.header.read_text() + ("" if recovers else transfer(gid) + "\n")).encode())
        process.stdin.close()
        return process

    def drive(self, gid, recovers=False):
        """The last line of a driver that is left alone."""
        process = self.driver(gid, recovers)
        told = process.stdout.read().decode().strip()
        process.wait()
        return told

    def rows(self, group, table):
        """The rows of a table in a group, as a current read at node 3 shows them."""
        answer = self.client.ask(3, {"do": "read", "mode": "current", "group": group, "rows": []}) or ""
        found = json.loads(answer.split(" ", 2)[2]) if answer.startswith("read ") else []
        return [row for name, row in found if name == table]

    def balances(self):
        return {account: row["balance"] for account in START for row in self.rows(["Account", [account]], "Account")}

    def locks(self):
        return [account for account in START if self.rows(["Account", [account]], "AccountTwo")]

    def state(self, gid):
        return [row["state"] for row in self.rows(["TwoPlan", [gid]], "TwoPlan")]


def is_between(bank, gid):
    """Both groups are locked for the change, and its plan is undecided."""
    return bank.state(gid) == [0] and bank.locks() == [1, 2]


def killed_between(bank, gid):
    """Whether a driver of the change was killed between preparing its parts and deciding. It is held still while the accounts are looked at."""
    process = bank.driver(gid)
    while process.poll() is None:
        process.send_signal(signal.SIGSTOP)
        time.sleep(0.02)
        if is_between(bank, gid):
            process.kill()
            process.wait()
            return True
        process.send_signal(signal.SIGCONT)
        time.sleep(0.0003)
    return False


def kill_between(bank):
    """The name of a change whose driver was killed so. One that slipped through is made, and the accounts are set back."""
    for number in range(1, 100):
        gid = f"t{number}"
        if killed_between(bank, gid):
            print(f"  a driver of {gid} is killed: accounts {bank.locks()} are locked, the plan is undecided")
            return gid
        bank.open_accounts()
    raise SystemExit("no driver was killed between")


def show(bank):
    bank.open_accounts()
    gid = kill_between(bank)
    print(f"  recovered: {bank.drive(gid, recovers=True)}")
    print(f"  balances {bank.balances()}, locked {bank.locks()}")
    kept = bank.balances() == START and not bank.locks()
    print(f"  a driver that is left alone: {bank.drive('last')}")
    print(f"  balances {bank.balances()}, locked {bank.locks()}")
    moved = {1: START[1] - AMOUNT, 2: START[2] + AMOUNT}
    return 0 if kept and bank.balances() == moved and not bank.locks() else 1


def main():
    parser = argparse.ArgumentParser(description=__doc__, formatter_class=argparse.RawDescriptionHelpFormatter)
    parser.add_argument("--program", type=pathlib.Path, help="the program, where ./build did not make it")
    parser.add_argument("--slower", type=int, default=1, metavar="N", help="N times as long leases and rounds, for a busy machine")
    given = parser.parse_args()
    program = (given.program or find_program()).resolve()
    end_within(300 * given.slower)
    with tempfile.TemporaryDirectory(prefix="megastore-") as folder:
        with Cluster(folder, program, slower=given.slower, schema=SCHEMA) as cluster:
            print("three nodes are up")
            return show(Bank(cluster))


if __name__ == "__main__":
    sys.exit(main())
