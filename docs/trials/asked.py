#!/usr/bin/env python3
"""Writes the schedules in which every request is made at one node of each kind.

    docs/trials/asked.py FOLDER

They are FOLDER/asked-KIND.in, where KIND is full, witness or read."""
import json, sys

HEADER = '''nodes = ["full", "full", "witness", "read"]
schema = "CREATE SCHEMA Shop; CREATE TABLE Account { required int64 id; required int64 balance; optional string name; } PRIMARY KEY(id), ENTITY GROUP ROOT; CREATE TABLE Order { required int64 id; required int32 number; required string item; repeated string tag; } PRIMARY KEY(id, number), IN TABLE Account, ENTITY GROUP KEY(id) REFERENCES Account; CREATE LOCAL INDEX ByItem ON Order(id, item); CREATE GLOBAL INDEX ByTag ON Order(tag);"
---
'''
NODES = {"full": 2, "witness": 3, "read": 4}
PAYLOAD = "00000000000000320201800000000000000201"


def lines_at(node):
    group = ["Account", [1]]
    account = {"put": "Account", "row": {"id": 1, "balance": 100, "name": "Ann"}}
    order = {"put": "Order", "row": {"id": 1, "number": 7, "item": "tea", "tag": ["green", "loose"]}}
    drain = {"do": "drain", "most": 1000}
    txn = {"do": "txn", "group": group, "checks": [], "reads": [], "writes": [], "sends": []}
    yield {**txn, "node": 1, "writes": [account, order]}
    yield {**txn, "node": 1, "group": ["Account", [2]], "writes": [{"put": "Account", "row": {"id": 2, "balance": 0}}]}
    yield drain
    yield {**txn, "node": 1, "sends": [{"to": ["Account", [2]], "queue": "credit", "payload": PAYLOAD}]}
    yield drain
    own = {**txn, "node": node}
    yield {**own, "checks": [{"there": "Account", "key": [1]}], "reads": [{"row": "Order", "key": [1, 7]}], "writes": [{"add": "Account", "key": [1], "property": "balance", "by": 5}]}
    yield drain
    yield {**own, "checks": [{"gone": "Account", "key": [1]}]}
    yield drain
    one = {key: txn[key] for key in ("checks", "reads", "writes", "sends")}
    yield {"do": "batch", "node": node, "group": group, "txns": [{**one, "writes": [{"delete": "Order", "key": [1, 7]}]}, {**one, "checks": [{"there": "Order", "key": [1, 7]}]}, {**one, "writes": [order]}]}
    yield drain
    for mode in ("current", "snapshot", "inconsistent"):
        yield {"do": "read", "node": node, "mode": mode, "group": group, "rows": [{"row": "Account", "key": [1]}]}
        yield drain
        yield {"do": "read", "node": node, "mode": mode, "group": group, "rows": []}
        yield drain
        yield {"do": "find", "node": node, "index": "ByItem", "values": [1], "mode": mode, "group": group}
        yield drain
    yield {"do": "find", "node": node, "index": "ByTag", "values": ["green"]}
    yield {"do": "refresh", "node": node}
    yield {"do": "find", "node": node, "index": "ByTag", "values": ["green"]}
    yield {"do": "pump", "node": node, "what": "enter"}
    yield drain
    yield {"do": "pump", "node": node, "what": "handle"}
    yield drain
    yield {"do": "pump", "node": node, "what": "enter"}
    yield {"do": "pump", "node": node, "what": "handle"}
    yield drain
    yield {"do": "read", "node": 1, "mode": "current", "group": ["Account", [2]], "rows": []}
    yield drain


def main(folder):
    for kind, node in NODES.items():
        with open(f"{folder}/asked-{kind}.in", "w") as file:
            file.write(HEADER + "".join(json.dumps(line, separators=(",", ":")) + "\n" for line in lines_at(node)))


main(*sys.argv[1:])
