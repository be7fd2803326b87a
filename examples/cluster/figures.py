"""How fast three nodes on one machine are: puts, local reads, batches, and the longest turn over long logs, beside the bare disk."""
import os
import select
import statistics
import time

from cluster import Client, put_note, read_notes, read_reply

PUTS = 2_000
READS = 20_000
BATCHES = 4_000
CLIENTS = 64
TRANSACTIONS = 16
SECONDS = 15
FILLING_SECONDS = 120


def tell(name, times, each=1):
    """One line: the median of these times, and how many a second they make."""
    median = statistics.median(times) * 1e6
    print(f"{name}: p50 {median:,.0f} us, {each * len(times) / sum(times):,.0f} a second")


def timed(make, count):
    """How long each of so many acts takes, or of those that end in some seconds. Each is made before its time begins."""
    times = []
    end = time.perf_counter() + SECONDS
    while len(times) < count and time.perf_counter() < end:
        act = make(len(times))
        begun = time.perf_counter()
        act()
        times.append(time.perf_counter() - begun)
    return times


def sync_twice(folder):
    """A bare loop on the disk of the nodes: two writes, each with its sync."""
    place = os.open(folder / "bare", os.O_CREAT | os.O_RDWR)
    block = bytes(200)

    def make(number):
        def act():
            for half in range(2):
                os.pwrite(place, block, (2 * number + half) * len(block))
                os.fdatasync(place)

        return act

    try:
        return timed(make, PUTS)
    finally:
        os.close(place)


def expect(answer, word):
    if not answer or not answer.startswith(word):
        raise SystemExit(f"expected {word}, not {answer}")


def ask_often(client, wish, word, count):
    """How long a client waits for the replies of node 1 to what it asks, one after another: from the sending of each request until its reply is there."""

    def make(number):
        token, datagram = client.request(1, wish(number))
        return lambda: expect(client.exchange(1, token, datagram), word)

    return timed(make, count)


def put_often(client):
    return ask_often(client, lambda number: put_note(1, number, "a note of some words"), "committed", PUTS)


def read_often(client):
    """Current reads of one short group at a node where the group is valid."""
    expect(client.ask(1, put_note(2, 1, "a note of some words")), "committed")
    expect(client.ask(1, read_notes(2)), "read")
    return ask_often(client, lambda _: read_notes(2), "read", READS)


def batch_of(user, first):
    """Transactions of one group that go into its log together."""
    txns = []
    for note in range(first, first + TRANSACTIONS):
        txn = put_note(user, note, "a note of some words")
        del txn["do"], txn["group"]
        txns.append(txn)
    return {"do": "batch", "group": ["User", [user]], "txns": txns}


def ask_in_parallel(cluster, wish, count, seconds):
    """Many clients, each with one request on its way, until so many were sent or the time is over; gives how long all took, and the answers."""
    clients = [Client(cluster) for _ in range(CLIENTS)]
    by_socket = {client.socket: index for index, client in enumerate(clients)}
    sent = [0] * CLIENTS

    def send(index):
        node = index % len(cluster.ports) + 1
        _, datagram = clients[index].request(node, wish(index, sent[index]))
        clients[index].send(node, datagram)
        sent[index] += 1

    answers = []
    begun = time.perf_counter()
    for index in range(CLIENTS):
        send(index)
    while sum(sent) < count and time.perf_counter() - begun < seconds:
        for one in select.select(list(by_socket), [], [], 5.0)[0]:
            index = by_socket[one]
            reply = read_reply(clients[index].receive(1.0) or b"")
            answers.append(reply[2] if reply else "")
            send(index)
    took = time.perf_counter() - begun
    for client in clients:
        client.close()
    return took, answers


def batch_often(cluster):
    """Batches of many clients, each with a group of its own; gives how long all took, and how many were committed."""
    took, answers = ask_in_parallel(cluster, lambda index, number: batch_of(1_000 + index, number * TRANSACTIONS), BATCHES, SECONDS)
    return took, sum(text.startswith("batch ") and not text.startswith("batch none") for text in answers)


def fill(cluster, positions):
    """Puts of many clients, each into a group of its own, until the logs have so many positions more; gives how many were committed."""
    seconds = FILLING_SECONDS * cluster.slower
    _, answers = ask_in_parallel(cluster, lambda index, number: put_note(2_000 + index, number, "a note of some words"), positions, seconds)
    return sum(text.startswith("committed ") for text in answers)


def longest_turn(record):
    """The longest time in milliseconds from the tick of a turn to that of the next, as the node's record has them. A turn in which nothing comes waits for up to 8."""
    longest, last = 0, None
    with record.open("rb") as lines:
        for line in lines:
            if line.startswith(b"tick "):
                now = int(line.split()[2])
                longest = max(longest, 0 if last is None else now - last)
                last = now
    return longest


def run_time(process):
    """How many nanoseconds a process ran on a processor, as Linux tells."""
    with open(f"/proc/{process.pid}/schedstat") as told:
        return int(told.read().split()[0])


def put_and_watch(cluster, client):
    """Puts at node 1, and how many nanoseconds it ran during each."""
    spent = []

    def make(number):
        token, datagram = client.request(1, put_note(1, number, "a note of some words"))

        def act():
            before = run_time(cluster.processes[1])
            expect(client.exchange(1, token, datagram), "committed")
            spent.append(run_time(cluster.processes[1]) - before)

        return act

    return timed(make, PUTS), spent


def tell_longest(cluster, client, positions):
    """The longest turn of each node while its log grows by so many positions, and the longest of the puts behind them, one of which waits for a compaction."""
    committed = fill(cluster, positions)
    times, spent = put_and_watch(cluster, client)
    turns = ", ".join(str(longest_turn(cluster.record(node))) for node in cluster.numbers())
    print(f"{committed:,} positions more: longest turns {turns} ms")
    print(f"{len(times):,} puts behind them: longest {max(times) * 1e3:,.1f} ms; node 1 ran for at most {max(spent) / 1e6:,.1f} ms in one, and {statistics.median(spent) / 1e6:,.2f} ms in most")


def measure(cluster, client, positions):
    bare = sync_twice(cluster.folder)
    tell("bare disk, two writes and two syncs", bare)
    tell("puts of one client", put_often(client))
    tell("local current reads of one client", read_often(client))
    took, committed = batch_often(cluster)
    print(f"batches of {TRANSACTIONS} at {CLIENTS} clients: {committed * TRANSACTIONS / took:,.0f} transactions a second")
    print(f"bare disk: longest two writes and two syncs {max(bare) * 1e3:,.1f} ms")
    tell_longest(cluster, client, positions)
    return 0
