"""The nodes of a cluster on this machine, each a process of its own, and clients that ask them over UDP."""
import json
import pathlib
import random
import signal
import socket
import struct
import subprocess
import time

TOP = pathlib.Path(__file__).resolve().parents[2]

SCHEMA = (
    "CREATE SCHEMA Notes; "
    "CREATE TABLE User { required int64 user_id; required string name; } PRIMARY KEY(user_id), ENTITY GROUP ROOT; "
    "CREATE TABLE Note { required int64 user_id; required int64 note_id; required string text; } "
    "PRIMARY KEY(user_id, note_id), IN TABLE User, ENTITY GROUP KEY(user_id) REFERENCES User;"
)

# How many milliseconds a lease holds and how long rounds wait; a client waits as long for an answer.
TIMES = {"lease": 1_000, "margin": 100, "retry": 100, "patience": 10_000}

REQUEST, REPLY = 20, 21
HEAD = struct.Struct(">3sBBB")
TOKEN = struct.Struct(">QI")

# Seconds and microseconds, as the kernel takes them: how long one call waits for a datagram.
WAIT = struct.pack("ll", 0, 50_000)


def find_program():
    """The program that ./build proved and built."""
    program = TOP / "crates" / "megastore" / "out" / "megastore"
    if not program.is_file():
        raise SystemExit("there is no program yet: ./build proves and builds it")
    return program


def end_within(seconds):
    """Lets the script end by itself, with its nodes, after so many seconds or where it is told to."""

    def end(number, _):
        raise SystemExit(f"ended by signal {number}")

    signal.signal(signal.SIGTERM, end)
    signal.signal(signal.SIGALRM, end)
    signal.alarm(seconds)


def free_ports(count):
    """Ports of the loopback at which nothing listens."""
    sockets = [socket.socket(socket.AF_INET, socket.SOCK_DGRAM) for _ in range(count)]
    try:
        for one in sockets:
            one.bind(("127.0.0.1", 0))
        return [one.getsockname()[1] for one in sockets]
    finally:
        for one in sockets:
            one.close()


def request_message(node, token, wish):
    """The datagram by which a client asks a node."""
    text = json.dumps(wish, separators=(",", ":")).encode()
    return HEAD.pack(b"MS\x01", REQUEST, 0, node) + TOKEN.pack(token, len(text)) + text


def read_reply(datagram):
    """The node, the token and the text of a reply, or nothing where the datagram is none."""
    start = HEAD.size + TOKEN.size
    if len(datagram) < start:
        return None
    magic, kind, node, to = HEAD.unpack_from(datagram)
    token, length = TOKEN.unpack_from(datagram, HEAD.size)
    if (magic, kind, to, len(datagram)) != (b"MS\x01", REPLY, 0, start + length):
        return None
    return node, token, datagram[start:].decode()


class Cluster:
    """So many nodes, each with a folder of its own for its devices and its records. They make at most so many turns."""

    def __init__(self, folder, program, kinds=("full", "full", "full"), turns=20_000_000, slower=1, values="", schema=SCHEMA):
        self.folder = pathlib.Path(folder)
        self.schema = schema
        self.program = program
        self.turns = turns
        self.slower = slower
        self.ports = free_ports(len(kinds))
        self.processes = {}
        self.starts = {}
        self.header = self.folder / "header"
        self.header.write_text(self.header_text(kinds, values))

    def header_text(self, kinds, values):
        places = [f"127.0.0.1:{port}" for port in self.ports]
        times = "".join(f"{name} = {time * self.slower}\n" for name, time in TIMES.items() if name not in values)
        return f"nodes = {json.dumps(kinds)}\naddresses = {json.dumps(places)}\n{times}{values}schema = {json.dumps(self.schema)}\n---\n"

    def numbers(self):
        return range(1, len(self.ports) + 1)

    def address(self, node):
        return "127.0.0.1", self.ports[node - 1]

    def place(self, node):
        return self.folder / f"node-{node}"

    def record(self, node):
        """Where the node's present start writes its record."""
        return self.place(node) / f"record-{self.starts[node]}"

    def start(self, node):
        """Starts a node over what its devices hold."""
        self.place(node).mkdir(exist_ok=True)
        self.starts[node] = self.starts.get(node, 0) + 1
        words = [str(self.program), "node", "--number", str(node), "--turns", str(self.turns)]
        with self.header.open("rb") as header, self.record(node).open("wb") as record:
            self.processes[node] = subprocess.Popen(words, cwd=self.place(node), stdin=header, stdout=record)

    def kill(self, node):
        """Ends a node by a signal that it cannot meet."""
        process = self.processes.pop(node)
        process.send_signal(signal.SIGKILL)
        process.wait()

    def is_up(self, node):
        return node in self.processes and self.processes[node].poll() is None

    def __enter__(self):
        for node in self.numbers():
            self.start(node)
        return self

    def __exit__(self, *fault):
        self.end()

    def end(self):
        for node in list(self.processes):
            self.kill(node)


class Client:
    """Asks the nodes of a cluster, under a token of its own for each request."""

    def __init__(self, cluster):
        self.cluster = cluster
        self.token = random.getrandbits(32) << 20
        self.socket = socket.socket(socket.AF_INET, socket.SOCK_DGRAM)
        self.socket.bind(("127.0.0.1", 0))
        # the kernel waits, so that a reply that is there costs one call
        self.socket.setsockopt(socket.SOL_SOCKET, socket.SO_RCVTIMEO, WAIT)

    def request(self, node, wish):
        """A request under a token of its own: the token and the datagram."""
        self.token += 1
        return self.token, request_message(node, self.token, wish)

    def send(self, node, datagram):
        self.socket.sendto(datagram, self.cluster.address(node))

    def receive(self, seconds):
        """The next datagram that comes, or nothing after so many seconds."""
        end = time.monotonic() + seconds
        while True:
            try:
                return self.socket.recv(65_536)
            except BlockingIOError:
                if time.monotonic() >= end:
                    return None

    def exchange(self, node, token, datagram, seconds=10.0):
        """Sends a request, and gives the text of its reply, or nothing where none came in time."""
        self.send(node, datagram)
        end = time.monotonic() + seconds * self.cluster.slower
        while time.monotonic() < end:
            reply = read_reply(self.receive(end - time.monotonic()) or b"")
            if reply and reply[:2] == (node, token):
                return reply[2]
        return None

    def ask(self, node, wish, seconds=10.0):
        """The text of the reply to a request, or nothing where none came in time."""
        return self.exchange(node, *self.request(node, wish), seconds)

    def wait_for(self, node):
        """Waits until a node answers."""
        for _ in range(50):
            if not self.cluster.is_up(node):
                raise SystemExit(f"node {node} has ended")
            if self.ask(node, {"do": "refresh"}, 0.5):
                return
        raise SystemExit(f"node {node} does not answer")

    def close(self):
        self.socket.close()


def put_note(user, note, text):
    """A transaction that writes one note of a user."""
    row = {"user_id": user, "note_id": note, "text": text}
    return {
        "do": "txn",
        "group": ["User", [user]],
        "checks": [],
        "reads": [],
        "writes": [{"put": "Note", "row": row}],
        "sends": [],
    }


def read_notes(user, mode="current"):
    """A read of all rows of a user's group."""
    return {"do": "read", "mode": mode, "group": ["User", [user]], "rows": []}
