"""Clients that load a server together, each kind in its own way."""
import queue
import random
import socket
import struct
import threading
import time
from typing import NamedTuple

from forwarded import OPEN_ACL, get_data
from leader import CREATE, EPOCH_1, buffer
from server import CONNECT, GET, reset

# No wait is longer, so that a machine that is busy with other work passes too.
SECONDS = 30


class Node(NamedTuple):
    """A node, and what the answer to a getData of it has after the error."""

    path: bytes
    body: bytes


def made(leader, size):
    """Has the leader create a node with so many bytes of data."""
    path, data = b"/load%d" % size, buffer(bytes(size))
    zxid = leader.informs(CREATE, buffer(path) + data + OPEN_ACL + struct.pack(">?i", False, -1))
    return Node(path, data + struct.pack(">qqqqiiiqiiq", zxid, zxid, 1000, 1000, 0, 0, 0, 0, size, 0, zxid))


class Pipelining:
    """A client that reads nodes in bursts of so many requests, and takes the answers while it sends. At most `ahead`
    bursts are under way, so where that is 1 the last answer of a burst comes before the next burst."""

    def __init__(self, server, nodes, seed, burst, ahead):
        self.client, self.leader, self.nodes = server.client(), server.leader, nodes
        self.client.settimeout(SECONDS)
        self.chance, self.burst = random.Random(seed), burst
        self.free, self.bursts = threading.Semaphore(ahead), queue.Queue()

    def node(self, xid):
        return self.nodes[xid % len(self.nodes)]

    # ---- what is sent

    def ask(self, stop):
        """Sends one burst after the other, until it is told to stop."""
        xids = range(self.burst)
        while not stop.is_set():
            assert self.free.acquire(timeout=SECONDS), f"no answers before {xids}"
            self.bursts.put(xids)
            self.send(b"".join(get_data(xid, self.node(xid).path) for xid in xids))
            xids = range(xids.stop, xids.stop + self.burst)
        self.bursts.put(None)

    def send(self, requests):
        """Sends them in pieces of 1 to 16,384 bytes, of which many are short."""
        at = 0
        while at < len(requests):
            end = at + self.chance.randint(1, 2 ** self.chance.randint(0, 14))
            self.client.sendall(requests[at:end])
            at = end

    # ---- what comes

    def read(self):
        """Takes each answer in its turn, and then the end of the connection."""
        zxid = EPOCH_1
        with self.client, self.client.makefile("rb", 1 << 16) as stream:
            while (xids := self.bursts.get(timeout=SECONDS)) is not None:
                for xid in xids:
                    zxid = self.take(stream, xid, zxid)
                self.free.release()
            self.client.shutdown(socket.SHUT_WR)
            assert stream.read(1) == b"", "an answer after the last one"

    def take(self, stream, xid, least):
        """Takes the answer to a request, and returns its zxid."""
        body = self.node(xid).body
        reply = stream.read(20 + len(body))
        assert reply[:8] + reply[16:] == struct.pack(">iii", 16 + len(body), xid, 0) + body, (xid, reply[:20].hex())
        zxid = int.from_bytes(reply[8:16], "big")
        assert least <= zxid <= EPOCH_1 + self.leader.last, (xid, least, zxid)
        return zxid


def push(clients, stop):
    """Sends requests whenever the connections take some, and reads no answer."""
    requests, sent = GET * 5000, [0] * len(clients)
    for client in clients:
        client.setblocking(False)
    while not stop.wait(0.01):
        for at, client in enumerate(clients):
            try:
                sent[at] += client.send(requests[sent[at] % len(GET) :])
            except BlockingIOError:
                pass


def cut(server, chance):
    """Ends a connection in the middle of a frame: one with a session or without, and by a reset or not."""
    if chance.randrange(2):
        client = server.client()
        client.sendall(GET * chance.randrange(20) + GET[: chance.randrange(1, len(GET))])
    else:
        client = server.connection()
        client.sendall(CONNECT[: chance.randrange(1, len(CONNECT))])
    if chance.randrange(2):
        reset(client)
    else:
        client.close()


def cut_many(server, least, seconds):
    """Cuts connections, one after the other: for so many seconds, and at least so many. Returns the most memory that
    the server held meanwhile, in megabytes."""
    chance, until, count, most = random.Random(13), time.monotonic() + seconds, 0, 0
    while count < least or time.monotonic() < until:
        cut(server, chance)
        count += 1
        most = max(most, server.memory())
        time.sleep(0.01)
    return most
