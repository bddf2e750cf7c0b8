"""Clients that take their session from one server to another: the leader, ZooKeeper's observer and the server under
test, while others write at each of them."""
import random
import time

import defaults  # It makes the examples' modules known.
from client import Connection
from jute import OPEN_ACL, Reader, boolean, buffer, int32, int64, text
from lab import Failed, Gone, ended, library, until
from raw import Raw
from seen import SET_DATA, Seen, Writer

CREATE, EPHEMERAL = 1, 1
HOPS, LIBRARY_HOPS = 200, 60
SESSION = 30_000
ROOT = "/hops"


class Bench(defaults.Bench):
    """The three servers."""

    def __enter__(self):
        super().__enter__()
        try:
            self.java.start(self.dialect, "Mode: observer")
        except BaseException:
            self.stop()
            raise
        return self

    def ports(self):
        return [it.client for it in (self.leader, self.java, self.observer)]


class Busy(Writer):
    """A client that sets a node again and again, nearly without a pause."""

    PAUSE = 0.002


class Load:
    """Six clients, two at each server, each of which sets a node of its own again and again."""

    def __init__(self, bench):
        owner = library(bench.leader.client)
        owner.ensure_path(ROOT)
        paths = [f"{ROOT}/load-{at}" for at in range(len(bench.ports()) * 2)]
        for it in paths:
            owner.ensure_path(it)
        ended(owner)
        self.writers = [Busy(port, path, SESSION) for port, path in zip(bench.ports() * 2, paths)]

    def __enter__(self):
        return self

    def __exit__(self, *_):
        for it in self.writers:
            it.stop()

    def count(self):
        return sum(len(it.writes) for it in self.writers)


class Hopper(Raw):
    """A client that makes each connection itself, with the session that it had before."""

    def __init__(self, port):
        super().__init__(port, timeout=SESSION)
        self.seen, self.left = 0, []

    def call(self, kind, body=b""):
        reply = super().call(kind, body)
        self.seen = max(self.seen, reply.zxid)
        return reply

    def hop(self, port, closes_first):
        """Takes the session to another server; the older connection is closed before, or left open."""
        if closes_first:
            self.close()
        else:
            self.left.append(self.socket)
        until(f"the session comes to port {port}", lambda: self.arrives(port))

    def arrives(self, port):
        """Returns whether the server takes the session. One that hasn't seen all that this client has refuses it."""
        Connection.__init__(self, port)
        known = int64(self.session) + buffer(self.password)
        self.send(buffer(int32(0) + int64(self.seen) + int32(SESSION) + known + boolean(False)))
        answer = Reader(self.frame(10) or b"")
        try:
            answer.int32()
            timeout, session, password = answer.int32(), answer.int64(), answer.buffer()
        except EOFError:
            raise Gone("the connect isn't answered") from None
        if (timeout, session, password) != (SESSION, self.session, self.password):
            raise Failed(f"session 0x{session:x} of {timeout} ms in place of 0x{self.session:x}")
        return True

    def writes(self, path, number):
        """Makes an ephemeral and sets a node, and reads what it has written."""
        named = f"{path}/{number:03}"
        made = self.call(CREATE, text(named) + buffer(b"") + OPEN_ACL + int32(EPHEMERAL))
        assert made.error == 0, f"the create of hop {number} is answered {made.name()}"
        done = self.call(SET_DATA, text(path) + buffer(b"%d" % number) + int32(number - 1))
        assert done.error == 0, f"the setData of hop {number} is answered {done.name()}"
        assert self.data(path)[1] == b"%d" % number
        assert self.stat(named).ephemeralOwner == self.session


def place(bench, name):
    """Makes a node, and returns its path and a client at the leader."""
    owner = library(bench.leader.client)
    owner.ensure_path(f"{ROOT}/{name}")
    return f"{ROOT}/{name}", owner


def raw(bench):
    """One session hops 200 times, and makes an ephemeral each time: it is never a new one, each write is taken, and
    all ephemerals are there in the end, until the session is closed."""
    path, owner = place(bench, "raw")
    chosen = random.Random(1)
    with Load(bench) as load:
        client = Hopper(bench.observer.client)
        at, began = bench.observer.client, time.monotonic()
        for number in range(1, HOPS + 1):
            at = chosen.choice([it for it in bench.ports() if it != at])
            client.hop(at, chosen.random() < 0.5)
            client.writes(path, number)
        spent = time.monotonic() - began
    print(f"     {HOPS} hops in {spent:.1f} s, among {load.count()} writes of others", flush=True)
    owner.sync("/")
    assert owner.get(path)[0] == b"%d" % HOPS
    assert sorted(owner.get_children(path)) == [f"{it:03}" for it in range(1, HOPS + 1)]
    client.leave()
    until("its ephemerals are gone", lambda: not owner.get_children(path))
    for it in client.left:
        it.close()
    ended(owner)


def left_behind(bench):
    """A write that comes by the connection that a session has left isn't done, wherever that one was: the connection
    is closed. The session goes on."""
    path, owner = place(bench, "left")
    ports = bench.ports()
    for number, (first, second) in enumerate((a, b) for a in ports for b in ports if a != b):
        client = Hopper(first)
        client.writes(path, number * 2 + 1)
        left = client.socket
        client.hop(second, False)
        client.writes(path, number * 2 + 2)
        old = Left(left, client)
        assert old.is_refused(path), "a session is at two servers"
        assert client.data(path)[1] == b"%d" % (number * 2 + 2)
        client.leave()
        left.close()
    ended(owner)


class Left(Raw):
    """The connection that a client has left."""

    def __init__(self, socket, client):
        self.socket, self.pending, self.order, self.events = socket, b"", [], []
        self.xid, self.timeout = client.xid + 1000, client.timeout

    def is_refused(self, path):
        """Sends a write, and returns whether the server closes the connection in place of an answer."""
        try:
            return self.call(SET_DATA, text(path) + buffer(b"old") + int32(-1)) is None
        except Gone as why:
            return "closed" in str(why)


def kazoo_hops(bench):
    """kazoo hops 60 times by another list of servers and a cut, with an ephemeral each time, on one session."""
    path, owner = place(bench, "kazoo")
    chosen = random.Random(2)
    with Load(bench):
        seen, at = Seen(bench.observer.client, SESSION // 1000), bench.observer.client
        for number in range(LIBRARY_HOPS):
            at = chosen.choice([it for it in bench.ports() if it != at])
            seen.client.set_hosts(f"127.0.0.1:{at}")
            cut = time.monotonic()
            seen.client._connection._socket.shutdown(2)
            until("it is back", lambda: seen.back(cut), 30)
            assert seen.client.create(f"{path}/{number:03}", b"", ephemeral=True)
            assert seen.keeps_its_session(), seen.states
        assert len(owner.get_children(path)) == LIBRARY_HOPS
        seen.close()
    until("its ephemerals are gone", lambda: not owner.get_children(path))
    ended(owner)


CHECKS = [raw, left_behind, kazoo_hops]
