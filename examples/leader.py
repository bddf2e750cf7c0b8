#!/usr/bin/env python3
"""A small leader of ZooKeeper 3.4 on 127.0.0.1: it leads observers, makes some nodes, and goes on changing them.

    examples/leader.py                            listens on port 2888 and waits for an observer
    examples/leader.py --port 0                   on a port that the system picks; `leading PORT` is printed
    examples/leader.py --changes 20 --interval 500    how many changes, and the milliseconds between two
    examples/leader.py --snap                     makes the nodes first, so that an observer is brought up by an image

It needs no ZooKeeper, and an observer can't tell it from one: it sends each packet as a leader of 3.4 does. An observer
comes (OBSERVERINFO), is told the epoch (LEADERINFO), and says how far it is (ACKEPOCH). It gets what it lacks: a DIFF,
with the transactions that the log still has, a TRUNC, or a SNAP with an image of the tree. NEWLEADER follows, which it
acknowledges, and UPTODATE. From then on it gets each transaction by an INFORM, and a PING each half tick. What the
observer's clients ask for comes as a REQUEST: sessions are created and closed, a sync is answered by a SYNC, and any
other change fails, since this leader alone makes changes. For a session that a client comes back with a REVALIDATE
comes, and the answer is whether the session lives.

The changes begin when an observer follows, and more may come meanwhile. After the last one the leader goes, and ends
with status 0; with status 1 if its observers have gone before.
"""
import argparse
import queue
import socket
import struct
import sys
import threading
import time
from dataclasses import dataclass
from typing import List, Optional

from jute import Reader, boolean, buffer, int32, int64, text, vector
from tree import CLOSE_SESSION, CREATE, CREATE_SESSION, DELETE, ERROR, SET_DATA, Transaction, Tree

REQUEST, PROPOSAL, ACK, COMMIT, PING, REVALIDATE, SYNC, INFORM, NEWLEADER = 1, 2, 3, 4, 5, 6, 7, 8, 10
UPTODATE, DIFF, TRUNC, SNAP, OBSERVERINFO, LEADERINFO, ACKEPOCH = 12, 13, 14, 15, 16, 17, 18
NAMES = {DIFF: "DIFF", TRUNC: "TRUNC", SNAP: "SNAP"}
PROTOCOL = 0x10000
# The type of a client's request for a sync, and the error of a change that no client may make.
SYNC_REQUEST, UNIMPLEMENTED = 9, -6


def say(what: str) -> None:
    """Prints a line in one piece, as several threads do."""
    sys.stdout.write(f"{what}\n")
    sys.stdout.flush()


@dataclass
class Packet:
    """A packet between a leader and a learner. Nobody shows ids, so its authinfo is null."""

    kind: int
    zxid: int
    data: Optional[bytes] = None

    def write(self) -> bytes:
        return int32(self.kind) + int64(self.zxid) + buffer(self.data) + vector(None)

    @classmethod
    def read(cls, reader: Reader) -> "Packet":
        packet = cls(reader.int32(), reader.int64(), reader.buffer())
        reader.vector(lambda: (reader.text(), reader.text()))
        return packet


class Leader:
    """The tree, the log of the transactions that made it, and the learners that follow."""

    def __init__(self, options: argparse.Namespace):
        self.epoch, self.tick = options.epoch, options.tick / 1000
        self.tree, self.log = Tree(), []
        # The zxid from which on the log has every transaction, and the last one.
        self.base = self.last_zxid = 0
        self.counter = 0
        self.lock = threading.Lock()
        self.learners: List["Learner"] = []
        self.served = threading.Event()

    def propose(self, what: str, kind: int, body: bytes, client: int, cxid: int) -> None:
        """Commits a transaction, as the only voter may, says what it does, and informs who follows."""
        with self.lock:
            self.counter += 1
            self.last_zxid = (self.epoch << 32) | self.counter
            it = Transaction(client, cxid, self.last_zxid, int(time.time() * 1000), kind, body)
            self.tree.apply(it)
            self.log.append(it)
            say(f"0x{it.zxid:x} {what}")
            for learner in self.learners:
                learner.send(Packet(INFORM, it.zxid, it.write()))

    def answer(self, learner: "Learner", reader: Reader) -> None:
        """Does what a client of an observer asks for. The observer answers the client when it sees the transaction."""
        client, cxid, kind = reader.int64(), reader.int32(), reader.int32()
        named = f"0x{client & 2**64 - 1:x}"
        if kind == CREATE_SESSION:
            timeout = reader.int32()
            self.propose(f"createSession {named}, for {learner.name}", kind, int32(timeout), client, cxid)
        elif kind == CLOSE_SESSION:
            self.propose(f"closeSession {named}, for {learner.name}", kind, b"", client, cxid)
        elif kind == SYNC_REQUEST:
            with self.lock:
                learner.send(Packet(SYNC, 0))
        else:
            self.propose(f"a request of {named} fails", ERROR, int32(UNIMPLEMENTED), client, cxid)

    def revalidate(self, learner: "Learner", reader: Reader) -> None:
        """Says whether a session lives."""
        client = reader.int64()
        with self.lock:
            learner.send(Packet(REVALIDATE, -1, int64(client) + boolean(client in self.tree.sessions)))

    def forget_log(self) -> None:
        """Drops the log, as a leader that starts anew from its snapshot has none."""
        self.log.clear()
        self.base = self.last_zxid

    def sync(self, zxid: int) -> bytes:
        """Returns what brings a learner that is at this zxid to where the leader is."""
        if zxid == self.last_zxid:
            return Packet(DIFF, zxid).write()
        if zxid < self.base or not self.log:
            return Packet(SNAP, self.last_zxid).write() + self.tree.image()
        known = max([self.base] + [it.zxid for it in self.log if it.zxid <= zxid])
        if known < zxid:
            return Packet(TRUNC, known).write() + self.missing(known)
        return Packet(DIFF, self.last_zxid).write() + self.missing(zxid)

    def missing(self, zxid: int) -> bytes:
        """Returns the transactions after this one, each as a proposal with its commit."""
        found = b""
        for it in self.log:
            if it.zxid > zxid:
                found += Packet(PROPOSAL, it.zxid, it.write()).write() + Packet(COMMIT, it.zxid).write()
        return found

    def ping(self) -> None:
        with self.lock:
            for learner in self.learners:
                learner.send(Packet(PING, self.last_zxid))

    def follow(self, learner: "Learner", zxid: int) -> int:
        """Queues for a learner what it lacks, and from now on each transaction. Returns how it is brought up."""
        with self.lock:
            found = self.sync(zxid)
            learner.outgoing.put(found)
            learner.send(Packet(NEWLEADER, self.epoch << 32))
            self.learners.append(learner)
            return struct.unpack(">i", found[:4])[0]

    def left(self, learner: "Learner") -> None:
        with self.lock:
            if learner in self.learners:
                self.learners.remove(learner)

    def dismiss(self) -> None:
        """Ends the connections of all learners, each after what is queued for it."""
        with self.lock:
            there = list(self.learners)
        for learner in there:
            learner.is_dismissed = True
            learner.outgoing.put(None)
        for learner in there:
            learner.reading.join(5)


class Learner:
    """A learner's connection: one thread reads what it says, and one sends what is queued for it."""

    def __init__(self, leader: Leader, connection: socket.socket):
        self.leader, self.connection = leader, connection
        self.name, self.is_dismissed = "an observer", False
        # A learner that is silent for five ticks is given up.
        connection.settimeout(5 * leader.tick)
        connection.setsockopt(socket.IPPROTO_TCP, socket.TCP_NODELAY, 1)
        self.reader = Reader(connection.makefile("rb"))
        self.outgoing: "queue.Queue[Optional[bytes]]" = queue.Queue()
        self.reading = threading.Thread(target=self.run, daemon=True)
        self.sending = threading.Thread(target=self.send_queued, daemon=True)

    def send(self, packet: Packet) -> None:
        self.outgoing.put(packet.write())

    def send_queued(self) -> None:
        try:
            for written in iter(self.outgoing.get, None):
                self.connection.sendall(written)
            self.connection.shutdown(socket.SHUT_RDWR)
        except OSError:
            pass  # The learner has gone, which the other thread sees too.

    def next(self, *wanted: int) -> Packet:
        packet = Packet.read(self.reader)
        if wanted and packet.kind not in wanted:
            raise ValueError(f"packet {packet.kind} in place of {wanted[0]}")
        return packet

    def run(self) -> None:
        try:
            self.handshake()
            self.serve()
        except (OSError, EOFError, ValueError, struct.error) as why:
            if not self.is_dismissed:
                say(f"{self.name} has gone ({why})")
        finally:
            self.leader.left(self)
            self.outgoing.put(None)
            self.connection.close()

    def handshake(self) -> None:
        leader = self.leader
        self.sending.start()
        info = self.next(OBSERVERINFO)
        server = Reader(info.data or b"").int64()
        self.name = f"observer {server}"
        say(f"{self.name} comes; it has accepted epoch {info.zxid >> 32}")
        self.send(Packet(LEADERINFO, leader.epoch << 32, int32(PROTOCOL)))
        answer = self.next(ACKEPOCH)
        kind = leader.follow(self, answer.zxid)
        say(f"{self.name} is at zxid 0x{answer.zxid:x} and gets a {NAMES[kind]}")
        self.next(ACK)
        self.send(Packet(UPTODATE, -1))
        self.next(ACK)
        say(f"{self.name} follows epoch {leader.epoch}")
        leader.served.set()

    def serve(self) -> None:
        while True:
            packet = self.next()
            if packet.kind == REQUEST:
                self.leader.answer(self, Reader(packet.data or b""))
            elif packet.kind == REVALIDATE:
                self.leader.revalidate(self, Reader(packet.data or b""))


# The session that makes and sets the nodes, and the first of those that hold an ephemeral for a while.
SESSION, HOLDER = 0x900000000000001, 0x900000000000100


def make_nodes(leader: Leader) -> None:
    """Makes the nodes that are changed later."""
    for path, data in (("/demo", b"made by leader.py"), ("/demo/counter", b"0"), ("/demo/tasks", b"")):
        leader.propose(f"create {path}", CREATE, leader.tree.create_body(path, data), SESSION, 0)


def change(leader: Leader, number: int) -> None:
    """Makes the change of that number, from 1 on: a set, a create, an ephemeral create, and deletes."""
    tree, turn = leader.tree, (number - 1) // 4
    task, holder = f"/demo/tasks/task-{turn}", HOLDER + turn
    if number % 4 == 1:
        body = tree.set_body("/demo/counter", b"%d" % number)
        leader.propose(f"setData /demo/counter to {number}", SET_DATA, body, SESSION, number)
    elif number % 4 == 2:
        leader.propose(f"create {task}", CREATE, tree.create_body(task, b"to do"), SESSION, number)
    elif number % 4 == 3:
        leader.propose(f"createSession 0x{holder:x}", CREATE_SESSION, int32(4000), holder, 0)
        body = tree.create_body("/demo/lock", b"", True)
        leader.propose(f"create /demo/lock, an ephemeral of 0x{holder:x}", CREATE, body, holder, 1)
    else:
        leader.propose(f"delete {task}", DELETE, text(task), SESSION, number)
        leader.propose(f"closeSession 0x{holder:x}, and /demo/lock goes with it", CLOSE_SESSION, b"", holder, 2)


def accept(leader: Leader, listener: socket.socket) -> None:
    while True:
        try:
            connection, _ = listener.accept()
        except OSError:
            return  # The listener is closed.
        Learner(leader, connection).reading.start()


def pings(leader: Leader, ended: threading.Event) -> None:
    while not ended.wait(leader.tick / 2):
        leader.ping()


def lead(leader: Leader, options: argparse.Namespace) -> int:
    """Makes the nodes, where they aren't there, and the changes. Returns the exit status."""
    leader.served.wait()
    if not options.snap:
        make_nodes(leader)
    for number in range(1, options.changes + 1):
        time.sleep(options.interval / 1000)
        if not leader.learners:
            say("no observer follows any more")
            return 1
        change(leader, number)
    time.sleep(options.interval / 1000)
    return 0


def read_options() -> argparse.Namespace:
    parser = argparse.ArgumentParser(description=__doc__, formatter_class=argparse.RawDescriptionHelpFormatter)
    parser.add_argument("--port", type=int, default=2888, help="the port to listen on; 0 lets the system pick (2888)")
    parser.add_argument("--changes", type=int, default=20, help="how many changes are made (20)")
    parser.add_argument("--interval", type=int, default=500, help="milliseconds between two changes (500)")
    parser.add_argument("--tick", type=int, default=2000, help="a tick in milliseconds (2000)")
    parser.add_argument("--epoch", type=int, default=1, help="the epoch that it leads (1)")
    parser.add_argument("--snap", action="store_true", help="make the nodes before an observer comes, and keep no log")
    return parser.parse_args()


def main() -> int:
    options = read_options()
    leader, ended = Leader(options), threading.Event()
    if options.snap:
        make_nodes(leader)
        leader.forget_log()
    with socket.create_server(("127.0.0.1", options.port)) as listener:
        say(f"leading {listener.getsockname()[1]}")
        threading.Thread(target=accept, args=(leader, listener), daemon=True).start()
        threading.Thread(target=pings, args=(leader, ended), daemon=True).start()
        try:
            return lead(leader, options)
        except KeyboardInterrupt:
            return 130
        finally:
            ended.set()
            leader.dismiss()


if __name__ == "__main__":
    sys.exit(main())
