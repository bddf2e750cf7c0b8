#!/usr/bin/env python3
"""Measures what `serve` holds while a leader sends it millions of transactions.

    bench/memory.py PROGRAM                   as bench/memory.py crates/replay_runner/out/replay_runner
    bench/memory.py PROGRAM --checkpoint 0    without checkpoints, for comparison (--count 2000000 is enough)
    bench/memory.py PROGRAM --nodes 1000000   beside so many nodes
    bench/memory.py PROGRAM --rate 0          as fast as they are taken
    bench/memory.py PROGRAM --turnover 1000000 --parts 10    nodes that are all created and then all deleted, in turns

It is the leader: it brings the observer up to date, makes the nodes, and sends the transactions, 50,000 a second, many
in each write: they are written beforehand, so that only their zxids are filled in. Of ten transactions seven set the
data of a node, one creates a node, one deletes it again, and one is a write that the leader refuses. With --turnover so
many nodes are created below one of those that stay and then deleted, over and over, and no path comes twice. The
resident set is read many times in each part, and the greatest counts, so that it doesn't matter when checkpoints come;
a part has to be longer than what lies between two. After each part a PING is sent, whose answer shows that all of it
was applied. A client reads all the while, one request after the other, and its longest wait is measured. The exit
status is 0 if the greatest resident set of the last half is less than 2% above the greatest of the half before.
"""
import argparse
import itertools
import os
import re
import resource
import socket
import struct
import subprocess
import sys
import tempfile
import threading
import time

sys.dont_write_bytecode = True
import generate  # noqa: E402
from run import machine  # noqa: E402
from serve import DIFF, LEADERINFO, NEWLEADER, PING, REQUEST, UPTODATE, packet  # noqa: E402

EPOCH = generate.EPOCH << 32
DELETE, ERROR, CREATE_SESSION, CLOSE_SESSION = 2, -1, -10, -11
PARENTS = 100
# The transactions of a write to the socket, and the writes from one reading of the resident set to the next.
CHUNK, READING = 1000, 10
GROWTH = 1.02
CHECKPOINT = re.compile(r"checkpoint at 0x[0-9a-f]+ in (\d+) ms, (\d+) nodes, log of (\d+) transactions")
# Where the zxids of an INFORM stand: in the packet, and in its transaction.
OUTER, INNER = 4, 28
ZXID = struct.Struct(">q")


class Chunk:
    """Transactions that are written beforehand but for their zxids."""

    def __init__(self, bodies):
        self.written, self.starts = bytearray(), []
        for kind, body in bodies:
            self.starts.append(len(self.written))
            self.written += generate.inform(1, kind, body)

    def numbered(self, first):
        """Returns the bytes, with zxids from this number on."""
        pack, written = ZXID.pack_into, self.written
        zxid = EPOCH + first
        for at in self.starts:
            pack(written, at + OUTER, zxid)
            pack(written, at + INNER, zxid)
            zxid += 1
        return written


def chunks(paths, content, number):
    """Returns the transactions of some writes, so that the nodes are set in turn."""
    found = []
    for part in range(number):
        bodies = []
        for at in range(CHUNK // 10):
            for turn in range(7):
                path = paths[(part * CHUNK + at * 10 + turn) * 7919 % len(paths)]
                bodies.append((generate.SET_DATA, generate.set_data(path, content, 1)))
            path = b"/new%d" % at
            bodies.append((generate.CREATE, generate.create(path, content)))
            bodies.append((DELETE, generate.text(path)))
            bodies.append((ERROR, struct.pack(">i", -110)))
        found.append(Chunk(bodies))
    return found


def turnover(parent, content, number):
    """Yields the transactions of writes without end: nodes that are all created and then all deleted, in turns."""
    turn = 0
    while True:
        paths = [b"%s/t%d-%07d" % (parent, turn, at) for at in range(number)]
        for at in range(0, number, CHUNK):
            yield Chunk([(generate.CREATE, generate.create(it, content)) for it in paths[at : at + CHUNK]])
        for at in range(0, number, CHUNK):
            yield Chunk([(DELETE, generate.text(it)) for it in paths[at : at + CHUNK]])
        turn += 1


class Server:
    """The program behind this script, which leads it, and a client that reads."""

    def __init__(self, options):
        self.errors = tempfile.TemporaryFile()
        with socket.create_server(("127.0.0.1", 0)) as listener:
            words = [options.program, "serve", "--leader", str(listener.getsockname()[1]), "--client", "0"]
            words += ["--checkpoint", str(options.checkpoint), "--log", "info"]
            how = {"stdin": subprocess.DEVNULL, "stdout": subprocess.PIPE, "stderr": self.errors}
            self.ran = subprocess.Popen(words, **how)
            listener.settimeout(60)
            self.leader, _ = listener.accept()
        self.answers = self.leader.makefile("rb")
        self.port = int(self.ran.stdout.readline().split()[1])
        self.bring_up()
        self.last, self.sending, self.pinged = 0, threading.Lock(), threading.Semaphore(0)
        threading.Thread(target=self.follow, daemon=True).start()

    def answered(self):
        """Takes the observer's next packet: its type and its data."""
        kind, _ = struct.unpack(">iq", self.answers.read(12))
        data = self.buffer()
        (count,) = struct.unpack(">i", self.answers.read(4))
        for _ in range(max(count, 0) * 2):
            self.buffer()
        return kind, data

    def buffer(self):
        (length,) = struct.unpack(">i", self.answers.read(4))
        return self.answers.read(max(length, 0))

    def bring_up(self):
        self.answered()
        self.leader.sendall(packet(LEADERINFO, EPOCH, struct.pack(">i", 0x10000)))
        self.answered()
        self.leader.sendall(packet(DIFF, 0) + packet(NEWLEADER, EPOCH) + packet(UPTODATE, -1))
        self.answered()
        self.answered()

    def follow(self):
        try:
            while True:
                kind, data = self.answered()
                if kind == PING:
                    self.pinged.release()
                elif kind == REQUEST:
                    session, xid, asked = struct.unpack(">qii", data[:16])
                    if asked in (CREATE_SESSION, CLOSE_SESSION):
                        with self.sending:
                            self.last += 1
                            self.leader.sendall(generate.inform(self.last, asked, data[16:], session=session, cxid=xid))
        except (OSError, struct.error, ValueError):
            pass  # The end.

    def take(self, chunk):
        with self.sending:
            self.leader.sendall(chunk.numbered(self.last + 1))
            self.last += len(chunk.starts)

    def settles(self):
        """Waits until all that was sent has been applied."""
        with self.sending:
            self.leader.sendall(packet(PING, 0))
        self.pinged.acquire()

    def resident(self):
        """Returns the resident set in KiB."""
        with open(f"/proc/{self.ran.pid}/statm", encoding="ascii") as it:
            return int(it.read().split()[1]) * resource.getpagesize() // 1024

    def checkpoints(self):
        """Returns of each checkpoint the milliseconds that it took, the nodes, and the transactions that it dropped."""
        said = os.pread(self.errors.fileno(), 1 << 26, 0).decode()
        return [tuple(int(it) for it in found) for found in CHECKPOINT.findall(said)]

    def end(self):
        self.leader.close()
        self.ran.wait(60)
        return self.ran.returncode


class Waits(threading.Thread):
    """A client that reads one node after the other, and keeps how long it waited for the longest answer."""

    def __init__(self, port, path):
        super().__init__(daemon=True)
        self.port, self.path, self.longest, self.count = port, path, 0.0, 0
        self.stopped = threading.Event()

    def run(self):
        with socket.create_connection(("127.0.0.1", self.port), 60) as client:
            client.setsockopt(socket.IPPROTO_TCP, socket.TCP_NODELAY, 1)
            stream = client.makefile("rb")
            client.sendall(generate.text(struct.pack(">iqiqi", 0, 0, 30_000, 0, 16) + bytes(16)))
            stream.read(struct.unpack(">i", stream.read(4))[0])
            asked = generate.get_data(1, self.path)
            while not self.stopped.is_set():
                began = time.perf_counter()
                client.sendall(asked)
                stream.read(struct.unpack(">i", stream.read(4))[0])
                self.longest = max(self.longest, time.perf_counter() - began)
                self.count += 1


def make(server, count, content):
    """Has so many nodes created, and returns the paths of those that are set."""
    paths = [b"/p%02d" % parent for parent in range(PARENTS)]
    children = [b"%s/n%05d" % (paths[number % PARENTS], number) for number in range(max(count - PARENTS, 1))]
    made = paths + children
    # A part after the other, since a leader that says nothing for ten seconds is given up.
    for at in range(0, len(made), CHUNK):
        server.take(Chunk([(generate.CREATE, generate.create(it, content)) for it in made[at : at + CHUNK]]))
    server.settles()
    return children


def judged(sizes):
    """Prints by how much the greatest of the last half is above that of the first. Returns whether that is little."""
    first, last = max(sizes[: len(sizes) // 2 + 1]), max(sizes[len(sizes) // 2 + 1 :])
    passes = last < first * GROWTH
    word, growth = "PASS" if passes else "FAIL", 100 * (last / first - 1)
    print(f"{word}  at most {first:,} KiB in the first half, {last:,} in the last: {growth:+.2f}% (below 2%)")
    return passes


def measure(options):
    server = Server(options)
    content = b"x" * options.content
    paths = make(server, options.nodes, content)
    print(f"{options.nodes:,} nodes: {server.resident():,} KiB", flush=True)
    if options.turnover:
        sent = turnover(paths[0], content, options.turnover)
    else:
        sent = itertools.cycle(chunks(paths, content, 100))
    waits = Waits(server.port, paths[0])
    waits.start()
    sizes, began, part = [server.resident()], time.perf_counter(), options.count // options.parts
    for number in range(options.parts):
        seen = []
        for at in range(part // CHUNK):
            server.take(next(sent))
            if at % READING == 0:
                seen.append(server.resident())
            if options.rate:
                due = began + (number * part + (at + 1) * CHUNK) / options.rate
                time.sleep(max(0, due - time.perf_counter()))
        server.settles()
        sizes.append(max([*seen, server.resident()]))
        if options.parts <= 20 or (number + 1) % (options.parts // 20) == 0:
            print(f"      {(number + 1) * part:,} transactions: {sizes[-1]:,} KiB", flush=True)
    seconds = time.perf_counter() - began
    waits.stopped.set()
    waits.join(60)
    taken = server.checkpoints()
    print(f"{options.count:,} transactions in {seconds:.1f} s, {options.count / seconds:,.0f} a second")
    print(f"a client's longest wait: {1000 * waits.longest:.0f} ms, of {waits.count:,} answers")
    if taken:
        pauses = sorted(it[0] for it in taken)
        dropped = max(it[2] for it in taken)
        middle = pauses[len(pauses) // 2]
        print(f"{len(taken)} checkpoints: {pauses[0]} to {pauses[-1]} ms, {middle} in the middle")
        print(f"at most {dropped:,} transactions were dropped by one, at {taken[-1][1]:,} nodes")
    else:
        print("no checkpoint was taken")
    passes = judged(sizes)
    return passes and server.end() == 0


def main():
    parser = argparse.ArgumentParser(description=__doc__, formatter_class=argparse.RawDescriptionHelpFormatter)
    for name, number, what in (
        ("count", 10_000_000, "how many transactions are sent"),
        ("nodes", 10_000, "how many nodes there are"),
        ("content", 16, "the bytes of data of each transaction"),
        ("checkpoint", 64, "the program's option"),
        ("rate", 50_000, "how many are sent in a second; 0: as many as are taken"),
        ("parts", 10, "into how many parts they are divided"),
        ("turnover", 0, "how many nodes are created and then deleted, in place of the mix; 0: none"),
    ):
        parser.add_argument(f"--{name}", type=int, default=number, help=f"{what} ({number:,})")
    parser.add_argument("program")
    options = parser.parse_args()
    machine("before")
    passes = measure(options)
    machine("after")
    return 0 if passes else 1


if __name__ == "__main__":
    sys.exit(main())
