"""Servers of the tests' own, of which one leads after the other, and the program that looks for the one that leads."""
import os
import socket
import struct
import tempfile
import time
from concurrent.futures import ThreadPoolExecutor

from leader import Leader, buffer, packet, received
from server import Program, wait_until

ACK, NEWLEADER, UPTODATE, DIFF, TRUNC, SNAP, OBSERVERINFO, LEADERINFO, ACKEPOCH = 3, 10, 12, 13, 14, 15, 16, 17, 18
ID = 1
EPOCH = 1 << 32
SECONDS = 20
# Whether what is tried often in the gate is tried ten times as often.
LONG = False


def image(zxid, signature=b"BenWasHere"):
    """A leader's image of a tree with the root and /a, which the transaction with this zxid has made."""
    acl = struct.pack(">qii", 1, 1, 31) + buffer(b"world") + buffer(b"anyone")
    root = buffer(b"") + buffer(b"") + struct.pack(">qqqqqiiiqq", -1, 0, 0, 0, 0, 0, 1, 0, 0, zxid)
    node = buffer(b"/a") + buffer(b"hi") + struct.pack(">qqqqqiiiqq", 1, zxid, zxid, 1000, 1000, 0, 0, 0, 0, zxid)
    return struct.pack(">ii", 0, 1) + acl + root + node + buffer(b"/") + buffer(signature)


def at_once(jobs):
    """Does all of these by threads, and raises what the first one of them raised, with its name."""
    with ThreadPoolExecutor(max(len(jobs), 1)) as pool:
        waiting = {name: pool.submit(job) for name, job in jobs.items()}
    for name, it in waiting.items():
        if it.exception():
            raise AssertionError(f"{name}: {type(it.exception()).__name__} {it.exception()}") from it.exception()


class Heard(socket.socket):
    """A connection that keeps all bytes that come."""

    heard = b""

    def recv(self, *how):
        content = super().recv(*how)
        self.heard += content
        return content


class Line:
    """A connection of the observer's to a server, until clients are served over it."""

    def __init__(self, connection):
        self.connection, self.epoch, self.leader = connection, 0, None
        connection.settimeout(SECONDS)

    def introduced(self):
        """Takes the OBSERVERINFO, which comes first on each connection. Returns the epoch that was accepted last."""
        content = received(self.connection, 32)
        assert len(content) == 32, f"no OBSERVERINFO: {content.hex()}"
        kind, zxid, length, number, version, ids = struct.unpack(">iqiqii", content)
        assert (kind, length, number, version, ids) == (OBSERVERINFO, 12, ID, 0x10000, -1), content.hex()
        assert zxid % EPOCH == 0, hex(zxid)
        return zxid // EPOCH

    def sends(self, kind, zxid, content=None):
        self.connection.sendall(packet(kind, zxid, content))

    def sends_bytes(self, content):
        self.connection.sendall(content)

    def greets(self, epoch):
        """Tells its epoch. Returns the last zxid and the epoch that the observer answers."""
        self.epoch = epoch
        self.sends(LEADERINFO, epoch * EPOCH, struct.pack(">i", 0x10000))
        content = received(self.connection, 24)
        assert len(content) == 24, f"no ACKEPOCH: {content.hex()}"
        kind, zxid, length, answered, ids = struct.unpack(">iqiii", content)
        assert (kind, length, ids) == (ACKEPOCH, 4, -1), content.hex()
        return zxid, answered

    def acknowledged(self):
        wanted = packet(ACK, self.epoch * EPOCH)
        content = received(self.connection, len(wanted))
        assert content == wanted, f"no ACK: {content.hex()}"

    def finishes(self):
        """From behind a DIFF, a TRUNC or an image to where clients are served. Returns the leader."""
        self.sends(NEWLEADER, self.epoch * EPOCH)
        self.acknowledged()
        self.sends(UPTODATE, self.epoch * EPOCH)
        self.acknowledged()
        self.leader = Leader(self.connection, self.epoch)
        return self.leader

    def leads(self, epoch):
        """All of it, with nothing that is missing. Returns the leader."""
        self.introduced()
        self.greets(epoch)
        self.sends(DIFF, 0)
        return self.finishes()

    def closed_after(self, seconds=SECONDS):
        """Returns how many seconds the observer takes to close this connection; what it sends before is dropped."""
        began = time.monotonic()
        if self.leader:
            assert self.leader.has_ended.wait(seconds), f"open after {seconds} s"
            return time.monotonic() - began
        self.connection.settimeout(seconds)
        try:
            while self.connection.recv(4096):
                pass
        except socket.timeout:
            raise AssertionError(f"open after {seconds} s") from None
        except ConnectionError:
            pass
        return time.monotonic() - began

    def close(self):
        if self.leader:
            self.leader.leave()
        self.connection.close()


class Seat:
    """The address of a server, where connections are refused until it is opened."""

    def __init__(self, is_open=True):
        self.socket, self.port, self.lines = None, 0, []
        self.close()
        if is_open:
            self.open()

    def close(self):
        """Refuses connections from now on."""
        if self.socket:
            self.socket.close()
        self.socket = socket.socket()
        self.socket.setsockopt(socket.SOL_SOCKET, socket.SO_REUSEADDR, 1)
        self.socket.bind(("127.0.0.1", self.port))
        self.port = self.socket.getsockname()[1]

    def open(self):
        self.socket.listen(5)
        self.socket.settimeout(SECONDS)

    def accept(self):
        """Takes the observer's next connection."""
        self.lines.append(Line(Heard(fileno=self.socket.accept()[0].detach())))
        return self.lines[-1]

    def end(self):
        for it in self.lines:
            it.close()
        self.socket.close()


class Following(Program):
    """The program, which looks for a leader among these seats."""

    # Its own thread, the acceptor's, the finder's, and the leader's.
    THREADS = 4

    def __init__(self, seats, *words, option="--servers", others="", limit=None):
        self.seats, self.errors = seats, tempfile.TemporaryFile()
        servers = others + ",".join(f"127.0.0.1:{it.port}" for it in seats)
        self.start([option, servers, "--client", "0", "--id", str(ID), *words], self.errors, limit)
        self.takes_clients()

    def said(self):
        """Returns what standard error was told."""
        return os.pread(self.errors.fileno(), 1 << 24, 0).decode()

    def is_at_base(self, seconds=5):
        """Returns whether it has no thread of a client."""
        return wait_until(lambda: self.threads() == self.THREADS, seconds)

    def ends(self, status, seconds=SECONDS):
        """Waits for its end. Returns what standard error was told, where it ends with this status and in time."""
        found = self.program.wait(seconds)
        assert found == status, f"status {found}: {self.said()}"
        return self.said()

    def kill(self):
        self.end()
        self.errors.close()
        for it in self.seats:
            it.end()
