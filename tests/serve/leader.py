"""A small leader, of epoch 1 unless it is told otherwise: it creates and ends the sessions that its observer asks for,
says which of those live that clients bring from elsewhere, and keeps the other requests until a test takes them."""
import queue
import select
import struct
import threading
import time
from typing import List, NamedTuple, Tuple

CREATE, SYNC, CREATE2, CREATE_SESSION, CLOSE_SESSION, ERROR = 1, 9, 15, -10, -11, -1
REQUEST, PROPOSAL, PING, REVALIDATE, SYNCED, INFORM = 1, 2, 5, 6, 7, 8
EPOCH_1 = 1 << 32
SECONDS = 10


class Asked(NamedTuple):
    """A forwarded request: what it names, the rest of its frame, and the ids that its client has shown."""

    session: int
    xid: int
    kind: int
    body: bytes
    ids: List[Tuple[bytes, bytes]]


class Claim(NamedTuple):
    """A session that a client has from another server or from before, and the timeout that the client is to be told."""

    session: int
    timeout: int


def received(connection, count):
    """Returns so many bytes, or fewer where the connection ends before."""
    found = b""
    while len(found) < count:
        piece = connection.recv(min(count - len(found), 1 << 20))
        if not piece:
            break
        found += piece
    return found


def buffer(content):
    return struct.pack(">i", len(content)) + content


def packet(kind, zxid, content=None):
    """A packet of the leader; without content its data is null."""
    data = struct.pack(">i", -1) if content is None else buffer(content)
    return struct.pack(">iq", kind, zxid) + data + struct.pack(">i", -1)


class Packets:
    """Cuts what comes into packets: each its type, zxid, content and ids."""

    def __init__(self):
        self.rest = b""

    def taken(self, content):
        """Takes bytes, and returns the packets that are whole."""
        self.rest += content
        found, at = [], 0
        while True:
            try:
                made, at = self.read(at)
            except (struct.error, IndexError):
                self.rest = self.rest[at:]
                return found
            found.append(made)

    def read(self, at):
        kind, zxid = struct.unpack_from(">iq", self.rest, at)
        content, at = self.text(at + 12)
        (count,) = struct.unpack_from(">i", self.rest, at)
        ids, at = [], at + 4
        for _ in range(max(count, 0)):
            scheme, at = self.text(at)
            text, at = self.text(at)
            ids.append((scheme, text))
        return (kind, zxid, content, ids), at

    def text(self, at):
        (length,) = struct.unpack_from(">i", self.rest, at)
        end = at + 4 + max(length, 0)
        if end > len(self.rest):
            raise IndexError(end)
        return self.rest[at + 4 : end], end


class Leader:
    """Leads over a connection on which the observer is up to date. Its transactions are numbered by `last`, from 1 on
    in its epoch.

    While `creates` is false, what asks for a session or for its end is kept with the other requests. While `confirms`
    is false, claims are kept, too; else any session lives that it hasn't ended, wherever it was made. Whoever sends
    several packets that belong together holds the lock, since sessions are created and confirmed at any time.
    """

    def __init__(self, connection, epoch=1):
        self.connection, self.epoch, self.last, self.lock = connection, epoch << 32, 0, threading.RLock()
        self.requests, self.claims, self.pings = queue.Queue(), queue.Queue(), queue.Queue()
        self.sessions, self.ended, self.creates, self.confirms = {}, set(), True, True
        self.has_ended = threading.Event()
        self.stops, self.wrong = threading.Event(), None
        # How many seconds it has worked on what came.
        self.worked = 0.0
        self.thread = threading.Thread(target=self.follow, daemon=True)
        self.thread.start()

    # ---- what comes

    def follow(self):
        packets = Packets()
        try:
            while not self.stops.is_set():
                if select.select([self.connection], [], [], 0.02)[0]:
                    content = self.connection.recv(1 << 16)
                    if not content:
                        break
                    began = time.monotonic()
                    for found in packets.taken(content):
                        self.take(*found)
                    self.worked += time.monotonic() - began
        except (OSError, ValueError):
            pass  # The observer, or the test, has closed the connection.
        except AssertionError as why:  # whoever ends this leader is told
            self.wrong = why
        self.has_ended.set()

    def take(self, kind, zxid, content, ids):
        if kind == PING:
            self.pings.put([struct.unpack_from(">qi", content, at) for at in range(0, len(content), 12)])
            return
        if kind == REVALIDATE:
            assert (zxid, ids) == (-1, []), (zxid, ids)
            self.claim(Claim(*struct.unpack(">qi", content)))
            return
        assert (kind, zxid) == (REQUEST, -1), (kind, zxid)
        asked = Asked(*struct.unpack(">qii", content[:16]), content[16:], ids)
        if asked.kind == CREATE_SESSION and self.creates:
            self.create(asked)
        elif asked.kind == CLOSE_SESSION and self.creates:
            self.end(asked.session, asked.xid)
        else:
            self.requests.put(asked)

    def claim(self, claim):
        if self.confirms:
            self.settles(claim, claim.session not in self.ended)
        else:
            self.claims.put(claim)

    def asked(self):
        """Takes the oldest request that isn't answered."""
        return self.requests.get(timeout=SECONDS)

    def claimed(self):
        """Takes the oldest claim that isn't answered."""
        return self.claims.get(timeout=SECONDS)

    # ---- what is sent

    def zxid(self):
        """Its last transaction's."""
        return self.epoch + self.last

    def send(self, content):
        self.connection.sendall(content)

    def made(self, kind, body, session=7, xid=1):
        """The INFORM of the next transaction, which is made of a request with this session and xid."""
        self.last += 1
        content = struct.pack(">qiqqi", session, xid, self.zxid(), 1000, kind) + body
        return packet(INFORM, self.zxid(), content)

    def informs(self, kind, body, session=7, xid=1):
        """Does a transaction, and returns its zxid."""
        with self.lock:
            self.send(self.made(kind, body, session, xid))
            return self.zxid()

    def create(self, asked):
        """Creates the session that is asked for."""
        self.sessions[asked.session] = struct.unpack(">i", asked.body)[0]
        return self.informs(CREATE_SESSION, asked.body, asked.session, asked.xid)

    def end(self, session, xid=0):
        """Ends a session: because its client asks for that, or because it has expired."""
        self.sessions.pop(session, None)
        self.ended.add(session)
        return self.informs(CLOSE_SESSION, b"", session, xid)

    def settles(self, claim, lives):
        """Says whether a session lives. Then its requests from this observer are done from now on."""
        with self.lock:
            if lives:
                self.sessions[claim.session] = claim.timeout
            self.send(packet(REVALIDATE, -1, struct.pack(">q?", claim.session, lives)))

    def done(self, request):
        """What is sent when a create or a sync is done."""
        if request.kind == SYNC:
            return packet(SYNCED, 0)
        assert request.kind in (CREATE, CREATE2) and request.body.endswith(struct.pack(">i", 0)), request
        body = request.body[:-4] + struct.pack(">?i", False, -1)
        return self.made(request.kind, body, request.session, request.xid)

    def does(self, request):
        """Does a create or a sync, and returns the last zxid."""
        with self.lock:
            self.send(self.done(request))
            return self.zxid()

    def refuses(self, request, error):
        """Tells that a write has failed, and returns the zxid of that."""
        return self.informs(ERROR, struct.pack(">i", error), request.session, request.xid)

    def pinged(self, seconds=SECONDS):
        """Sends a PING, and returns the table of its answer: sessions and their timeouts."""
        self.send(packet(PING, self.zxid()))
        return self.pings.get(timeout=seconds)

    # ---- the end

    def is_closed(self):
        """Returns whether the observer closes the connection within the time limit."""
        return self.has_ended.wait(SECONDS)

    def leave(self):
        """Takes nothing more from the observer."""
        self.stops.set()
        self.thread.join()
        assert self.wrong is None, f"a packet that no leader takes: {self.wrong}"
