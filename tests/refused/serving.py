"""A run of `serve` of which one growth of memory is refused.

A small leader of tests/serve brings the observer up, and a client talks to it: it connects, reads a node and leaves a
watch, writes, is answered when the leader has done that, is told that the node has changed, and PINGs. All that it is
sent is compared with what is right, which the leader's zxids and the records of zookeeper.jute say. docs/OPERATING.md
says what may become of a run that met a refusal:

- the server closes all connections and ends by itself, with status 4;
- a thread can't be started: with status 3;
- the client's connection ends, and nothing else. Then another client is served as if nothing had been, and the server
  ends when its leader does, with status 0;
- what the log has to tell is dropped, and all goes on to the end with status 0.

What the client is sent before the end is right in each case, and no step takes over ten seconds.
"""
import os
import pathlib
import queue
import select
import socket
import struct
import subprocess
import sys
import time
from typing import List, NamedTuple

sys.dont_write_bytecode = True
sys.path.insert(0, str(pathlib.Path(__file__).resolve().parent.parent / "serve"))
import forwarded  # noqa: E402
from leader import CREATE, EPOCH_1, Leader, buffer, received  # noqa: E402
from server import (  # noqa: E402
    ACK, ACKEPOCH, CONNECT, CONNECTED_LEN, CREATE_A, DIFF, LEADERINFO, NEWLEADER, OBSERVERINFO, PING, UPTODATE,
)

SECONDS = 10
SET_DATA, CHANGED, CONNECTED = 5, 3, 3
NODE = b"/a"
# The client's read, which leaves a watch.
READ = forwarded.frame(1, forwarded.GET_DATA, buffer(NODE) + b"\1")


class Closed(Exception):
    """The program has closed a connection, or has ended, before all that is right had come."""


def takes(connection, wanted):
    """Takes these bytes. Nothing else may come, and the connection may be closed within them."""
    try:
        got = received(connection, len(wanted))
    except ConnectionError:
        raise Closed from None
    assert wanted.startswith(got), f"wanted {wanted.hex()}, got {got.hex()}"
    if got != wanted:
        raise Closed


def sends(connection, content):
    try:
        connection.sendall(content)
    except ConnectionError:
        raise Closed from None


def is_closed(connection):
    """Returns whether the program closes the connection within the time limit, and sends nothing more."""
    try:
        return connection.recv(1) == b""
    except ConnectionError:
        return True


def drain(connection):
    """Waits until the program closes the connection, whatever it has sent before."""
    try:
        while connection.recv(4096):
            pass
    except ConnectionError:
        pass


def is_closed_now(connection):
    """Returns whether the program has closed the connection. What it has sent is left there."""
    try:
        return bool(select.select([connection], [], [], 0)[0]) and not connection.recv(1, socket.MSG_PEEK)
    except ConnectionError:
        return True


class Ending(NamedTuple):
    """How a run has ended: the status, the lines of standard error, how many clients were closed before all had come
    that is right, whether the program had connected to its leader, and whether it ended before that went."""

    status: int
    told: List[str]
    closed: int
    is_connected: bool
    is_by_itself: bool


class Observed:
    """The program, its leader, and the node that the client reads: its content, version, and the zxid of its change."""

    def __init__(self, program, environment):
        self.listener = socket.create_server(("127.0.0.1", 0))
        self.stream = self.leader = None
        self.content, self.version, self.changed = b"hi", 0, EPOCH_1 + 1
        port = str(self.listener.getsockname()[1])
        words = [program, "serve", "--leader", port, "--client", "0", "--id", "1", "--workers", "2"]
        how = {"stdin": subprocess.DEVNULL, "stdout": subprocess.PIPE, "stderr": subprocess.PIPE}
        # With this the lines of the log have no time.
        environment.pop("JOURNAL_STREAM", None)
        self.program = subprocess.Popen(words, env=environment, **how)

    # ---- the leader

    def comes_up(self):
        """The leader takes the program's connection and brings it up to date."""
        # Standard output is at its end where the program has ended.
        if self.listener not in select.select([self.listener, self.program.stdout], [], [], SECONDS)[0]:
            raise Closed
        self.stream, _ = self.listener.accept()
        self.stream.settimeout(SECONDS)
        assert select.select([self.program.stdout], [], [], SECONDS)[0], "it doesn't say on which port it serves"
        line = self.program.stdout.readline()
        if not line:
            raise Closed
        assert line.startswith(b"serving "), line
        self.port = int(line.split()[1])
        takes(self.stream, OBSERVERINFO)
        sends(self.stream, LEADERINFO)
        takes(self.stream, ACKEPOCH)
        sends(self.stream, DIFF + NEWLEADER)
        takes(self.stream, ACK)
        sends(self.stream, UPTODATE)
        takes(self.stream, ACK)
        self.leader = Leader(self.stream)
        self.informs(CREATE, CREATE_A)

    def informs(self, kind, body):
        try:
            return self.leader.informs(kind, body)
        except OSError:
            raise Closed from None

    def asked(self, client, session):
        """Takes the write of this session that the program has forwarded, and drops those of clients that have gone."""
        until = time.monotonic() + SECONDS
        while True:
            try:
                request = self.leader.requests.get(timeout=0.01)
            except queue.Empty:
                if self.leader.has_ended.is_set() or is_closed_now(client):
                    raise Closed from None
                assert time.monotonic() < until, "the write wasn't forwarded"
                continue
            if request.session == session:
                return request

    # ---- the client

    def connection(self):
        try:
            client = socket.create_connection(("127.0.0.1", self.port), SECONDS)
        except ConnectionError:
            raise Closed from None
        client.setsockopt(socket.IPPROTO_TCP, socket.TCP_NODELAY, 1)
        return client

    def joins(self, client):
        """Gets a session, and returns its id."""
        sends(client, CONNECT)
        try:
            answer = received(client, CONNECTED_LEN)
        except ConnectionError:
            raise Closed from None
        if len(answer) < CONNECTED_LEN:
            raise Closed
        (session,) = struct.unpack_from(">q", answer, 12)
        password = buffer(forwarded.password_of(session))
        right = struct.pack(">iiiq", CONNECTED_LEN - 4, 0, 10000, session) + password + b"\0"
        assert answer == right and session in self.leader.sessions, answer.hex()
        return session

    def node(self):
        """The content and the Stat of the node."""
        made = EPOCH_1 + 1
        stat = (made, self.changed, 1000, 1000, self.version, 0, 0, 0, len(self.content), 0, made)
        return buffer(self.content) + struct.pack(">qqqqiiiqiiq", *stat)

    def talks(self, client, path):
        """A client reads, watches, writes and is told of a change, and each answer is compared."""
        session = self.joins(client)
        sends(client, READ)
        takes(client, replied(1, self.leader.zxid(), self.node()))
        sends(client, forwarded.create(2, path))
        request = self.asked(client, session)
        assert (request.xid, request.kind, request.ids) == (2, CREATE, [forwarded.ADDRESS]), request
        try:
            zxid = self.leader.does(request)
        except OSError:
            raise Closed from None
        takes(client, replied(2, zxid, buffer(path)))
        self.content, self.version = b"changed for " + path, self.version + 1
        body = buffer(NODE) + buffer(self.content) + struct.pack(">i", self.version)
        self.changed = self.informs(SET_DATA, body)
        takes(client, replied(-1, -1, struct.pack(">ii", CHANGED, CONNECTED) + buffer(NODE)))
        sends(client, PING)
        takes(client, replied(-2, self.changed))

    # ---- the end

    def leaves(self):
        """The leader goes, as at the end of an ordinary run."""
        if self.leader:
            self.leader.leave()
        if self.stream:
            self.stream.close()
        self.listener.close()

    def ends(self, closed, is_by_itself):
        """The program ends within the time limit. Where it does so by itself, it has closed the leader's connection."""
        if is_by_itself and self.leader:
            assert self.leader.is_closed(), "the leader's connection isn't closed"
        elif is_by_itself and self.stream:
            drain(self.stream)
        _, told = self.program.communicate(timeout=SECONDS)
        return Ending(self.program.returncode, told.decode().splitlines(), closed, bool(self.stream), is_by_itself)

    def __enter__(self):
        return self

    def __exit__(self, *_):
        if self.program.poll() is None:
            self.program.kill()
            self.program.wait()
        self.program.stdout.close()
        self.program.stderr.close()
        self.leaves()


def replied(xid, zxid, body=b""):
    return buffer(struct.pack(">iqi", xid, zxid, 0) + body)


# ---- runs


def play(program, environment):
    """Makes one run, and returns how it has ended."""
    with Observed(program, environment) as run:
        try:
            run.comes_up()
        except Closed:
            return run.ends(0, True)
        for closed, path in enumerate((b"/b", b"/c")):
            try:
                with run.connection() as client:
                    run.talks(client, path)
                    run.leaves()
                    assert is_closed(client), "the client is sent more, or its connection isn't closed"
                    return run.ends(closed, False)
            except Closed:
                pass
        return run.ends(2, True)


NO_MEMORY, CANNOT_OPEN = "no memory", "cannot open"
# The lines before the last one. Of a thread that can't be started the system tells either by its own words.
NO_MEMORY_TOLD = ["observer: memory was refused"]
NO_THREAD_TOLD = ["observer: cannot start a thread", "observer: the system refused: operation would block"]


def is_told(told, before, last):
    """Returns whether standard error ends with one of these lines and the last one, and has lines of the log before."""
    return len(told) > 1 and told[-1] == last and told[-2] in before and are_of_log(told[:-2])


def are_of_log(lines):
    return all(" WARN " in it for it in lines)


def outcome(ending, is_refused):
    """Returns what became of a run, and whether that may become of one that met a refusal, or met none."""
    if ending.status == 4:
        # While the words of the command line are read, nothing else is told.
        is_early = not ending.is_connected and ending.told == [NO_MEMORY]
        return "ended with status 4", is_refused and (is_early or is_told(ending.told, NO_MEMORY_TOLD, NO_MEMORY))
    if ending.status == 3:
        return "couldn't start a thread", is_refused and is_told(ending.told, NO_THREAD_TOLD, CANNOT_OPEN)
    is_ordinary = ending.status == 0 and not ending.is_by_itself and are_of_log(ending.told)
    if ending.closed:
        return "ended one client's connection", is_ordinary and is_refused
    return "went on to the end", is_ordinary
