#!/usr/bin/env python3
"""A small client of ZooKeeper 3.4, here on 127.0.0.1: it reads and watches, and prints decoded what it is told.

    examples/client.py                        a tour: watches what leader.py changes, and ends after some events
    examples/client.py get /demo [--watch]    a node's data and its Stat; with --watch it waits for one event
    examples/client.py ls /demo [--watch]     the names of its children, and its Stat
    examples/client.py stat /demo [--watch]   its Stat alone; a node that isn't there can be watched too
    examples/client.py word mntr              what a four-letter word is answered
    examples/client.py --port 2182 ..         at another port than 2181

It opens a session, which the server's leader creates, and closes it in the end. A reply is printed with the zxid of the
state that it shows, an event with its name and path. The exit status is 1 if a node isn't there or may not be read, and
3 if the server can't be reached or goes.
"""
import argparse
import socket
import sys
import time
from dataclasses import dataclass
from typing import Optional

from jute import Reader, Stat, boolean, buffer, int32, int64, text

EXISTS, GET_DATA, PING, GET_CHILDREN2, CLOSE_SESSION = 3, 4, 11, 12, -11
EVENT_XID, PING_XID = -1, -2
EVENTS = {1: "NodeCreated", 2: "NodeDeleted", 3: "NodeDataChanged", 4: "NodeChildrenChanged"}
ERRORS = {0: "OK", -6: "Unimplemented", -8: "BadArguments", -101: "NoNode", -102: "NoAuth", -115: "AuthFailed"}
ERRORS.update({-110: "NodeExists", -112: "SessionExpired", -119: "NotReadOnly"})
TIMEOUT = 10_000


def say(what: str) -> None:
    print(what, flush=True)


@dataclass
class Event:
    """What a watch tells of: the event's name and the path."""

    name: str
    path: str

    def __str__(self) -> str:
        return f"event {self.name} {self.path}"


@dataclass
class Reply:
    """What a request is answered: the last zxid of the state that it tells of, the error, and a reader of the body."""

    xid: int
    zxid: int
    error: int
    body: Reader

    def name(self) -> str:
        return ERRORS.get(self.error, str(self.error))


class Gone(Exception):
    """The server has closed the connection, or can't be reached."""


class Connection:
    """A connection to a server: frames, each with its length in front."""

    def __init__(self, port: int, host: str = "127.0.0.1"):
        try:
            self.socket = socket.create_connection((host, port), 5)
        except OSError as why:
            raise Gone(f"can't connect to {host}:{port}: {why.strerror or why}") from why
        self.socket.setsockopt(socket.IPPROTO_TCP, socket.TCP_NODELAY, 1)
        self.pending = b""

    def send(self, data: bytes) -> None:
        try:
            self.socket.sendall(data)
        except OSError as why:
            raise Gone(f"the connection is closed: {why.strerror}") from why

    def received(self, seconds: float) -> bool:
        """Waits for bytes and keeps them. Returns whether some came."""
        self.socket.settimeout(max(seconds, 0.001))
        try:
            found = self.socket.recv(65536)
        except socket.timeout:
            return False
        except OSError as why:
            raise Gone(f"the connection is closed: {why.strerror}") from why
        if not found:
            raise Gone("the server has closed the connection")
        self.pending += found
        return True

    def frame(self, seconds: float) -> Optional[bytes]:
        """Returns the next frame without its length, or None where none comes in this time."""
        until = time.monotonic() + seconds
        while True:
            length = int.from_bytes(self.pending[:4], "big")
            if len(self.pending) >= 4 + length and len(self.pending) >= 4:
                found, self.pending = self.pending[4 : 4 + length], self.pending[4 + length :]
                return found
            if not self.received(until - time.monotonic()) and time.monotonic() >= until:
                return None

    def close(self) -> None:
        self.socket.close()


class Client(Connection):
    """A connection with a session: one request after the other is answered, and events are told when they come."""

    def __init__(self, port: int, seen: int = 0, timeout: int = TIMEOUT, host: str = "127.0.0.1"):
        super().__init__(port, host)
        self.xid, self.events = 0, []
        request = int32(0) + int64(seen) + int32(timeout) + int64(0) + buffer(bytes(16)) + boolean(False)
        self.send(buffer(request))
        answer = Reader(self.frame(5) or b"")
        try:
            answer.int32()
            self.timeout, self.session, self.password = answer.int32(), answer.int64(), answer.buffer()
        except EOFError as why:
            raise Gone("the server doesn't answer the connect") from why
        if not self.timeout:
            raise Gone("the server opens no session")

    def call(self, kind: int, body: bytes = b"") -> Reply:
        """Sends a request and returns its reply."""
        self.xid += 1
        self.send(buffer(int32(self.xid) + int32(kind) + body))
        while True:
            found = self.taken(5)
            if found is None:
                raise Gone("the server doesn't answer")
            if found.xid == self.xid:
                return found

    def taken(self, seconds: float) -> Optional[Reply]:
        """Returns the next reply or event, or None where none comes in this time. An event is told and kept."""
        frame = self.frame(seconds)
        if frame is None:
            return None
        reader = Reader(frame)
        reply = Reply(reader.int32(), reader.int64(), reader.int32(), reader)
        if reply.xid == EVENT_XID:
            kind, _, path = reader.int32(), reader.int32(), reader.text()
            self.keep(Event(EVENTS.get(kind, str(kind)), path or ""))
        return reply

    def keep(self, event: Event) -> None:
        """Takes an event that comes: here it is printed, and kept until somebody asks for it."""
        say(str(event))
        self.events.append(event)

    def event(self, seconds: float) -> Optional[Event]:
        """Returns the next event, or None where none comes in this time. A ping keeps the session alive meanwhile."""
        until = time.monotonic() + seconds
        while not self.events and time.monotonic() < until:
            if self.taken(min(until - time.monotonic(), self.timeout / 3000)) is None:
                self.send(buffer(int32(PING_XID) + int32(PING)))
        return self.events.pop(0) if self.events else None

    def leave(self) -> None:
        """Closes the session, and then the connection."""
        self.call(CLOSE_SESSION)
        self.close()


def shown(data: Optional[bytes]) -> str:
    return "null" if data is None else ascii(data)[1:]


def brief(kind: int, stat: Stat) -> str:
    """Returns those fields of a Stat that tell of what such a read shows."""
    if kind == GET_DATA:
        return f"version={stat.version} mzxid=0x{stat.mzxid:x}"
    if kind == GET_CHILDREN2:
        return f"cversion={stat.cversion} pzxid=0x{stat.pzxid:x}"
    return f"czxid=0x{stat.czxid:x} ephemeralOwner=0x{stat.ephemeralOwner:x}"


def read(client: Client, name: str, kind: int, path: str, watch: bool, is_brief: bool = False) -> Reply:
    """Asks for a node, and prints the reply decoded: at which zxid, what is read, and the node's Stat."""
    reply = client.call(kind, text(path) + boolean(watch))
    asked = f"{name} {path}{' and watch' if watch else ''}: at zxid 0x{reply.zxid:x}"
    if reply.error:
        say(f"{asked} {reply.name()}")
        return reply
    if kind == GET_DATA:
        asked += f" data {shown(reply.body.buffer())}"
    elif kind == GET_CHILDREN2:
        asked += f" children [{', '.join(reply.body.vector(reply.body.text) or [])}]"
    stat = Stat.read(reply.body)
    say(f"{asked} {brief(kind, stat) if is_brief else stat}")
    return reply


READS = {"stat": ("exists", EXISTS), "get": ("getData", GET_DATA), "ls": ("getChildren2", GET_CHILDREN2)}
# What is read where something is watched, and what an event of the tour is followed by.
WATCHED = (("/demo/counter", "get"), ("/demo/tasks", "ls"), ("/demo/lock", "stat"))


def look(client: Client, path: str, how: str) -> Reply:
    return read(client, *READS[how], path, True, True)


def tour(client: Client, options: argparse.Namespace) -> int:
    """Watches the nodes that leader.py changes, and reads again what an event tells of."""
    until = time.monotonic() + options.seconds
    if look(client, "/demo/tasks", "stat").error and not client.event(options.seconds):
        say("nobody makes /demo/tasks")
        return 1
    for path, how in WATCHED:
        look(client, path, how)
    for _ in range(options.events):
        event = client.event(until - time.monotonic())
        if event is None:
            say("no further event comes")
            return 1
        for path, how in WATCHED:
            if path == event.path:
                look(client, path, how)
    return 0


def one_read(client: Client, options: argparse.Namespace) -> int:
    """Reads a node once, and waits for one event where a watch was left."""
    reply = read(client, *READS[options.command], options.path, options.watch)
    left = options.watch and (reply.error == 0 or (options.command == "stat" and reply.name() == "NoNode"))
    if left and not client.event(options.seconds):
        say("no event comes")
    return 1 if reply.error else 0


def answer_to_word(port: int, asked: str, host: str = "127.0.0.1") -> str:
    """Says a four-letter word as the first of a connection, and returns its answer."""
    connection = Connection(port, host)
    connection.send(asked.encode())
    try:
        while connection.received(5):
            pass
    except Gone:
        pass  # The answer's end.
    connection.close()
    return connection.pending.decode(errors="replace")


def word(port: int, asked: str) -> int:
    """Prints what a four-letter word is answered."""
    answer = answer_to_word(port, asked)
    sys.stdout.write(answer if answer.endswith("\n") else answer + "\n")
    return 0


def read_options() -> argparse.Namespace:
    parser = argparse.ArgumentParser(description=__doc__, formatter_class=argparse.RawDescriptionHelpFormatter)
    parser.add_argument("--port", type=int, default=2181, help="the server's port (2181)")
    parser.add_argument("--events", type=int, default=8, help="how many events the tour waits for (8)")
    parser.add_argument("--seconds", type=float, default=30, help="how long it waits for events (30)")
    commands = parser.add_subparsers(dest="command")
    for name, what in (("get", "its data and Stat"), ("ls", "its children and Stat"), ("stat", "its Stat")):
        command = commands.add_parser(name, help=what)
        command.add_argument("path")
        command.add_argument("--watch", action="store_true", help="leave a watch, and wait for its event")
    commands.add_parser("word", help="the answer to a four-letter word").add_argument("word")
    return parser.parse_args()


def main() -> int:
    options = read_options()
    try:
        if options.command == "word":
            return word(options.port, options.word)
        client = Client(options.port)
        say(f"session 0x{client.session & 2**64 - 1:x} with a timeout of {client.timeout} ms")
        status = one_read(client, options) if options.command else tour(client, options)
        client.leave()
        return status
    except Gone as why:
        print(why, file=sys.stderr)
        return 3
    except KeyboardInterrupt:
        return 130


if __name__ == "__main__":
    sys.exit(main())
