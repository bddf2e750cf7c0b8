"""What clients ask for, and what they are answered."""
import struct
from typing import NamedTuple

from leader import CREATE, CREATE2, SYNC, buffer, received

GET_DATA = 4
OPEN_ACL = struct.pack(">ii", 1, 31) + b"\0\0\0\5world" + b"\0\0\0\6anyone"
# The id of a client of this machine, in dialect 3.8.
ADDRESS = (b"ip", b"127.0.0.1")
CONNECT = struct.pack(">iiqiqi", 44, 0, 0, 10000, 0, 16) + bytes(16)


class Reply(NamedTuple):
    xid: int
    zxid: int
    error: int
    body: bytes


def text(connection):
    """Takes the next frame."""
    return received(connection, struct.unpack(">i", received(connection, 4))[0])


def frame(xid, kind, body=b""):
    return buffer(struct.pack(">ii", xid, kind) + body)


def create(xid, path, content=b"hi", flags=0, kind=CREATE):
    return frame(xid, kind, buffer(path) + buffer(content) + OPEN_ACL + struct.pack(">i", flags))


def create2(xid, path):
    """A create that is answered with the Stat, too."""
    return create(xid, path, kind=CREATE2)


def get_data(xid, path):
    return frame(xid, GET_DATA, buffer(path) + b"\0")


def sync(xid, path):
    return frame(xid, SYNC, buffer(path))


class Session(NamedTuple):
    """A session as its client knows it."""

    id: int
    timeout: int
    password: bytes

    def connect(self):
        """The frame that takes it up on another connection."""
        return buffer(struct.pack(">iqiq", 0, 0, self.timeout, self.id) + buffer(self.password))


def password_of(session):
    """What each server of ZooKeeper gives a session: 16 bytes of a java.util.Random with a seed of its id."""
    seed = (session ^ 0xB3415C00 ^ 0x5DEECE66D) % (1 << 48)
    password = b""
    for _ in range(4):
        seed = (seed * 0x5DEECE66D + 11) % (1 << 48)
        password += struct.pack("<I", (seed >> 16) % (1 << 32))
    return password


def connected(connection):
    """Takes the answer to a connect, and returns the session."""
    _, timeout, session, _ = struct.unpack(">iiqi", (content := text(connection))[:20])
    return Session(session, timeout, content[20:36])


def joined(connection):
    """Gets a session, and returns its id."""
    connection.sendall(CONNECT)
    return connected(connection).id


def replied(connection):
    """Takes the next reply."""
    content = text(connection)
    return Reply(*struct.unpack(">iqi", content[:16]), content[16:])
