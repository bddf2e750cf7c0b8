"""Jute, the encoding of ZooKeeper 3.4 on the wire, for leader.py and client.py.

Numbers are big-endian. A buffer and a text begin with their length, a list with its count; -1 there is null. A writer
is a function that returns bytes, and a Reader takes values from a file of bytes, in a frame or straight from a socket.
"""
import io
import struct
from dataclasses import dataclass, fields
from typing import BinaryIO, Callable, Iterable, List, Optional, Union

NULL = struct.pack(">i", -1)


def int32(number: int) -> bytes:
    return struct.pack(">i", number)


def int64(number: int) -> bytes:
    return struct.pack(">q", number)


def boolean(truth: bool) -> bytes:
    return b"\1" if truth else b"\0"


def buffer(data: Optional[bytes]) -> bytes:
    return NULL if data is None else int32(len(data)) + data


def text(words: Optional[str]) -> bytes:
    return NULL if words is None else buffer(words.encode())


def vector(elements: Optional[Iterable[bytes]]) -> bytes:
    """Writes a list whose elements are written already."""
    if elements is None:
        return NULL
    written = list(elements)
    return int32(len(written)) + b"".join(written)


def acl(permissions: int, scheme: str, who: str) -> bytes:
    return int32(permissions) + text(scheme) + text(who)


# What a client gives who grants everything to everyone.
OPEN_ACL = vector([acl(31, "world", "anyone")])


class Reader:
    """Takes values from bytes, or from a file of bytes. Where these end inside a value it raises EOFError."""

    def __init__(self, source: Union[bytes, BinaryIO]):
        self.file = io.BytesIO(source) if isinstance(source, bytes) else source

    def take(self, count: int) -> bytes:
        taken = self.file.read(count)
        if len(taken) < count:
            raise EOFError("the bytes end inside a value")
        return taken

    def int32(self) -> int:
        return struct.unpack(">i", self.take(4))[0]

    def int64(self) -> int:
        return struct.unpack(">q", self.take(8))[0]

    def boolean(self) -> bool:
        return self.take(1) != b"\0"

    def buffer(self) -> Optional[bytes]:
        length = self.int32()
        return None if length < 0 else self.take(length)

    def text(self) -> Optional[str]:
        data = self.buffer()
        return None if data is None else data.decode()

    def vector(self, element: Callable[[], object]) -> Optional[List]:
        count = self.int32()
        return None if count < 0 else [element() for _ in range(count)]


@dataclass
class Stat:
    """What a client is told of a node; the fields stand in the order of the wire."""

    czxid: int = 0
    mzxid: int = 0
    ctime: int = 0
    mtime: int = 0
    version: int = 0
    cversion: int = 0
    aversion: int = 0
    ephemeralOwner: int = 0
    dataLength: int = 0
    numChildren: int = 0
    pzxid: int = 0

    LAYOUT = struct.Struct(">qqqqiiiqiiq")
    # An image has neither of the two that follow from the rest.
    PERSISTED = struct.Struct(">qqqqiiiqq")

    @classmethod
    def read(cls, reader: Reader) -> "Stat":
        return cls(*cls.LAYOUT.unpack(reader.take(cls.LAYOUT.size)))

    def persisted(self) -> bytes:
        """Returns the fields as they stand in an image."""
        derived = ("dataLength", "numChildren")
        return self.PERSISTED.pack(*(getattr(self, it.name) for it in fields(self) if it.name not in derived))

    def __str__(self) -> str:
        zxids = f"czxid=0x{self.czxid:x} mzxid=0x{self.mzxid:x} pzxid=0x{self.pzxid:x}"
        versions = f"version={self.version} cversion={self.cversion} aversion={self.aversion}"
        owner = f" ephemeralOwner=0x{self.ephemeralOwner:x}" if self.ephemeralOwner else ""
        return f"{zxids} {versions} dataLength={self.dataLength} numChildren={self.numChildren}{owner}"
