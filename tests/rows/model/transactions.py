"""Transactions, as a leader's stream has them."""
from typing import List, NamedTuple, Optional, Tuple

from jute import Fault, Reader, whole

CREATE, DELETE, SET_DATA, SET_ACL, CHECK, MULTI, CREATE_SESSION, CLOSE_SESSION, ERROR = 1, 2, 5, 7, 13, 14, -10, -11, -1
CREATE2, RECONFIG, CREATE_CONTAINER, DELETE_CONTAINER, CREATE_TTL = 15, 16, 19, 20, 21  # in later dialects alone
CREATES = (CREATE, CREATE2, CREATE_CONTAINER, CREATE_TTL)
PARTS = (CREATE, DELETE, SET_DATA, CHECK, ERROR)
LATER_PARTS = (CREATE2, CREATE_CONTAINER, DELETE_CONTAINER, CREATE_TTL)
OPEN = [(31, (b"world", b"anyone"))]

# What stands as the owner of a node that no session owns and that the leader deletes: of a container, and of a node
# with a time to live, whose milliseconds fill the five bytes that are 0 here.
CONTAINER, TTL = -(2**63), (0xFF0000 << 40) - 2**64
TTL_BITS = 2**40 - 1

DIGEST, DIGEST_VERSION = 12, b"\0\0\0\2"  # the length of a digest, and how each begins


def parent_of(path):
    return path.rpartition(b"/")[0] or b"/"


def name_of(path):
    return path.rpartition(b"/")[2]


def is_path(path):
    """Whether a node other than the root may have the path."""
    return path is not None and path[:1] == b"/" and b"\0" not in path and all(path[1:].split(b"/"))


class Txn(NamedTuple):
    session: int
    cxid: int
    zxid: int
    time: int
    kind: int
    body: object


class Create(NamedTuple):
    """A create of any type. The owner is that of the node; None is the session of the transaction."""

    path: bytes
    content: Optional[bytes]
    acl: List[Tuple]
    owner: Optional[int]
    cversion: int


class Set(NamedTuple):
    """A setData, a reconfig, a setACL or a check, whose value is None."""

    path: bytes
    value: object
    version: int


class Part(NamedTuple):
    kind: int
    body: object


def path_in(reader, may_be_root):
    path = reader.text()
    if not (is_path(path) or may_be_root and path == b"/"):
        raise Fault(4)
    return path


def acl_in(reader):
    acl = reader.vector(reader.acl)
    return OPEN if acl is None else acl


def create_in(reader, kind, may_be_old):
    path, content, acl = path_in(reader, False), reader.buffer(), acl_in(reader)
    if kind == CREATE_CONTAINER:
        return Create(path, content, acl, CONTAINER, reader.int())
    if kind == CREATE_TTL:
        cversion, ttl = reader.numbers("iq")
        return Create(path, content, acl, TTL | ttl & TTL_BITS, cversion)
    owner = None if reader.bool() else 0
    return Create(path, content, acl, owner, -1 if may_be_old and reader.is_at_end() else reader.int())


def operation_in(reader, kind, is_part):
    if kind in CREATES:
        return create_in(reader, kind, kind == CREATE and not is_part)
    if kind in (DELETE, DELETE_CONTAINER):
        return path_in(reader, False)
    if kind in (SET_DATA, RECONFIG):
        return Set(path_in(reader, True), reader.buffer(), reader.int())
    if kind == CHECK:
        return Set(path_in(reader, True), None, reader.int())
    return reader.int()


def part_in(reader):
    """Reads a part of a multi. Where a multi failed, later leaders write the parts before the error as errors, too, but
    leave the bytes of their operations behind the type: of an error the number counts, and the rest is passed over."""
    kind, is_later = reader.int(), reader.dialect.is_later
    if kind not in PARTS and not (is_later and kind in LATER_PARTS):
        raise Fault(5)
    content = reader.buffer()
    if content is None:
        raise Fault(1)
    inner = Reader(content, reader.dialect)
    body = operation_in(inner, kind, True)
    if not (inner.is_at_end() or is_later and kind == ERROR):
        raise Fault(6)
    return Part(kind, body)


def ephemerals_in(reader):
    """Reads the list of a closeSession, the session's ephemerals; what is no path of a node isn't counted. Some leaders
    write none, and then a digest may stand alone: a list of two paths, which begins as it does, is longer."""
    rest = reader.rest()
    is_digest = len(rest) == DIGEST and rest.startswith(DIGEST_VERSION)
    listed = [] if not rest or is_digest else reader.vector(reader.text) or []
    return [path for path in listed if is_path(path)]


def body_in(reader, kind):
    is_later = reader.dialect.is_later
    if kind == SET_ACL:
        return Set(path_in(reader, True), acl_in(reader), reader.int())
    if kind == MULTI:
        return reader.vector(lambda: part_in(reader)) or []
    if kind == CLOSE_SESSION:
        return ephemerals_in(reader) if is_later else []
    if kind in (*PARTS, CREATE_SESSION) or is_later and kind in (*LATER_PARTS, RECONFIG):
        return operation_in(reader, kind, False)
    raise Fault(5)


def txn_in(reader):
    """Reads a transaction. A later leader writes the digest of its tree behind it, which is passed over, or none."""
    header = reader.numbers("qiqqi")
    txn = Txn(*header, body_in(reader, header[4]))
    if reader.dialect.is_later and len(reader.rest()) == DIGEST:
        reader.bytes(DIGEST)
    if not reader.is_at_end():
        raise Fault(6)
    return txn


def txn_of(content, dialect):
    return whole(content or b"", txn_in, dialect)
