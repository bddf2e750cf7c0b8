"""What clients send in scripts that are drawn by chance, and what becomes of their connections.

Each maker takes the drawing (drawing.py). One that can't do its part as things stand returns True.
"""
import struct

from records import (
    AUTH, CLOSE_SESSION, CREATE, EXISTS, GET_CHILDREN, GET_DATA, SET_DATA, SET_WATCHES, SYNC, TIMEOUT, buffer, connect
    as connect_frame, request,
)

import drawn_bodies as bodies
import drawn_packets as packets
from clients import ADD_WATCH, CHECK_WATCHES, PINGED, REMOVE_WATCHES, SASL, SET_WATCHES2, WHO_AM_I
from learner import SERVING
from reads import GET_ACL, GET_ALL_CHILDREN_NUMBER, GET_CHILDREN2, GET_EPHEMERALS, MULTI_READ
from transactions import CHECK, CREATE2, CREATE_CONTAINER, CREATE_TTL, DELETE, DELETE_CONTAINER, MULTI, RECONFIG
from transactions import SET_ACL
from words import WORDS

READS = (EXISTS, GET_DATA, GET_DATA, GET_ACL, GET_CHILDREN, GET_CHILDREN2)
WRITES = (CREATE, CREATE, CREATE, DELETE, SET_DATA, SET_DATA, SET_ACL)
LATER_WRITES = (*WRITES, *(CREATE2,) * 3, CREATE_CONTAINER, CREATE_TTL, DELETE_CONTAINER, RECONFIG, MULTI, MULTI)
LATER_UNKNOWN = (0, 108, 99, -1, -10, 2**31 - 1)
UNKNOWN = (0, 15, 16, 18, 102, 105, 107, -1, -10, 99)
SCHEMES = (b"world", b"ip", b"digest2", b"", None)
PASSWORD = bytes(16)


def source(number):
    return f"client {number}"


def opened(it):
    """The connections that have a session, and those that wait for one."""
    found = it.clients.open.items()
    return [number for number, each in found if (each.session is not None or each.waits) and not each.is_leaving]


# ---- connections


def open_one(it):
    """Opens a connection. Where its number is open already, it mostly ends first, so that the number is free."""
    number = it.one(it.numbers)
    if number in it.clients.open and it.chance(0.8):
        free = [each for each in it.numbers if each not in it.clients.open]
        if free:
            number = it.one(free)
        else:
            end(it, number)
    if number not in it.clients.open:
        it.owed.pop(source(number), None)
        it.xids.pop(number, None)
    address = it.one(("", "", " 127.0.0.1", " 10.0.0.1")) if it.is_later else ""
    it.happens(f"{source(number)} up{address}")
    return number


def connect(it):
    """A connection opens, and asks for a new session or for one that it had. Often the leader makes it at once."""
    is_served = it.learner.phase == SERVING
    if is_served and len(opened(it)) >= len(it.numbers) and it.chance(0.9):
        return True
    number = open_one(it)
    it.comes(source(number), connect_of(it))
    if is_served and it.chance(0.3):
        it.comes(source(number), asked(it, number))
    if is_served and it.chance(0.6):
        packets.sessions_made(it)
    return False


def connect_of(it):
    session, timeout = 0, it.one((TIMEOUT, TIMEOUT, 5000, 0, -1, 10**6, 2**31 - 1))
    password = it.one((PASSWORD, PASSWORD, b"", None, b"any"))
    gone = sorted(each for each in it.tree.sessions if it.clients.owner(each) is None)
    if it.chance(0.6 if gone else 0.2):
        session = it.one(gone) if gone and it.chance(0.7) else it.one(it.sessions())
        password = it.clients.password(session) if it.chance(0.9) else password
    last = it.learner.last
    seen = it.one((0, 0, last, last, 1, -1)) if it.chance(0.95) else last + 1
    return connect_frame(session, timeout, password, it.one((b"", b"\0", b"\1", b"\0\0")), min(seen, 2**63 - 1))


def end(it, number):
    it.owed.pop(source(number), None)
    it.happens(f"{source(number)} end")


def client_end(it):
    """A connection ends, in the middle of a frame where a part of one has come."""
    if not it.clients.open:
        return True
    end(it, it.one(sorted(it.clients.open)))
    return False


def word(it):
    """A connection opens with a four-letter word."""
    number = open_one(it)
    content = it.one(WORDS) if it.chance(0.9) else it.one((b"stat", b"RUOK", b"ruo\0"))
    it.comes(source(number), content + it.one((b"", b"", b"", b"\n", bytes(12))))
    return False


def expire(it):
    here = sorted(each.session for each in it.clients.open.values() if each.session is not None)
    session = it.one(here) if here and it.chance(0.7) else it.one(it.sessions())
    it.happens("expire " + struct.pack(">q", session).hex())
    return False


def checkpoint(it):
    it.happens("checkpoint")
    return False


def rest(it):
    """The rest of what came in part."""
    if not it.owed:
        return True
    it.settle(it.one(sorted(it.owed)))
    return False


# ---- requests


def ask(it):
    """A connection sends a few requests, one after the other."""
    numbers = opened(it)
    if not numbers:
        return True
    number = it.one(numbers)
    for _ in range(it.one((1, 1, 2, 3, 6))):
        if number in it.clients.open:
            it.comes(source(number), asked(it, number))
    return False


def meet(it):
    """Each connection leaves a watch where clients meet: on a node, on its children, or a lasting one."""
    numbers = opened(it)
    if len(numbers) < 2:
        return True
    for number in numbers:
        kind = it.one((EXISTS, EXISTS, GET_DATA, GET_CHILDREN, ADD_WATCH))
        watch = struct.pack(">i", it.number(0, 1)) if kind == ADD_WATCH else b"\1"
        at = it.hot if it.chance(0.8) else bodies.parent_of(it.hot)
        it.comes(source(number), request(xid_of(it, number), kind, buffer(at) + watch))
    return False


def xid_of(it, number):
    """The next xid of a connection; a few are sent again."""
    if it.chance(0.05):
        return it.one((1, 2, -1, -2**31))
    it.xids[number] = it.xids.get(number, 0) + 1
    return it.xids[number]


def asked(it, number):
    """A frame with a request."""
    makers = (read, write, sync, set_watches, add_watch, auth, ping, refused, leave)
    weights = (42, 24, 6, 6, 6, 4, 5, 2, 2)
    if it.is_later:
        makers, weights = (*makers, small_read, multi_read, find_watches), (*weights, 9, 4, 8)
    frame = it.dice.choices(makers, weights)[0](it, xid_of(it, number))
    return buffer(frame[4:] + b"more") if it.chance(0.02) else frame  # what comes behind a body is ignored


def client_path(it):
    """A path that a client asks for, as its bytes; a few can't be asked for or name no node."""
    if it.chance(0.97):
        return bodies.path(it)
    return it.one(bodies.NO_PATHS + bodies.ODD_PATHS)


def read(it, xid):
    return request(xid, it.one(READS), buffer(client_path(it)) + bytes([it.one((0, 0, 1, 1, 1, 2))]))


def write(it, xid):
    """A write. Its body isn't read here, so that it may be any."""
    body = buffer(bodies.path(it)) + buffer(it.one(bodies.CONTENTS)) if it.chance(0.9) else b""
    return request(xid, it.one(LATER_WRITES if it.is_later else WRITES), body)


def sync(it, xid):
    return request(xid, SYNC, buffer(client_path(it)))


def set_watches(it, xid):
    last = it.learner.last
    since = it.one((0, last, last, last - 1, last - 2, last + 1))
    lists, kind = [], it.one((SET_WATCHES, SET_WATCHES2)) if it.is_later else SET_WATCHES
    for _ in range(5 if kind == SET_WATCHES2 else 3):
        asked_for = [client_path(it) for _ in range(it.one((0, 1, 1, 2)))]
        is_null = not asked_for and it.chance(0.2)
        lists.append(struct.pack(">i", -1 if is_null else len(asked_for)) + b"".join(map(buffer, asked_for)))
    return request(-8, kind, struct.pack(">q", max(min(since, 2**63 - 1), -2**63)) + b"".join(lists))


def add_watch(it, xid):
    mode = it.one((0, 1)) if it.chance(0.95) else it.one((2, -1))
    return request(xid, ADD_WATCH, buffer(client_path(it)) + struct.pack(">i", mode))


def auth(it, xid):
    scheme, text = b"digest", it.one(bodies.USERS)
    if it.chance(0.08):
        scheme, text = it.one((*[(each, text) for each in SCHEMES], (b"digest", None), (b"digest", b"\xff")))
    return request(-4, AUTH, struct.pack(">i", it.one((0, 0, 1))) + buffer(scheme) + buffer(text))


def ping(it, xid):
    return request(-2, PINGED, b"")


def small_read(it, xid):
    """A read of a later client that asks for one thing."""
    kind = it.one((GET_EPHEMERALS, GET_EPHEMERALS, GET_ALL_CHILDREN_NUMBER, GET_ALL_CHILDREN_NUMBER, WHO_AM_I, SASL))
    if kind == WHO_AM_I:
        return request(xid, kind, b"")
    if kind == SASL:
        return request(xid, kind, buffer(b"token" if it.chance(0.9) else None))
    return request(xid, kind, buffer(it.one((client_path(it), client_path(it), b"/", b"/a", None))))


def multi_read(it, xid):
    """A multiRead; a few ask for what can't be read so, or have no end."""
    body = b""
    for _ in range(it.number(0, 4)):
        kind = it.one((GET_DATA, GET_CHILDREN)) if it.chance(0.97) else EXISTS
        body += struct.pack(">i?i", kind, False, -1) + buffer(client_path(it)) + bytes([it.number(0, 1)])
    return request(xid, MULTI_READ, body + (struct.pack(">i?i", -1, True, -1) if it.chance(0.95) else b""))


def find_watches(it, xid):
    """A checkWatches or a removeWatches."""
    kind = it.number(1, 5) if it.chance(0.95) else it.one((0, 6, -1))
    at = it.hot if it.chance(0.5) else client_path(it)
    return request(xid, it.one((CHECK_WATCHES, REMOVE_WATCHES)), buffer(at) + struct.pack(">i", kind))


def refused(it, xid):
    """A check, a multi, or a request of a type that isn't known, by which the connection ends."""
    if it.is_later:
        return request(xid, CHECK if it.chance(0.8) else it.one(LATER_UNKNOWN), b"any")
    return request(xid, it.one((CHECK, MULTI, MULTI) if it.chance(0.8) else UNKNOWN), b"any")


def leave(it, xid):
    return request(xid, CLOSE_SESSION, b"")


# ---- faults


def fault(it):
    """Bytes that are no frame or no request: a frame that is too short or has a wrong length, and a damaged one."""
    if not it.clients.open or not it.is_late():
        return True
    number = it.one(sorted(it.clients.open))
    how = it.number(0, 5)
    if how == 0:
        content = buffer(bytes(it.number(0, 7)))
    elif how == 1:
        content = struct.pack(">i", it.one((-1, -2**31, 1048576, 2**31 - 1)))
    else:
        has_session = it.clients.open[number].session is not None
        content = bodies.damaged(it, asked(it, number) if has_session else connect_of(it))
    it.comes(source(number), content + asked(it, number) if it.chance(0.4) else content)
    return False
