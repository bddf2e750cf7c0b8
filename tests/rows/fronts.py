"""Rows in which what a leader sends is cut after each of its bytes.

A stream is a list of items, of which each is open until its last byte is in. A SNAP is one item with its image, since
from that packet on the image is owed.
"""
import struct
from typing import List, NamedTuple, Optional

from records import (
    ACK, ACK_EPOCH, COMMIT, CREATE, DIFF, ENTRY, INFORM, LEADER_INFO, NEW_LEADER, OBSERVER_INFO, PING, PROPOSAL,
    PROTOCOL, SNAP, TRUNC, UP_TO_DATE, buffer, create, leader, packet, to_leader, transaction,
)

SERVER = 3
FIRST = 1 << 32  # the zxid of epoch 1 before its first transaction
BASE = FIRST + 5


class Item(NamedTuple):
    content: bytes
    sent: List[bytes] = []  # the packets that go out for it
    last: Optional[int] = None  # the last zxid from then on; None where it stays


def image():
    """A session, a list of access rights under a key, the root, and /n that names the key."""
    node = buffer(b"hi") + struct.pack(">q", 5) + bytes(60)
    return b"".join([
        struct.pack(">iqi", 1, 9, 5000),
        struct.pack(">iqi", 1, 5, 1) + ENTRY,
        buffer(b"") + buffer(None) + struct.pack(">q", -1) + bytes(60),
        buffer(b"/n") + node,
        buffer(b"/") + buffer(b"BenWasHere"),
    ])


def told(kind, number, path):
    """A packet with the transaction of that number, which creates a node."""
    return packet(kind, FIRST + number, transaction(FIRST + number, CREATE, create(path)))


HELLO = Item(packet(LEADER_INFO, FIRST, struct.pack(">i", PROTOCOL)))
ACKED = packet(ACK, FIRST)
FOLLOWED = [Item(packet(NEW_LEADER, FIRST), [ACKED]), Item(packet(UP_TO_DATE, FIRST), [ACKED])]
PINGED = Item(packet(PING, BASE), [packet(PING, BASE, b"")])

# Nothing of it comes into the tree: the proposal is never committed, and the image comes while clients are served.
BY_DIFF = [HELLO, Item(packet(DIFF, 0)), Item(told(PROPOSAL, 1, b"/a")), *FOLLOWED]
BY_DIFF += [Item(packet(SNAP, BASE) + image()), PINGED]

# The log is cut at its start, so that each leader can make the same nodes again: /a, /b and /d.
BY_TRUNC = [HELLO, Item(packet(TRUNC, 0), [], 0), Item(told(INFORM, 1, b"/a"), [], FIRST + 1)]
BY_TRUNC += [Item(told(PROPOSAL, 2, b"/b")), Item(told(PROPOSAL, 3, b"/c"))]
BY_TRUNC += [Item(packet(COMMIT, FIRST + 2), [], FIRST + 2), *FOLLOWED]
BY_TRUNC += [Item(told(INFORM, 4, b"/d"), [], FIRST + 4), PINGED]

# The image has the root and /n; the transactions behind it make /x, /y and /z. The first one is below the image's zxid.
BY_SNAP = [HELLO, Item(packet(SNAP, BASE) + image(), [], BASE), Item(told(INFORM, 4, b"/x"))]
BY_SNAP += [Item(told(PROPOSAL, 6, b"/y")), Item(packet(COMMIT, FIRST + 6), [], FIRST + 6), *FOLLOWED]
BY_SNAP += [Item(told(INFORM, 7, b"/z"), [], FIRST + 7), PINGED]


class Seen:
    """What the answers to one leader show of those before it."""

    def __init__(self):
        self.accepted = self.last = 0
        self.wanted = []

    def introduce(self):
        info = struct.pack(">qi", SERVER, PROTOCOL)
        self.wanted.append(to_leader(packet(OBSERVER_INFO, self.accepted, info)))

    def take(self, item):
        """A whole item has come. An epoch is answered with 0, since no leader was followed, and later with -1."""
        sent = item.sent
        if item is HELLO:
            epoch = -1 if self.accepted else 0
            sent = [packet(ACK_EPOCH, self.last, struct.pack(">i", epoch))]
            self.accepted = FIRST
        if item.last is not None:
            self.last = item.last
        self.wanted += [to_leader(it) for it in sent]

    def ended(self, paths):
        return b"\n".join([*self.wanted, b"end zxid=0x%x paths=%d" % (self.last, paths), b""])


def each_front(items, paths):
    """Each front of the stream is what another leader sends, which is gone then. It is closed for F1 (Short) exactly
    where an item is open, and before the client, which is closed either way."""
    stream = b"".join(it.content for it in items)
    script, seen = [b"server %d" % SERVER], Seen()
    for length in range(len(stream) + 1):
        script += [b"leader up", b"client 2 up"] + [leader(stream[:length])] * bool(length) + [b"leader end"]
        seen.introduce()
        place = 0
        for item in items:
            if place + len(item.content) > length:
                break
            place += len(item.content)
            seen.take(item)
        seen.wanted += [b"L close F1 Short"] * (place < length) + [b"C 2 close"]
    return b"\n".join([*script, b""]), seen.ended(paths)


def fronts():
    streams = (("diff", BY_DIFF, 3), ("trunc", BY_TRUNC, 6), ("snap", BY_SNAP, 5))
    return [(f"learner-fronts-{name}", *each_front(items, paths)) for name, items, paths in streams]


def one_byte_a_line():
    """Three leaders, one after the other, and a line for each byte that they send: what goes out is the same."""
    script, seen = [b"server %d" % SERVER], Seen()
    for items in (BY_DIFF, BY_TRUNC, BY_SNAP):
        seen.introduce()
        for item in items:
            seen.take(item)
        lines = [leader(item.content[at : at + 1]) for item in items for at in range(len(item.content))]
        script += [b"leader up", *lines, b"leader end"]
    return "learner-byte-by-byte", b"\n".join([*script, b""]), seen.ended(5)
