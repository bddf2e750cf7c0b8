"""What an observer makes of its leader's stream."""
from typing import List, NamedTuple, Optional, Tuple

from dialects import Dialect
from images import image_in
from jute import Fault, OutOfBytes, Reader, int32, int64, packet, whole
from transactions import txn_of
from tree import Outcome, Tree

PROPOSAL, ACK, COMMIT, PING, REVALIDATE, SYNC, INFORM, NEW_LEADER, UP_TO_DATE = 2, 3, 4, 5, 6, 7, 8, 10, 12
COMMIT_AND_ACTIVATE, INFORM_AND_ACTIVATE = 9, 19  # in later dialects alone
DIFF, TRUNC, SNAP, OBSERVER_INFO, LEADER_INFO, ACK_EPOCH = 13, 14, 15, 16, 17, 18
PROTOCOL = 0x10000
DOWN, HELLO, SYNCING, IMAGE, REPLAY, SERVING = "down", "hello", "syncing", "image", "replay", "serving"


class Packet(NamedTuple):
    kind: int
    zxid: int
    content: Optional[bytes]
    ids: Optional[List[Tuple[bytes, bytes]]]


class Effect(NamedTuple):
    """What a packet brings: packets for the leader, and what concerns clients: the transaction that was applied and
    what it came to, the PING, the SYNC, or a session and whether the leader knows it."""

    sent: tuple = ()
    txn: object = None
    outcome: Optional[Outcome] = None
    ping: Optional[Packet] = None
    is_sync: bool = False
    revalidated: Optional[Tuple[int, bool]] = None


NOTHING = Effect()


def packet_in(reader):
    return Packet(reader.int(), reader.long(), reader.buffer(), reader.vector(reader.id))


def plain(found):
    """A packet that brings a reconfig, as the packet that brings any transaction. The long in front of an INFORM's
    transaction, or the data of a COMMIT, names the next leader."""
    if found.kind == INFORM_AND_ACTIVATE:
        return found._replace(kind=INFORM, content=(found.content or b"")[8:])
    if found.kind == COMMIT_AND_ACTIVATE:
        return found._replace(kind=COMMIT)
    return found


class Learner:
    def __init__(self, server, epochs, dialect=Dialect.ZK34):
        self.server, (self.accepted, self.current), self.dialect = server, epochs, dialect
        self.phase, self.last, self.base_zxid = DOWN, 0, 0
        self.floor = None  # after an image the zxid of the transaction applied last
        self.tree, self.base, self.log, self.proposals = Tree.fresh(dialect), Tree.fresh(dialect), [], []
        self.stream, self.snap = b"", None  # the bytes that aren't read, and the SNAP whose image is owed

    # ---- the stream

    def met(self):
        """A leader is there. Returns the packet that introduces the observer."""
        self.phase, self.stream, self.snap = HELLO, b"", None
        return packet(OBSERVER_INFO, self.accepted << 32, int64(self.server) + int32(PROTOCOL), None)

    def left(self):
        self.phase, self.proposals = DOWN, []

    def is_cut(self):
        """Whether the stream may not end here."""
        return bool(self.stream) or self.snap is not None

    def items(self, content):
        """Takes bytes, and yields the effect of each item that is whole."""
        self.stream += content
        while True:
            reader = Reader(self.stream, self.dialect)
            try:
                item = image_in(reader) if self.snap else packet_in(reader)
            except OutOfBytes:
                return
            self.stream = reader.rest()
            if isinstance(item, Packet):
                yield self.packet(plain(item) if self.dialect.is_later else item)
            else:
                self.image(item)

    def image(self, tree):
        zxid, is_awaited, self.snap = self.snap.zxid, self.phase == IMAGE, None
        if is_awaited:
            self.phase, self.floor = REPLAY, 0
            self.tree, self.base, self.log = tree, tree.copy(), []
            self.last = self.base_zxid = zxid

    # ---- packets

    def txn_of(self, found):
        return txn_of(found.content, self.dialect)

    def packet(self, found):
        effect = getattr(self, f"in_{self.phase}")(found)
        if found.kind == SNAP:
            self.snap = found
        return effect

    def in_hello(self, found):
        if found.kind != LEADER_INFO:
            raise Fault(12)
        epoch = found.zxid >> 32
        if epoch < self.accepted:
            raise Fault(11)
        if len(found.content or b"") < 4:
            raise Fault(1)
        answer = self.current if epoch > self.accepted else -1
        self.accepted, self.phase = epoch, SYNCING
        return Effect(sent=(packet(ACK_EPOCH, self.last, int32(answer), None),))

    def in_syncing(self, found):
        if found.kind == TRUNC:
            if found.zxid < self.base_zxid:
                raise Fault(9)
            self.truncate(found.zxid)
        elif found.kind == SNAP:
            if found.zxid < 0:
                raise Fault(7)
            self.phase = IMAGE
            return NOTHING
        elif found.kind != DIFF:
            raise Fault(12)
        self.phase, self.floor = REPLAY, None
        return NOTHING

    def truncate(self, zxid):
        self.log = [it for it in self.log if it.zxid <= zxid]
        self.tree, self.last = self.base.copy(), self.base_zxid
        for txn in self.log:
            self.tree.apply(txn)
            self.last = max(self.last, txn.zxid)

    def in_replay(self, found):
        if found.kind == PROPOSAL:
            self.proposals.append(self.txn_of(found))
        elif found.kind == COMMIT:
            if not self.proposals or self.proposals[0].zxid != found.zxid:
                raise Fault(8)
            return self.applied(self.proposals[0], self.proposals.pop)
        elif found.kind == INFORM:
            return self.applied(self.txn_of(found))
        elif found.kind in (NEW_LEADER, UP_TO_DATE):
            self.current = self.accepted
            if found.kind == UP_TO_DATE:
                self.phase, self.proposals = SERVING, []
            return Effect(sent=(packet(ACK, self.accepted << 32, None, None),))
        return NOTHING

    def in_serving(self, found):
        if found.kind == PING:
            return Effect(ping=found)
        if found.kind == SYNC:
            return Effect(is_sync=True)
        if found.kind == REVALIDATE and self.dialect.is_later:
            answer = whole(found.content or b"", lambda reader: (reader.long(), reader.bool()), self.dialect)
            return Effect(revalidated=answer)
        if found.kind == INFORM:
            self.floor = None
            return self.applied(self.txn_of(found))
        return NOTHING

    def applied(self, txn, take=None):
        if txn.zxid <= (self.last if self.floor is None else self.floor):
            raise Fault(7)
        if take:
            take(0)
        if self.floor is not None:
            self.floor = txn.zxid
        self.last = max(self.last, txn.zxid)
        self.log.append(txn)
        return Effect(txn=txn, outcome=self.tree.apply(txn))

    def checkpoint(self):
        if self.phase == SERVING:
            self.base, self.base_zxid, self.log = self.tree.copy(), self.last, []
