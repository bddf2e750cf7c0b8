"""What the leader does in scripts that are drawn by chance: its handshake, its stream, and its end.

Each maker takes the drawing (drawing.py). One that can't do its part as things stand returns True.
"""
import struct

from records import (
    CLOSE_SESSION, COMMIT, CREATE, CREATE_SESSION, DIFF, ERROR, INFORM, LEADER_INFO, NEW_LEADER, PING, PROPOSAL,
    PROTOCOL, SET_DATA, SNAP, SYNCED, TRUNC, UP_TO_DATE, buffer, packet, transaction,
)

import drawn_bodies as bodies
from learner import DOWN, HELLO, IMAGE, REPLAY, SERVING, SYNCING
from transactions import CHECK, CREATE2, CREATE_CONTAINER, CREATE_TTL, DELETE, DELETE_CONTAINER, MULTI, RECONFIG
from transactions import SET_ACL

LAST = 2**63 - 1
NULL = struct.pack(">i", -1)
# The transactions of a leader, and how often they come.
KINDS = (CREATE, DELETE, SET_DATA, SET_ACL, MULTI, CREATE_SESSION, CLOSE_SESSION, ERROR, CHECK)
KIND_WEIGHTS = (40, 14, 20, 8, 12, 3, 2, 4, 1)
LATER_KINDS = (*KINDS, CREATE2, CREATE_CONTAINER, CREATE_TTL, DELETE_CONTAINER, RECONFIG)
LATER_WEIGHTS = (20, 14, 18, 8, 14, 3, 2, 4, 1, 18, 8, 5, 4, 4)
REVALIDATE, ACTIVATED, INFORM_ACTIVATED = 6, 9, 19


def send(it, content):
    """A packet of the leader comes; what goes with it, its authinfo, is mostly null."""
    if it.learner.phase != IMAGE and content[-4:] == NULL and it.chance(0.03):
        content = content[:-4] + ids(it)
    it.comes("leader", content)


# ---- the connection


def leader_up(it):
    """A leader comes; while there is one, another one is passed over."""
    if it.learner.phase == DOWN:
        it.owed.pop("leader", None)
    it.happens("leader up")
    return False


def leader_end(it):
    """The leader ends, in the middle of a packet where a part of one has come."""
    it.owed.pop("leader", None)
    it.happens("leader end")
    return False


def step(it):
    """The next packet of the leader's handshake."""
    it.settle("leader")
    makers = {DOWN: hello, HELLO: hello, SYNCING: way, IMAGE: image, REPLAY: done}
    maker = makers.get(it.learner.phase)
    if maker is None or maker is hello and it.learner.phase == DOWN and it.chance(0.7):
        return True
    return maker(it)


def hello(it):
    """The leader's epoch: mostly the next one, else one that was accepted before."""
    epoch = min(it.learner.accepted + it.one((1, 1, 1, 0, 2)), 2**31 - 1)
    low = it.one((0, 0, 0, 5))
    send(it, packet(LEADER_INFO, (epoch << 32) + low, struct.pack(">i", PROTOCOL) + it.one((b"", b"", b"more"))))
    return False


def way(it):
    """How the observer is brought up to date. A leader takes back only what is above the last checkpoint."""
    last, base = it.learner.last, it.learner.base_zxid
    zxids = [txn.zxid for txn in it.learner.log if txn.zxid >= base]
    kind = it.one((DIFF, DIFF, SNAP, SNAP) + (TRUNC,) * (5 if zxids else 1))
    zxid = it.one((0, last, 5)) if kind == DIFF else last + it.number(0, 5) if it.chance(0.9) else it.number(0, last)
    if kind == TRUNC:
        zxid = it.one((*zxids, *zxids, base, last, max(last - 1, base)))
    send(it, packet(kind, min(max(zxid, 0), LAST), it.one((None, None, b"", b"any"))))
    return False


def image(it):
    send(it, bodies.image_of(it, bodies.drawn_tree(it)))
    return False


def done(it):
    """NEWLEADER, which a few leaders leave out or send twice, and then UPTODATE."""
    zxid = it.learner.accepted << 32
    if it.chance(0.2 if it.learner.current == it.learner.accepted else 0.9):
        send(it, packet(NEW_LEADER, zxid))
    else:
        send(it, packet(UP_TO_DATE, zxid))
    return False


# ---- transactions


def next_zxid(it, after=None):
    """The zxid of the next transaction: above the one before it, in the leader's epoch. Between an image and UPTODATE
    the first ones may be those that are in the image."""
    learner = it.learner
    floor = learner.floor if learner.phase == REPLAY else None
    if after is None and floor == 0 and it.chance(0.6):
        return max(1, learner.last - it.number(0, 3))
    if floor is None:
        floor = max(learner.last, learner.accepted << 32)
    return min(max(floor, after or 0) + it.one((1,) * 8 + (2, 3)), LAST)


def session_of_txn(it):
    """The session of a transaction that no client here waits for; it owns what is ephemeral."""
    living = sorted(it.tree.sessions)
    return it.one(living) if living and it.chance(0.6) else it.one(it.sessions())


def txn(it, zxid, kind=None, session=None, cxid=None):
    """The bytes of a transaction."""
    kinds = (LATER_KINDS, LATER_WEIGHTS) if it.is_later else (KINDS, KIND_WEIGHTS)
    kind = it.dice.choices(*kinds)[0] if kind is None else kind
    session = session_of_txn(it) if session is None else session
    cxid = it.one((0, 1, 2, 3, 77)) if cxid is None else cxid
    content = transaction(zxid, kind, bodies.body_of(it, kind), session, cxid, it.number(1000, 1009))
    return content + bodies.digest(it)


def inform(it, content):
    """A transaction comes; a reconfiguration, and at times another one, behind the number of the next leader."""
    zxid, kind = struct.unpack(">q8xi", content[12:32])
    if it.is_later and it.chance(0.9 if kind == RECONFIG else 0.03):
        send(it, packet(INFORM_ACTIVATED, zxid, struct.pack(">q", it.number(1, 3)) + content))
        return
    send(it, packet(INFORM, zxid if it.chance(0.95) else 0, content))


def transactions(it):
    """Transactions of others, one after the other. Among proposals that wait they would be in another's place."""
    it.settle("leader")
    if it.learner.proposals and it.chance(0.8):
        return True
    for _ in range(it.one((1, 1, 2, 3, 8))):
        inform(it, txn(it, next_zxid(it)))
        it.settle("leader")
    return False


def answers(it):
    """The leader does what clients have asked for: the oldest writes, each by its transaction or by an error. A few
    name another xid or are of another type, and answer nothing."""
    it.settle("leader")
    owed = [(each.session, each.oldest_write()) for each in it.clients.open.values() if each.oldest_write()]
    if not owed:
        return True
    for _ in range(it.one((1, 1, 2, 4))):
        owed = [(each.session, each.oldest_write()) for each in it.clients.open.values() if each.oldest_write()]
        if not owed:
            break
        session, write = it.one(owed)
        xid, kind = write.values
        kind = it.dice.choices((kind, ERROR, it.one(LATER_KINDS if it.is_later else KINDS)), (80, 17, 3))[0]
        inform(it, txn(it, next_zxid(it), kind, session, xid if it.chance(0.95) else xid ^ 1))
        it.settle("leader")
    return False


def sessions_made(it):
    """The leader creates sessions that connects wait for, in any order, or with another timeout; of those that a later
    client has, it says whether they live."""
    it.settle("leader")
    waiting = [each.waits[0] for each in it.clients.open.values() if each.connects()]
    if not waiting:
        return True
    for what, (session, timeout, _) in it.dice.sample(waiting, it.number(1, len(waiting))):
        it.given.append(session)
        if what == "revalidate":
            send(it, known(session, it.chance(0.8)))
            it.settle("leader")
            continue
        zxid, told = next_zxid(it), struct.pack(">i", timeout if it.chance(0.8) else 7000)
        inform(it, transaction(zxid, CREATE_SESSION, told, session, 0, 1000) + bodies.digest(it))
        it.settle("leader")
    return False


def known(session, is_known):
    """The leader says whether a session lives."""
    return packet(REVALIDATE, -1, struct.pack(">q?", session, is_known))


def session_closed(it):
    """The leader ends a session that lives, as its client wishes or because it has expired."""
    it.settle("leader")
    if not it.tree.sessions:
        return True
    inform(it, txn(it, next_zxid(it), CLOSE_SESSION, it.one(sorted(it.tree.sessions))))
    return False


def proposals(it):
    """Proposals that wait for their commits. While clients are served they are ignored, and not read."""
    it.settle("leader")
    for _ in range(it.one((1, 1, 2, 3))):
        waiting = it.learner.proposals
        zxid = next_zxid(it, waiting[-1].zxid if waiting else None)
        send(it, packet(PROPOSAL, zxid, txn(it, zxid)))
        it.settle("leader")
    return False


def commits(it):
    it.settle("leader")
    if not it.learner.proposals:
        return True
    for _ in range(it.number(1, len(it.learner.proposals))):
        kind = ACTIVATED if it.is_later and it.chance(0.1) else COMMIT
        send(it, packet(kind, it.learner.proposals[0].zxid, b"any" if kind == ACTIVATED else None))
        it.settle("leader")
        if not it.learner.proposals:
            break
    return False


# ---- what is no transaction


def ids(it):
    """A packet's authinfo; null texts in it come back empty."""
    if it.chance(0.5):
        return struct.pack(">i", it.one((-1, 0)))
    return struct.pack(">i", 2) + buffer(b"digest") + buffer(it.one((b"ann", None))) + buffer(None) + buffer(b"")


def sync_done(it):
    """The leader has done a sync, of a client that may have gone."""
    if not it.clients.syncs and it.chance(0.9):
        return True
    it.settle("leader")
    send(it, packet(SYNCED, it.learner.last))
    return False


def ping(it):
    it.settle("leader")
    send(it, packet(PING, it.learner.last, it.one((None, b"", b"any")))[:-4] + ids(it))
    return False


def ignored(it):
    """A packet that means nothing in this phase; in later dialects also one that tells whether a session lives."""
    it.settle("leader")
    if it.is_later:
        if it.chance(0.5):
            send(it, known(it.one(it.sessions()), it.chance(0.5)))
        else:
            send(it, packet(it.one((DIFF, TRUNC, 99, -1)), it.learner.last, it.one((None, b"any"))))
        return False
    kind = it.one((REVALIDATE, ACTIVATED, INFORM_ACTIVATED, DIFF, TRUNC, 99, -1))
    send(it, packet(kind, it.learner.last, it.one((None, b"any")))[:-4] + ids(it))
    return False


def second_image(it):
    """A SNAP and its image where none is taken: it is read and dropped, or refused."""
    it.settle("leader")
    send(it, packet(SNAP, it.learner.last))
    it.settle("leader")
    tree = bodies.image_of(it, bodies.drawn_tree(it))
    send(it, bodies.damaged(it, tree) if it.is_late() and it.chance(0.3) else tree)
    return False


# ---- faults


def fault(it):
    """Something that the observer has to refuse, or can't be sure of: a packet of another phase, one that is out of
    order, and what is damaged."""
    is_followed = it.learner.phase in (REPLAY, SERVING)
    if not (it.is_late() or not is_followed and it.chance(0.3)):
        return True
    it.settle("leader")
    makers = (wrong_phase, out_of_order, bad_path, torn, damaged)
    weights = (3, 2, 2, 4, 6) if is_followed else (8, 0, 0, 0, 6)
    content = it.dice.choices(makers, weights)[0](it)
    if is_followed and it.chance(0.3):  # what comes behind a fault is dropped
        zxid = next_zxid(it)
        content += packet(INFORM, zxid, txn(it, zxid))
    send(it, content)
    return False


def wrong_phase(it):
    """A packet that this phase has no place for; in the sync phase one that takes back too much."""
    learner = it.learner
    if learner.phase == HELLO and learner.accepted and it.chance(0.4):
        return packet(LEADER_INFO, (learner.accepted << 32) - 1, struct.pack(">i", PROTOCOL))
    if learner.phase == SYNCING and it.chance(0.5):
        return packet(TRUNC, learner.base_zxid - 1) if it.chance(0.7) else packet(SNAP, -1)
    if learner.phase == REPLAY and it.chance(0.5):
        waiting = learner.proposals
        return packet(COMMIT, waiting[0].zxid + 1 if waiting and waiting[0].zxid < LAST else learner.last)
    kind = it.one((LEADER_INFO, DIFF, NEW_LEADER, UP_TO_DATE, COMMIT, PING, SYNCED, 99))
    return packet(kind, learner.last, it.one((None, b"\0\1\0\0")))


def out_of_order(it):
    zxid = it.one((it.learner.last, it.learner.last - 1, 0, -1))
    return packet(INFORM, zxid, txn(it, zxid))


def bad_path(it):
    """A transaction of a path that no node may have. The root may not be made or deleted."""
    zxid, wrong = next_zxid(it), it.one(bodies.NO_PATHS + (b"/", b"/a/", b"//a"))
    kind = it.one((CREATE, DELETE, SET_DATA, SET_ACL, CHECK))
    body = buffer(wrong) + (b"" if kind == DELETE else buffer(b"hi") + bytes(4))
    if kind == CREATE:
        body = bodies.create_body(it, True, b"/x").replace(buffer(b"/x"), buffer(wrong), 1)
    return packet(INFORM, zxid, transaction(zxid, kind, body, 7, 1, 1000))


def torn(it):
    """A packet that is whole, with a transaction that isn't: bytes are missing or left over, one is another, or its
    type is none."""
    zxid = next_zxid(it)
    content, how = txn(it, zxid), it.number(0, 4)
    if how == 0:
        content += b"\0"
    elif how == 1:
        content = content[: -it.number(1, 12)]
    elif how == 2:
        content = transaction(zxid, it.one((0, 3, 4, 15, 16, 19, -2)), buffer(it.hot), 7, 1, 1000)
    elif how == 3 and it.is_later:
        content = txn(it, zxid) + bytes(it.one((1, 4, 8, 11, 12, 13)))
    else:
        content = bodies.damaged(it, content)
    return packet(INFORM, zxid, content)


def damaged(it):
    """A packet or an image with a byte that is wrong, missing or left over."""
    zxid = next_zxid(it)
    if it.learner.phase == IMAGE:
        return bodies.damaged(it, bodies.image_of(it, bodies.drawn_tree(it)))
    if it.learner.phase in (HELLO, SYNCING):
        return bodies.damaged(it, packet(it.one((LEADER_INFO, DIFF, SNAP, TRUNC)), zxid, b"\0\1\0\0"))
    return bodies.damaged(it, packet(it.one((INFORM, INFORM, PROPOSAL)), zxid, txn(it, zxid)))
