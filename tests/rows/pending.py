"""Rows in which many requests of clients wait for the leader, or few with much in them."""
import base64
import hashlib
import struct

from records import (
    AUTH, AUTH_FAILED, CREATE, ERROR, EXISTS, INFORM, NODE_EXISTS, NO_NODE, OPEN_ACL, SYNC, SYNCED, buffer, client, create,
    forwarded, from_client, joined, leader, packet, reply, request, session_of, transaction,
)

FIRST = 1 << 32  # the zxid of epoch 1 before its first transaction
LIMIT = 1024  # of the requests of one connection that wait
BYTES_OF_IDS = 65_536  # that the ids of one connection may have, schemes included
PING = request(-2, 11, b"")
CREATED, CONNECTED = 1, 3  # an event's type, and the state in it


def asked_create(xid, path):
    """A client's frame that creates a node with the data "hi"."""
    return request(xid, CREATE, buffer(path) + buffer(b"hi") + OPEN_ACL + struct.pack(">i", 0))


def applied(number, kind, body, connection, xid):
    """The INFORM of the transaction of that number, of a request of the connection's session with that xid."""
    zxid = FIRST + number
    return packet(INFORM, zxid, transaction(zxid, kind, body, session_of(connection), xid))


def refused(number, connection, xid):
    """The INFORM by which a create fails, as the node is there."""
    return applied(number, ERROR, struct.pack(">i", NODE_EXISTS), connection, xid)


def forwarded_limit():
    """1,024 requests of a connection may wait, writes and frames that are held: each is answered in its turn. The next
    frame closes the connection, also an auth, which wouldn't wait; what was forwarded is answered to nobody then."""
    first = asked_create(1, b"/a")
    creates = [asked_create(xid, b"/b%04d" % xid) for xid in range(2, LIMIT + 2)]
    shown = request(-4, AUTH, struct.pack(">i", 0) + buffer(b"digest") + buffer(b"super:admin"))
    script = [
        b"server 3",
        b"primed",
        from_client(first + PING * (LIMIT - 1)),
        leader(applied(1, CREATE, create(b"/a"), 1, 1)),
        from_client(b"".join(creates)),
        leader(refused(2, 1, 2)),
        from_client(PING),
        from_client(shown + PING),
        leader(refused(3, 1, 3)),
        b"",
    ]
    wanted = [forwarded(session_of(1), first), reply(1, FIRST + 1, 0, buffer(b"/a"))]
    wanted += [reply(-2, FIRST + 1, 0)] * (LIMIT - 1)
    wanted += [forwarded(session_of(1), frame) for frame in creates]
    wanted += [reply(2, FIRST + 2, NODE_EXISTS), b"C 1 close", b"end zxid=0x100000003 paths=4", b""]
    return b"\n".join(script), b"\n".join(wanted)


def shown(user):
    """A client's frame that shows an id, and that id."""
    text = user + b":"
    id_of_user = b"digest", text + base64.b64encode(hashlib.sha1(text).digest())
    return request(-4, AUTH, struct.pack(">i", 0) + buffer(b"digest") + buffer(text)), id_of_user


def forwarded_ids():
    """The ids of a connection may have 65,536 bytes together, and each request has them all. One that was shown before
    is taken once more; one more is refused and closes the connection, however short it is, and so is one that is a
    byte too long."""
    short, _ = shown(b"")
    least = sum(map(len, shown(b"")[1]))
    half, other = (shown(letter * (BYTES_OF_IDS // 2 - least)) for letter in (b"a", b"b"))
    longer, _ = shown(b"c" * (BYTES_OF_IDS // 2 - least + 1))
    first, last = asked_create(1, b"/a"), asked_create(2, b"/b")
    lines, answers = joined(2, FIRST + 1)
    script = [b"server 3", b"primed", from_client(half[0] + other[0] + first), from_client(half[0] + short + last)]
    script += [*lines, from_client(half[0] + last, 2), from_client(longer + last, 2), b""]
    wanted = [reply(-4, 0, 0)] * 2 + [forwarded(session_of(1), first, [half[1], other[1]])]
    wanted += [reply(-4, 0, 0), reply(-4, 0, AUTH_FAILED), b"C 1 close", *answers]
    wanted += [reply(-4, 0, 0, connection=2), forwarded(session_of(2), last, [half[1]])]
    wanted += [reply(-4, 0, AUTH_FAILED, connection=2), b"C 2 close", b"end zxid=0x100000001 paths=3", b""]
    return b"\n".join(script), b"\n".join(wanted)


TURNS = 40
CONNECTIONS = (1, 2, 3)
SESSIONS = len(CONNECTIONS) - 1  # that are created first
STRANGER = 4  # the number of a session that no connection here has
IN_TURN = (1, STRANGER, 2, 3)  # whose creates the leader does in a turn, in this order


def path_of(turn, owner):
    return b"/n%02d-%d" % (turn, owner)


def asked_in_turns(connection):
    """The frames of a connection: in each turn a create and, for connection 3, a sync of its path, else an exists."""
    frames = []
    for turn in range(TURNS):
        path = path_of(turn, connection)
        frames.append(asked_create(2 * turn + 1, path))
        if connection == 3:
            frames.append(request(2 * turn + 2, SYNC, buffer(path)))
        else:
            frames.append(request(2 * turn + 2, EXISTS, buffer(path) + b"\0"))
    return frames


def done_in_turn(turn):
    """What the leader sends in a turn: four creates with one xid, and the SYNC for connection 3 before its create."""
    sent = []
    for at, owner in enumerate(IN_TURN, SESSIONS + 4 * turn + 1):
        if owner == 3:
            sent.append(packet(SYNCED, 0))
        sent.append(applied(at, CREATE, create(path_of(turn, owner)), owner, 2 * turn + 1))
    return b"".join(sent)


def told_in_turn(turn):
    """What clients are told in a turn. Connection 3 has watched for the node of the stranger."""
    lines = []
    for zxid, owner in enumerate(IN_TURN, FIRST + SESSIONS + 4 * turn + 1):
        path = buffer(path_of(turn, owner))
        if owner == STRANGER:
            lines.append(reply(-1, -1, 0, struct.pack(">ii", CREATED, CONNECTED) + path, 3))
            continue
        stat = struct.pack(">qqqqiiiqiiq", zxid, zxid, 1000, 1000, 0, 0, 0, 0, 2, 0, zxid)
        lines.append(reply(2 * turn + 1, zxid, 0, path, owner))
        lines.append(reply(2 * turn + 2, zxid, 0, path if owner == 3 else stat, owner))
    return lines


def forwarded_many():
    """Three connections have 40 writes each on the way, with reads and syncs between them. One event of the leader has
    their transactions, those of a stranger and the SYNCs: each write is answered after its own transaction, and what
    was asked after it on its connection before the leader's next one."""
    script, wanted = [b"server 3", b"primed"], []
    for number, connection in enumerate(CONNECTIONS[1:], 1):
        lines, answers = joined(connection, FIRST + number)
        script += lines
        wanted += answers
    for turn in range(TURNS):
        script.append(client(1000 + turn, EXISTS, buffer(path_of(turn, STRANGER)) + b"\1", 3))
        wanted.append(reply(1000 + turn, FIRST + SESSIONS, NO_NODE, connection=3))
    for connection in CONNECTIONS:
        frames = asked_in_turns(connection)
        script.append(from_client(b"".join(frames), connection))
        is_sent = frames if connection == 3 else frames[::2]
        wanted += [forwarded(session_of(connection), frame) for frame in is_sent]
    script += [leader(b"".join(done_in_turn(turn) for turn in range(TURNS))), b""]
    for turn in range(TURNS):
        wanted += told_in_turn(turn)
    wanted += [b"end zxid=0x%x paths=%d" % (FIRST + SESSIONS + 4 * TURNS, 3 + 4 * TURNS), b""]
    return b"\n".join(script), b"\n".join(wanted)
