"""Rows in which connects wait for the sessions that the leader creates."""
import struct

from pending import PING, asked_create
from records import (
    CREATE, EXISTS, INFORM, NO_NODE, TIMEOUT, asked_for, buffer, connect, connected, create, created, forwarded,
    from_client, leader, packet, reply, request, session_of, to_leader, transaction,
)
from records import PING as LEADER_PING

FIRST = 1 << 32  # the zxid of epoch 1 before its first transaction
LIMIT = 1024  # of the requests of one connection that wait, with the connect


def up(connection):
    return b"client %d up" % connection


def connect_cuts():
    """A connect that comes in two pieces, cut at each of its bytes: the leader is asked after the second one."""
    script, wanted = [b"server 3", b"primed"], []
    frame = connect(end=b"\0")
    for length in range(1, len(frame)):
        connection, zxid = length + 1, FIRST + length
        session = session_of(connection)
        script += [up(connection), from_client(frame[:length], connection), from_client(PING)]
        script += [from_client(frame[length:], connection), leader(created(zxid, session))]
        wanted += [reply(-2, zxid - 1 if length > 1 else 0, 0), asked_for(session)]
        wanted.append(connected(session, connection, end=b"\0"))
    wanted += [b"end zxid=0x%x paths=3" % (FIRST + len(frame) - 1), b""]
    return b"\n".join([*script, b""]), b"\n".join(wanted)


def connect_limit():
    """1,023 frames may be held after a connect, and the next one closes the connection. Of those that were held each is
    served when the session is created: pings are answered, and creates go to the leader, where they wait again."""
    creates = [asked_create(xid, b"/a%04d" % xid) for xid in range(1, LIMIT)]
    script = [b"server 3", b"primed"]
    script += [up(2), from_client(connect() + PING * (LIMIT - 2), 2), from_client(PING, 2)]
    script += [up(3), from_client(connect() + PING * LIMIT, 3)]
    script += [up(4), from_client(connect() + b"".join(creates), 4)]
    script.append(leader(b"".join(created(FIRST + number, session_of(number + 1)) for number in (1, 2, 3))))
    script += [from_client(PING, 4), from_client(PING, 4), from_client(PING, 2), b""]
    wanted = [asked_for(session_of(2)), asked_for(session_of(3)), b"C 3 close", asked_for(session_of(4))]
    wanted += [connected(session_of(2), 2), *[reply(-2, FIRST + 1, 0, connection=2)] * (LIMIT - 1)]
    wanted += [connected(session_of(4), 4), *[forwarded(session_of(4), frame) for frame in creates]]
    wanted += [b"C 4 close", reply(-2, FIRST + 3, 0, connection=2), b"end zxid=0x100000003 paths=3", b""]
    return b"\n".join(script), b"\n".join(wanted)


CLIENTS = 60
STEP = 37  # which has no divisor in common with their number


def path_of(connection):
    return b"/n%02d" % connection


def done_for(connection, zxid):
    """What the leader does for a connection: its session is created before its node, or in every second one after it."""
    session = session_of(connection)
    node = [zxid, zxid + 1][connection % 2 == 0]
    made = packet(INFORM, node, transaction(node, CREATE, create(path_of(connection))))
    admitted = created(2 * zxid + 1 - node, session, TIMEOUT + connection)
    return admitted + made if node > zxid else made + admitted


def told(connection, zxid):
    """What the connection is told: its read shows the node where that is older than the session."""
    session = session_of(connection)
    lines = [connected(session, connection)]
    if connection % 2 == 0:
        return [*lines, reply(1, zxid, NO_NODE, connection=connection)]
    stat = struct.pack(">qqqqiiiqiiq", zxid, zxid, 1000, 1000, 0, 0, 0, 0, 2, 0, zxid)
    return [*lines, reply(1, zxid + 1, 0, stat, connection)]


def connects_many():
    """Many connects wait, each with a read after it. One event of the leader creates their sessions in another order,
    and each read shows the tree of when its session was created. A PING is told of those that were heard since."""
    connections = range(2, CLIENTS + 2)
    script, wanted, done = [b"server 3", b"primed"], [], []
    for connection in connections:
        asked = connect() + request(1, EXISTS, buffer(path_of(connection)) + b"\0")
        script += [up(connection), from_client(asked, connection)]
        wanted.append(asked_for(session_of(connection)))
    for number in range(CLIENTS):
        connection, zxid = connections[STEP * number % CLIENTS], FIRST + 2 * number + 1
        done.append(done_for(connection, zxid))
        wanted += told(connection, zxid)
    script.append(leader(b"".join(done)))
    last, table = FIRST + 2 * CLIENTS, b""
    for connection in reversed(connections[::3]):
        script.append(from_client(PING, connection))
        wanted.append(reply(-2, last, 0, connection=connection))
        table = struct.pack(">qi", session_of(connection), TIMEOUT + connection) + table
    script += [leader(packet(LEADER_PING, last))] * 2
    wanted += [to_leader(packet(LEADER_PING, last, it)) for it in (table, b"")]
    wanted += [b"end zxid=0x%x paths=%d" % (last, 3 + CLIENTS), b""]
    return b"\n".join([*script, b""]), b"\n".join(wanted)


def connecting():
    return [("connect-cuts", *connect_cuts()), ("connect-limit", *connect_limit()), ("connects-many", *connects_many())]
