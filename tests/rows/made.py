"""Rows whose bytes are too many to lie in a file: `rows()` makes their scripts, and what they have to print.

The bytes are put together here from the records of zookeeper.jute, and what is wanted comes from what those records
say, not from the program.
"""
import struct

from connecting import connecting
from fronts import fronts, one_byte_a_line
from limits import longest_inform
from pending import forwarded_ids, forwarded_limit, forwarded_many
from records import (
    CREATE, EXISTS, GET_CHILDREN, GET_DATA, INFORM, NO_NODE, SET_DATA, SET_WATCHES, buffer, client, create, joined,
    leader, packet, reply, request, transaction,
)
from short import short_and_long

# As many components as a path has that fills half of the longest frame of a client.
COMPONENTS = 262_144
DEEP = b"/a" * COMPONENTS


def deep_path():
    """A path of 262,144 components is missing for every read; a watch may wait there, and go with its connection; and a
    create there fails for want of a parent."""
    zxid = 0x100000001
    script = [
        b"server 3",
        b"primed",
        client(1, EXISTS, buffer(DEEP) + b"\0"),
        client(2, EXISTS, buffer(DEEP) + b"\1"),
        client(3, GET_DATA, buffer(DEEP) + b"\1"),
        client(4, GET_CHILDREN, buffer(DEEP) + b"\1"),
        client(5, SET_WATCHES, struct.pack(">qii", 0, 0, 1) + buffer(DEEP) + struct.pack(">i", 0)),
        leader(packet(INFORM, zxid, transaction(zxid, CREATE, create(DEEP)))),
        client(6, EXISTS, buffer(DEEP) + b"\0"),
        b"client 1 end",
        b"",
    ]
    wanted = [reply(xid, 0, NO_NODE) for xid in (1, 2, 3, 4)]
    wanted += [reply(5, 0, 0), reply(6, zxid, NO_NODE), b"end zxid=0x100000001 paths=3", b""]
    return b"\n".join(script), b"\n".join(wanted)


FIRST = 1 << 32  # the zxid of epoch 1 before its first transaction
NODES = 100
CONNECTIONS = (1, 2, 3)
SESSIONS = len(CONNECTIONS) - 1  # that are created between the creates and the setDatas
CHANGED = 3  # of an event's type and of the state in it


def path_of(node):
    return b"/n%02d" % node


def shown(node, version):
    """A node's Stat after its create, or after its setData, and the last zxid of then."""
    made = FIRST + 1 + node
    changed = made + (NODES + SESSIONS) * version
    stat = struct.pack(">qqqqiiiqiiq", made, changed, 1000, 1000, version, 0, 0, 0, 4, 0, made)
    return stat, FIRST + NODES * (version + 1) + SESSIONS


def read(number, node, version, connection):
    """A read with this xid: every other one is an exists, the rest are getDatas, and all leave watches on data. Its
    frame and the line with the reply. A node's data is its path, and after the setData that of the next node."""
    stat, zxid = shown(node, version)
    body = buffer(path_of(node)) + b"\1"
    if number % 2:
        return request(number, EXISTS, body), reply(number, zxid, 0, stat, connection)
    content = buffer(path_of((node + version) % NODES))
    return request(number, GET_DATA, body), reply(number, zxid, 0, content + stat, connection)


def read_in_turn():
    """Each connection reads every node once, each read an event of its own, in an order in which following reads are of
    other connections and of other nodes."""
    script, wanted = [], []
    for number in range(NODES * len(CONNECTIONS)):
        connection = CONNECTIONS[number % len(CONNECTIONS)]
        frame, answer = read(number, 7 * number % NODES, 0, connection)
        script.append(b"client %d " % connection + frame.hex().encode())
        wanted.append(answer)
    return script, wanted


def read_at_once(connection):
    """A connection reads every node in one event."""
    reads = [read(number, number, 1, connection) for number in range(NODES)]
    frames = b"".join(frame for frame, _ in reads)
    return b"client %d " % connection + frames.hex().encode(), [line for _, line in reads]


def many_reads():
    """More reads follow each other than there may be readers, and then one event writes all the nodes that they watch:
    each reply is that of its own read, and each node's watchers are told in the order of the transactions."""
    made, changed = [], []
    for node in range(NODES):
        zxid = FIRST + 1 + node
        made.append(packet(INFORM, zxid, transaction(zxid, CREATE, create(path_of(node), path_of(node)))))
        body = buffer(path_of(node)) + buffer(path_of((node + 1) % NODES)) + struct.pack(">i", 1)
        zxid += NODES + SESSIONS
        changed.append(packet(INFORM, zxid, transaction(zxid, SET_DATA, body)))
    script, wanted = [b"server 3", b"primed", leader(b"".join(made))], []
    for connection in CONNECTIONS[1:]:
        lines, answers = joined(connection, FIRST + NODES + connection - 1)
        script += lines
        wanted += answers
    lines, answers = read_in_turn()
    script += [*lines, leader(b"".join(changed))]
    wanted += answers
    for node in range(NODES):
        event = struct.pack(">ii", CHANGED, CHANGED) + buffer(path_of(node))
        wanted += [reply(-1, -1, 0, event, connection) for connection in CONNECTIONS]
    for connection in CONNECTIONS:
        line, answers = read_at_once(connection)
        script.append(line)
        wanted += answers
    wanted.append(b"end zxid=0x%x paths=%d" % (FIRST + 2 * NODES + SESSIONS, NODES + 3))
    return b"\n".join([*script, b""]), b"\n".join([*wanted, b""])


def rows():
    """Returns each row as name, script and wanted output."""
    made = [("deep-path", *deep_path()), ("many-reads", *many_reads())]
    made += [("forwarded-limit", *forwarded_limit()), ("forwarded-many", *forwarded_many())]
    made.append(("forwarded-ids", *forwarded_ids()))
    return [*made, *connecting(), *fronts(), one_byte_a_line(), *longest_inform(), short_and_long()]
