"""The records of zookeeper.jute of which rows are made, and the lines in which a script has them."""
import hashlib
import struct

CREATE, EXISTS, GET_DATA, SET_DATA, GET_CHILDREN, SYNC, AUTH, SET_WATCHES, ERROR = 1, 3, 4, 5, 8, 9, 100, 101, -1
CREATE_SESSION, CLOSE_SESSION = -10, -11
REQUEST, PROPOSAL, ACK, COMMIT, PING, SYNCED, INFORM, NEW_LEADER, UP_TO_DATE = 1, 2, 3, 4, 5, 7, 8, 10, 12
DIFF, TRUNC, SNAP, OBSERVER_INFO, LEADER_INFO, ACK_EPOCH = 13, 14, 15, 16, 17, 18
NO_NODE, NODE_EXISTS, AUTH_FAILED, PROTOCOL = -101, -110, -115, 0x10000
TIMEOUT = 10000
ENTRY = struct.pack(">i", 31) + b"\0\0\0\5world" + b"\0\0\0\6anyone"
OPEN_ACL = struct.pack(">i", 1) + ENTRY


def buffer(content):
    return struct.pack(">i", -1) if content is None else struct.pack(">i", len(content)) + content


def packet(kind, zxid, content=None):
    """A packet of the leader, or to it; without content its data is null."""
    return struct.pack(">iq", kind, zxid) + buffer(content) + struct.pack(">i", -1)


def transaction(zxid, kind, body, session=7, cxid=1, time=1000):
    """The data of a packet that carries a transaction, of a request of this session with the xid `cxid`."""
    return struct.pack(">qiqqi", session, cxid, zxid, time, kind) + body


def create(path, content=b"hi"):
    """The body of a create whose parent's cversion rises by one."""
    return buffer(path) + buffer(content) + OPEN_ACL + struct.pack(">?i", False, -1)


def leader(content):
    """The line with bytes of the leader."""
    return b"leader " + content.hex().encode()


def request(xid, kind, body):
    """A client's frame."""
    return buffer(struct.pack(">ii", xid, kind) + body)


def from_client(content, connection=1):
    """The line with bytes of a connection."""
    return b"client %d " % connection + content.hex().encode()


def client(xid, kind, body, connection=1):
    """The line with a request of a connection."""
    return from_client(request(xid, kind, body), connection)


def session_of(connection):
    """The session with the number of the connection, of server 3."""
    return (3 << 56) + connection


def connect(session=0, timeout=TIMEOUT, password=bytes(16), end=b"", seen=0):
    """A client's frame that asks for a session: for a new one, or with its password for one that lives. `seen` is the
    last zxid that the client was told of."""
    return buffer(struct.pack(">iqiq", 0, seen, timeout, session) + buffer(password) + end)


def password_of(session):
    """The password of a session, where there is no secret."""
    return hashlib.sha1(struct.pack(">q", session)).digest()[:16]


def asked_for(session, timeout=TIMEOUT):
    """The line that tells that the leader is asked for a session."""
    content = struct.pack(">qiii", session, 0, CREATE_SESSION, timeout)
    return to_leader(struct.pack(">iq", REQUEST, -1) + buffer(content) + struct.pack(">i", -1))


def created(zxid, session, timeout=TIMEOUT):
    """The INFORM by which the leader creates a session."""
    return packet(INFORM, zxid, transaction(zxid, CREATE_SESSION, struct.pack(">i", timeout), session, 0))


def connected(session, connection=1, timeout=TIMEOUT, end=b""):
    """The line that tells of the answer to a connect."""
    answer = struct.pack(">iiq", 0, timeout, session) + buffer(password_of(session)) + end
    return b"C %d " % connection + buffer(answer).hex().encode()


def joined(connection, zxid):
    """The lines in which a connection opens and the leader creates its session, and the lines that these bring. The
    session's number is that of the connection."""
    session = session_of(connection)
    lines = [b"client %d up" % connection, from_client(connect(), connection), leader(created(zxid, session))]
    return lines, [asked_for(session), connected(session, connection)]


def to_leader(content):
    """The line that tells of a packet to the leader."""
    return b"L " + content.hex().encode()


def forwarded(session, frame, ids=()):
    """The line that tells of a client's frame that goes to the leader, with the ids that its connection has shown, each
    a scheme and a text."""
    content = struct.pack(">q", session) + frame[4:]
    shown = struct.pack(">i", len(ids)) + b"".join(buffer(scheme) + buffer(text) for scheme, text in ids)
    return to_leader(struct.pack(">iq", REQUEST, -1) + buffer(content) + shown)


def reply(xid, zxid, err, body=b"", connection=1):
    """The line that tells of a reply to a connection."""
    return b"C %d " % connection + buffer(struct.pack(">iqi", xid, zxid, err) + body).hex().encode()
