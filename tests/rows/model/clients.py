"""What clients send, and what they wait for.

Written after the rules of docs/COMPATIBILITY.md, part "Operations".
"""
import base64
import hashlib
from typing import List, NamedTuple, Tuple

from jute import Reader, buffer, int32, int64, packet, readable, vector
from learner import PING, REVALIDATE, SERVING
from passwords import java_password
from reads import EXISTS, GET_CHILDREN, GET_CHILDREN2, GET_EPHEMERALS, LATER_READS, MULTI_READ, READS, UNWATCHED
from reads import ephemerals, is_request_path, look, reads_in
from results import reply_to_write, results_of_reads
from transactions import CHECK, CLOSE_SESSION, CREATE, CREATE2, CREATE_CONTAINER, CREATE_SESSION, CREATE_TTL, DELETE
from transactions import DELETE_CONTAINER, ERROR, MULTI, RECONFIG, SET_ACL, SET_DATA
from tree import CHANGED, CHILDREN, CREATED, DELETED, NO_NODE
from watches import PERSISTENT, RECURSIVE, WATCH_KINDS, Watches
from words import WORDS, answer_to

SYNC, PINGED, AUTH, SET_WATCHES, ADD_WATCH = 9, 11, 100, 101, 106
CHECK_WATCHES, REMOVE_WATCHES, SASL, SET_WATCHES2, WHO_AM_I = 17, 18, 102, 105, 107  # in later dialects alone
WRITES = (CREATE, DELETE, SET_DATA, SET_ACL, CLOSE_SESSION)
LATER_WRITES = (*WRITES, MULTI, CREATE2, RECONFIG, CREATE_CONTAINER, DELETE_CONTAINER, CREATE_TTL)
MARSHALLING_ERROR, UNIMPLEMENTED, BAD_ARGUMENTS = -5, -6, -8
AUTH_FAILED, SESSION_MOVED, NOT_READ_ONLY, NO_WATCHER = -115, -118, -119, -121
REQUEST, FRAME_LIMIT, PENDING_LIMIT, TOUCHED_LIMIT = 1, 1_048_575, 1024, 87_381
IDS_LIMIT, BYTES_OF_IDS_LIMIT = 1024, 65_536
SUPER_ID = (b"super", b"")
LONGEST_REPLY = 2**31 - 1
GREATEST_COUNTER = 2**56 - 1

# What later dialects answer, beside what all do.
LATER_ANSWERS = {
    CHECK_WATCHES: "check_watches",
    REMOVE_WATCHES: "remove_watches",
    MULTI_READ: "multi_read",
    SASL: "sasl",
    GET_EPHEMERALS: "own_ephemerals",
    SET_WATCHES2: "set_watches2",
    WHO_AM_I: "who_am_i",
}


def signed(number):
    return (number + 2**63) % 2**64 - 2**63


def digest_id(text):
    user = text.partition(b":")[0]
    return b"digest", user + b":" + base64.b64encode(hashlib.sha1(text).digest())


class Waiting(NamedTuple):
    """A request of a connection that isn't answered: a connect for a new session, or in later dialects a revalidate,
    which is a connect for a session that the leader is asked for (both with the session, the timeout and whether there
    was a byte more), a write (its xid and type), a sync (its xid, path and whether it is settled), or a frame that is
    held."""

    what: str
    values: Tuple


class Connection:
    """A connection. Where sessions move, its client's address is an id that it has from the start."""

    def __init__(self, address=None):
        self.rest, self.session, self.timeout = b"", None, None
        self.ids = [] if address is None else [(b"ip", address)]
        self.waits: List[Waiting] = []
        self.is_leaving = False

    def connects(self):
        return bool(self.waits) and self.waits[0].what in ("connect", "revalidate")

    def waits_for(self, session, what):
        """Whether a connect of this kind waits here for the session."""
        return self.connects() and self.waits[0].what == what and self.connecting() == session

    def connecting(self):
        """The session that a connect waits for here."""
        return self.waits[0].values[0] if self.connects() else None

    def oldest_write(self):
        return next((it for it in self.waits if it.what == "write"), None)


class Clients:
    """The clients of an observer. `out` takes what goes out, each a line of a replay without its end."""

    def __init__(self, learner, counter, timeouts, secret, out, super_digest=None):
        self.learner, self.timeouts, self.secret, self.out = learner, timeouts, secret, out
        self.super_digest = super_digest
        self.counter, self.open = counter, {}  # the counter of the last session id that was given out
        self.watches = Watches()
        self.syncs, self.touched = [], set()  # for each sync that isn't settled the connection, which may have gone

    # ---- sessions

    @property
    def is_later(self):
        """Whether the dialect is a later one."""
        return self.learner.dialect.is_later

    def password(self, session):
        """The password of a session; in later dialects without a secret the one that each server of the ensemble makes
        of the id."""
        if self.is_later and not self.secret:
            return java_password(session)
        return hashlib.sha1(self.secret + int64(session)).digest()[:16]

    def new_session(self):
        self.counter += 1
        return signed((self.learner.server << 56) + self.counter)

    def clamped(self, timeout):
        return min(max(timeout, self.timeouts[0]), self.timeouts[1])

    def owner(self, session):
        """The number of the connection that has the session."""
        return next((number for number, it in self.open.items() if it.session == session), None)

    def touch(self, number):
        if self.open[number].session is not None:
            self.touched.add(self.open[number].session)

    # ---- what is sent

    def to_leader(self, content):
        self.out.append("L " + content.hex())

    def send(self, number, content):
        """Sends a frame. A reply that is too long closes the connection."""
        if len(content) > LONGEST_REPLY:
            self.close(number)
        else:
            self.out.append(f"C {number} " + buffer(content).hex())

    def reply(self, number, xid, error, body=b"", zxid=None):
        self.send(number, int32(xid) + int64(self.learner.last if zxid is None else zxid) + int32(error) + body)

    def event(self, number, kind, path):
        self.send(number, int32(-1) + int64(-1) + int32(0) + int32(kind, 3) + buffer(path))

    def close(self, number):
        self.out.append(f"C {number} close")
        self.drop(number)

    def drop(self, number):
        """A connection goes, with its watches, its ids and what waits there."""
        if self.open.pop(number, None) is None:
            return
        self.watches.drop(number)
        self.syncs = [None if it == number else it for it in self.syncs]

    def close_all(self):
        for number in sorted(self.open):
            self.close(number)
        self.syncs, self.touched = [], set()

    def expire(self, session):
        number = self.owner(session)
        if number is not None:
            self.close(number)

    # ---- bytes

    def take(self, number, content):
        """Takes bytes of a connection: a four-letter word, or frames."""
        it = self.open.get(number)
        if it is None or it.is_leaving:
            return
        it.rest += content
        if it.session is None and not it.waits and it.rest[:4] in WORDS:
            self.word(number, it.rest[:4])
            return
        while self.open.get(number) is it and not it.is_leaving:
            if len(it.rest) < 4:
                return
            length = int.from_bytes(it.rest[:4], "big", signed=True)
            if not 0 <= length <= FRAME_LIMIT:
                self.close(number)
                return
            if len(it.rest) < 4 + length:
                return
            frame, it.rest = it.rest[4 : 4 + length], it.rest[4 + length :]
            self.frame(number, it, frame)

    def word(self, number, asked):
        self.out.append(f"C {number} " + answer_to(asked, self.learner, self.open, self.watches).hex())
        self.close(number)

    def frame(self, number, it, frame):
        self.touch(number)
        if len(it.waits) >= PENDING_LIMIT or len(frame) < 8:
            self.close(number)
        elif it.session is not None:
            self.request(number, it, frame)
        elif it.waits:
            it.waits.append(Waiting("held", (frame,)))
        else:
            self.connect(number, it, frame)

    # ---- connects

    def connect(self, number, it, frame):
        def read(reader):
            _, seen, timeout, session = reader.numbers("iqiq")
            return seen, timeout, session, reader.buffer(), bool(reader.rest())

        asked = readable(frame, read)
        if asked is None or self.learner.phase != SERVING or asked[0] > self.learner.last:
            self.close(number)
            return
        _, timeout, session, password, has_byte = asked
        if session == 0 and self.counter < GREATEST_COUNTER:
            self.ask_for_session(number, it, self.clamped(timeout), has_byte)
        elif not session or password != self.password(session):
            self.refuse(number, has_byte)
        elif self.is_later:
            self.revalidate(it, session, self.clamped(timeout), has_byte)
        elif session in self.learner.tree.sessions:
            self.admit(number, it, session, self.clamped(timeout), has_byte)
            self.touch(number)
        else:
            self.refuse(number, has_byte)

    def refuse(self, number, has_byte):
        self.send(number, int32(0, 0) + int64(0) + buffer(bytes(16)) + bytes(has_byte))
        self.close(number)

    def ask_for_session(self, number, it, timeout, has_byte):
        session = self.new_session()
        if self.is_later:
            self.close_waiting(session)
        elif any(other.connecting() == session for other in self.open.values()):
            self.refuse(number, has_byte)
            return
        self.to_leader(packet(REQUEST, -1, int64(session) + int32(0, CREATE_SESSION, timeout), None))
        it.waits.append(Waiting("connect", (session, timeout, has_byte)))

    def revalidate(self, it, session, timeout, has_byte):
        """Asks the leader whether the session lives, so that it takes the session's writes from here. Another
        connection of the session is closed, and so is one that waits for it."""
        self.close_waiting(session)
        self.expire(session)
        self.to_leader(packet(REVALIDATE, -1, int64(session) + int32(timeout), None))
        it.waits.append(Waiting("revalidate", (session, timeout, has_byte)))

    def revalidated(self, session, is_valid):
        """The leader says whether the session lives. A connect that waits for that is answered."""
        for number, it in self.open.items():
            if it.waits_for(session, "revalidate"):
                if is_valid:
                    self.admit_waiting(number, it)
                else:
                    self.refuse(number, it.waits[0].values[2])
                return

    def close_waiting(self, session):
        """Closes a connection whose connect waits for the session."""
        number = next((number for number, it in self.open.items() if it.connecting() == session), None)
        if number is not None:
            self.close(number)

    def admit(self, number, it, session, timeout, has_byte):
        """The connection has the session from now on; an older connection of it is closed first."""
        older = self.owner(session)
        if older is not None:
            self.close(older)
        it.session, it.timeout = session, timeout
        content = int32(0, timeout) + int64(session) + buffer(self.password(session))
        self.send(number, content + bytes(has_byte))

    def admit_waiting(self, number, it):
        """The session that the connection waits for was created, or lives. The frames held behind its connect are
        served as if they came now, but touch nothing."""
        held = [found.values[0] for found in it.waits[1:]]
        session, timeout, has_byte = it.waits[0].values
        it.waits = []
        self.admit(number, it, session, timeout, has_byte)
        for frame in held:
            if self.open.get(number) is not it or it.is_leaving:
                return
            if len(it.waits) >= PENDING_LIMIT:
                self.close(number)
                return
            self.request(number, it, frame)

    # ---- requests

    def request(self, number, it, frame):
        xid, kind = Reader(frame).numbers("ii")
        if kind in (LATER_WRITES if self.is_later else WRITES):
            self.forward(it, frame)
            it.waits.append(Waiting("write", (xid, kind)))
            it.is_leaving = it.is_leaving or kind == CLOSE_SESSION
        elif kind == SYNC and is_request_path(readable(frame[8:], Reader.text)):
            self.forward(it, frame)
            it.waits.append(Waiting("sync", (xid, readable(frame[8:], Reader.text), False)))
            self.syncs.append(number)
        elif kind == AUTH:
            self.auth(number, it, xid, frame[8:])
        elif it.waits:
            it.waits.append(Waiting("held", (frame,)))
        else:
            self.answer(number, it, frame)

    def forward(self, it, frame):
        self.to_leader(packet(REQUEST, -1, int64(it.session) + frame, it.ids))

    def auth(self, number, it, xid, body):
        shown = readable(body, lambda reader: (reader.int(), reader.text(), reader.buffer()))
        if shown is None:
            self.unreadable(number, xid)
        elif self.shows(it, *shown[1:]):
            self.reply(number, xid, 0, zxid=0)
        else:
            self.reply(number, xid, AUTH_FAILED, zxid=0)
            self.close(number)

    def shows(self, it, scheme, text):
        """Adds the id of a digest to a connection, behind that of the super user if the digest is the super user's.
        Returns whether it is accepted."""
        if scheme != b"digest" or text is None:
            return False
        try:
            text.decode()
        except UnicodeDecodeError:
            return False
        shown = digest_id(text)
        if shown[1].decode() == self.super_digest and not self.adds(it, SUPER_ID):
            return False
        return self.adds(it, shown)

    @staticmethod
    def adds(it, shown):
        """Adds an id to a connection, if it has room and hasn't the id. Returns whether it has the id then."""
        if shown not in it.ids:
            ids = [*it.ids, shown]
            if len(ids) > IDS_LIMIT or sum(len(part) for one in ids for part in one) > BYTES_OF_IDS_LIMIT:
                return False
            it.ids = ids
        return True

    def answer(self, number, it, frame):
        """Answers a request that doesn't go to the leader, at the present state."""
        (xid, kind), body = Reader(frame).numbers("ii"), frame[8:]
        if kind in (LATER_READS if self.is_later else READS):
            self.read(number, it, xid, kind, body)
        elif kind == PINGED:
            self.reply(number, -2, 0)
        elif kind == SET_WATCHES:
            self.set_watches(number, xid, body)
        elif kind == ADD_WATCH:
            self.add_watch(number, xid, body)
        elif kind == SYNC:
            self.refuse_sync(number, xid, body)
        elif kind in (CHECK, MULTI):
            self.reply(number, xid, NOT_READ_ONLY)
        elif self.is_later and kind in LATER_ANSWERS:
            getattr(self, LATER_ANSWERS[kind])(number, xid, body)
        else:
            self.reply(number, xid, UNIMPLEMENTED, zxid=-1 if self.is_later else None)
            self.close(number)

    def unreadable(self, number, xid):
        """Answers a body that can't be read."""
        self.reply(number, xid, MARSHALLING_ERROR if self.is_later else BAD_ARGUMENTS)

    def refuse_sync(self, number, xid, body):
        if readable(body, lambda reader: (reader.text(),)):
            self.reply(number, xid, BAD_ARGUMENTS)
        else:
            self.unreadable(number, xid)

    # ---- reads

    def read(self, number, it, xid, kind, body):
        def asked_of(reader):
            return reader.text(), kind not in UNWATCHED and reader.bool()

        asked = readable(body, asked_of)
        if asked is None:
            self.unreadable(number, xid)
            return
        path, watch = asked
        if not is_request_path(path):
            self.reply(number, xid, BAD_ARGUMENTS)
            return
        error, shown = look(self.learner.tree, kind, path, it.ids)
        if watch and (error == 0 or kind == EXISTS and error == NO_NODE):
            table = self.watches.child if kind in (GET_CHILDREN, GET_CHILDREN2) else self.watches.own
            table.add((path, number))
        self.reply(number, xid, error, shown)

    # ---- reads of later dialects

    def own_ephemerals(self, number, xid, body):
        asked = readable(body, lambda reader: (reader.text(),))
        if asked is None:
            self.unreadable(number, xid)
        else:
            self.reply(number, xid, 0, ephemerals(self.learner.tree, self.open[number].session, asked[0]))

    def who_am_i(self, number, xid, _):
        """Tells the ids of the connection, of a digest the user alone."""
        told = []
        for scheme, text in self.open[number].ids:
            user = text.partition(b":")[0] if scheme == b"digest" else text
            told.append(buffer(scheme) + buffer(user))
        self.reply(number, xid, 0, vector(told))

    def multi_read(self, number, xid, body):
        """Reads several things at one state. Each that can't be shown has its error in its place; no watch is left."""
        asked = readable(body, reads_in)
        if asked is None:
            self.unreadable(number, xid)
            return
        results = results_of_reads(self.learner.tree, asked, self.open[number].ids)
        self.reply(number, xid, 0, results)

    def sasl(self, number, xid, body):
        """There is no SASL here: a token is answered with none, as where a server isn't set up for it."""
        token = readable(body, lambda reader: (reader.buffer(),))
        if token is None:
            self.unreadable(number, xid)
        elif token[0] is None:
            self.close(number)
        else:
            self.reply(number, xid, 0, buffer(None), zxid=0)

    # ---- watches

    def set_watches(self, number, xid, body, has_lasting=False):
        """Sets the watches that a client had elsewhere, or tells what they missed. Later clients list those that aren't
        used up, too."""

        def read(reader):
            return reader.long(), [reader.vector(reader.text) or [] for _ in range(5 if has_lasting else 3)]

        asked = readable(body, read)
        paths = [path for listed in asked[1] for path in listed] if asked else []
        if asked is None or self.is_later and None in paths:
            self.unreadable(number, xid)
        elif self.is_later or all(is_request_path(path) for path in paths):
            since, (data, exist, child, *lasting) = asked
            self.renew(number, since, data, exist, child)
            for mode, listed in zip((PERSISTENT, RECURSIVE), lasting):
                for path in listed:
                    self.watches.add_lasting(path, number, mode, True)
            self.reply(number, xid, 0)
        else:
            self.reply(number, xid, BAD_ARGUMENTS)

    def set_watches2(self, number, xid, body):
        self.set_watches(number, xid, body, True)

    def renew(self, number, since, data, exist, child):
        """Sets watches on data, on nodes that may come and on children, and tells what was missed."""
        nodes, own, children = self.learner.tree.nodes, self.watches.own, self.watches.child
        kept = []
        for path in data:
            node = nodes.get(path)
            missed = DELETED if node is None else CHANGED if node.mzxid > since else None
            kept.append((path, missed, own))
        kept += [(path, CREATED if path in nodes else None, own) for path in exist]
        for path in child:
            node = nodes.get(path)
            missed = DELETED if node is None else CHILDREN if node.pzxid > since else None
            kept.append((path, missed, children))
        for path, missed, table in kept:
            if missed is None:
                table.add((path, number))
            else:
                self.event(number, missed, path)

    def add_watch(self, number, xid, body):
        """Adds a watch that isn't used up. Later dialects take any path, and answer with a body, the error again."""
        asked = readable(body, lambda reader: (reader.text(), reader.int()))
        is_wrong = asked is None or asked[1] not in (PERSISTENT, RECURSIVE)
        if is_wrong or (asked[0] is None if self.is_later else not is_request_path(asked[0])):
            self.unreadable(number, xid)
            return
        path, mode = asked
        self.watches.add_lasting(path, number, mode, self.is_later)
        self.reply(number, xid, 0, int32(0) if self.is_later else b"")

    def check_watches(self, number, xid, body):
        self.find_watches(number, xid, body)

    def remove_watches(self, number, xid, body):
        for table, watch in self.find_watches(number, xid, body):
            table.discard(watch)

    def find_watches(self, number, xid, body):
        """Answers whether the connection has watches of a kind on a path. Returns them, each with its table."""
        asked = readable(body, lambda reader: (reader.text(), reader.int()))
        if asked is None or asked[0] is None or asked[1] not in WATCH_KINDS:
            self.unreadable(number, xid)
            return []
        path, kind = asked
        found = self.watches.of(path, number, kind)
        self.reply(number, xid, 0 if found else NO_WATCHER)
        return found

    def fire(self, kind, path):
        """A trigger tells its watchers."""
        for number in self.watches.told(kind, path):
            self.event(number, kind, path)

    # ---- what the leader's stream answers

    def applied(self, txn, outcome):
        """A transaction was applied, and its watchers were told."""
        if txn.kind == CREATE_SESSION:
            for number, it in self.open.items():
                if it.waits_for(txn.session, "connect"):
                    self.admit_waiting(number, it)
                    return
            return
        if txn.kind == CLOSE_SESSION and self.is_later:
            self.close_waiting(txn.session)
        number = self.owner(txn.session)
        if number is None:
            return
        it = self.open[number]
        if txn.kind == CLOSE_SESSION:
            self.ended(number, it, txn)
            return
        write = it.oldest_write()
        if write and write.values[0] == txn.cxid and txn.kind in (write.values[1], ERROR):
            it.waits.remove(write)
            self.answer_write(number, it, write.values[1], txn, outcome)

    def answer_write(self, number, it, kind, txn, outcome):
        """Answers a write. In later dialects a session that has moved away has no answer here, and the connection is
        closed."""
        if self.is_later and txn.kind == ERROR and txn.body == SESSION_MOVED:
            self.close(number)
            return
        error, body = reply_to_write(kind, txn, outcome, self.learner.tree)
        self.reply(number, txn.cxid, error, body, txn.zxid)
        self.answer_front(number, it)

    def ended(self, number, it, txn):
        """The session of the connection has ended."""
        for found in it.waits:
            if found.what == "write" and found.values[1] == CLOSE_SESSION:
                self.reply(number, found.values[0], 0, zxid=txn.zxid)
                break
        self.close(number)

    def answer_front(self, number, it):
        """Answers what stands in front of a connection and can be answered."""
        while self.open.get(number) is it and it.waits:
            front = it.waits[0]
            if front.what == "held":
                it.waits.pop(0)
                self.answer(number, it, front.values[0])
            elif front.what == "sync" and front.values[2]:
                it.waits.pop(0)
                self.reply(number, front.values[0], 0, buffer(front.values[1]))
            else:
                return

    def synced(self):
        """The leader has done the oldest sync."""
        number = self.syncs.pop(0) if self.syncs else None
        if number is None:
            return
        it = self.open[number]
        at = next(at for at, found in enumerate(it.waits) if found.what == "sync" and not found.values[2])
        it.waits[at] = Waiting("sync", it.waits[at].values[:2] + (True,))
        self.answer_front(number, it)

    def pinged(self, ping):
        """A PING is answered with the touched sessions that live."""
        live = sorted(it for it in self.touched if it in self.learner.tree.sessions)
        table = b"".join(int64(it) + int32(self.told_timeout(it)) for it in live[:TOUCHED_LIMIT])
        self.touched = set(live[TOUCHED_LIMIT:])
        self.to_leader(packet(PING, ping.zxid, table, ping.ids))

    def told_timeout(self, session):
        """The timeout of a session that the leader is told. In later dialects it is the one that the session's
        connection was told, where there is one."""
        number = self.owner(session) if self.is_later else None
        return self.learner.tree.sessions[session] if number is None else self.open[number].timeout
