"""A tree of nodes, the sessions in it, and what transactions do to it."""
import copy
from typing import NamedTuple, Optional, Tuple

from dialects import Dialect
from jute import int32, int64
from transactions import CHECK, CLOSE_SESSION, CONTAINER, CREATE2, CREATES, CREATE_CONTAINER, CREATE_SESSION, CREATE_TTL
from transactions import DELETE, DELETE_CONTAINER, ERROR, MULTI, OPEN, RECONFIG, SET_ACL, SET_DATA, TTL, TTL_BITS
from transactions import name_of, parent_of

NO_NODE, NODE_EXISTS, RUNTIME_INCONSISTENCY = -101, -110, -2
CREATED, DELETED, CHANGED, CHILDREN = 1, 2, 3, 4  # the types of events


def wrapped(number):
    return (number + 2**31) % 2**32 - 2**31


def is_session(owner, dialect):
    """Whether the owner of a node is a session, with which the node goes. The leader deletes the nodes of the other
    owners, which later dialects have."""
    is_other = owner == CONTAINER or owner & ~TTL_BITS == TTL
    return owner != 0 and not (dialect.is_later and is_other)


class Node:
    def __init__(self, content=b"", acl=None, czxid=0, mzxid=0, ctime=0, mtime=0, version=0, cversion=0, aversion=0,
                 owner=0, pzxid=0):
        self.content, self.acl = content, OPEN if acl is None else acl
        self.czxid, self.mzxid, self.ctime, self.mtime = czxid, mzxid, ctime, mtime
        self.version, self.cversion, self.aversion, self.owner, self.pzxid = version, cversion, aversion, owner, pzxid
        self.children, self.is_ephemeral = set(), owner != 0

    def stat(self):
        """The bytes of the Stat that is shown."""
        shown = wrapped(2 * self.cversion - len(self.children))
        return b"".join([
            int64(self.czxid, self.mzxid, self.ctime, self.mtime),
            int32(self.version, shown, self.aversion),
            int64(self.owner if self.is_ephemeral else 0),
            int32(len(self.content or b""), len(self.children)),
            int64(self.pzxid),
        ])

    def next_cversion(self, told):
        return wrapped(self.cversion + 1) if told == -1 else told


class PartOutcome(NamedTuple):
    """What a part of a multi came to: its error, and the Stat that its node has then, where the reply shows it."""

    error: int
    stat: Optional[bytes] = None


class Outcome(NamedTuple):
    """What a transaction came to: its error, its triggers, each a type of event and a path, and a multi's parts."""

    error: int
    triggers: Tuple = ()
    parts: Tuple[PartOutcome, ...] = ()


class Tree:
    def __init__(self, dialect=Dialect.ZK34):
        self.nodes, self.pairs, self.sessions = {}, set(), {}
        self.dialect = dialect

    @staticmethod
    def fresh(dialect=Dialect.ZK34):
        tree = Tree(dialect)
        for path in (b"/", b"/zookeeper", b"/zookeeper/quota"):
            tree.put(path, Node())
        return tree

    def put(self, path, node):
        self.nodes[path] = node
        if path != b"/":
            self.nodes[parent_of(path)].children.add(name_of(path))
        node.is_ephemeral = is_session(node.owner, self.dialect)
        if node.is_ephemeral:
            self.pairs.add((node.owner, path))

    def copy(self):
        return copy.deepcopy(self)

    def apply(self, txn):
        """Applies a transaction. Returns what it came to."""
        if txn.kind == SET_ACL:
            return Outcome(self.set_acl(txn.body))
        if txn.kind == MULTI:
            return self.multi(txn)
        if txn.kind == CREATE_SESSION:
            self.sessions[txn.session] = txn.body
            return Outcome(0)
        if txn.kind == CLOSE_SESSION:
            return Outcome(0, self.close_session(txn))
        return Outcome(*self.operation(txn, txn.kind, txn.body))

    def operation(self, txn, kind, body):
        if kind in CREATES:
            return self.create(txn, body)
        if kind in (DELETE, DELETE_CONTAINER):
            return self.delete(txn, body)
        if kind in (SET_DATA, RECONFIG):
            return self.set_data(txn, body)
        return (0 if kind == CHECK else body), []

    def create(self, txn, body):
        parent = self.nodes.get(parent_of(body.path))
        if parent is None:
            return NO_NODE, []
        is_taken = name_of(body.path) in parent.children
        self.raise_cversion(parent, body.cversion, txn.zxid, is_taken)
        if is_taken:
            self.mend_acl(body)
            return NODE_EXISTS, []
        owner = txn.session if body.owner is None else body.owner
        stat = {"czxid": txn.zxid, "mzxid": txn.zxid, "pzxid": txn.zxid, "ctime": txn.time, "mtime": txn.time}
        self.put(body.path, Node(body.content, body.acl, owner=owner, **stat))
        return 0, [(CREATED, body.path), (CHILDREN, parent_of(body.path))]

    def raise_cversion(self, parent, told, zxid, is_taken):
        """A create raises its parent's cversion, and the pzxid with it. An image that was written while its leader went
        on may be ahead of what the leader sends then: so in later dialects nothing falls, whether the node is new or
        not."""
        cversion = parent.next_cversion(told)
        if cversion > parent.cversion or not (is_taken or self.dialect.is_later):
            parent.cversion, parent.pzxid = cversion, zxid

    def mend_acl(self, body):
        """A node that came with an image, but without its list of rights, gets it by the create that made it."""
        node = self.nodes.get(body.path)
        if self.dialect.is_later and node is not None and not node.acl:
            node.acl = body.acl

    def delete(self, txn, path):
        node, parent, is_later = self.nodes.pop(path, None), self.nodes.get(parent_of(path)), self.dialect.is_later
        if parent is not None and (node is not None or is_later):
            # An image can have been written after the delete, without the node, and with a later pzxid of the parent.
            parent.pzxid = max(parent.pzxid, txn.zxid) if is_later else txn.zxid
        if node is None or parent is None:
            return NO_NODE, []
        parent.children.discard(name_of(path))
        self.pairs.discard((node.owner, path))
        return 0, [(DELETED, path), (CHILDREN, parent_of(path))]

    def set_data(self, txn, body):
        node = self.nodes.get(body.path)
        if node is None:
            return NO_NODE, []
        node.content, node.version, node.mzxid, node.mtime = body.value, body.version, txn.zxid, txn.time
        return 0, [(CHANGED, body.path)]

    def set_acl(self, body):
        node = self.nodes.get(body.path)
        if node is None:
            return NO_NODE
        node.acl, node.aversion = body.value, body.version
        return 0

    def multi(self, txn):
        if any(it.kind == ERROR for it in txn.body):
            parts = [PartOutcome(it) for it in errors_of_failed(txn.body)]
            return Outcome(first_error(parts), [], parts)
        triggers, parts = [], []
        for part in txn.body:
            error, told = self.operation(txn, part.kind, part.body)
            triggers += told
            parts.append(PartOutcome(error, self.stat_of_part(part)))
        return Outcome(first_error(parts), triggers, parts)

    def stat_of_part(self, part):
        """The Stat that a part of a multi leaves, where the reply shows one."""
        if part.kind not in (SET_DATA, CREATE2, CREATE_CONTAINER, CREATE_TTL):
            return None
        node = self.nodes.get(part.body.path)
        return node and node.stat()

    def close_session(self, txn):
        """The session goes, and its ephemerals: those that the tree knows and those that the leader lists. An image that
        was written meanwhile may lack one of these, or have another node in its place, which a later create makes
        again."""
        paths = sorted({path for owner, path in self.pairs if owner == txn.session} | set(txn.body))
        self.pairs = {it for it in self.pairs if it[0] != txn.session}
        self.sessions.pop(txn.session, None)
        return [trigger for path in paths for trigger in self.delete(txn, path)[1]]


def first_error(parts):
    return next((it.error for it in parts if it.error), 0)


def errors_of_failed(parts):
    errors, has_failed = [], False
    for part in parts:
        if part.kind == ERROR:
            errors.append(part.body)
        else:
            errors.append(RUNTIME_INCONSISTENCY if has_failed else 0)
        has_failed = has_failed or part.kind == ERROR
    return errors
