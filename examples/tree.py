"""A leader's data tree: what a transaction of ZooKeeper 3.4 does to it, and the image that a SNAP packet brings."""
from dataclasses import dataclass, field
from typing import Dict, Set, Tuple

from jute import OPEN_ACL, Reader, Stat, boolean, buffer, int32, int64, text

CREATE, DELETE, SET_DATA, CREATE_SESSION, CLOSE_SESSION, ERROR = 1, 2, 5, -10, -11, -1
# The keys of ACL lists in an image: of the nodes that are always there, and of the open list that clients give.
FIXED, OPEN = -1, 1


@dataclass
class Node:
    """A node. Its Stat's cversion counts created children alone; what a client is told follows from it."""

    data: bytes = b""
    acl: int = FIXED
    stat: Stat = field(default_factory=Stat)
    children: Set[str] = field(default_factory=set)


@dataclass
class Transaction:
    """A transaction as it is logged: who asked for it, its zxid and time, and the body of its kind."""

    client: int
    cxid: int
    zxid: int
    time: int
    kind: int
    body: bytes

    def write(self) -> bytes:
        header = int64(self.client) + int32(self.cxid) + int64(self.zxid) + int64(self.time)
        return header + int32(self.kind) + self.body


def parted(path: str) -> Tuple[str, str]:
    """Returns the parent's path, and the name below it."""
    parent, _, name = path.rpartition("/")
    return parent or "/", name


class Tree:
    """The nodes by their paths, and the sessions' timeouts by their ids."""

    def __init__(self):
        self.nodes: Dict[str, Node] = {"/": Node(), "/zookeeper": Node(), "/zookeeper/quota": Node()}
        self.nodes["/"].children.add("zookeeper")
        self.nodes["/zookeeper"].children.add("quota")
        self.sessions: Dict[int, int] = {}

    # ---- bodies of transactions, which name the versions that the change will have made

    def create_body(self, path: str, data: bytes, ephemeral: bool = False) -> bytes:
        cversion = self.nodes[parted(path)[0]].stat.cversion + 1
        return text(path) + buffer(data) + OPEN_ACL + boolean(ephemeral) + int32(cversion)

    def set_body(self, path: str, data: bytes) -> bytes:
        return text(path) + buffer(data) + int32(self.nodes[path].stat.version + 1)

    # ---- what a transaction does

    def apply(self, it: Transaction) -> None:
        reader = Reader(it.body)
        if it.kind == CREATE:
            self.create(it, reader)
        elif it.kind == DELETE:
            self.delete(it, reader.text())
        elif it.kind == SET_DATA:
            self.set_data(it, reader)
        elif it.kind == CREATE_SESSION:
            self.sessions[it.client] = reader.int32()
        elif it.kind == CLOSE_SESSION:
            self.close(it)

    def create(self, it: Transaction, reader: Reader) -> None:
        path, data = reader.text(), reader.buffer()
        reader.vector(lambda: (reader.int32(), reader.text(), reader.text()))
        ephemeral, cversion = reader.boolean(), reader.int32()
        above, name = parted(path)
        parent = self.nodes[above]
        parent.children.add(name)
        parent.stat.cversion, parent.stat.pzxid = cversion, it.zxid
        stat = Stat(it.zxid, it.zxid, it.time, it.time, ephemeralOwner=it.client if ephemeral else 0, pzxid=it.zxid)
        self.nodes[path] = Node(data, OPEN, stat)

    def delete(self, it: Transaction, path: str) -> None:
        above, name = parted(path)
        del self.nodes[path]
        self.nodes[above].children.discard(name)
        self.nodes[above].stat.pzxid = it.zxid

    def set_data(self, it: Transaction, reader: Reader) -> None:
        node = self.nodes[reader.text()]
        node.data, node.stat.version = reader.buffer(), reader.int32()
        node.stat.mzxid, node.stat.mtime = it.zxid, it.time

    def close(self, it: Transaction) -> None:
        self.sessions.pop(it.client, None)
        for path in [path for path, node in self.nodes.items() if node.stat.ephemeralOwner == it.client]:
            self.delete(it, path)

    # ---- the image

    def image(self) -> bytes:
        """Returns what follows a SNAP packet: sessions, ACL lists by their keys, and each node after its parent."""
        parts = [int32(len(self.sessions))]
        parts += [int64(session) + int32(timeout) for session, timeout in self.sessions.items()]
        parts += [int32(1), int64(OPEN), OPEN_ACL]
        self.add_below("", parts)
        return b"".join(parts) + text("/") + text("BenWasHere")

    def add_below(self, path: str, parts: list) -> None:
        node = self.nodes[path or "/"]
        parts.append(text(path) + buffer(node.data) + int64(node.acl) + node.stat.persisted())
        for name in node.children:
            self.add_below(f"{path}/{name}", parts)
