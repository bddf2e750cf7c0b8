#!/usr/bin/env python3
"""Lets a leader go on while it writes an image, and compares the tree of the observer in model/ with the leader's.

    tests/dialect/fuzzy.py [--count N] [--seed S]      the leaders of N seeds, from S on

A leader of a later dialect writes its sessions first, then its lists of rights, then its nodes, each as it is then, and
between them it makes, changes and deletes nodes and ends sessions. What it has done since it began, it sends after the
image. Then both trees have to be equal: each node with its data, its rights and all of its numbers, its children, the
ephemerals of each session, and the sessions. The leader's tree is the one of the model, but has seen no image, so the
rules by which images are mended change nothing in it. The last line is `N passed, M failed`.
"""
import argparse
import pathlib
import random
import struct
import sys

sys.dont_write_bytecode = True
sys.path.insert(0, str(pathlib.Path(__file__).resolve().parent.parent / "rows" / "model"))
from dialects import Dialect  # noqa: E402
from jute import acl_bytes, buffer, int32, int64, packet, vector  # noqa: E402
from learner import INFORM, LEADER_INFO, PROTOCOL, SNAP, Learner  # noqa: E402
from transactions import CLOSE_SESSION, CONTAINER, CREATE, CREATE_CONTAINER, CREATE_SESSION  # noqa: E402
from transactions import CREATE_TTL, CREATES, DELETE, OPEN, SET_ACL, SET_DATA, TTL, Create, Set, Txn  # noqa: E402
from tree import Tree  # noqa: E402

SESSIONS = (11, 12, 13)
LISTS = [OPEN, [(1, (b"world", b"anyone"))], *[[(perms, (b"digest", b"ann:pw"))] for perms in (1, 3, 31)]]
KINDS = (*(CREATE,) * 5, DELETE, DELETE, SET_DATA, SET_ACL, CREATE_SESSION, CREATE_SESSION, CLOSE_SESSION)
TIME_TO_LIVE = 5000


class Leader:
    """A leader that does something at each step, by chance."""

    def __init__(self, seed):
        self.dice, self.tree, self.zxid = random.Random(seed), Tree.fresh(Dialect.ZK38), 0
        self.stream, self.keys = [], {}  # what it sends, and its lists of rights

    def done(self, kind, body, content, session=0):
        self.zxid += 1
        self.tree.apply(Txn(session, self.zxid, self.zxid, 1000 + self.zxid, kind, body))
        header = struct.pack(">qiqqi", session, self.zxid, self.zxid, 1000 + self.zxid, kind)
        self.stream.append(packet(INFORM, self.zxid, header + content, None))

    def key(self, acl):
        return -1 if acl == OPEN else self.keys.setdefault(tuple(acl), len(self.keys) + 1)

    def step(self):
        kind = self.dice.choice(KINDS)
        paths = [it for it in self.tree.nodes if not it.startswith(b"/zookeeper")]
        if kind == CREATE:
            self.create(paths)
        elif kind == DELETE:
            leaves = [it for it in paths if it != b"/" and not self.tree.nodes[it].children]
            if leaves:
                path = self.dice.choice(leaves)
                self.done(DELETE, path, buffer(path))
        elif kind in (SET_DATA, SET_ACL):
            self.change(kind, self.dice.choice(paths))
        elif kind == CREATE_SESSION:
            self.done(kind, 4000, int32(4000), self.dice.choice(SESSIONS))
        elif self.tree.sessions:
            session = self.dice.choice(sorted(self.tree.sessions))
            listed = sorted(path for owner, path in self.tree.pairs if owner == session)
            self.done(kind, listed, vector([buffer(it) for it in listed]), session)

    def create(self, paths):
        """A node of any type, with a session for its owner where there is one."""
        nodes, sessions = self.tree.nodes, sorted(self.tree.sessions)
        parent = self.dice.choice([it for it in paths if not nodes[it].is_ephemeral and it.count(b"/") < 3])
        path = parent.rstrip(b"/") + b"/" + self.dice.choice((b"a", b"b", b"c"))
        if path in nodes:
            return
        acl, cversion = self.dice.choice(LISTS), nodes[parent].cversion + 1
        session = self.dice.choice(sessions) if sessions and self.dice.random() < 0.4 else 0
        kind = CREATE if session else self.dice.choice(CREATES)
        self.key(acl)
        content = buffer(path) + buffer(b"new") + vector([acl_bytes(it) for it in acl])
        content += b"" if kind in (CREATE_CONTAINER, CREATE_TTL) else bytes([session != 0])
        content += int32(cversion) + (int64(TIME_TO_LIVE) if kind == CREATE_TTL else b"")
        owner = {CREATE_CONTAINER: CONTAINER, CREATE_TTL: TTL | TIME_TO_LIVE}.get(kind, None if session else 0)
        self.done(kind, Create(path, b"new", acl, owner, cversion), content, session)

    def change(self, kind, path):
        node = self.tree.nodes[path]
        if kind == SET_DATA:
            value, version = self.dice.choice((b"1", b"22")), node.version + 1
            told = buffer(value)
        else:
            value, version = self.dice.choice(LISTS), node.aversion + 1
            told = vector([acl_bytes(it) for it in value])
            self.key(value)
        self.done(kind, Set(path, value, version), buffer(path) + told + int32(version))

    def pause(self):
        for _ in range(self.dice.choice((0, 0, 1, 2, 4))):
            self.step()

    def image(self):
        """The image of the tree, which goes on changing meanwhile."""
        sessions = vector([int64(it) + int32(timeout) for it, timeout in sorted(self.tree.sessions.items())])
        self.pause()
        lists = vector([int64(key) + vector([acl_bytes(it) for it in acl]) for acl, key in self.keys.items()])
        return sessions + lists + self.nodes(b"/") + buffer(b"/") + buffer(b"BenWasHere")

    def nodes(self, path):
        node = self.tree.nodes.get(path)
        if node is None:
            return b""
        front = path.rstrip(b"/")
        told = buffer(front) + buffer(node.content) + int64(self.key(node.acl))
        told += int64(node.czxid, node.mzxid, node.ctime, node.mtime)
        told += int32(node.version, node.cversion, node.aversion) + int64(node.owner, node.pzxid)
        names = sorted(node.children)
        self.pause()
        return told + b"".join(self.nodes(front + b"/" + name) for name in names)


def facts(tree):
    return {path: vars(node) for path, node in tree.nodes.items()}, tree.pairs, tree.sessions


def differences(seed):
    """Returns the paths at which the observer's tree isn't the leader's; None where something else differs."""
    leader = Leader(seed)
    for _ in range(leader.dice.randint(5, 40)):
        leader.step()
    learner, snap = Learner(3, (0, 0), Dialect.ZK38), packet(SNAP, leader.zxid, None, None)
    leader.stream = []
    image = leader.image()
    learner.met()
    hello = packet(LEADER_INFO, 1 << 32, int32(PROTOCOL), None)
    for _ in learner.items(b"".join([hello, snap, image, *leader.stream])):
        pass
    (ours, *others), (theirs, *wanted) = facts(learner.tree), facts(leader.tree)
    paths = [it for it in sorted({*ours, *theirs}) if ours.get(it) != theirs.get(it)]
    return paths or ([] if others == wanted else None)


def main():
    parser = argparse.ArgumentParser(description=__doc__, formatter_class=argparse.RawDescriptionHelpFormatter)
    parser.add_argument("--count", type=int, default=300, help="how many leaders, 300 without it")
    parser.add_argument("--seed", type=int, default=1, help="the seed of the first leader, 1 without it")
    args = parser.parse_args()
    failed = 0
    for seed in range(args.seed, args.seed + args.count):
        found = differences(seed)
        failed += found != []
        if found != []:
            print(f"FAIL seed {seed}: {'ephemerals or sessions' if found is None else b' '.join(found).decode()}")
    print(f"{args.count - failed} passed, {failed} failed")
    return 1 if failed else 0


if __name__ == "__main__":
    sys.exit(main())
