#!/usr/bin/env python3
"""Compares the tree that a program shows with the digests that leaders of 3.8 wrote after their transactions.

    tests/dialect/digests.py PROGRAM
    tests/dialect/digests.py --only writes PROGRAM      recordings with that in their name

A leader of 3.6 and later writes a digest of its tree after each transaction: the sum, modulo 2^64, over the nodes but
those below /zookeeper, of the CRC-32 of path, data, czxid, mzxid, pzxid, ctime, mtime, version, cversion, aversion and
ephemeralOwner; the path of the root has no bytes. The program ignores a digest. So each recording in rows/recorded/
with the line `# digests hold` at its head is replayed with one more client, which after each transaction asks for every
path that the leader's bytes name (exists and getData); and the digest of what it is answered has to be the leader's.

- Of the cversion a Stat shows twice the number less the children. That no child was forgotten, numChildren tells.
- Of a container and of a node with a time to live a Stat shows no owner. It is taken from the transaction, or from the
  image, that made the node.
- Data that nobody may read is what it was when it could be read, if the mzxid is the same.
- Some of the observer's own sessions had another number: `# session 0200000000000001 was 0200001b78f10000`.

`# digests hold but at 10000000f 100000010` names the transactions whose digest isn't the tree's; each has to differ.
These are all in the recordings:

- recorded-writes at 10000000f, 100000010 and 100000011: a create (1) and a create2 (15) with the flags of a container,
  and a createContainer (19) with the flags 0. The leader's digest is of the owner that the flags ask for, and its
  transaction makes the other: so there the digest of the tree with that other owner has to be the leader's.
- recorded-image at 100000010: the session of its client is made up, and its digest, too.

Then mistakes are planted: in each recording a bit of one digest is turned, and one after the other each field that is
shown of the root after this transaction. Each mistake has to be told, and at this transaction alone. The last line is
`N passed, M failed`; the exit status is 0 if none failed.
"""
import argparse
import os
import pathlib
import struct
import subprocess
import sys
import tempfile
import zlib
from typing import NamedTuple

sys.dont_write_bytecode = True
HERE = pathlib.Path(__file__).resolve().parent
sys.path[:0] = [str(HERE), str(HERE.parent / "rows"), str(HERE.parent / "rows" / "model")]
import records  # noqa: E402
from compare import directives, told_digest  # noqa: E402
from dialects import Dialect  # noqa: E402
from images import image_in  # noqa: E402
from jute import Reader, buffer, int32, int64  # noqa: E402
from learner import COMMIT, COMMIT_AND_ACTIVATE, INFORM, INFORM_AND_ACTIVATE, PROPOSAL, REVALIDATE, SNAP  # noqa: E402
from learner import UP_TO_DATE, packet_in  # noqa: E402
from passwords import java_password  # noqa: E402
from transactions import CONTAINER, MULTI, TTL, TTL_BITS, Create, parent_of, txn_of  # noqa: E402

SECONDS = 60
READER, SESSION = 4_000_000_000, 0x63 << 56 | 1  # a connection, and its session of another server
NO_AUTH = -102
STAT = struct.Struct(">4q3iq2iq")

# What brings transactions too, but not one after which a client can read at once, or none that is looked into here.
OTHERS = (PROPOSAL, COMMIT, COMMIT_AND_ACTIVATE, INFORM_AND_ACTIVATE)

# The fields of which a digest is made, beside the owner.
DIGESTED = ("czxid", "mzxid", "pzxid", "ctime", "mtime", "version", "cversion", "aversion")


class Told(NamedTuple):
    """A transaction with a digest, after which the tree is read: the first xid of the reads, and the paths that it
    creates."""

    zxid: int
    digest: int
    xid: int
    created: tuple


class Shown(NamedTuple):
    """What is shown of a node: the fields of its Stat in their order, and its data, which is also b"" where it is null."""

    czxid: int
    mzxid: int
    ctime: int
    mtime: int
    version: int
    cversion: int
    aversion: int
    owner: int
    length: int
    children: int
    pzxid: int
    content: bytes = b""


# ---- the recording


def items_of(content):
    """Cuts the leader's bytes into packets and images, each with its bytes."""
    reader, awaits_image = Reader(content, Dialect.ZK38), False
    while not reader.is_at_end():
        start = reader.at
        item = image_in(reader) if awaits_image else packet_in(reader)
        awaits_image = not awaits_image and item.kind == SNAP
        yield item, content[start : reader.at]


def events_of(script):
    """Returns the events of a recording, with what the leader brings by one item each."""
    found, gathered = [], b""
    for line in [*script.decode().splitlines(), ""]:
        word, _, rest = line.partition(" ")
        if word == "leader" and rest not in ("up", "end"):
            gathered += bytes.fromhex(rest)
        elif not line.startswith("#"):
            found += [(f"leader {raw.hex()}", item) for item, raw in items_of(gathered)]
            found.append((line, None))
            gathered = b""
    return found


def creates_in(txn):
    """The creates of a transaction."""
    bodies = [it.body for it in txn.body] if txn.kind == MULTI else [txn.body]
    return [it for it in bodies if isinstance(it, Create)]


class Recording:
    """A recording, with the reads of one more client: the lines of its script, the paths that are asked for, the owners
    that aren't shown, and what the digests told."""

    def __init__(self, script):
        events = events_of(script)
        self.paths, self.owners, self.told, self.lines, self.xid = {b"/"}, {}, [], [], 1
        for _, item in events:
            self.gather(item)
        self.paths = sorted(self.paths)
        self.is_serving = False
        for line, item in events:
            self.lines.append(line)
            self.follow(line, item)

    def gather(self, item):
        """Takes the paths and the owners of an item."""
        if hasattr(item, "nodes"):
            made = [(path, it.czxid, it.owner) for path, it in item.nodes.items()]
        elif item is not None and item.kind == INFORM:
            txn = txn_of(item.content, Dialect.ZK38)
            made = [(it.path, txn.zxid, it.owner) for it in creates_in(txn)]
        else:
            made = []
        for path, czxid, owner in made:
            self.paths.add(path)
            if owner is not None and (owner == CONTAINER or owner & ~TTL_BITS == TTL):
                self.owners[path, czxid] = owner

    def follow(self, line, item):
        """Lets the client come once clients are served, and read after each transaction."""
        if line == "leader end":
            self.is_serving = False
        elif item is None or hasattr(item, "nodes"):
            return
        elif item.kind in OTHERS or item.kind == INFORM and not self.is_serving:
            raise SystemExit(f"after what this packet brings nobody can read: {line}")
        elif item.kind == INFORM:
            self.read(item.content)
        elif item.kind == UP_TO_DATE:
            self.is_serving = True
            self.lines += self.coming()

    def coming(self):
        """The client takes up a session that the leader knows."""
        frame = records.connect(SESSION, 30000, java_password(SESSION))
        answer = records.packet(REVALIDATE, -1, int64(SESSION) + b"\1")
        return [f"client {READER} up", f"client {READER} {frame.hex()}", f"leader {answer.hex()}"]

    def read(self, content):
        txn, digest = txn_of(content, Dialect.ZK38), told_digest(content, Dialect.ZK38)
        if digest is None:
            return
        self.told.append(Told(txn.zxid, digest, self.xid, tuple(it.path for it in creates_in(txn))))
        for path in self.paths:
            for kind in (records.EXISTS, records.GET_DATA):
                frame = records.request(self.xid, kind, buffer(path) + b"\0")
                self.lines.append(f"client {READER} {frame.hex()}")
                self.xid += 1

    def script(self):
        return "\n".join([*self.lines, ""])


# ---- what the program shows


def replies_of(program, script):
    """Returns the replies to the client that reads: of each xid the error and the body."""
    with tempfile.NamedTemporaryFile("w", suffix=".script") as file:
        file.write(script)
        file.flush()
        command = [program, "replay", file.name]
        done = subprocess.run(command, stdin=subprocess.DEVNULL, capture_output=True, timeout=SECONDS, check=False)
    if done.returncode != 0:
        raise SystemExit(f"the program ended with status {done.returncode}: {done.stderr.decode(errors='replace')}")
    found, front = {}, f"C {READER} "
    for line in done.stdout.decode().splitlines():
        if line.startswith(front) and not line.endswith("close"):
            frame = bytes.fromhex(line[len(front) :])
            xid, _, error = struct.unpack_from(">iqi", frame, 4)
            if xid > 0:
                found[xid] = error, frame[20:]
    return found


class Trees:
    """The trees of a recording, as a program shows them, one after the other."""

    def __init__(self, recording, replies):
        self.recording, self.replies, self.known = recording, replies, {}

    def tree(self, xid):
        """Returns the nodes that are shown by the replies from this xid on, and what is wrong with these, in lines."""
        nodes, wrong = {}, []
        for path in self.recording.paths:
            node, complaint = self.node(path, self.replies.get(xid), self.replies.get(xid + 1))
            nodes.update({} if node is None else {path: node})
            wrong += [] if complaint is None else [f"{path.decode()}: {complaint}"]
            xid += 2
        for path, node in nodes.items():
            count = sum(parent_of(it) == path for it in nodes if it != b"/")
            if count != node.children:
                wrong.append(f"{path.decode()}: {node.children} children, of which {count} are shown")
        return nodes, wrong

    def node(self, path, exists, get_data):
        """Returns what is shown of a node, None where there is none, and what is wrong with it."""
        if exists is None or get_data is None:
            return None, "no reply"
        if exists[0] != 0 or exists[0] != get_data[0] and get_data[0] != NO_AUTH:
            return None, None if exists[0] == get_data[0] == records.NO_NODE else f"errors {exists[0]}, {get_data[0]}"
        stat = exists[1]
        node = Shown(*STAT.unpack(stat))
        if get_data[0] == 0:
            self.known[path, node.mzxid] = get_data[1][4 : -STAT.size]
            if get_data[1] != buffer(get_data[1][4 : -STAT.size]) + stat and get_data[1] != int32(-1) + stat:
                return node, "exists and getData show other Stats"
        elif node.length and (path, node.mzxid) not in self.known:
            return node, "nobody may read its data, and nobody has"
        return node._replace(content=self.known.get((path, node.mzxid), node.content)), None


def term(path, node, owner):
    """What a node adds to the digest."""
    times = int64(node.czxid, node.mzxid, node.pzxid, node.ctime, node.mtime)
    versions = int32(node.version, (node.cversion + node.children) // 2, node.aversion)
    return zlib.crc32((b"" if path == b"/" else path) + node.content + times + versions + int64(owner))


def digest_of(nodes, owners):
    counted = {path: it for path, it in nodes.items() if not path.startswith(b"/zookeeper/")}
    return sum(term(path, it, owners[path]) for path, it in counted.items()) % 2**64


def signed(number):
    return (number + 2**63) % 2**64 - 2**63


def compared(program, script, mistake=None):
    """Returns how many digests a recording has, the zxids of those that aren't the tree's, those of them that aren't of
    the owner that the flags ask for either, and what is wrong with the replies, in lines. A mistake is a zxid, and what
    is shown of the root after it."""
    recording, (sessions, _) = Recording(script), directives(script)
    trees = Trees(recording, replies_of(program, recording.script()))
    differ, unexplained, wrong = [], [], []
    for told in recording.told:
        nodes, complaints = trees.tree(told.xid)
        wrong += [f"after {told.zxid:x}: {it}" for it in complaints]
        if mistake is not None and mistake[0] == told.zxid:
            nodes[b"/"] = nodes[b"/"]._replace(**mistake[1](nodes[b"/"]))
        owners = {
            path: signed(sessions.get(it.owner, it.owner)) or recording.owners.get((path, it.czxid), 0)
            for path, it in nodes.items()
        }
        if digest_of(nodes, owners) != told.digest:
            differ.append(told.zxid)
            turned = {path: 0 if owners.get(path) else CONTAINER for path in told.created}
            if digest_of(nodes, {**owners, **turned}) != told.digest:
                unexplained.append(told.zxid)
    return len(recording.told), differ, unexplained, wrong


# ---- recordings, and mistakes in them

# What isn't the tree's digest although the owner is what the flags ask for.
MADE_UP = {"recorded-image": [0x100000010]}


def zxids(found):
    return " ".join(f"{it:x}" for it in found) or "none"


def faults(program, path):
    """Returns what is wrong with a recording, in lines."""
    script = path.read_bytes()
    _, but = directives(script)
    count, differ, unexplained, wrong = compared(program, script)
    if differ != but:
        wrong.append(f"of {count} digests these aren't the tree's: {zxids(differ)}; wanted {zxids(but)}")
    if unexplained != MADE_UP.get(path.stem, []):
        wrong.append(f"no owner explains these: {zxids(unexplained)}")
    if count <= len(but):
        wrong.append(f"only {count} digests")
    return wrong


def turned(script, content):
    """Returns a script in which the last bit of a transaction is another."""
    assert script.count(content.hex().encode()) == 1
    return script.replace(content.hex().encode(), (content[:-1] + bytes([content[-1] ^ 1])).hex().encode())


def field_turned(name):
    return lambda node: {name: getattr(node, name) ^ 2}


def planted(program, path):
    """Returns which of the mistakes that are planted in a recording aren't told, in lines."""
    script = path.read_bytes()
    _, but = directives(script)
    informs = [it.content for _, it in events_of(script) if getattr(it, "kind", None) == INFORM]
    right = [it for it in informs if told_digest(it, Dialect.ZK38) is not None]
    right = {zxid: it for it in right for zxid in [txn_of(it, Dialect.ZK38).zxid] if zxid not in but}
    zxid = sorted(right)[len(right) // 2]
    mistakes = {name: (script, (zxid, field_turned(name))) for name in (*DIGESTED, "owner")}
    mistakes["data"] = script, (zxid, lambda node: {"content": node.content + b"!"})
    mistakes["the digest"] = turned(script, right[zxid]), None
    found = []
    for name, (played, mistake) in mistakes.items():
        _, differ, _, _ = compared(program, played, mistake)
        if differ != sorted([*but, zxid]):
            found.append(f"a mistake at {zxid:x}, in {name}, is told at {zxids(differ)}")
    return found


def main():
    parser = argparse.ArgumentParser(description=__doc__, formatter_class=argparse.RawDescriptionHelpFormatter)
    parser.add_argument("--only", default="", help="a part of a recording's name")
    parser.add_argument("program")
    args = parser.parse_args()
    program = os.path.abspath(args.program)
    if not os.path.isfile(program):
        print(f"no program {args.program}: no recording was read\n0 passed, 1 failed")
        return 1
    passed = failed = 0
    for path in sorted((HERE / "rows" / "recorded").glob("*.script")):
        if args.only not in path.stem or directives(path.read_bytes())[1] is None:
            continue
        for what, found in (("", faults(program, path)), (", planted", planted(program, path))):
            passed, failed = passed + (not found), failed + bool(found)
            for line in found:
                print(f"FAIL {path.stem}{what}\n  {line}")
    print(f"{passed} passed, {failed} failed")
    return 1 if failed or not passed else 0


if __name__ == "__main__":
    sys.exit(main())
