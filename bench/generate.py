#!/usr/bin/env python3
"""Writes a large script for `replay` to standard output.

    bench/generate.py N                     N messages of the leader, one on a line, getDatas of connection 1 between
    bench/generate.py N --cut whole         the same leader's bytes on one line, then all getDatas on one line
    bench/generate.py N --cut 100           the same two streams in pieces of 100 bytes, each on a line of its own
    bench/generate.py N --entries E         N long messages: a setData of the root with 8E bytes, and E authinfo entries

The observer is primed. Each message of the leader is an INFORM of one transaction, and their zxids rise by one: first
creates of the parents /p0, /p1 .., then in turn a create of a new child below one of them and a setData of a child that
is there. One N gives one list of messages and one list of reads, whatever the cut.
"""
import argparse
import random
import struct
import sys

EPOCH = 1
SESSION = 7
INFORM, CREATE, SET_DATA, GET_DATA = 8, 1, 5, 4
NULL = struct.pack(">i", -1)


def text(it):
    return struct.pack(">i", len(it)) + it


OPEN_ACL = struct.pack(">ii", 1, 31) + text(b"world") + text(b"anyone")


def inform(number, kind, body, authinfo=NULL, session=SESSION, cxid=None):
    """Returns the packet in which the leader tells of its transaction of that number: 1 for the first one."""
    zxid = EPOCH * 2**32 + number
    cxid = number if cxid is None else cxid
    transaction = struct.pack(">qiqqi", session, cxid, zxid, 1000 + number, kind) + body
    return struct.pack(">iq", INFORM, zxid) + text(transaction) + authinfo


def create(path, content):
    """Returns the body of a create of a lasting node with the open ACL, whose parent's cversion rises by one."""
    return text(path) + text(content) + OPEN_ACL + struct.pack(">?i", False, -1)


def set_data(path, content, version):
    return text(path) + text(content) + struct.pack(">i", version)


def get_data(xid, path):
    """Returns a client's frame that asks for a node's data and sets no watch."""
    return text(struct.pack(">ii", xid, GET_DATA) + text(path) + b"\0")


class Work:
    """The messages of one run, in order, and what the observer's last line says after them."""

    def __init__(self, number, parents=1000, reads_every=10, content=16):
        self.number, self.parents = number, min(parents, number)
        self.reads_every, self.content = reads_every, content
        self.creates = self.reads = 0

    def pairs(self):
        """Yields each message of the leader with the read that follows it, or None."""
        choose = random.Random(1).random
        content = b"x" * self.content
        children, versions = [], []
        self.creates = self.reads = 0
        for number in range(1, self.number + 1):
            if number <= self.parents:
                path = b"/p%d" % (number - 1)
                message = inform(number, CREATE, create(path, b""))
                self.creates += 1
            elif number % 2 or not children:
                path = b"/p%d/n%d" % (int(choose() * self.parents), number)
                message = inform(number, CREATE, create(path, content))
                children.append(path)
                versions.append(0)
                self.creates += 1
            else:
                at = int(choose() * len(children))
                path = children[at]
                versions[at] += 1
                message = inform(number, SET_DATA, set_data(path, content, versions[at]))
            read = None
            if number % self.reads_every == 0:
                self.reads += 1
                read = get_data(self.reads, path)
            yield message, read

    def last_line(self):
        """Returns the line that `replay` ends with, once all pairs were taken. The fresh tree has three paths."""
        return "end zxid=0x%x paths=%d" % (EPOCH * 2**32 + self.number, 3 + self.creates)


class LongWork:
    """Few and long messages without reads: each is a setData of the root, with many empty entries as its authinfo."""

    def __init__(self, number, entries):
        self.number, self.entries, self.reads = number, entries, 0

    def pairs(self):
        content = b"x" * (8 * self.entries)
        authinfo = struct.pack(">i", self.entries) + bytes(8 * self.entries)
        for number in range(1, self.number + 1):
            yield inform(number, SET_DATA, set_data(b"/", content, number), authinfo), None

    def last_line(self):
        return "end zxid=0x%x paths=3" % (EPOCH * 2**32 + self.number)


def pieces(stream, size):
    return (stream[at : at + size] for at in range(0, len(stream), size))


def lines(work, cut):
    """Yields the script's lines. The cut is "message", "whole" or a number of bytes."""
    yield "primed\n"
    if cut == "message":
        for message, read in work.pairs():
            yield f"leader {message.hex()}\n"
            if read is not None:
                yield f"client 1 {read.hex()}\n"
        return
    messages, reads = bytearray(), bytearray()
    for message, read in work.pairs():
        messages += message
        reads += read or b""
    for who, stream in (("leader", messages), ("client 1", reads)):
        size = max(1, len(stream)) if cut == "whole" else int(cut)
        for piece in pieces(stream, size):
            yield f"{who} {piece.hex()}\n"


def write(work, cut, out):
    for line in lines(work, cut):
        out.write(line)


def cut_of(word):
    if word not in ("message", "whole") and not (word.isdigit() and int(word)):
        raise argparse.ArgumentTypeError("message, whole or a number of bytes above 0")
    return word


def options(parser):
    parser.add_argument("--parents", type=int, default=1000, help="how many nodes have the children (1000)")
    parser.add_argument("--reads-every", type=int, default=10, help="a getData after each so many messages (10)")
    parser.add_argument("--content", type=int, default=16, help="bytes of a child's data (16)")


def main():
    parser = argparse.ArgumentParser(description=__doc__, formatter_class=argparse.RawDescriptionHelpFormatter)
    parser.add_argument("number", metavar="N", type=int, help="how many messages the leader sends")
    parser.add_argument("--cut", type=cut_of, default="message", help="message (the default), whole or bytes a piece")
    options(parser)
    parser.add_argument("--entries", type=int, help="long messages, each with so many entries (at most 500,000)")
    args = parser.parse_args()
    work = Work(args.number, args.parents, args.reads_every, args.content)
    write(LongWork(args.number, args.entries) if args.entries else work, args.cut, sys.stdout)


if __name__ == "__main__":
    main()
