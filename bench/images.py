#!/usr/bin/env python3
"""Measures what images, checkpoints and logs cost the engine, by the loads of crates/load_runner.

    bench/images.py LOAD_RUNNER             as bench/images.py crates/load_runner/out/load_runner

A node of an image has a path of 20 bytes, 16 bytes of data and the open ACL list, unless something else is said. All
runs take turns, several times, and the least processor time of each is taken; what a load prints must be what it asks
for. The image's bytes are made before (bench/loads.py). Memory is what the resident set grew by at most: after an image
nothing has changed, so the base takes none. The exit status is 0 if every figure is met that has a bound.
"""
import argparse
import sys

sys.dont_write_bytecode = True
import loads  # noqa: E402
from clients import verdict  # noqa: E402
from run import PIECES, TWICE, machine  # noqa: E402

PARENTS, CHILDREN, CONTENT = 1000, 1000, 16
PIECE, SHORT, WHOLE = 1 << 16, 1 << 10, (1 << 32) - 1
LONG, TINY = 4 << 20, 100
CREATED, LOGGED = 100, 1000
# The zxid of the image, and that before the first transaction.
IMAGE, EPOCH = 2 << 32, 1 << 32
# The nodes of a fresh tree.
FRESH = 3


# An observer's packets to a leader that brings it up to date: OBSERVERINFO, ACKEPOCH, and two ACKs.
ANSWERS = 4


def load_of(words, transactions, paths, zxid, leaders):
    packets = ANSWERS * leaders
    counts = {"transactions": transactions, "replies": 0, "events": 0, "paths": paths, "packets": packets, "bytes": 0}
    return loads.Load(words, zxid=f"0x{zxid:x}", **counts)


def image(parents, children=CHILDREN, content=CONTENT, piece=PIECE, checkpoints=0):
    words = ["images", parents, children, content, piece, checkpoints]
    return load_of(words, 0, 1 + parents * (1 + children), IMAGE, 1)


def log(parents, kept, times):
    made = parents * (1 + LOGGED)
    left = kept if times else made
    # A primed engine's last zxid is 0 until a transaction comes.
    return load_of(["logs", parents, LOGGED, kept, times], made, FRESH + left, EPOCH + left if left else 0, times)


def all_loads():
    made = CREATED * (1 + LOGGED)
    return {
        "nothing": image(0, 0),
        "half": image(PARENTS // 2),
        "only children": image(PARENTS * CHILDREN // 2, 1),
        "half as many": image(PARENTS * CHILDREN // 4, 1),
        "image": image(PARENTS),
        "checkpoint": image(PARENTS, checkpoints=1),
        "tenth": image(PARENTS // 10, piece=WHOLE),
        "short pieces": image(PARENTS // 10, piece=SHORT),
        "long node": image(1, 0, LONG // 2, TINY),
        "twice as long": image(1, 0, LONG, TINY),
        "no log": log(0, 0, 0),
        "log": log(CREATED, made - 1, 0),
        "undone": log(CREATED, made - 1, 1),
    }


def figures(of):
    """Returns what each figure is about, the figure, and the bound."""

    def took(name, without="nothing"):
        return of[name].seconds - of[without].seconds

    nodes = PARENTS * (1 + CHILDREN)
    due = (of["image"].memory - of["half"].memory) / (nodes / 2)
    alone = (of["only children"].memory - of["half as many"].memory) / (PARENTS * CHILDREN / 2)
    return [
        (f"seconds an image of {nodes:,} nodes", took("image"), 5),
        ("2n nodes against n", took("image") / took("half"), TWICE),
        (f"pieces of {SHORT:,} bytes against one piece", took("short pieces") / took("tenth"), PIECES),
        (f"a part of {LONG:,} bytes against half as many, by {TINY}", took("twice as long") / took("long node"), TWICE),
        ("bytes a node", due, 550),
        ("bytes a node, if half of them have one child each", alone, 550),
        (f"seconds a checkpoint of {nodes:,} nodes", took("checkpoint", "image"), None),
        ("bytes a node more that it takes", (of["checkpoint"].memory - of["image"].memory) / nodes, None),
        (f"TRUNC over {CREATED * (1 + LOGGED):,}, against doing them", took("undone", "log") / took("log", "no log"), 1.5),
    ]


def main():
    parser = argparse.ArgumentParser(description=__doc__, formatter_class=argparse.RawDescriptionHelpFormatter)
    parser.add_argument("--rounds", type=int, default=3, help="how often each load is run (3)")
    parser.add_argument("program")
    options = parser.parse_args()
    machine("before")
    of = all_loads()
    for _ in range(options.rounds):
        for load in of.values():
            load.once(options.program)
    print(loads.heading())
    for load in of.values():
        print(load.row())
    passes = [verdict(*it) for it in figures(of)]
    machine("after")
    return 0 if all(passes) else 1


if __name__ == "__main__":
    sys.exit(main())
