#!/usr/bin/env python3
"""Measures what paths cost `serve` that somebody chose to slow it down.

    bench/chosen.py PROGRAM                   as bench/chosen.py crates/replay_runner/out/replay_runner

Three trees are made, and all of their nodes are set, then deleted. The first one's paths are 100,000 of the same length
that collide under a hash whose start is known, the one that the toolchain's maps have unless they are given another;
they are found here. The second one's are a million names below one node, which come in descending order, the third
one's are the same in no order. Each is compared with a tree of as many other paths: of the same length, or the names in
ascending order. This script is the leader, and sends nothing but INFORMs. The processor's time that the program takes
for each part is read in /proc; of several rounds, which take turns, the least counts. The exit status is 0 if no part
takes more than twice as long as that of the other tree.
"""
import argparse
import os
import random
import sys

sys.dont_write_bytecode = True
import generate  # noqa: E402
from memory import CHUNK, DELETE, Chunk, Server  # noqa: E402
from run import machine, verdict  # noqa: E402

CHOSEN, NAMES = 100_000, 1_000_000
MOST = 2.0
PARTS = ("a create", "a setData", "a delete")
CONTENT = b"x" * 16
# The hash's start and its factor.
START, FACTOR = 0x243F6A8885A308D3, 0x9E3779B97F4A7C15
WORD = (1 << 64) - 1
LETTERS = b"abcdefghijklmnopqrstuvwxyzABCDEFGHIJKLMNOPQRSTUVWXYZ0123456789!#$%&'()*+,-.:;<=>?@[]^_`{|}~"
# The bytes of a path that collides, and those of them that differ from path to path: any eight will do.
LENGTH, FREE = 56, slice(24, 32)


def folded(one, other):
    product = one * other
    return (product & WORD) ^ (product >> 64)


def hashed(path):
    """Returns the hash, for paths of more than 16 bytes: each 16 are multiplied, and then the last 16."""
    read = lambda at: int.from_bytes(path[at : at + 8], "little")  # noqa: E731
    state, at = (START + len(path)) & WORD, 0
    while len(path) - at > 16:
        state = folded(read(at) ^ state, read(at + 8) ^ FACTOR)
        at += 16
    return folded(read(len(path) - 16) ^ state, read(len(path) - 8) ^ FACTOR)


def colliding(number):
    """Returns paths of one hash. After 24 bytes that make a factor zero, eight bytes don't matter."""
    chance = random.Random(1)
    while True:
        front = b"/" + bytes(chance.choices(LETTERS, k=15))
        state = folded(
            int.from_bytes(front[:8], "little") ^ (START + LENGTH) & WORD, int.from_bytes(front[8:], "little") ^ FACTOR
        ).to_bytes(8, "little")
        if all(it in LETTERS for it in state):
            break
    rest = b"r" * (LENGTH - 32)
    paths = [front + state + b"%08d" % at + rest for at in range(number)]
    if len({hashed(it) for it in paths}) != 1:
        sys.exit("the chosen paths don't collide")
    return paths


def others(number):
    """Returns paths of the same length that don't collide."""
    paths = [b"/%08d" % at + b"r" * (LENGTH - 9) for at in range(number)]
    if len({hashed(it) for it in paths}) < 0.99 * number:
        sys.exit("the other paths collide")
    return paths


def seconds_of(server):
    """Returns the processor's time that the program has taken."""
    with open(f"/proc/{server.ran.pid}/stat", encoding="ascii") as it:
        fields = it.read().rpartition(")")[2].split()
    return sum(int(it) for it in fields[11:13]) / os.sysconf("SC_CLK_TCK")


def times(program, parents, paths):
    """Returns the processor's microseconds of each part for a path."""
    server = Server(program)
    server.take(Chunk([(generate.CREATE, generate.create(it, b"")) for it in parents]))
    server.settles()
    found = []
    for kind, body in (
        (generate.CREATE, lambda it: generate.create(it, CONTENT)),
        (generate.SET_DATA, lambda it: generate.set_data(it, CONTENT, 1)),
        (DELETE, generate.text),
    ):
        began = seconds_of(server)
        for at in range(0, len(paths), CHUNK):
            server.take(Chunk([(kind, body(it)) for it in paths[at : at + CHUNK]]))
        server.settles()
        found.append(1e6 * (seconds_of(server) - began) / len(paths))
    if server.end():
        sys.exit(f"{program.program} ended with status {server.ran.returncode}")
    return found


def compared(options, what, parents, paths, usual):
    """Prints the times of paths beside the usual ones. Returns whether none takes too long."""
    least, base = [float("inf")] * len(PARTS), [float("inf")] * len(PARTS)
    for _ in range(options.rounds):
        base = [min(it) for it in zip(base, times(options, parents, usual))]
        least = [min(it) for it in zip(least, times(options, parents, paths))]
    for part, mine, other in zip(PARTS, least, base):
        print(f"      {what}, {part}: {mine:.2f} µs, the others {other:.2f} µs", flush=True)
    return [verdict(f"{what}, {part}", mine / other, MOST) for part, mine, other in zip(PARTS, least, base)]


def main():
    parser = argparse.ArgumentParser(description=__doc__, formatter_class=argparse.RawDescriptionHelpFormatter)
    parser.add_argument("--rounds", type=int, default=3, help="how often each tree is made (3)")
    parser.add_argument("--names", type=int, default=NAMES, help="the names below one node (1,000,000)")
    parser.add_argument("program")
    options = parser.parse_args()
    options.checkpoint = 64
    machine("before")
    names = [b"/one/n%07d" % at for at in range(options.names)]
    shuffled = random.Random(1).sample(names, len(names))
    passes = compared(options, "paths that collide", [], colliding(CHOSEN), others(CHOSEN))
    passes += compared(options, "descending names", [b"/one"], names[::-1], names)
    passes += compared(options, "names in no order", [b"/one"], shuffled, names)
    machine("after")
    return 0 if all(passes) else 1


if __name__ == "__main__":
    sys.exit(main())
