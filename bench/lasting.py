#!/usr/bin/env python3
"""Measures what a change costs beside many lasting watches that it doesn't concern.

    bench/lasting.py REPLAY_RUNNER           as bench/lasting.py crates/replay_runner/out/replay_runner

It makes scripts in which the leader sets the data of a node at depth 10, which one recursive watch above it is told of,
with and without a million lasting watches elsewhere, half of them recursive. Each script is replayed with and without
the changes, the least processor time of several rounds is taken, and what the changes take is the difference. That has
reading their lines and printing their events in it. With --count instructions are counted instead, by
`valgrind --tool=callgrind`, beside a hundred thousand others, so what else the machine does is of no account. The exit
status is 0 if a change takes at most 1.3 times as long, or as many instructions, beside the others.
"""
import argparse
import os
import pathlib
import re
import struct
import subprocess
import sys
import tempfile

OTHERS, CHANGES, ROUNDS, BOUND = 1_000_000, 500_000, 3, 1.3
FEWER_OTHERS, FEWER_CHANGES = 100_000, 10_000
PIECE = 500
PATHS = ["".join(f"/d{level}" for level in range(depth + 1)) for depth in range(10)]
WATCHED = PATHS[2]
CREATE, SET_DATA, ADD_WATCH, INFORM = 1, 5, 106, 8
PERSISTENT, RECURSIVE = 0, 1
OPEN_ACL = struct.pack(">iii", 1, 31, 5) + b"world" + struct.pack(">i", 6) + b"anyone"


def text(value):
    return struct.pack(">i", len(value)) + value.encode()


def inform(counter, kind, body):
    """Returns the leader's packet with a transaction of epoch 1."""
    zxid = (1 << 32) + counter
    data = struct.pack(">qiqqi", 7, 1, zxid, 1000, kind) + body
    return struct.pack(">iqi", INFORM, zxid, len(data)) + data + struct.pack(">i", -1)


def create(counter, path):
    return inform(counter, CREATE, text(path) + text("") + OPEN_ACL + b"\0" + struct.pack(">i", -1))


def set_data(counter, path, version):
    return inform(counter, SET_DATA, text(path) + text("0123456789abcdef") + struct.pack(">i", version))


def add_watch(path, mode):
    body = struct.pack(">ii", 1, ADD_WATCH) + text(path) + struct.pack(">i", mode)
    return struct.pack(">i", len(body)) + body


def lines(others, changes):
    yield "primed"
    for counter, path in enumerate(PATHS, 1):
        yield "leader " + create(counter, path).hex()
    yield "client 1 " + add_watch(WATCHED, RECURSIVE).hex()
    for first in range(0, others, PIECE):
        watches = (add_watch(f"/elsewhere/{number * 7919 % 10 ** 8:08}", number % 2) for number in range(first, first + PIECE))
        yield "client 1 " + b"".join(watches).hex()
    for number in range(changes):
        yield "leader " + set_data(len(PATHS) + 1 + number, PATHS[-1], number + 1).hex()


def seconds(program, script, wanted):
    """Returns the processor time of a replay, which has to print this many lines."""
    ran = subprocess.Popen([program, "replay", script], stdin=subprocess.DEVNULL, stdout=subprocess.PIPE)
    count = ran.stdout.read().count(b"\n")
    _, status, used = os.wait4(ran.pid, 0)
    ran.returncode = status
    if status or count != wanted:
        sys.exit(f"{script}: status {status}, {count} lines where {wanted} were wanted")
    return used.ru_utime + used.ru_stime


def instructions(program, script, wanted):
    """Returns how many instructions a replay takes, which has to print this many lines."""
    words = ["valgrind", "--tool=callgrind", "--callgrind-out-file=/dev/null", program, "replay", script]
    ran = subprocess.run(words, stdin=subprocess.DEVNULL, stdout=subprocess.PIPE, stderr=subprocess.PIPE)
    counted, count = re.search(rb"Collected : (\d+)", ran.stderr), ran.stdout.count(b"\n")
    if ran.returncode or not counted or count != wanted:
        sys.exit(f"{script}: status {ran.returncode}, {count} lines where {wanted} were wanted")
    return int(counted.group(1))


def measured(program, measure, rounds, most_others, most_changes):
    """Returns what a change takes, by how many others there are: the least of the rounds."""
    least = {}
    with tempfile.TemporaryDirectory() as room:
        scripts = [(others, changes) for others in (0, most_others) for changes in (0, most_changes)]
        names = {it: str(pathlib.Path(room) / f"{it[0]}-{it[1]}") for it in scripts}
        for it in scripts:
            with open(names[it], "w", encoding="ascii") as out:
                out.writelines(line + "\n" for line in lines(*it))
        for _ in range(rounds):
            for others, changes in scripts:
                took = measure(program, names[others, changes], 1 + others + changes + 1)
                least[others, changes] = min(took, least.get((others, changes), took))
    return {others: (least[others, most_changes] - least[others, 0]) / most_changes for others in (0, most_others)}


def main():
    parser = argparse.ArgumentParser(description=__doc__, formatter_class=argparse.RawDescriptionHelpFormatter)
    parser.add_argument("program")
    parser.add_argument("--count", action="store_true")
    asked = parser.parse_args()
    if asked.count:
        taken, unit = measured(asked.program, instructions, 1, FEWER_OTHERS, FEWER_CHANGES), "instructions"
    else:
        taken, unit = measured(asked.program, seconds, ROUNDS, OTHERS, CHANGES), "seconds"
    for others, took in taken.items():
        print(f"beside {others} lasting watches elsewhere: {took:.8g} {unit} a change")
    ratio = taken[max(taken)] / taken[0]
    print(f"{ratio:.2f} times as long (bound {BOUND})")
    return 0 if ratio <= BOUND else 1


if __name__ == "__main__":
    sys.exit(main())
