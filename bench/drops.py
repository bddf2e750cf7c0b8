#!/usr/bin/env python3
"""Counts what it takes to drop a connection with its watches, alone and beside many others.

    bench/drops.py REPLAY_RUNNER            as bench/drops.py crates/replay_runner/out/replay_runner

It makes scripts in which connections open, connect, get the sessions that the leader creates, and leave watches on paths
that have no node, with and without their ends, and beside none, many and twice as many watches of another connection. The instructions of the program are counted
by `valgrind --tool=callgrind`, so what else the machine does is of no account; what the ends take is the difference.
The exit status is 0 if a watch takes at most so many instructions, and at most 1.5 times as many beside twice as many
others.
"""
import argparse
import os
import re
import struct
import subprocess
import sys
import tempfile

CONNECTIONS, WATCHES, OTHERS = 1000, 100, 100_000
MOST, TWICE = 2500, 1.5
CONNECT = struct.pack(">iiqiqi", 44, 0, 0, 10_000, 0, 16) + bytes(16)
EXISTS, INFORM, CREATE_SESSION = 3, 8, -10
SERVER = 1


def watch(path):
    """Returns the frame of an exists that leaves a watch."""
    body = struct.pack(">iii", 1, EXISTS, len(path)) + path.encode() + b"\1"
    return struct.pack(">i", len(body)) + body


def created(number):
    """Returns the INFORM of the createSession of the session with this number, which is the transaction before it."""
    zxid = (1 << 32) + number - 1
    body = struct.pack(">qiqqii", (SERVER << 56) + number, 0, zxid, 1000, CREATE_SESSION, 10_000)
    return struct.pack(">iqi", INFORM, zxid, len(body)) + body + struct.pack(">i", -1)


def script(others, has_ends):
    """Returns the script's text: connection 1 of a primed observer has the other watches."""
    watches = b"".join(watch(f"/own{number}") for number in range(WATCHES))
    lines = ["primed"]
    if others:
        lines.append("client 1 " + b"".join(watch(f"/other{number}") for number in range(others)).hex())
    connections = range(2, CONNECTIONS + 2)
    for connection in connections:
        lines += [f"client {connection} up", f"client {connection} {CONNECT.hex()}"]
        lines += [f"leader {created(connection).hex()}", f"client {connection} {watches.hex()}"]
    if has_ends:
        lines += [f"client {connection} end" for connection in connections]
    return "\n".join(lines) + "\n"


def instructions(program, others, has_ends):
    """Returns how many instructions the program takes for the script, which it must replay to its end."""
    with tempfile.TemporaryDirectory() as room:
        name = os.path.join(room, "script")
        with open(name, "w", encoding="utf-8") as it:
            it.write(script(others, has_ends))
        ran = subprocess.run(["valgrind", "--tool=callgrind", "--callgrind-out-file=/dev/null", program, "replay", name],
                             stdout=subprocess.PIPE, stderr=subprocess.PIPE)
    counted = re.search(rb"Collected : (\d+)", ran.stderr)
    lines = ran.stdout.count(b"\n")
    wanted = others + CONNECTIONS * (WATCHES + 2) + 1
    if ran.returncode or not counted or lines != wanted:
        sys.exit(f"status {ran.returncode}, {lines} lines where {wanted} were wanted: {ran.stderr.decode(errors='replace')}")
    return int(counted.group(1))


def main():
    parser = argparse.ArgumentParser(description=__doc__, formatter_class=argparse.RawDescriptionHelpFormatter)
    parser.add_argument("program")
    program = parser.parse_args().program
    taken = {}
    for others in (0, OTHERS, 2 * OTHERS):
        dropped = instructions(program, others, True) - instructions(program, others, False)
        taken[others] = dropped / (CONNECTIONS * WATCHES)
        print(f"beside {others} others: {taken[others]:.0f} instructions a watch that is dropped (bound {MOST})", flush=True)
    ratio = taken[2 * OTHERS] / taken[OTHERS]
    print(f"beside twice as many others: {ratio:.2f} times as many (bound {TWICE})")
    return 0 if max(taken.values()) <= MOST and ratio <= TWICE else 1


if __name__ == "__main__":
    sys.exit(main())
