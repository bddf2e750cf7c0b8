#!/usr/bin/env python3
"""Counts the instructions that `serve` takes for a getData, for an INFORM of a setData and for an mntr, over sockets on
127.0.0.1, or those that the engine alone takes.

    bench/counted.py PROGRAM                  as bench/counted.py crates/replay_runner/out/replay_runner
    bench/counted.py PROGRAM --before OTHER   beside another program too, as one of an earlier version
    bench/counted.py --engine LOAD_RUNNER     the engine under loads of crates/load_runner; --before goes with it, too

`valgrind --tool=callgrind` counts, so what else the machine does is of no account. Each figure of `serve` is the
difference between two runs, which differ only in how many there are, and each reply is looked at. Of a load of the
engine a run that only makes its messages is subtracted (`made`); what is left has some instructions an event for
counting its outputs, too. One bound is judged: if mntr is asked 100 times a second, with 10,000 watches set, it takes
less than a fiftieth of what the 400,000 getDatas take that `serve` has to answer meanwhile. The status is 0 if it
holds. Other rates are measured by bench/writes.py.
"""
import argparse
import os
import re
import socket
import struct
import subprocess
import sys
import tempfile

sys.dont_write_bytecode = True
import loads  # noqa: E402
from serve import ANSWER, ASKED, LONG_CONTENT, PARENTS, WATCHES, Server, Watcher, ask, transactions  # noqa: E402

CHILDREN, TOGETHER, FEW, MANY = 10, 100, 20, 60
FEW_SETS, MANY_SETS = 2_000, 6_000
WATCHED, FEW_WORDS, MANY_WORDS = 100, 50, 250
# What `serve` has to answer in a second, and the part of it that mntr may take.
READS, MOST = 400_000, 0.02
GET_DATA = 4
COUNTED = re.compile(r"Collected : (\d+)")
VALGRIND = ["valgrind", "--tool=callgrind", "--callgrind-out-file=/dev/null"]
# The engine's trees: nodes below the root, and nodes below each of these.
TREE, MORE = (10, 100), (60, 100)
NUMBER, CLIENTS, WRITERS = 20_000, 1000, 100


def framed(body):
    return struct.pack(">i", len(body)) + body


def get_data(xid, path):
    return framed(struct.pack(">iii", xid, GET_DATA, len(path)) + path + b"\0")


def read_all(port, pieces):
    """Reads nodes with 100 requests under way, so many times."""
    with socket.create_connection(("127.0.0.1", port)) as client, client.makefile("rb") as answers:
        client.setsockopt(socket.IPPROTO_TCP, socket.TCP_NODELAY, 1)
        client.sendall(framed(struct.pack(">iqiqi", 0, 0, 30_000, 0, 16) + bytes(16)))
        answers.read(struct.unpack(">i", answers.read(4))[0])
        for piece in range(pieces):
            child = piece % CHILDREN
            paths = [b"/p%02d/n%03d" % (parent % PARENTS, child) for parent in range(TOGETHER)]
            client.sendall(b"".join(get_data(xid, path) for xid, path in enumerate(paths)))
            for xid in range(TOGETHER):
                answer = answers.read(4 + ANSWER)
                length, answered, _, error = struct.unpack(">iiqi", answer[:20])
                if (length, answered, error) != (ANSWER, xid, 0):
                    sys.exit(f"a getData is answered by {answer[:20].hex()}")


def asked(port, watches, times):
    """Asks mntr so many times, one after the other, with so many watches set."""
    with Watcher(port, watches):
        for _ in range(times):
            if b"zk_watch_count\t%d\n" % watches not in ask(port, b"mntr"):
                sys.exit("mntr doesn't count the watches")


def instructions(program, children, sets, done):
    """Returns how many instructions the program takes for a tree, so many setDatas and what is done at its port."""
    with tempfile.TemporaryDirectory() as room:
        counted, told = os.path.join(room, "counted"), os.path.join(room, "told")
        with open(counted, "w", encoding="utf-8") as it:
            it.write(f"#!/bin/sh\nexec {' '.join(VALGRIND)} '{os.path.realpath(program)}' \"$@\" 2>'{told}'\n")
        os.chmod(counted, 0o755)
        with Server(counted) as server:
            server.take(*transactions(children, LONG_CONTENT, sets))
            done(server.port)
        with open(told, encoding="utf-8") as it:
            return int(COUNTED.search(it.read()).group(1))


def of_word(program, watches):
    """Returns what an mntr takes with so many watches set."""
    few, many = (
        instructions(program, WATCHED, 0, lambda port: asked(port, watches, times)) for times in (FEW_WORDS, MANY_WORDS)
    )
    return (many - few) / (MANY_WORDS - FEW_WORDS)


def figures(program):
    """Returns what a getData, an INFORM and an mntr take."""
    few, many = (lambda port: read_all(port, FEW)), (lambda port: read_all(port, MANY))
    least = instructions(program, CHILDREN, FEW_SETS, few)
    read = (instructions(program, CHILDREN, FEW_SETS, many) - least) / ((MANY - FEW) * TOGETHER)
    written = (instructions(program, CHILDREN, MANY_SETS, few) - least) / (MANY_SETS - FEW_SETS)
    found = {"a getData": read, "an INFORM": written}
    found.update((f"an mntr with {count:,} watches", of_word(program, count)) for count in (0, WATCHES))
    return found


def is_within(taken):
    """Says what mntr takes beside getDatas, and returns whether that is within the bound."""
    part = ASKED * taken[f"an mntr with {WATCHES:,} watches"] / (READS * taken["a getData"])
    print(f"{ASKED} mntr a second take {part:.2%} of what {READS:,} getDatas take (at most {MOST:.0%})")
    return part <= MOST


def counted_run(program, words):
    """Returns how many instructions a run takes."""
    ran = subprocess.run(VALGRIND + [program] + words, stdin=subprocess.DEVNULL, capture_output=True, encoding="ascii")
    if ran.returncode:
        sys.exit(f"{' '.join(words)}: status {ran.returncode} and {ran.stderr[-200:]!r}")
    return int(COUNTED.search(ran.stderr).group(1))


def of_engine(program, load):
    """Returns how many instructions the measured part of a load takes."""
    load.once(program)
    return counted_run(program, load.words) - counted_run(program, ["made"] + load.words)


def reads(piece):
    return loads.Load(["reads", *TREE, CLIENTS, NUMBER // CLIENTS, piece], replies=NUMBER, events=0)


def engine_figures(program):
    """Returns what a transaction, a read and a forwarded write take of the engine alone."""
    tree, wider = (of_engine(program, loads.informs(*it, 0)) for it in (TREE, MORE))
    each = NUMBER // CLIENTS
    alone = {
        "a getData, in pieces of 26,000 bytes": reads(26_000),
        "a getData, in pieces of 100 bytes": reads(100),
        f"a getData of {CLIENTS:,} clients in turn": loads.turns(*TREE, CLIENTS, each, 0),
        "the same, leaving a watch": loads.turns(*TREE, CLIENTS, each, 1),
        "a forwarded setData": loads.writes("sets", *TREE, NUMBER, WRITERS, WRITERS),
        "a forwarded create": loads.writes("creates", *TREE, NUMBER, WRITERS, WRITERS),
    }
    created = (MORE[0] - TREE[0]) * (1 + TREE[1])
    found = {
        "an INFORM of a setData": (of_engine(program, loads.informs(*TREE, NUMBER)) - tree) / NUMBER,
        "an INFORM of a create": (wider - tree) / created,
    }
    found.update((what, of_engine(program, load) / NUMBER) for what, load in alone.items())
    return found


def main():
    parser = argparse.ArgumentParser(description=__doc__, formatter_class=argparse.RawDescriptionHelpFormatter)
    parser.add_argument("--before", metavar="OTHER")
    parser.add_argument("--engine", action="store_true", help="the programs are executables of crates/load_runner")
    parser.add_argument("program")
    options = parser.parse_args()
    figures_of = engine_figures if options.engine else figures
    taken = figures_of(options.program)
    other = figures_of(options.before) if options.before else taken
    for what, count in taken.items():
        beside = f", {count / other[what]:.3f} times the other's {other[what]:.0f}" if options.before else ""
        print(f"{what}: {count:.0f} instructions{beside}")
    if not options.engine and not is_within(taken):
        sys.exit(1)


if __name__ == "__main__":
    main()
