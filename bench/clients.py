#!/usr/bin/env python3
"""Measures what clients cost the engine, by the loads of crates/load_runner.

    bench/clients.py LOAD_RUNNER            as bench/clients.py crates/load_runner/out/load_runner

Neither making the tree of reads and lists nor making the messages is measured (bench/loads.py). Each figure of the
other loads is the difference of two runs, of which one does the same but for what is measured. All runs take turns,
several times, and the least processor time of each is taken. What a load prints must be what it asks for. Memory is what
the resident set grew by at most. Twice as many names may not fit into the caches any more, so their ratio has no bound:
instructions tell more of it (valgrind --tool=callgrind). The exit status is 0 if every figure is met that has a
bound.
"""
import argparse
import sys

sys.dont_write_bytecode = True
from loads import CONNECTED, HEADER, LONG_CONTENT, STAT, Load, heading  # noqa: E402
from run import PIECES, TWICE, machine  # noqa: E402

PARENTS, CHILDREN, READS = 100, 1000, 400_000
WHOLE, PIECE = 26_000, 100
CONNECTIONS, WATCHES, NODES, OTHERS = 1000, 100, 500, 1_000_000
NAMES, LISTS = 50_000, 200
PINGS = 2000
IDLE = 100_000
# Two loads whose memory is compared differ by so much that what else the program touches doesn't count.
FEW, MANY_TIMES = 100_000, 5


def reads(times, piece):
    number = READS * times
    length = number * (HEADER + 4 + LONG_CONTENT + STAT)
    return Load(["reads", PARENTS, CHILDREN, READS, times, piece], replies=number, events=0, bytes=length)


def watches(connections, own, nodes, sets, others):
    replies, packets = connections * (1 + own + nodes) + others, connections
    words = ["watches", connections, own, nodes, sets, others]
    return Load(words, replies=replies, events=connections * sets, packets=packets)


def lists(names, times):
    return Load(["lists", names, times], replies=times, events=0)


def pings(connections):
    length = connections * (CONNECTED + HEADER)
    return Load(["pings", connections], replies=2 * connections, events=0, packets=connections, bytes=length)


def loads():
    return {
        "reads": reads(1, WHOLE),
        "twice": reads(2, WHOLE),
        "pieces": reads(1, PIECE),
        "opened": watches(CONNECTIONS, WATCHES, 0, 0, 0),
        "no set": watches(CONNECTIONS, WATCHES, NODES, 0, 0),
        "sets": watches(CONNECTIONS, WATCHES, NODES, NODES, 0),
        "others, no set": watches(CONNECTIONS, WATCHES, NODES, 0, OTHERS),
        "others": watches(CONNECTIONS, WATCHES, NODES, NODES, OTHERS),
        "few watches of one": watches(0, 0, 0, 0, FEW),
        "watches of one": watches(0, 0, 0, 0, OTHERS),
        "watches of all": watches(CONNECTIONS, OTHERS // CONNECTIONS, 0, 0, 0),
        "idle": watches(IDLE, 0, 0, 0, 0),
        "many idle": watches(MANY_TIMES * IDLE, 0, 0, 0, 0),
        "lists": lists(NAMES, LISTS),
        "twice the names": lists(2 * NAMES, LISTS),
        "pings": pings(PINGS),
        "many pings": pings(MANY_TIMES * PINGS),
    }


def figures(of):
    """Returns what each figure is about, the figure, and the bound."""

    def took(name, without):
        return of[name].seconds - of[without].seconds

    def holds(name, without):
        return of[name].memory - of[without].memory

    told, left = CONNECTIONS * NODES, CONNECTIONS * WATCHES
    return [
        ("microseconds a getData", 1e6 * of["reads"].seconds / READS, 2.5),
        ("2n getDatas against n", of["twice"].seconds / of["reads"].seconds, TWICE),
        (f"pieces of {PIECE} bytes against {WHOLE}", of["pieces"].seconds / of["reads"].seconds, PIECES),
        ("microseconds a getData that watches", 1e6 * took("no set", "opened") / told, None),
        ("microseconds an event", 1e6 * took("sets", "no set") / told, 2),
        ("the same beside other watches, times as long", took("others", "others, no set") / took("sets", "no set"), 1.5),
        ("nanoseconds a name in a list", 1e9 * of["lists"].seconds / (LISTS * NAMES), None),
        ("2n names against n", of["twice the names"].seconds / of["lists"].seconds, None),
        ("bytes a watch, all of one connection", holds("watches of one", "few watches of one") / (OTHERS - FEW), 500),
        (f"bytes a watch, of {CONNECTIONS:,} connections", holds("watches of all", "opened") / (OTHERS - left), 500),
        ("bytes an idle connection", holds("many idle", "idle") / ((MANY_TIMES - 1) * IDLE), 1024),
        ("the same behind a long frame", holds("many pings", "pings") / ((MANY_TIMES - 1) * PINGS), 1024),
    ]


def verdict(what, figure, most):
    if most is None:
        print(f"      {what}: {figure:.2f}", flush=True)
        return True
    print(f"{'PASS' if figure <= most else 'FAIL'}  {what}: {figure:.2f} (at most {most})", flush=True)
    return figure <= most


def main():
    parser = argparse.ArgumentParser(description=__doc__, formatter_class=argparse.RawDescriptionHelpFormatter)
    parser.add_argument("--rounds", type=int, default=3, help="how often each load is run (3)")
    parser.add_argument("program")
    options = parser.parse_args()
    machine("before")
    of = loads()
    for _ in range(options.rounds):
        for load in of.values():
            load.once(options.program)
    print(heading())
    for load in of.values():
        print(load.row())
    passes = [verdict(*it) for it in figures(of)]
    machine("after")
    return 0 if all(passes) else 1


if __name__ == "__main__":
    sys.exit(main())
