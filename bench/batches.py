#!/usr/bin/env python3
"""Measures batches, groups and the board, by the loads of crates/batch_runner.

    bench/batches.py BATCH_RUNNER           as bench/batches.py crates/batch_runner/out/batch_runner

The program measures itself by the clock, without making the transactions and the tree, and says how long it cut and how
long it worked. All loads take turns, several times, and the least time of each is taken; what is compared is done in
one run of this script. What a load prints must be what it asks for. Batches have 256 transactions, in 64 groups, unless
something else is said. Plain are transactions that are moved out of a queue, done one after the other and dropped, each
with its outcome; kept ones are the same, but dropped with their outcomes 256 at a time, as those of a batch are; lent
ones stay in their list. In a second part lists that stay are applied as an engine would: inline, which is one after the
other with all outcomes kept, and by workers, however little work they are; they are compared with lent ones, each of
whose outcomes is dropped at once. The machine's load, and how much of its processors' time others were given (steal),
is printed before and after. The exit status is 0 if every figure is met that has a bound.
"""
import argparse
import os
import re
import subprocess
import sys

sys.dont_write_bytecode = True
from run import MOST_SECONDS, machine  # noqa: E402

LENGTH, PARENTS = 256, 64
# Transactions of 16 bytes of data, and how often all of them are done: the nodes are made once.
SMALL, CREATES, SETS, TIMES = 16, 262_144, 16_384, 16
# The bytes of a node's data; how many transactions there are, and how often they are done.
SIZES = {64: (16_384, 8), 1024: (16_384, 8), 4096: (4096, 16), 65_536: (1024, 4)}
# Multis are done in batches of several lengths, since several workers pay in long ones only.
LONG, LONG_MULTIS, LONG_TIMES = 4096, 4096, 12
LENGTHS = (256, 512, 1024, 4096)
PAYING = 1024
WORKS, WORK_TIMES = 65_536, 16
WORKERS = (1, 2, 4)
PER_SECOND, PLAIN, SPEEDUP, MICROSECOND = 1_000_000, 1.3, 1.5, 1000
# Lists of several lengths of sets of several sizes, to find from which size on several workers pay.
SWEEP_LENGTHS, SWEEP_SIZES = (256, 1024), (1024, 4096, 16_384, 65_536)
ONE_WORKER, LARGE = 1 / 0.97, 1.7


class Load:
    """A load, what it must print, and the least nanoseconds in which it cut and worked."""

    def __init__(self, words, done, batches, groups):
        self.words = [str(it) for it in words]
        self.wanted = f"done={done} errors=0 batches={batches} groups={groups}\n"
        self.cut, self.worked, self.whole = float("inf"), float("inf"), float("inf")

    def once(self, program):
        ran = subprocess.run([program] + self.words, stdout=subprocess.PIPE, stderr=subprocess.PIPE, timeout=MOST_SECONDS)
        told = re.fullmatch(r"cut=(\d+) worked=(\d+)\n", ran.stderr.decode(errors="replace"))
        if ran.returncode or not told or ran.stdout.decode(errors="replace") != self.wanted:
            sys.exit(f"{' '.join(self.words)}: status {ran.returncode}, {ran.stdout!r}, {ran.stderr!r}, wanted {self.wanted!r}")
        cut, worked = int(told.group(1)), int(told.group(2))
        self.cut, self.worked, self.whole = min(self.cut, cut), min(self.worked, worked), min(self.whole, cut + worked)


class Txns:
    """Transactions of a kind, with so many bytes of data for a node, done so many times, in batches of a length, and as
    lists of a length, that of a batch where it isn't given."""

    def __init__(self, kind, count, size, times, length=LENGTH, list_length=None):
        self.words, self.done, self.length = [kind, count, size, times], count * times, length
        self.batches, self.groups = self.counts(length)
        self.list_length = list_length or length

    def counts(self, length):
        """How many batches of this length there are, and how many groups in all of them."""
        batches = self.done // length
        return batches, batches * (length if self.words[0] == "leaves" else PARENTS)

    def cut(self):
        return Load(["cut"] + self.words, 0, *self.counts(LENGTH))

    def move(self):
        return Load(["move"] + self.words, 0, *self.counts(LENGTH))

    def lent(self):
        return Load(["lend"] + self.words, self.done, 0, 0)

    def plain(self):
        return Load(["apply"] + self.words, self.done, 0, 0)

    def kept(self):
        return Load(["keep"] + self.words, self.done, 0, 0)

    def batch(self, workers):
        return Load(["batch"] + self.words + [workers, self.length], self.done, self.batches, self.groups)

    def inline(self):
        return Load(["inline"] + self.words + [self.list_length], self.done, 0, 0)

    def listed(self, workers):
        return Load(["list"] + self.words + [workers, self.length, self.list_length], self.done, 0, 0)


def small():
    return {
        "creates": Txns("creates", CREATES, SMALL, 1),
        "sets": Txns("sets", SETS, SMALL, TIMES),
        "leaves": Txns("leaves", SETS, SMALL, TIMES),
    }


def sized():
    sets = {f"sets of {size:,} bytes": Txns("sets", count, size, times) for size, (count, times) in SIZES.items()}
    return {**sets, **{multis(it): Txns("multis", LONG_MULTIS, LONG, LONG_TIMES, it) for it in LENGTHS}}


def multis(length):
    return f"multis, batches of {length}"


def lists():
    """Returns the lists by name, and whether they are so much work that several workers have to pay."""
    found = {name: (txns, False) for name, txns in small().items()}
    for length in SWEEP_LENGTHS:
        for size in SWEEP_SIZES:
            times = max(1, SWEEP_SIZES[-1] // size // 4)
            found[f"{length:,} sets of {size:,} bytes"] = (Txns("sets", 1024, size, times, length), size == SWEEP_SIZES[-1])
    found[f"{PAYING:,} multis"] = (Txns("multis", LONG_MULTIS, LONG, LONG_TIMES, PAYING), False)
    found[f"{LONG_MULTIS:,} multis, batches of {PAYING:,}"] = (
        Txns("multis", LONG_MULTIS, LONG, LONG_TIMES, PAYING, LONG_MULTIS), True)
    return found


def boards():
    return {it: Load(["board", WORKS, WORK_TIMES, it], WORKS * WORK_TIMES, 0, 0) for it in WORKERS}


def lists_measured(program, rounds):
    """Runs the loads of lists in turns. Returns for each its transactions, whether it is large, and its loads: lent, inline, by workers."""
    loads = {}
    for name, (txns, is_large) in lists().items():
        loads[name] = (txns, is_large, txns.lent(), txns.inline(), {it: txns.listed(it) for it in WORKERS})
    for _ in range(rounds):
        for _, _, lent, inline, by in loads.values():
            for load in [lent, inline] + list(by.values()):
                load.once(program)
    return loads


def lists_table(loads):
    """Prints nanoseconds a transaction, and how many times as fast each way is as one after the other without a list of outcomes."""
    ways = "".join(f"{it:>11}" for it in ["lent", "inline"] + [f"{it} workers" for it in WORKERS])
    ratios = "".join(f"{it:>11}" for it in ["inline"] + [f"{it} workers" for it in WORKERS])
    print(f"{'':<28}{'nanoseconds a transaction':>55}{'times as fast as lent ones':>44}")
    print(f"{'lists':<28}{ways}{ratios}")
    for name, (txns, _, lent, inline, by) in loads.items():
        all_ways = [lent, inline] + [by[it] for it in WORKERS]
        times = "".join(f"{it.worked / txns.done:>11,.0f}" for it in all_ways)
        print(f"{name:<28}{times}" + "".join(f"{lent.worked / it.worked:>11.2f}" for it in all_ways[1:]))


def lists_figures(loads):
    found = []
    for name, (_, is_large, _, inline, by) in loads.items():
        found.append((f"list of {name}: one worker's time against inline", by[1].worked / inline.worked, ONE_WORKER, True))
        found.append((f"list of {name}: times as fast with 4 workers as with one", by[1].worked / by[4].worked,
                      LARGE if is_large else None, False))
    return found


def measured(program, rounds):
    """Runs every load in turns. Returns for each kind its transactions with their loads: cut, moved, lent, plain, kept, by workers."""
    loads = {}
    for name, txns in {**small(), **sized()}.items():
        by = {it: txns.batch(it) for it in WORKERS}
        loads[name] = (txns, txns.cut(), txns.move(), txns.lent(), txns.plain(), txns.kept(), by)
    seats = boards()
    for _ in range(rounds):
        for _, cut, move, lent, plain, kept, by in loads.values():
            for load in [cut, move, lent, plain, kept] + list(by.values()):
                load.once(program)
        for load in seats.values():
            load.once(program)
    return loads, seats


def table(loads):
    """Prints nanoseconds a transaction: cut alone, moved alone, lent, plain, kept, and what workers took without cutting."""
    head = "".join(f"{f'{it} workers':>12}" for it in WORKERS)
    alone = "".join(f"{it:>10}" for it in ("cut", "moved", "lent", "plain", "kept"))
    print(f"{'nanoseconds a transaction':<34}{alone}{head}{'4 against 1':>13}{'against plain':>15}")
    for name, (txns, cut, move, lent, plain, kept, by) in loads.items():
        times = "".join(f"{by[it].worked / txns.done:>12,.0f}" for it in WORKERS)
        gain, over = by[1].worked / by[4].worked, plain.worked / min(by[it].whole for it in WORKERS)
        alone = "".join(f"{it / txns.done:>10,.0f}" for it in (cut.cut, move.cut, lent.worked, plain.worked, kept.worked))
        print(f"{name:<34}{alone}{times}{gain:>13.2f}{over:>15.2f}")
    print("against plain: how many times as fast the best number of workers is as one after the other, cutting included")


def figures(loads, seats):
    """Returns what each figure is about, the figure, its bound, and whether that is the most it may be."""
    found = []
    for name in ("creates", "sets", "leaves"):
        txns, cut, move, lent, plain, kept, by = loads[name]
        found.append((f"{name} moved into batches a second", txns.done / move.cut * 1e9, PER_SECOND, False))
        found.append((f"{name} cut as copies a second", txns.done / cut.cut * 1e9, None, False))
        if name != "leaves":
            found.append((f"{name}: one worker against kept ones, without cutting", by[1].worked / kept.worked, PLAIN, True))
        found.append((f"{name}: one worker against plain, without cutting", by[1].worked / plain.worked, None, True))
        found.append((f"{name}: one worker against plain, cutting included", by[1].whole / plain.worked, None, True))
        found.append((f"{name}: one worker against lent ones, without cutting", by[1].worked / lent.worked, None, True))
    for length in LENGTHS:
        *_, by = loads[multis(length)]
        bound = SPEEDUP if length >= PAYING else None
        found.append((f"{multis(length)}: times as fast with 4 workers as with one", by[1].worked / by[4].worked, bound, False))
        found.append(("the same, cutting included", by[1].whole / by[4].whole, None, False))
    for it, load in seats.items():
        found.append((f"nanoseconds a claim and a give, {it} workers", load.worked / (WORKS * WORK_TIMES), MICROSECOND, True))
    return found


def verdict(what, figure, bound, is_most):
    if bound is None:
        print(f"      {what}: {figure:,.2f}", flush=True)
        return True
    met = figure <= bound if is_most else figure >= bound
    print(f"{'PASS' if met else 'FAIL'}  {what}: {figure:,.2f} (at {'most' if is_most else 'least'} {bound:,})", flush=True)
    return met


def jiffies():
    """Returns the time that all processors counted, and how much of it was steal."""
    with open("/proc/stat", encoding="ascii") as stat:
        counts = [int(it) for it in stat.readline().split()[1:9]]
    return sum(counts), counts[7]


def main():
    parser = argparse.ArgumentParser(description=__doc__, formatter_class=argparse.RawDescriptionHelpFormatter)
    parser.add_argument("--rounds", type=int, default=5, help="how often each load is run (5)")
    parser.add_argument("--only", choices=("batches", "lists"), help="one part alone")
    parser.add_argument("program")
    options = parser.parse_args()
    machine("before")
    before = jiffies()
    program, found = os.path.abspath(options.program), []
    if options.only != "lists":
        loads, seats = measured(program, options.rounds)
        table(loads)
        found += figures(loads, seats)
    if options.only != "batches":
        loads = lists_measured(program, options.rounds)
        lists_table(loads)
        found += lists_figures(loads)
    after = jiffies()
    passes = [verdict(*it) for it in found]
    machine("after")
    print(f"steal meanwhile: {100 * (after[1] - before[1]) / max(1, after[0] - before[0]):.1f}%")
    return 0 if all(passes) else 1


if __name__ == "__main__":
    sys.exit(main())
