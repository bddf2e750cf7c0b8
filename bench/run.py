#!/usr/bin/env python3
"""Times the program on large scripts, and prints the figures of one run side by side.

    bench/run.py PROGRAM [ARG ..]                    as bench/run.py crates/replay_runner/out/replay_runner
    bench/run.py PROGRAM --against OTHER             which of two programs replays the same scripts faster
    bench/run.py --engine LOAD_RUNNER                the engine alone, under loads of crates/load_runner
    bench/run.py --engine LOAD_RUNNER --against OTHER    which of two such executables has the faster engine

It makes scripts by bench/generate.py, and `PROGRAM ARG .. replay SCRIPT` runs on them. The number n of messages doubles
until a run takes long enough. Three ratios are judged: 2n messages take at most 2.2 times as long as n; the same bytes
in pieces of 100 bytes take at most 1.5 times as long as in one piece; and if long messages come in such pieces,
messages twice as long take at most 2.2 times as long. Each time is the least of several runs, of which those that are
compared take turns. An engine alone has to take 300,000 INFORMs a second. Against another program the scripts, or the
engine's loads, are the same, both take turns, and the processor's times are compared: the ratio is 1 if both are as
fast, and above 1 if PROGRAM is faster, which is what passes. A program that writes something else than it should, or
takes two minutes, is refused. Times of a script are of the whole program, so they hold reading its hexadecimal digits
and printing the replies. Those of an engine hold no making of messages (bench/loads.py). The exit status is 0 if all
pass.
"""
import argparse
import hashlib
import os
import pathlib
import subprocess
import sys
import tempfile
import threading
import time

sys.dont_write_bytecode = True
import generate  # noqa: E402
import loads  # noqa: E402

MOST_MESSAGES, MOST_SECONDS = 1 << 23, 120
TWICE, PIECES, PIECE = 2.2, 1.5, 100
LONG_ENTRIES = 50_000
# The engine's tree: nodes below the root, and nodes below each of these.
TREE = 100, 1000
INFORMS, WRITES, READS = 1_000_000, 400_000, 400_000
# The clients that write have so many requests under way in all.
WRITERS, TOGETHER = 100, 100
READERS, WATCHING = 1000, 10
# How many INFORMs a second an engine takes at least.
LEAST_INFORMS = 300_000


def timed(words, out):
    """Runs a program. Returns its exit status, the seconds by the clock, and what it used of processor and memory."""
    began = time.perf_counter()
    child = subprocess.Popen(words, stdin=subprocess.DEVNULL, stdout=out)
    ending = threading.Timer(MOST_SECONDS, child.kill)
    ending.start()
    _, status, used = os.wait4(child.pid, 0)
    ending.cancel()
    seconds = time.perf_counter() - began
    child.returncode = os.WEXITSTATUS(status) if os.WIFEXITED(status) else -os.WTERMSIG(status)
    return child.returncode, seconds, used


class Run:
    """A script, and what a program's runs on it took."""

    def __init__(self, name, work, cut, words, room):
        self.name, self.number, self.words = name, work.number, words
        self.script, self.output = room / f"{name}.script", room / f"{name}.output"
        with open(self.script, "w", encoding="ascii") as out:
            generate.write(work, cut, out)
        self.reads, self.last_line = work.reads, work.last_line()
        self.seconds = self.processor = float("inf")
        self.memory = 0
        self.digest = None

    def once(self):
        with open(self.output, "wb") as out:
            status, seconds, used = timed(self.words + ["replay", str(self.script)], out)
        self.seconds = min(self.seconds, seconds)
        self.processor = min(self.processor, used.ru_utime + used.ru_stime)
        self.memory = max(self.memory, used.ru_maxrss)
        self.judge(status)

    def judge(self, status):
        """Stops where the program didn't do all of the work."""
        written = self.output.read_bytes()
        self.digest = hashlib.sha256(written).hexdigest()
        replies = written.split(b"\n")
        wanted = self.reads + 1
        if status or len(replies) != wanted + 1 or replies[-2].decode("ascii", "replace") != self.last_line:
            last = replies[-2] if len(replies) > 1 else b""
            sys.exit(
                f"{self.name}: the program ended with status {status}, {len(replies) - 1} lines (wanted {wanted}) "
                f"and the last line {last[:200]!r} (wanted {self.last_line!r})"
            )

    def row(self):
        rate = self.number / self.seconds
        return (
            f"{self.name:<34}{self.number:>10,}{self.seconds:>10.2f}{self.processor:>11.2f}"
            f"{self.memory / 1024:>8.0f}{rate:>14,.0f}"
        )

    def clear(self):
        self.script.unlink()
        self.output.unlink()


def compare(runs, rounds):
    """Runs two scripts in turn, prints both rows and returns how many times as long the second one takes."""
    for _ in range(rounds):
        for it in runs:
            it.once()
    for it in runs:
        print(it.row(), flush=True)
        it.clear()
    return runs[1].seconds / runs[0].seconds


def enough(options, number, cut, room, work_of=None):
    """Returns the number of messages, doubled from the one given, with which a run takes long enough to be measured."""
    while True:
        work = work_of(number) if work_of else work_with(options, number)
        trial = Run("trial", work, cut, options.words, room)
        trial.once()
        trial.clear()
        if trial.seconds > options.seconds or number >= MOST_MESSAGES:
            return number
        number *= 2


def work_with(options, number):
    return generate.Work(number, options.parents, options.reads_every, options.content)


def in_length(options, room):
    """Runs n and 2n messages. Returns how many times as long the second takes, and the messages a second of the first."""
    number = enough(options, 1000, "message", room)
    one = Run("n, a line each", work_with(options, number), "message", options.words, room)
    two = Run("2n, a line each", work_with(options, 2 * number), "message", options.words, room)
    ratio = compare([one, two], options.rounds)
    return ratio, one.number / one.seconds


def in_pieces(options, room):
    """Runs the same bytes uncut and cut. Returns how many times as long the second takes, and whether both write the same."""
    number = enough(options, 1000, "whole", room)
    whole = Run("n, all in one piece", work_with(options, number), "whole", options.words, room)
    cut = Run(f"n, in pieces of {PIECE} bytes", work_with(options, number), str(PIECE), options.words, room)
    ratio = compare([whole, cut], options.rounds)
    return ratio, whole.digest == cut.digest


def in_long_messages(options, room):
    """Runs long messages in pieces, and the same number of twice as long ones, and returns the ratio."""
    number = enough(options, 1, str(PIECE), room, lambda it: generate.LongWork(it, LONG_ENTRIES))
    once, twice = (generate.LongWork(number, many) for many in (LONG_ENTRIES, 2 * LONG_ENTRIES))
    one = Run(f"long ones, {PIECE} bytes a piece", once, str(PIECE), options.words, room)
    two = Run(f"twice as long ones, {PIECE} bytes", twice, str(PIECE), options.words, room)
    return compare([one, two], options.rounds)


def against(options, room):
    """Runs both programs on the same scripts. Returns how many times as fast the first is on each."""
    ratios = []
    for cut in ("message", str(PIECE)):
        number = enough(options, 1000, cut, room)
        what = "a line each" if cut == "message" else f"in pieces of {cut} bytes"
        one = Run(f"n, {what}", work_with(options, number), cut, options.words, room)
        other = Run(f"the other, {what}", work_with(options, number), cut, [options.against], room)
        compare([one, other], options.rounds)
        ratios.append((f"replay, {what}", other.processor / one.processor))
        if one.digest != other.digest:
            sys.exit(f"the two programs write different bytes: n {number}, {what}")
    return ratios


def engine_loads():
    """Returns the loads of an engine: what each is of, how many there are, and the load."""
    each = READS // READERS
    return [
        ("INFORMs", TREE[0] * (1 + TREE[1]) + INFORMS, loads.informs(*TREE, INFORMS)),
        ("forwarded setDatas", WRITES, loads.writes("sets", *TREE, WRITES, WRITERS, TOGETHER)),
        ("forwarded creates", WRITES, loads.writes("creates", *TREE, WRITES, WRITERS, TOGETHER)),
        (f"getDatas of {READERS:,} clients in turn", READS, loads.turns(*TREE, READERS, each, 0)),
        (f"the same, one of {WATCHING} watching", READS, loads.turns(*TREE, READERS, each, WATCHING)),
    ]


def engine_rates(options):
    """Gives the engines the same loads, in turns. Returns what each load is of, and each engine's number a second."""
    programs = [options.program] + ([options.against] if options.against else [])
    of = {program: engine_loads() for program in programs}
    for _ in range(options.rounds):
        for rows in zip(*of.values()):
            for program, (_, _, load) in zip(programs, rows):
                load.once(program)
    names = [what for what, _, _ in of[programs[0]]]
    return [(what, [number / load.seconds for _, number, load in rows]) for what, rows in zip(names, zip(*of.values()))]


def engines(options):
    """Prints what the engine does in a second. Returns whether INFORMs are enough, or all as fast as the other's."""
    found = engine_rates(options)
    for what, rates in found:
        beside = f" (the other {rates[1]:,.0f})" if options.against else ""
        print(f"{what}: {rates[0]:,.0f} a second of the processor, {1e6 / rates[0]:.2f} us each{beside}", flush=True)
    if options.against:
        return are_faster([(what, rates[0] / rates[1]) for what, rates in found])
    enough_informs = found[0][1][0] >= LEAST_INFORMS
    print(f"{'PASS' if enough_informs else 'FAIL'}  INFORMs a second: at least {LEAST_INFORMS:,}", flush=True)
    return enough_informs


def are_faster(ratios):
    """Prints how many times as fast the first program is. Returns whether it is as fast at least."""
    for what, ratio in ratios:
        print(f"{'PASS' if ratio >= 1 else 'FAIL'}  {what}: {ratio:.3f} times as fast as the other (at least 1)", flush=True)
    return all(ratio >= 1 for _, ratio in ratios)


def verdict(what, ratio, most):
    word = "PASS" if ratio <= most else "FAIL"
    print(f"{word}  {what}: {ratio:.2f} times as long (at most {most})", flush=True)
    return ratio <= most


def machine(when):
    load = ", ".join(f"{it:.2f}" for it in os.getloadavg())
    print(f"{when}: {os.cpu_count()} cores, load of the last 1, 5 and 15 minutes {load}", flush=True)


def judged_alone(options, room):
    """Judges the three ratios. Returns whether all pass."""
    ratio, rate = in_length(options, room)
    passes = [verdict("2n messages against n", ratio, TWICE)]
    ratio, is_same = in_pieces(options, room)
    passes += [verdict(f"pieces of {PIECE} bytes against one piece", ratio, PIECES), is_same]
    print(f"{'PASS' if is_same else 'FAIL'}  both cuts are answered in the same bytes")
    passes += [verdict("messages twice as long, in pieces", in_long_messages(options, room), TWICE)]
    print(f"transactions a second, through a script: {rate:,.0f}")
    return all(passes)


def read_options():
    parser = argparse.ArgumentParser(description=__doc__, formatter_class=argparse.RawDescriptionHelpFormatter)
    parser.add_argument("--seconds", type=float, default=1.2, help="how long a run of n messages takes at least (1.2)")
    parser.add_argument("--rounds", type=int, default=3, help="how often each script is run (3)")
    parser.add_argument("--against", metavar="OTHER", help="another program, to be compared with")
    parser.add_argument("--engine", action="store_true", help="the programs are executables of crates/load_runner")
    generate.options(parser)
    parser.add_argument("program")
    parser.add_argument("arguments", nargs="*")
    options = parser.parse_args()
    options.words = [options.program] + options.arguments
    return options


def main():
    options = read_options()
    machine("before")
    with tempfile.TemporaryDirectory(prefix="bench-") as name:
        room = pathlib.Path(name)
        if options.engine:
            passes = engines(options)
        else:
            print(f"{'':<34}{'messages':>10}{'seconds':>10}{'processor':>11}{'MiB':>8}{'messages/s':>14}")
            passes = are_faster(against(options, room)) if options.against else judged_alone(options, room)
    machine("after")
    return 0 if passes else 1


if __name__ == "__main__":
    sys.exit(main())
