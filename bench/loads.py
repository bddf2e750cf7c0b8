"""Loads that crates/load_runner puts on an engine, for the scripts beside this one.

load_runner makes all messages before the part that is measured, and tells what that took: the nanoseconds by the clock
and of the processor, and by how many KiB its resident set grew at most. So neither making messages nor holding them is
part of a figure.
"""
import re
import subprocess
import sys

MOST_SECONDS = 120
TOLD = re.compile(r"took=(\d+) processor=(\d+) memory=(\d+)\n")
# The frame that answers a connect; a header of a reply with the frame's length; and a Stat.
CONNECTED, HEADER, STAT = 40, 20, 68
# The data of nodes that are read, and of those that are only written.
LONG_CONTENT, CONTENT = 100, 16


class Load:
    """A load, what it must print, and the least that its measured part took."""

    def __init__(self, words, **wanted):
        self.words, self.wanted = [str(it) for it in words], {name: str(it) for name, it in wanted.items()}
        self.took = self.seconds = self.memory = float("inf")

    def text(self):
        return " ".join(self.words)

    def once(self, program):
        """Runs it, and looks at what it prints."""
        how = {"stdin": subprocess.DEVNULL, "capture_output": True, "encoding": "ascii", "timeout": MOST_SECONDS}
        ran = subprocess.run([program] + self.words, **how)
        counts = dict(it.partition("=")[::2] for it in ran.stdout.split())
        if ran.returncode or any(counts.get(name) != it for name, it in self.wanted.items()):
            sys.exit(f"{self.text()}: status {ran.returncode} and {ran.stdout[:200]!r}, wanted {self.wanted}")
        told = TOLD.fullmatch(ran.stderr)
        if not told:
            sys.exit(f"{program} doesn't tell what {self.text()} takes: {ran.stderr[:200]!r}")
        took, processor, memory = (int(it) for it in told.groups())
        self.took, self.seconds = min(self.took, took / 1e9), min(self.seconds, processor / 1e9)
        self.memory = min(self.memory, memory * 1024)

    def row(self):
        return f"{self.text():<44}{self.seconds:>10.2f}{self.memory / 2**20:>8.0f}"


def heading():
    return f"{'load':<44}{'processor':>10}{'MiB':>8}"


def informs(parents, children, sets):
    """Creates of a tree, and setDatas of its nodes."""
    return Load([parents, children, sets, 0], transactions=parents * (1 + children) + sets, replies=0, events=0)


def writes(kind, parents, children, number, connections, together):
    """Requests that go to the leader, whose transactions answer them."""
    words = ["writes", kind, parents, children, number, connections, together]
    made, asked = parents * (1 + children), connections + number
    load = Load(words, transactions=made + asked, replies=asked, events=0, packets=asked)
    if kind == "sets":
        load.wanted["bytes"] = str(connections * CONNECTED + number * (HEADER + STAT))
    return load


def turns(parents, children, connections, number, every):
    """getDatas of many connections in turn."""
    read = connections * number
    length = connections * CONNECTED + read * (HEADER + 4 + LONG_CONTENT + STAT)
    words = ["turns", parents, children, connections, number, every]
    return Load(words, replies=connections + read, events=0, packets=connections, bytes=length)
