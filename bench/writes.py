#!/usr/bin/env python3
"""Measures forwarded writes over sockets on 127.0.0.1, and what it costs that requests wait for the leader.

    bench/writes.py PROGRAM                 as bench/writes.py crates/replay_runner/out/replay_runner
    bench/writes.py PROGRAM --before OTHER  beside another program too, as one of an earlier version
    bench/writes.py PROGRAM --only waiting  one of pipelined, multis, waiting, before; `waiting` in no other way
    bench/writes.py PROGRAM --install       gets Debian's C compiler first, if there is none (as root)

The leader and the clients are bench/writes.c, one thread of one process; the leader does what comes at once. `cc`
compiles it into a folder that is removed again. Measured are

- pipelined: one client that sets a node and reads it, again and again, with 1,000 requests under way;
- multis: the same client, which sets the node by multis of 10 setDatas; each result is looked at;
- waiting: 1,000 connections with 1,000 requests each that wait for the leader: a setData or a sync, and getDatas that
  are held after it. Then the leader answers, connection by connection. The same is done with half the connections, and
  with half the requests on each, and the times that a request takes are compared. It is for programs whose engine
  holds such reads; a later one leaves all but a few of them in their sockets, and then this comes to no end;
- before: what doesn't wait, beside the other program: a backlog of INFORMs that answer nobody, and 8 clients with 100
  getDatas under way each.

Each reply is looked at: it comes in its turn, and a read shows the write before it and none after it. What is compared
takes turns in one run, several times. Other work on the machine makes a round worse and never better, so a bound is
judged at the best round, and a comparison is one of the best rounds; each figure is printed with the least and the
greatest of its rounds. The exit status is 0 if all bounds are met.
"""
import argparse
import contextlib
import pathlib
import resource
import signal
import subprocess
import sys
import tempfile
import threading

sys.dont_write_bytecode = True
from run import machine  # noqa: E402
from serve import CHILDREN, CLIENTS, DEPTH, FIGURE, OPEN_FILES, PARENTS, SETS  # noqa: E402
from serve import Figures, has_compiler, transactions  # noqa: E402

HERE = pathlib.Path(__file__).resolve().parent
CONTENT, UNDER_WAY, CONNECTIONS, REQUESTS = 16, 1000, 1000, 1000
LEAST_WRITES, MOST_APART, LEAST_OF_OTHER = 20_000, 1.3, 0.95
# How many seconds a program may take to begin, to do a command beyond the time that this asks for, and to end.
BEGINNING, DOING, ENDING = 60, 300, 20
PARTS = 10
MEASURED = ("pipelined", "multis", "waiting", "before")


def line_of(ran, seconds):
    """Returns the words of the next line that a program prints. A program that takes longer is killed."""
    ending = threading.Timer(seconds, ran.kill)
    ending.start()
    try:
        line = ran.stdout.readline()
    finally:
        ending.cancel()
    if not line:
        ran.kill()
        sys.exit(f"{ran.args[0]} has ended with status {ran.wait()}")
    return line.decode("ascii").split()


@contextlib.contextmanager
def running(*words):
    """A program that runs until the block ends. By then it has been told to end, or the end of its input tells it."""
    ran = subprocess.Popen([str(it) for it in words], stdin=subprocess.PIPE, stdout=subprocess.PIPE, bufsize=0)
    ending = threading.Timer(ENDING, ran.kill)
    try:
        yield ran
        ran.stdin.close()
        ending.start()
        if ran.wait():
            sys.exit(f"{words[0]} has ended with status {ran.returncode}")
    finally:
        ending.cancel()
        ran.kill()
        ran.wait()
        ran.stdin.close()
        ran.stdout.close()


class Observer:
    """The program as an observer, and the process that is its leader and its clients."""

    def __init__(self, peers, ran, port):
        self.peers, self.ran, self.port = peers, ran, port

    def does(self, *words, seconds=0):
        """Has leader and clients do a command, which lasts so long. Returns the figures that they tell."""
        self.peers.stdin.write((" ".join(str(it) for it in words) + "\n").encode("ascii"))
        told = (it.split("=") for it in line_of(self.peers, seconds + DOING))
        return {name: float(figure) for name, figure in told}

    def resident(self):
        """Returns the resident set in bytes."""
        with open(f"/proc/{self.ran.pid}/statm", encoding="ascii") as it:
            return int(it.read().split()[1]) * resource.getpagesize()

    @contextlib.contextmanager
    def clients(self, count):
        """So many connections with a session each. Their sessions are closed again."""
        self.does("open", self.port, count)
        yield
        self.does("close")


class Tools:
    """The compiled leader with its clients, the clients that read alone, and the folder that they are in."""

    def __init__(self, room):
        self.room, self.writes, self.load = room, room / "writes", room / "load"
        for it in (self.writes, self.load):
            subprocess.run(["cc", "-O2", "-o", str(it), str(HERE / f"{it.name}.c")], check=True)

    @contextlib.contextmanager
    def observer(self, program):
        """The program behind a leader. It ends when the leader has gone."""
        with running(self.writes) as peers:
            leader = line_of(peers, BEGINNING)[1]
            # This leader sends no PINGs, so its silence means nothing.
            with running(program, "serve", "--leader", leader, "--client", "0", "--sync-limit", "0") as ran:
                yield Observer(peers, ran, line_of(ran, BEGINNING)[1])
                peers.stdin.close()

    def reads(self, port, options):
        """Returns how many getDatas are answered in a second."""
        numbers = (port, CLIENTS, DEPTH, options.seconds, PARENTS, options.children)
        words = [str(it) for it in (self.load, "read", *numbers)]
        with running(*words) as ran:
            return float(FIGURE.match(" ".join(line_of(ran, options.seconds + DOING))).group(1))


def pipelined(tools, options, figures, parts=0):
    """Writes that are setDatas, or multis of so many."""
    write = f"multi of {parts} setDatas" if parts else "setData"
    with tools.observer(options.program) as observer:
        for _ in range(options.rounds):
            with observer.clients(1):
                words = ("pipeline", UNDER_WAY, options.seconds, parts)
                found = observer.does(*words, seconds=options.seconds)
            figures.add(f"each a {write}: writes a second", found["writes"] / found["seconds"])
            figures.add(f"{write}: processors that leader and client took", found["used"] / found["seconds"])
    print(f"one client with {UNDER_WAY:,} requests under way: a {write}, a getData of the node, and so on")
    figures.tell(f"{write}: processors that leader and client took", "{:.2f}")
    figures.judge(f"each a {write}: writes a second", "{:,.0f}", least=LEAST_WRITES)


class Shape:
    """So many connections, on each of which so many requests wait: a `write` or a `sync`, and getDatas after it."""

    def __init__(self, connections, requests, front):
        self.connections, self.requests, self.front = connections, requests, front
        self.size = f"{connections:,} x {requests:,}"
        self.name = f"{self.size} after a {front}"

    def measure(self, observer, figures):
        """Has the requests wait, and answers them. Returns how many bytes one takes while it waits."""
        count = self.connections * self.requests
        with observer.clients(self.connections):
            before = observer.resident()
            held = observer.does("hold", self.requests, self.front)["seconds"]
            memory = (observer.resident() - before) / count
            answered = observer.does("answer")["seconds"]
        figures.add(f"{self.name}, microseconds to take one", 1e6 * held / count)
        figures.add(f"{self.name}, microseconds to answer one", 1e6 * answered / count)
        return memory

    def judge(self, other, what, figures):
        """Judges how many times as long a request takes in the slower one of both, at the best round of each."""
        least = [min(figures.found[f"{it.name}, {what}"]) for it in (self, other)]
        name = f"{self.size} against {other.size}, times apart"
        figures.found[name] = [max(least) / min(least)]
        figures.judge(name, "{:.2f}", most=MOST_APART)


def waiting(tools, options, figures, front):
    connections, requests = options.connections, options.requests
    whole = Shape(connections, requests, front)
    halves = [Shape(connections // 2, requests, front), Shape(connections, requests // 2, front)]
    memory = []
    with tools.observer(options.program) as observer:
        for _ in range(options.rounds):
            memory.append(whole.measure(observer, figures))
            for it in halves:
                it.measure(observer, figures)
    print(f"connections x requests that wait on each: a {front}, and getDatas after it")
    # Only the first round takes all of its memory anew.
    print(f"      bytes that a request takes while it waits: {max(memory):,.0f}")
    for what in ("microseconds to take one", "microseconds to answer one"):
        figures.tell(f"{whole.name}, {what}", "{:.2f}")
        for it in halves:
            figures.tell(f"{it.name}, {what}", "{:.2f}")
            it.judge(whole, what, figures)


def beside(tools, options, figures):
    """What doesn't wait, by both programs in turns."""
    written, count = transactions(options.children, CONTENT, options.sets)
    backlog = tools.room / "backlog"
    backlog.write_bytes(written)
    programs = {"PROGRAM": options.program, "OTHER": options.before}
    for _ in range(options.rounds):
        for name, program in programs.items():
            with tools.observer(program) as observer:
                seconds = observer.does("feed", backlog, count)["seconds"]
                figures.add(f"{name}, INFORMs a second", count / seconds)
                figures.add(f"{name}, getDatas a second", tools.reads(observer.port, options))
    print(f"a backlog of {count:,} INFORMs; {CLIENTS} clients with {DEPTH} getDatas under way each")
    for what in ("INFORMs a second", "getDatas a second"):
        best = [max(figures.found[f"{name}, {what}"]) for name in programs]
        for name in programs:
            figures.tell(f"{name}, {what}", "{:,.0f}")
        figures.add(f"{what}, PROGRAM against OTHER", best[0] / best[1])
        figures.judge(f"{what}, PROGRAM against OTHER", "{:.3f}", least=LEAST_OF_OTHER)


def read_options():
    parser = argparse.ArgumentParser(description=__doc__, formatter_class=argparse.RawDescriptionHelpFormatter)
    parser.add_argument("--before", metavar="OTHER", help="another program, to be compared with")
    parser.add_argument("--install", action="store_true", help="get a C compiler first, where there is none")
    parser.add_argument("--rounds", type=int, default=5, help="how often each is measured (5)")
    parser.add_argument("--seconds", type=float, default=3, help="how long a client writes, and clients read (3)")
    parser.add_argument("--only", choices=MEASURED, help="one of the measurements")
    for name, number, what in (
        ("connections", CONNECTIONS, "on how many connections requests wait, 2 to 10,000"),
        ("requests", REQUESTS, "how many requests wait on each, 2 to 1,024"),
        ("children", CHILDREN, "nodes below each of the 100 nodes below the root, at most 1000"),
        ("sets", SETS, "setDatas in the backlog"),
    ):
        parser.add_argument(f"--{name}", type=int, default=number, help=f"{what} ({number:,})")
    parser.add_argument("program")
    options = parser.parse_args()
    if options.only == "before" and not options.before:
        parser.error("--only before wants --before")
    return options


def measure(tools, options, figures):
    wanted = [options.only] if options.only else [it for it in MEASURED if it != "waiting"]
    if "pipelined" in wanted:
        pipelined(tools, options, figures)
    if "multis" in wanted:
        pipelined(tools, options, figures, PARTS)
    if "waiting" in wanted:
        for front in ("write", "sync"):
            waiting(tools, options, figures, front)
    if "before" in wanted and options.before:
        beside(tools, options, figures)


def main():
    options = read_options()
    if not has_compiler(options):
        sys.exit("there is no C compiler `cc` (--install gets one)")
    # A signal that ends this ends what it runs, too.
    signal.signal(signal.SIGTERM, lambda *_: sys.exit(1))
    soft, hard = resource.getrlimit(resource.RLIMIT_NOFILE)
    most = hard if hard != resource.RLIM_INFINITY else OPEN_FILES
    resource.setrlimit(resource.RLIMIT_NOFILE, (max(soft, most), hard))
    figures = Figures()
    machine("before")
    with tempfile.TemporaryDirectory(prefix="bench-") as name:
        measure(Tools(pathlib.Path(name)), options, figures)
    machine("after")
    return 0 if all(figures.passes) else 1


if __name__ == "__main__":
    sys.exit(main())
