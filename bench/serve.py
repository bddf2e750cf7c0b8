#!/usr/bin/env python3
"""Measures the server over sockets on 127.0.0.1, beside a bare echo and beside the engine alone.

    bench/serve.py PROGRAM                  as bench/serve.py crates/replay_runner/out/replay_runner
    bench/serve.py PROGRAM --engine LOAD_RUNNER     the backlog beside crates/load_runner/out/load_runner too
    bench/serve.py PROGRAM --only backlog   one of sync, pipelined, words, idle, backlog
    bench/serve.py PROGRAM --before OTHER   beside an earlier program, in turns, and nothing else
    bench/serve.py PROGRAM --install        gets Debian's C compiler first, if there is none (as root)

The echo is bench/echo.c: one thread over epoll that answers each frame with one as long as the server's answer, and
does nothing else. Clients are bench/load.c; both are compiled by `cc` into a folder that is removed again. Measured are

- one client that waits for each answer, alone and beside 5,000 connections that say nothing, against one at the echo;
- 8 clients with 100 getDatas of 100 bytes under way each, in a tree of 100,103 nodes;
- the same with 10,000 watches set, while mntr is asked 100 times a second, against while the echo is asked as often;
- what 5,000 idle connections take of memory and of a processor;
- a backlog of 1,100,100 INFORMs over the leader's socket, against the engine alone.

What is compared takes turns in one run, several times. Other work on the machine shows in all figures, so the machine's
load is printed first and last, and each figure with the least and the greatest of its rounds. A bound is judged at the
best round, since other work makes a round worse and never better; that of mntr at the middle of many short windows
(bench/counted.py counts what the program itself takes for it). The exit status is 0 if all bounds are met.
"""
import argparse
import math
import pathlib
import queue
import re
import resource
import shutil
import socket
import statistics
import struct
import subprocess
import sys
import tempfile
import threading
import time

sys.dont_write_bytecode = True
import generate  # noqa: E402
from loads import informs  # noqa: E402
from run import machine  # noqa: E402

HERE = pathlib.Path(__file__).resolve().parent
PARENTS, CHILDREN, SETS, CONTENT, LONG_CONTENT = 100, 1000, 1_000_000, 16, 100
CLIENTS, DEPTH = 8, 100
WATCHES, ASKED, GET_DATA = 10_000, 100, 4
# What is asked changes from window to window. A window has so many seconds; how many fours of them make a round, which
# has to end before the server gives up the leader, who says nothing meanwhile.
WINDOW, FOURS = 0.25, 15
# A reply's header, a length, the data and a Stat.
ANSWER = 16 + 4 + LONG_CONTENT + 68
# About as many bytes as mntr is answered with.
WORDS_ANSWER = 440
# How many of them are asked while nothing else is.
ALONE = 2_000
EPOCH = generate.EPOCH << 32
NULL = generate.NULL
LEADERINFO, DIFF, NEWLEADER, UPTODATE, PING, REQUEST = 17, 13, 10, 12, 5, 1
CREATE_SESSION, CLOSE_SESSION = -10, -11
FIGURE = re.compile(r"rate=(\d+) p50=([\d.]+) p99=([\d.]+)")
OPEN_FILES = 20_000


def packet(kind, zxid, data=None):
    return struct.pack(">iq", kind, zxid) + (NULL if data is None else generate.text(data)) + NULL


def transactions(width, content, sets):
    """Returns the INFORMs that make the tree, and then set nodes by chance, as crates/load_runner makes them."""
    paths = [b"/p%02d" % parent for parent in range(PARENTS)]
    children = [b"%s/n%03d" % (parent, child) for parent in paths for child in range(width)]
    data = b"x" * content
    bodies = [(generate.CREATE, generate.create(it, data)) for it in paths + children]
    written = bytearray()
    for number, (kind, body) in enumerate(bodies, 1):
        written += generate.inform(number, kind, body)
    state, set_data = 1, [generate.set_data(it, data, 1) for it in children]
    for number in range(len(bodies) + 1, len(bodies) + 1 + sets):
        state = (state * 6364136223846793005 + 1442695040888963407) % 2**64
        written += generate.inform(number, generate.SET_DATA, set_data[(state >> 33) % len(set_data)])
    return bytes(written), len(bodies) + sets


class Server:
    """The program as a server behind a leader that this script plays. A thread takes what the observer sends, and
    creates the sessions that its clients ask for."""

    def __init__(self, program):
        with socket.create_server(("127.0.0.1", 0)) as listener:
            # This leader sends no PINGs, so its silence means nothing.
            words = [program, "serve", "--leader", str(listener.getsockname()[1]), "--client", "0", "--sync-limit", "0"]
            self.ran = subprocess.Popen(words, stdin=subprocess.DEVNULL, stdout=subprocess.PIPE, encoding="ascii")
            listener.settimeout(60)
            self.leader, _ = listener.accept()
        self.leader.setsockopt(socket.IPPROTO_TCP, socket.TCP_NODELAY, 1)
        self.answers = self.leader.makefile("rb")
        self.port = int(self.ran.stdout.readline().split()[1])
        self.bring_up()
        # The number of the last transaction, and who may send the next one.
        self.last, self.sending = 0, threading.Lock()
        self.pinged = queue.Queue()
        self.following = threading.Thread(target=self.follow, daemon=True)
        self.following.start()

    def __enter__(self):
        return self

    def __exit__(self, *_):
        self.leader.shutdown(socket.SHUT_RDWR)
        self.following.join()
        self.answers.close()
        self.leader.close()
        try:
            self.ran.wait(10)
        finally:
            self.ran.kill()
            self.ran.stdout.close()

    def answered(self):
        """Takes a packet of the observer, of which no client has shown an id, and returns its kind and data."""
        kind, _, length = struct.unpack(">iqi", self.answers.read(16))
        data = self.answers.read(max(length, 0))
        self.answers.read(4)
        return kind, data

    def follow(self):
        """Creates and closes sessions, and passes on that a PING was answered."""
        while True:
            try:
                kind, data = self.answered()
            except (OSError, ValueError, struct.error):
                return  # The observer, or this script, has closed the connection.
            if kind == PING:
                self.pinged.put(None)
            elif kind == REQUEST:
                session, xid, asked = struct.unpack(">qii", data[:16])
                if asked in (CREATE_SESSION, CLOSE_SESSION):
                    self.inform(asked, data[16:], session, xid)

    def inform(self, kind, body, session, xid):
        with self.sending:
            self.last += 1
            self.leader.sendall(generate.inform(self.last, kind, body, session=session, cxid=xid))

    def bring_up(self):
        self.answered()
        self.leader.sendall(packet(LEADERINFO, EPOCH, struct.pack(">i", 0x10000)))
        self.answered()
        self.leader.sendall(packet(DIFF, 0) + packet(NEWLEADER, EPOCH) + packet(UPTODATE, -1))
        self.answered()
        self.answered()

    def take(self, written, count):
        """Sends so many transactions, and returns the seconds until all of them have been done, which the answer to a
        PING shows."""
        with self.sending:
            began = time.perf_counter()
            self.leader.sendall(written + packet(PING, 0))
            self.last += count
        self.pinged.get()
        return time.perf_counter() - began

    def resident(self):
        """Returns the resident set in bytes."""
        with open(f"/proc/{self.ran.pid}/statm", encoding="ascii") as it:
            return int(it.read().split()[1]) * resource.getpagesize()

    def processor(self):
        """Returns the processor's seconds that it has used."""
        with open(f"/proc/{self.ran.pid}/stat", encoding="ascii") as it:
            fields = it.read().rpartition(")")[2].split()
        return (int(fields[11]) + int(fields[12])) / 100


class Tools:
    """The compiled load and echo."""

    def __init__(self, room):
        self.load, self.echo = room / "load", room / "echo"
        for it in (self.load, self.echo):
            source = HERE / f"{it.name}.c"
            subprocess.run(["cc", "-O2", "-o", str(it), str(source)], check=True)

    def read(self, port, clients, depth, options):
        """Returns the answers a second, and the microseconds of the middle one and of the last hundredth."""
        numbers = (port, clients, depth, options.seconds, PARENTS, options.children)
        words = [str(self.load), "read", *(str(it) for it in numbers)]
        done = subprocess.run(words, stdin=subprocess.DEVNULL, stdout=subprocess.PIPE, encoding="ascii", check=True)
        return tuple(float(it) for it in FIGURE.match(done.stdout).groups())


class Kept:
    """A tool that runs until its standard input ends, and says something first."""

    def __init__(self, *words):
        how = {"stdin": subprocess.PIPE, "stdout": subprocess.PIPE, "encoding": "ascii"}
        self.ran = subprocess.Popen([str(it) for it in words], **how)
        self.said = self.ran.stdout.readline().split()
        if not self.said:
            sys.exit(f"{words[0]} has ended with status {self.ran.wait()}")

    def __enter__(self):
        return self

    def __exit__(self, *_):
        self.ran.stdin.close()
        self.ran.stdout.close()
        self.ran.wait(20)


class Figures:
    """What the rounds gave, by name, and which bounds were met."""

    def __init__(self):
        self.found, self.passes = {}, []

    def add(self, name, figure):
        self.found.setdefault(name, []).append(figure)

    def shown(self, name, form):
        least, most = min(self.found[name]), max(self.found[name])
        return form.format(least) if len(self.found[name]) == 1 else f"{form.format(least)} to {form.format(most)}"

    def tell(self, name, form):
        print(f"      {name}: {self.shown(name, form)}", flush=True)

    def judge(self, name, form, least=None, most=None):
        """Prints a figure with its bound, which holds at the best round."""
        found = self.found[name]
        passes = max(found) >= least if least is not None else min(found) <= most
        bound = f"at least {form.format(least)}" if least is not None else f"at most {form.format(most)}"
        print(f"{'PASS' if passes else 'FAIL'}  {name}: {self.shown(name, form)} ({bound})", flush=True)
        self.passes.append(passes)

    def middle(self, name):
        """Returns the middle of many figures, and that with how far it may be off as a text."""
        found = self.found[name]
        middle = statistics.median(found)
        # The standard error of a median, if the figures are spread normally.
        error = 1.25 * statistics.stdev(found) / math.sqrt(len(found))
        return middle, f"{name}: {middle:.3f} in the middle of {len(found)}, give or take {error:.3f}"

    def judge_middle(self, name, least=None, most=None):
        """Prints the middle of many figures, how far it may be off, and its bound."""
        middle, shown = self.middle(name)
        passes = middle >= least if least is not None else middle <= most
        bound = f"at least {least}" if least is not None else f"at most {most}"
        print(f"{'PASS' if passes else 'FAIL'}  {shown} ({bound})", flush=True)
        self.passes.append(passes)


def sync(server, tools, options, figures):
    """One client, alone and beside idle connections, and the same at the echo; ratios are of one round."""
    for _ in range(options.rounds):
        with Kept(tools.echo, ANSWER) as echo:
            bare = tools.read(echo.said[1], 1, 1, options)
            alone = tools.read(server.port, 1, 1, options)
            with Kept(tools.load, "idle", server.port, options.idle):
                beside = tools.read(server.port, 1, 1, options)
        for name, it in (("echo", bare), ("server", alone), (f"server beside {options.idle:,} idle", beside)):
            figures.add(f"one client, {name}, round trips a second", it[0])
            figures.add(f"one client, {name}, microseconds of the middle one", it[1])
            figures.add(f"one client, {name}, microseconds of the last hundredth", it[2])
        figures.add("one client against the echo", alone[0] / bare[0])
        figures.add(f"beside {options.idle:,} idle connections against alone", beside[0] / alone[0])
    for name in list(figures.found):
        if name.startswith("one client, "):
            figures.tell(name, "{:,.0f}")
    figures.judge("one client against the echo", "{:.2f}", least=0.5)
    figures.judge(f"beside {options.idle:,} idle connections against alone", "{:.2f}", least=0.8)


def pipelined(server, tools, options, figures):
    for _ in range(options.rounds):
        with Kept(tools.echo, ANSWER) as echo:
            bare = tools.read(echo.said[1], CLIENTS, DEPTH, options)
        before = server.processor()
        found = tools.read(server.port, CLIENTS, DEPTH, options)
        figures.add("getDatas a second, echo", bare[0])
        figures.add("getDatas a second", found[0])
        figures.add("their microseconds, the last hundredth", found[2])
        figures.add("processors used meanwhile", (server.processor() - before) / (options.seconds + 0.3))
    print(f"{CLIENTS} clients with {DEPTH} getDatas of {LONG_CONTENT} bytes under way each")
    figures.tell("getDatas a second, echo", "{:,.0f}")
    figures.tell("their microseconds, the last hundredth", "{:,.0f}")
    figures.tell("processors used meanwhile", "{:.2f}")
    figures.judge("getDatas a second", "{:,.0f}", least=400_000)


class Watcher:
    """A client that watches many nodes."""

    def __init__(self, port, count):
        self.stream = socket.create_connection(("127.0.0.1", port))
        self.answers = self.stream.makefile("rb")
        connect = struct.pack(">iqiq", 0, 0, 30_000, 0) + generate.text(bytes(16))
        self.stream.sendall(generate.text(connect))
        self.answer()
        paths = [b"/p%02d/n%03d" % divmod(it, 100) for it in range(count)]
        requests = (struct.pack(">ii", xid, GET_DATA) + generate.text(path) + b"\1" for xid, path in enumerate(paths, 1))
        self.stream.sendall(b"".join(generate.text(it) for it in requests))
        for _ in paths:
            error = struct.unpack(">i", self.answer()[12:16])[0]
            if error:
                sys.exit(f"a watch wasn't set: {error}")

    def __enter__(self):
        return self

    def __exit__(self, *_):
        self.answers.close()
        self.stream.close()

    def answer(self):
        return self.answers.read(struct.unpack(">i", self.answers.read(4))[0])


def ask(port, word):
    """Returns the answer to a word, which is asked over a connection of its own."""
    with socket.create_connection(("127.0.0.1", port)) as stream, stream.makefile("rb") as answer:
        stream.sendall(word)
        return answer.read()


def ask_mntr(port):
    if b"zk_watch_count\t%d\n" % WATCHES not in ask(port, b"mntr"):
        sys.exit("mntr doesn't count the watches")


def ask_echo(port):
    """Asks the echo over a connection of its own, as a word is asked."""
    with socket.create_connection(("127.0.0.1", port)) as stream, stream.makefile("rb") as answer:
        stream.sendall(bytes(4))
        if len(answer.read(4 + WORDS_ANSWER)) != 4 + WORDS_ANSWER:
            sys.exit("the echo has ended")


def asked_in(window):
    """Returns what is asked in a window. In each four, whatever slows the machine steadily weighs on both alike."""
    is_mntr = window % 4 in (1, 2)
    return "mntr" if is_mntr == (window // 4 % 2 == 0) else "the echo"


class Asking:
    """Asks so many times a second, from a time on and until it is left, what the windows of it say."""

    def __init__(self, asked, begins, times):
        self.asked, self.begins, self.pause = asked, begins, 1 / times
        self.count = dict.fromkeys(asked, 0)
        self.ended = threading.Event()
        self.thread = threading.Thread(target=self.ask_all)

    def __enter__(self):
        self.thread.start()
        return self

    def __exit__(self, *_):
        self.ended.set()
        self.thread.join()

    def ask_all(self):
        due = self.begins
        while not self.ended.is_set():
            time.sleep(max(0, due - time.monotonic()))
            name = asked_in(int((time.monotonic() - self.begins) / WINDOW))
            ask, port = self.asked[name]
            ask(port)
            self.count[name] += 1
            due += self.pause


def compare_windows(figures, asked, counts):
    """Adds the rates of each four windows, and their ratio."""
    for first in range(0, len(counts), 4):
        came = dict.fromkeys(asked, 0)
        for window in range(first, first + 4):
            came[asked_in(window)] += counts[window]
        for name in asked:
            figures.add(f"getDatas a second, beside {name}", came[name] / (2 * WINDOW))
        figures.add("getDatas beside mntr against beside the echo", came["mntr"] / came["the echo"])


def words(server, tools, options, figures):
    """Reads with many watches set, while mntr is asked and while the echo is asked as often, so that what asking takes
    of the same processors is in both. The clients go on all through a round; what is asked changes four times a second,
    and each four of these windows gives a ratio, of which the middle one is judged. Besides, the processor's time that the
    server takes for an mntr while nothing else is asked, the kernel's for it included, against that for getDatas."""
    seconds = 4 * FOURS * WINDOW
    with Watcher(server.port, WATCHES), Kept(tools.echo, WORDS_ANSWER) as echo:
        before = server.processor()
        for _ in range(ALONE):
            ask_mntr(server.port)
        one = (server.processor() - before) / ALONE
        figures.add("microseconds of the processor for an mntr", 1e6 * one)
        asked = {"the echo": (ask_echo, int(echo.said[1])), "mntr": (ask_mntr, server.port)}
        numbers = (server.port, CLIENTS, DEPTH, WINDOW, 4 * FOURS, PARENTS, options.children)
        for _ in range(options.rounds):
            with Kept(tools.load, "windows", *numbers) as load:
                before = server.processor()
                with Asking(asked, float(load.said[0].partition("=")[2]), ASKED) as asking:
                    counts = [int(line) for line in load.ran.stdout]
                used = (server.processor() - before - asking.count["mntr"] * one) / seconds
            figures.add(f"of what getDatas take of the processor, {ASKED} mntr a second take", ASKED * one / used)
            for name in asked:
                figures.add(f"{name} a second", asking.count[name] / (seconds / 2))
            compare_windows(figures, asked, counts)
    print(f"{CLIENTS} clients with {DEPTH} getDatas under way each, {WATCHES:,} watches, {ASKED} questions a second")
    for name in asked:
        figures.tell(f"{name} a second", "{:,.0f}")
        figures.tell(f"getDatas a second, beside {name}", "{:,.0f}")
    figures.judge_middle("getDatas beside mntr against beside the echo", least=0.98)
    figures.tell("microseconds of the processor for an mntr", "{:.0f}")
    figures.judge(f"of what getDatas take of the processor, {ASKED} mntr a second take", "{:.4f}", most=0.02)


def idle(server, tools, options, figures):
    """What idle connections take; the first ones are opened before, so that what is taken once isn't counted."""
    for _ in range(options.rounds):
        with Kept(tools.load, "idle", server.port, 100):
            before = server.resident()
            began = time.perf_counter()
            with Kept(tools.load, "idle", server.port, options.idle):
                figures.add("seconds to open them", time.perf_counter() - began)
                figures.add("KiB a connection", (server.resident() - before) / options.idle / 1024)
                used = server.processor()
                time.sleep(options.seconds)
                figures.add("per cent of a processor", 100 * (server.processor() - used) / options.seconds)
    print(f"{options.idle:,} idle connections")
    figures.tell("seconds to open them", "{:.2f}")
    # Only the first round takes all of its memory anew.
    figures.found["KiB a connection"] = [max(figures.found["KiB a connection"])]
    figures.judge("KiB a connection", "{:.1f}", most=32)
    figures.judge("per cent of a processor", "{:.2f}", most=2)


def backlog(options, figures):
    written, count = transactions(options.children, CONTENT, options.sets)
    for _ in range(options.rounds):
        with Server(options.program) as server:
            figures.add("INFORMs a second over the socket", count / server.take(written, count))
        if options.engine:
            load = informs(PARENTS, options.children, options.sets)
            load.once(options.engine)
            figures.add("INFORMs a second of the engine alone", count / load.took)
            over = figures.found["INFORMs a second over the socket"][-1]
            figures.add("over the socket against the engine alone", over * load.took / count)
    print(f"a backlog of {count:,} INFORMs, {len(written) / 1e6:.0f} MB")
    figures.tell("INFORMs a second over the socket", "{:,.0f}")
    if options.engine:
        figures.tell("INFORMs a second of the engine alone", "{:,.0f}")
        figures.judge("over the socket against the engine alone", "{:.2f}", least=0.8)


def in_turns(options, tools, figures):
    """Both programs in turns: round trips, pipelined reads, and a backlog. Their best rounds are compared."""
    programs = {"now": options.program, "before": options.before}
    with Server(options.program) as now, Server(options.before) as before:
        servers = {"now": now, "before": before}
        for it in servers.values():
            it.take(*transactions(options.children, LONG_CONTENT, 0))
        for turn in range(options.rounds):
            for name in sorted(servers, reverse=turn % 2 == 0):
                for what, clients, depth in (("round trips", 1, 1), ("pipelined getDatas", CLIENTS, DEPTH)):
                    rate = tools.read(servers[name].port, clients, depth, options)[0]
                    figures.add(f"{what} a second, {name}", rate)
    written, count = transactions(options.children, CONTENT, options.sets)
    for turn in range(options.rounds):
        for name in sorted(programs, reverse=turn % 2 == 0):
            with Server(programs[name]) as server:
                figures.add(f"INFORMs a second, {name}", count / server.take(written, count))
    for what in ("round trips", "pipelined getDatas", "INFORMs"):
        for name in programs:
            figures.tell(f"{what} a second, {name}", "{:,.0f}")
        now, before = (max(figures.found[f"{what} a second, {name}"]) for name in programs)
        figures.add(f"{what}, now against before", now / before)
        figures.judge(f"{what}, now against before", "{:.2f}", least=0.97)


def read_options():
    parser = argparse.ArgumentParser(description=__doc__, formatter_class=argparse.RawDescriptionHelpFormatter)
    parser.add_argument("--engine", metavar="LOAD_RUNNER", help="an executable of crates/load_runner")
    parser.add_argument("--before", metavar="OTHER", help="an earlier program, to compare with in turns")
    parser.add_argument("--install", action="store_true", help="get a C compiler first, where there is none")
    parser.add_argument("--rounds", type=int, default=3, help="how often each is measured (3)")
    parser.add_argument("--seconds", type=float, default=3, help="how long a load lasts (3)")
    parser.add_argument("--only", choices=("sync", "pipelined", "words", "idle", "backlog"), help="one of the measurements")
    for name, number, what in (
        ("idle", 5000, "how many connections say nothing"),
        ("children", CHILDREN, "nodes below each of the 100 nodes below the root, at most 1000"),
        ("sets", SETS, "setDatas in the backlog"),
    ):
        parser.add_argument(f"--{name}", type=int, default=number, help=f"{what} ({number:,})")
    parser.add_argument("program")
    return parser.parse_args()


def has_compiler(options):
    """Returns whether there is a C compiler, after getting one where that is asked for."""
    if options.install and not shutil.which("cc"):
        for words in (["update"], ["install", "-y", "gcc", "libc6-dev"]):
            subprocess.run(["apt-get", *words], stdin=subprocess.DEVNULL, check=True)
    return shutil.which("cc") is not None


def main():
    options = read_options()
    if not has_compiler(options):
        sys.exit("there is no C compiler `cc` (--install gets one)")
    soft, hard = resource.getrlimit(resource.RLIMIT_NOFILE)
    most = hard if hard != resource.RLIM_INFINITY else OPEN_FILES
    resource.setrlimit(resource.RLIMIT_NOFILE, (max(soft, most), hard))
    figures = Figures()
    machine("before")
    with tempfile.TemporaryDirectory(prefix="bench-") as name:
        tools = Tools(pathlib.Path(name))
        if options.before:
            in_turns(options, tools, figures)
            machine("after")
            return 0 if all(figures.passes) else 1
        measured = {"sync": sync, "pipelined": pipelined, "words": words, "idle": idle}
        wanted = [it for it in measured if options.only in (None, it)]
        if wanted:
            with Server(options.program) as server:
                server.take(*transactions(options.children, LONG_CONTENT, 0))
                # Idle first, before the allocator has memory to spare.
                for it in sorted(wanted):
                    measured[it](server, tools, options, figures)
        if options.only in (None, "backlog"):
            backlog(options, figures)
    machine("after")
    return 0 if all(figures.passes) else 1


if __name__ == "__main__":
    sys.exit(main())
