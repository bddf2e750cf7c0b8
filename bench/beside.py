#!/usr/bin/env python3
"""Measures this program and ZooKeeper's own observer, in turns beside one real leader, over sockets on 127.0.0.1.

    bench/beside.py PROGRAM                   as bench/beside.py crates/replay_runner/out/replay_runner
    bench/beside.py PROGRAM --only reads      some of trips, reads, informs, writes, memory
    bench/beside.py PROGRAM --large           the memory beside 1,000,000 nodes too
    bench/beside.py PROGRAM --out FILE.json   keeps all numbers, of which bench/plot.py draws pictures
    bench/beside.py --table FILE.json         prints such a file as the table of docs/PERFORMANCE.md, without measuring

It needs Debian's zookeeper, Java and a C compiler, as tests/real/run does (`tests/real/run --install` gets them). The
leader is the only voter of its ensemble. It has the default settings of tests/real/defaults.py, and each server of Java
has the heap that ZooKeeper's own start script gives it (`--heap`). Servers of Java don't wait for the disk (`--fsync`
lets them), so that no figure is one of the disk. Both observers stand in the configuration. Only the one that is
measured runs, but for `followed`. Each turn starts it anew; before it is measured it does reads and writes for some
seconds that aren't counted, so that Java has compiled what it runs often. The clients are bench/load.c; they wake
servers that leave writes undone, and the file says how often. Measured are

- trips: one client that waits for the answer to each getData of 100 bytes, in a tree of 100,100 nodes;
- reads: getDatas a second for 1 to 32 clients with 100 of them under way each;
- informs: one client makes 200,000 setDatas at the leader, 500 under way, and reads the last of them at the observer
  until that shows it. Counted are the setDatas a second until then; how long after the leader's last answer that was;
  and the setDatas a second that the leader answered, which no observer can be faster than. So the same is done with
  50,000 setDatas while the observer's process stands still, and the backlog is counted from when it goes on;
- writes: setDatas a second through the observer, with 100 under way;
- memory: the resident set of an observer that has followed the leader from an empty tree to one of so many nodes of 100
  bytes (`followed`, where both observers run), and of one that is started beside such a tree and reads no old files
  (`started`); and the seconds from the start of its process to the answer to its first read (`first`).

Each figure is printed with the least and the greatest of its rounds, and with the ratio of the best ones. Below is what
the observer's process took of a processor, in microseconds for each getData or setData, or in seconds.
"""
import argparse
import contextlib
import datetime
import json
import os
import pathlib
import re
import resource
import shutil
import signal
import subprocess
import sys
import tempfile
import textwrap
import time
from typing import NamedTuple

sys.dont_write_bytecode = True
HERE = pathlib.Path(__file__).resolve().parent
sys.path.append(str(HERE.parent / "tests" / "real"))
import defaults  # noqa: E402
import lab  # noqa: E402
from client import GET_DATA, Client, Gone  # noqa: E402
from jute import boolean, text  # noqa: E402
from run import machine  # noqa: E402
from serve import has_compiler  # noqa: E402

OURS, JAVA = "ours", "java"
NAMES = {OURS: "this program", JAVA: "ZooKeeper's"}
MEASURED = ("trips", "reads", "informs", "writes", "memory")
# The trees: nodes that are read, and nodes that are set. Parents are counted as nodes.
PARENTS, CHILDREN, SET_CHILDREN, LENGTH = 100, 1000, 100, 100
READ, SET = "p", "n"
CLIENTS, DEPTH = (1, 2, 4, 8, 16, 32), 100
# How many clients read before an observer is measured, and how many times as long the leader is written to beforehand.
WARM_CLIENTS, LEADER_WARM = 8, 3
# A leader gives up an observer that stands still for ten seconds, so the backlog has to be made within less.
WRITES, BACKLOG, LEADER_DEPTH = 200_000, 50_000, 500
NODES, LARGE = (0, 10_000, 50_000, 100_000), 1_000_000
# MiB: what bin/zkEnv.sh of ZooKeeper gives a server.
HEAP = 1000
MAIN = "org.apache.zookeeper.server.quorum.QuorumPeerMain"
# Seconds: until a server serves, and until a client has done what it does beyond the time that it is given.
STARTING, DOING, PAUSE = 120, 300, 0.005
TICKS = os.sysconf("SC_CLK_TCK")


class Kind(NamedTuple):
    """What is measured: a text, in which {at:,} is where and {depth} how many are under way, a unit, a format of
    numbers, whether more is better, and what one operation is, where processor time is told by operations."""

    text: str
    unit: str
    form: str
    is_more_better: bool
    operation: str = ""


KINDS = {
    "trips": Kind("round trips: one client, one getData at a time", "a second", "{:,.0f}", True, "getData"),
    "reads": Kind("getDatas, {depth} under way each, clients: {at:,}", "a second", "{:,.0f}", True, "getData"),
    "informs": Kind("INFORMs while a client writes at the leader", "a second", "{:,.0f}", True, "setData"),
    "led": Kind("the leader's answers to that client", "a second", "{:,.0f}", True),
    "behind": Kind("from its last answer until the observer shows it", "ms", "{:,.1f}", False),
    "backlog": Kind("INFORMs of a backlog of {at:,}", "a second", "{:,.0f}", True, "setData"),
    "writes": Kind("setDatas through the observer, {depth} under way", "a second", "{:,.0f}", True, "setData"),
    "followed": Kind("resident, having followed {at:,} creates", "MiB", "{:,.0f}", False, "create"),
    "started": Kind("resident, just started beside {at:,} nodes", "MiB", "{:,.0f}", False),
    "first": Kind("from the start to the first read, {at:,} nodes", "s", "{:.2f}", False),
}


class Place(NamedTuple):
    """What a server is started as: its words, the port of its clients, and its folder."""

    words: list
    port: int
    folder: pathlib.Path


class Server:
    """A process that serves clients, whose output lies in a file."""

    def __init__(self, name, place):
        self.port = place.port
        self.began = time.perf_counter()
        self.process = lab.Process(name, place.words, place.folder.parent)

    def read(self, path):
        """Waits until a getData of a node is answered. Returns the seconds from the start of the process to that."""
        until = time.perf_counter() + STARTING
        while time.perf_counter() < until:
            if not self.process.lives():
                break
            seconds = None
            with contextlib.suppress(OSError, Gone):
                client = Client(self.port)
                if not client.call(GET_DATA, text(path) + boolean(False)).error:
                    seconds = time.perf_counter() - self.began
                client.leave()
            if seconds is not None:
                return seconds
            time.sleep(PAUSE)
        raise lab.Failed(f"no read of {path}: {self.process.tail()}")

    def resident(self):
        """Returns the resident set in MiB."""
        with open(f"/proc/{self.process.ran.pid}/statm", encoding="ascii") as it:
            return int(it.read().split()[1]) * resource.getpagesize() / 2**20

    def processor(self):
        """Returns the processor's seconds that it has used."""
        with open(f"/proc/{self.process.ran.pid}/stat", encoding="ascii") as it:
            fields = it.read().rpartition(")")[2].split()
        return (int(fields[11]) + int(fields[12])) / TICKS


class Ensemble:
    """A leader that leads, while the block lasts, and the places of both observers."""

    def __init__(self, options, room):
        ports = lab.free_ports(9)
        numbers = {"leader": lab.LEADER_ID, OURS: lab.OBSERVER_ID, JAVA: defaults.JAVA_ID}
        seats = []
        for at, (name, number) in enumerate(numbers.items()):
            role = "participant" if name == "leader" else "observer"
            seats.append(defaults.Place(number, role, *ports[3 * at : 3 * at + 3]))
        self.places = {}
        for name, seat in zip(numbers, seats):
            folder = room / name
            words = java_words(options, folder, seat, seats)
            if name == OURS:
                words = [options.program, "serve", "--leader", seats[0].quorum, "--client", seat.client]
                words += ["--id", seat.number]
            self.places[name] = Place(words, seat.client, folder)
        self.leader = None

    def __enter__(self):
        self.leader = Server("leader", self.places["leader"])
        try:
            is_leading = lambda: "Mode: leader" in lab.word(self.leader.port, "srvr")  # noqa: E731
            lab.until("the leader leads", is_leading, STARTING)
        except BaseException:
            self.leader.process.stop()
            raise
        return self

    def __exit__(self, *_):
        self.leader.process.stop()

    @contextlib.contextmanager
    def observer(self, who):
        """An observer that has no files yet, while the block lasts. It needn't serve yet."""
        place = self.places[who]
        shutil.rmtree(place.folder / "version-2", ignore_errors=True)
        server = Server(who, place)
        try:
            yield server
        finally:
            server.process.stop()


def java_words(options, folder, seat, seats):
    """Makes the folder of a server of Java. Returns the words that start it."""
    folder.mkdir(parents=True)
    lines = "\n".join([f"peerType={seat.role}", *(it.line() for it in seats)])
    (folder / "myid").write_text(f"{seat.number}\n")
    (folder / "zoo.cfg").write_text(defaults.CONFIGURATION.format(folder=folder, lines=lines))
    path = ":".join(str(lab.JAVA / it) for it in lab.JARS)
    flags = [f"-Xmx{options.heap}m", f"-Dzookeeper.forceSync={'yes' if options.fsync else 'no'}"]
    return ["java", *flags, "-Djava.net.preferIPv4Stack=true", *lab.QUIET, "-cp", path, MAIN, folder / "zoo.cfg"]


class Load:
    """The compiled clients, bench/load.c."""

    def __init__(self, room, options):
        self.program, self.options = room / "load", options
        subprocess.run(["cc", "-O2", "-o", str(self.program), str(HERE / "load.c")], check=True)

    def does(self, *words, seconds=0):
        """Runs it, for so many seconds or as long as it takes. Returns the figures that it tells, by name."""
        words = [str(it) for it in (self.program, *words)]
        how = {"stdin": subprocess.DEVNULL, "stdout": subprocess.PIPE, "encoding": "ascii", "check": True}
        said = subprocess.run(words, timeout=seconds + DOING, **how).stdout
        return {name: float(figure) for name, figure in (it.split("=") for it in said.split())}

    def create(self, port, count, letter):
        """Creates so many nodes at a server, of which the first 100 are the parents of the others."""
        if count:
            self.does("create", port, self.options.depth, count, letter, LENGTH)

    def read(self, port, clients, depth, seconds):
        """Has clients read at a server for so many seconds. Returns `rate`, answers a second, and `all` of them."""
        numbers = (port, clients, depth, seconds, PARENTS, self.options.children)
        return self.does("read", *numbers, seconds=seconds)

    def set(self, port, leader, seconds):
        """Has a client set nodes at a server for so many seconds. Returns `rate`, answers a second, `all`, their count,
        and `woken`."""
        numbers = (port, leader, self.options.depth, seconds, SET, SET_CHILDREN, self.options.length)
        return self.does("set", *numbers, seconds=seconds)

    def follow(self, leader, observer, count, held=0):
        """Has a client make so many setDatas at the leader, while the process `held`, if it isn't 0, stands still.
        Returns the seconds until the last answer, `leader`, and until the observer shows it, `observer`."""
        numbers = (self.options.leader_depth, count, SET, SET_CHILDREN, self.options.length, held)
        return self.does("follow", leader, observer, *numbers)


class Figures:
    """What the rounds gave: of each figure, by name and place, the samples of both observers."""

    def __init__(self):
        self.found = {}

    def add(self, name, who, value, at=None, processor=None, **more):
        """Adds a sample: a number in its kind's unit, the processor's seconds, and by `operations` how many took them,
        and by `woken` how often the servers had to be woken."""
        sample = {"value": round(value, 3), **{key: int(count) for key, count in more.items()}}
        if processor is not None:
            sample["processor_seconds"] = round(processor, 2)
        self.found.setdefault((name, at), {OURS: [], JAVA: []})[who].append(sample)

    def listed(self, depth):
        """Returns the figures as the file has them: in the order of their kinds, each curve from its least place on. A
        client has `depth` requests under way."""
        order = list(KINDS)
        found = []
        for (name, at), both in sorted(self.found.items(), key=lambda it: (order.index(it[0][0]), it[0][1] or 0)):
            kind = KINDS[name]
            said, better = kind.text.format(at=at, depth=depth), "more" if kind.is_more_better else "less"
            found.append({"name": name, "at": at, "text": said, "unit": kind.unit, "better": better, **both})
        return found


@contextlib.contextmanager
def counted(server):
    """Yields a list, which has the processor's seconds of a server when the block has ended."""
    before, taken = server.processor(), []
    yield taken
    taken.append(server.processor() - before)


def trips(load, options, figures, who, server, _):
    """Adds the round trips a second of one client."""
    with counted(server) as taken:
        told = load.read(server.port, 1, 1, options.seconds)
    figures.add("trips", who, told["rate"], processor=taken[0], operations=told["all"])


def reads(load, options, figures, who, server, _):
    """Adds the getDatas a second for each number of clients."""
    for clients in options.clients:
        with counted(server) as taken:
            told = load.read(server.port, clients, options.depth, options.seconds)
        figures.add("reads", who, told["rate"], at=clients, processor=taken[0], operations=told["all"])


def informs(load, options, figures, who, server, leader):
    """Adds the INFORMs a second, with the leader's own rate and the milliseconds after it, and those of a backlog."""
    with counted(server) as taken:
        told = load.follow(leader.port, server.port, options.writes)
    rate = options.writes / told["observer"]
    more = {"operations": options.writes, "woken": told["woken"]}
    figures.add("informs", who, rate, processor=taken[0], **more)
    figures.add("led", who, options.writes / told["leader"])
    figures.add("behind", who, 1000 * (told["observer"] - told["leader"]))
    count = options.backlog
    with counted(server) as taken:
        told = load.follow(leader.port, server.port, count, server.process.ran.pid)
    rate = count / (told["observer"] - told["leader"])
    more = {"operations": count, "woken": told["woken"]}
    figures.add("backlog", who, rate, at=count, processor=taken[0], **more)


def writes(load, options, figures, who, server, leader):
    """Adds the setDatas a second through the observer."""
    with counted(server) as taken:
        told = load.set(server.port, leader.port, options.seconds)
    figures.add("writes", who, told["rate"], processor=taken[0], operations=told["all"], woken=told["woken"])


SPEED = {"trips": trips, "reads": reads, "informs": informs, "writes": writes}


def speed(load, options, figures, room):
    """Measures trips, reads, informs and writes, as far as they are wanted, beside one leader."""
    wanted = [it for it in SPEED if it in options.only]
    with Ensemble(options, room) as ensemble:
        leader = ensemble.leader
        load.create(leader.port, PARENTS * (options.children + 1), READ)
        load.create(leader.port, PARENTS * (SET_CHILDREN + 1), SET)
        load.set(leader.port, leader.port, LEADER_WARM * options.warm)
        for turn in range(options.rounds):
            for who in (OURS, JAVA):
                with ensemble.observer(who) as server:
                    server.read(f"/{SET}99/n{SET_CHILDREN - 1:03}")
                    load.read(server.port, WARM_CLIENTS, options.depth, options.warm)
                    load.set(server.port, leader.port, options.warm)
                    for name in wanted:
                        SPEED[name](load, options, figures, who, server, leader)
                tell(f"round {turn + 1}, {NAMES[who]}: {', '.join(wanted)}")


def last_node(count):
    """Returns the path of the node that is created last of so many."""
    if not count:
        return "/"
    above, parent = divmod(count - 1, PARENTS)
    return f"/{READ}{parent:02}/n{above - 1:03}" if above else f"/{READ}{parent:02}"


def followed(load, options, figures, ensemble, count):
    """Grows the tree while both observers follow, and reads what they hold."""
    with ensemble.observer(OURS) as ours, ensemble.observer(JAVA) as java:
        servers = {OURS: ours, JAVA: java}
        for it in servers.values():
            it.read("/")
        before = {who: it.processor() for who, it in servers.items()}
        load.create(ensemble.leader.port, count, READ)
        for it in servers.values():
            it.read(last_node(count))
        time.sleep(options.settle)
        for who, it in servers.items():
            taken = it.processor() - before[who]
            figures.add("followed", who, it.resident(), at=count, processor=taken, operations=count)


def memory(load, options, figures, room):
    """Measures what each observer holds, and how long its start takes, each number of nodes beside a new leader."""
    for turn in range(options.rounds):
        for count in options.nodes:
            with Ensemble(options, room / f"{turn}-{count}") as ensemble:
                followed(load, options, figures, ensemble, count)
                for who in (OURS, JAVA):
                    with ensemble.observer(who) as server:
                        seconds = server.read(last_node(count))
                        figures.add("first", who, seconds, at=count, processor=server.processor())
                        time.sleep(options.settle)
                        figures.add("started", who, server.resident(), at=count)
            shutil.rmtree(room / f"{turn}-{count}")
            tell(f"round {turn + 1}, {count:,} nodes: memory")


def tell(what):
    print(f"      {time.strftime('%H:%M:%S')} {what}", file=sys.stderr, flush=True)


def spread(form, values):
    """Returns some numbers as text: the first, which is the best, and the least and the greatest where they differ."""
    least, most, first = (form.format(it) for it in (min(values), max(values), values[0]))
    return first if least == most else f"{first} ({least} to {most})"


class Line(NamedTuple):
    """What was measured: a text with its unit, the values of both observers, and the ratio of the best ones."""

    text: str
    ours: str
    java: str
    ratio: str


def line_of(what, form, values, better):
    """Returns a line of values by observer, of which the best comes first."""
    put = {who: sorted(them, reverse=better == "more") for who, them in values.items()}
    ours, java = put[OURS][0], put[JAVA][0]
    ratio = "-"
    if ours and java:
        ratio = f"{ours / java:.2f}" if ours >= java / 10 else f"{ours / java:.3f}"
    return Line(what, spread(form, put[OURS]), spread(form, put[JAVA]), ratio)


def processor_line(figure):
    """Returns the line of the processor's time that a figure took, or None where that isn't told."""
    operation = KINDS[figure["name"]].operation
    needed = "operations" if operation else "processor_seconds"
    if not all(sample.get(needed) is not None for who in (OURS, JAVA) for sample in figure[who]):
        return None
    values = {}
    for who in (OURS, JAVA):
        found = [(it["processor_seconds"], it["operations"] if operation else 1) for it in figure[who]]
        values[who] = [seconds / count for seconds, count in found if count]
    if not (values[OURS] and values[JAVA]):
        return None
    if not operation:
        return line_of("of a processor, s", "{:.2f}", values, "less")
    values = {who: [1e6 * it for it in them] for who, them in values.items()}
    return line_of(f"of a processor, µs a {operation}", "{:.1f}", values, "less")


def lines_of(figures):
    """Yields the line of each figure that both observers have, and that of its processor's time or None."""
    for it in figures:
        if it[OURS] and it[JAVA]:
            values = {who: [sample["value"] for sample in it[who]] for who in (OURS, JAVA)}
            text_and_unit = f"{it['text']}, {it['unit']}"
            yield line_of(text_and_unit, KINDS[it["name"]].form, values, it["better"]), processor_line(it)


def printed(figures):
    """Prints a line of each figure of a file, and one of the processor's time that it took."""
    for line, processor in lines_of(figures):
        for it in (line, processor) if processor else (line,):
            both = f"{NAMES[OURS]} {it.ours}; {NAMES[JAVA]} {it.java}; {it.ratio} times"
            print(f"{'      ' if it is processor else ''}{it.text}: {both}", flush=True)


def table(found):
    """Prints a file's numbers as Markdown: what they were measured with, and the table."""
    with_what, programs, settings = found["machine"], found["versions"], found["settings"]
    day = datetime.date.fromisoformat(found["date"])
    load = f"load {with_what['load_before']:.1f} before and {with_what['load_after']:.1f} after"
    used = f"{with_what['usable']} of " if with_what["usable"] < with_what["cores"] else ""
    said = f"{day.day} {day:%B} {day.year}, {used}{with_what['cores']} cores ({with_what['model']}), {load}; "
    said += f"{programs['program']}, ZooKeeper {programs['zookeeper']}, Java {programs['java']} with a heap of "
    said += f"{settings['heap']:,} MiB; rounds: {settings['rounds']}, each load of {settings['seconds']:g} s"
    said += f"; {settings['note']}. " if settings["note"] else ". "
    said += "The best round comes first, then the least and the greatest; the ratio is of the best ones."
    print("\n".join(textwrap.wrap(said, 120)) + "\n")
    print("| What | ZooKeeper's observer | This one | Ratio | Processor, ZooKeeper's | Processor, this one's |")
    print("|---|---|---|---|---|---|")
    for line, processor in lines_of(found["figures"]):
        times = ("", "")
        if processor:
            unit = processor.text.partition(", ")[2]
            times = (f"{processor.java} {unit}", f"{processor.ours} {unit}")
        print(f"| {line.text} | {line.java} | {line.ours} | {line.ratio} | {times[0]} | {times[1]} |")


def output_of(*words):
    """Returns all that a program prints."""
    how = {"stdin": subprocess.DEVNULL, "stdout": subprocess.PIPE, "stderr": subprocess.STDOUT, "encoding": "utf-8"}
    return subprocess.run([str(it) for it in words], check=True, **how).stdout


def versions(program):
    """Returns the versions of the program, of Debian's zookeeper and of Java, by name."""
    package = output_of("dpkg-query", "-W", "-f", "${Version}", "zookeeper")
    java = re.search(r'version "([^"]+)"', output_of("java", "-version"))
    first = output_of(program, "serve", "--version").splitlines()[0]
    return {"program": first.split(",")[0], "zookeeper": package, "java": java[1] if java else "unknown"}


def model():
    """Returns the processor's name."""
    with open("/proc/cpuinfo", encoding="ascii", errors="replace") as it:
        found = re.search(r"^model name\s*: (.*)$", it.read(), re.M)
    return found[1] if found else "unknown"


def described(options, before, figures):
    """Returns what the file holds: the numbers, and what they were measured with."""
    kept = ("rounds", "seconds", "warm", "settle", "clients", "depth", "leader_depth", "children", "writes", "backlog")
    kept += ("length", "nodes", "heap", "fsync", "note")
    return {
        "date": time.strftime("%Y-%m-%d"),
        "versions": versions(options.program),
        "machine": {
            "cores": os.cpu_count(),
            "usable": len(os.sched_getaffinity(0)),
            "model": model(),
            "load_before": round(before, 2),
            "load_after": round(os.getloadavg()[0], 2),
        },
        "settings": {name: getattr(options, name) for name in kept},
        "figures": figures.listed(options.depth),
    }


def read_options():
    parser = argparse.ArgumentParser(description=__doc__, formatter_class=argparse.RawDescriptionHelpFormatter)
    parser.add_argument("program", nargs="?", metavar="PROGRAM", help="the executable that serves as this observer")
    parser.add_argument("--table", metavar="FILE.json", help="print the table of such a file, and measure nothing")
    parser.add_argument("--out", metavar="FILE.json", help="write all numbers into this file")
    parser.add_argument("--note", default="", help="what else is kept and shown, as what the machine does meanwhile")
    parser.add_argument("--only", nargs="+", choices=MEASURED, default=MEASURED, help="some of the measurements")
    parser.add_argument("--seconds", type=float, default=3, help="how long clients read or write (3)")
    parser.add_argument("--warm", type=float, default=3, help="how long they do it before, twice, uncounted (3)")
    parser.add_argument("--settle", type=float, default=2, help="seconds before the resident set is read (2)")
    parser.add_argument("--large", action="store_true", help=f"memory beside {LARGE:,} nodes too")
    parser.add_argument("--fsync", action="store_true", help="servers of Java wait for the disk at each write")
    for name, numbers, what in (
        ("clients", CLIENTS, "how many clients read at a time, one number after the other"),
        ("nodes", NODES, "how many nodes there are for `memory`, one number after the other"),
    ):
        shown = " ".join(str(it) for it in numbers)
        parser.add_argument(f"--{name}", type=int, nargs="+", default=numbers, help=f"{what} ({shown})")
    for name, number, what in (
        ("rounds", 3, "how often each is measured"),
        ("depth", DEPTH, "how many requests a client of an observer has under way"),
        ("leader-depth", LEADER_DEPTH, "how many the client of the leader has under way"),
        ("children", CHILDREN, "nodes below each of the 100 nodes below the root that are read, at most 1000"),
        ("writes", WRITES, "how many setDatas are made at the leader for `informs`"),
        ("backlog", BACKLOG, "how many are made while the observer stands still"),
        ("length", LENGTH, "the bytes of data of each of them, and of forwarded ones, at least 8"),
        ("heap", HEAP, "MiB of heap that a server of Java may have"),
    ):
        parser.add_argument(f"--{name}", type=int, default=number, help=f"{what} ({number:,})")
    options = parser.parse_args()
    if not options.program and not options.table:
        parser.error("a PROGRAM is missing")
    if options.large:
        options.nodes = [*options.nodes, LARGE]
    return options


def main():
    options = read_options()
    if options.table:
        table(json.loads(pathlib.Path(options.table).read_text(encoding="utf-8")))
        return 0
    options.install = False
    if not has_compiler(options):
        sys.exit("there is no C compiler `cc`")
    # A signal that ends this ends what it runs, too.
    for it in (signal.SIGTERM, signal.SIGHUP):
        signal.signal(it, lambda *_: sys.exit(1))
    figures, before = Figures(), os.getloadavg()[0]
    machine("before")
    with tempfile.TemporaryDirectory(prefix="beside-") as name:
        room = pathlib.Path(name)
        load = Load(room, options)
        if set(options.only) & set(SPEED):
            speed(load, options, figures, room / "speed")
        if "memory" in options.only:
            memory(load, options, figures, room)
    found = described(options, before, figures)
    printed(found["figures"])
    if options.out:
        pathlib.Path(options.out).write_text(json.dumps(found, indent=1) + "\n", encoding="utf-8")
    machine("after")
    return 0


if __name__ == "__main__":
    sys.exit(main())
