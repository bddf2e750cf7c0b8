"""Three real voters on 127.0.0.1, whichever of them leads, and observers behind them: Java's own, and ours.

The voters have ZooKeeper's own ticks and limits: who leads is given up after 10 seconds of silence.
"""
import os
import re
import shutil
import signal
import time

from lab import DIALECT, JARS, JAVA, OTHERS, TIMEOUTS, Failed, Observer, Process, free_ports, until, word

TICK, INIT_LIMIT, SYNC_LIMIT = 2000, 10, 5
# How long a silent server is waited for by those that follow it, in seconds.
SILENCE = TICK * SYNC_LIMIT / 1000
VOTERS = (1, 2, 3)
JAVA_OBSERVER, OUR_OBSERVER = 5, 101
START_SECONDS = 180

CONFIGURATION = """
tickTime={tick}
initLimit={init_limit}
syncLimit={sync_limit}
dataDir={folder}
clientPort={client}
clientPortAddress=127.0.0.1
minSessionTimeout={least}
maxSessionTimeout={greatest}
standaloneEnabled=false
reconfigEnabled=false
admin.enableServer=false
4lw.commands.whitelist=*
maxClientCnxns=0
"""
MAIN = "org.apache.zookeeper.server.quorum.QuorumPeerMain"
# A line for each server that is found, elected or lost, and for each learner's DIFF, SNAP or TRUNC.
LOUD = ("-Dzookeeper.jmx.log4j.disable=true", "-Dorg.slf4j.simpleLogger.defaultLogLevel=info")
TIMED = ("-Dorg.slf4j.simpleLogger.showDateTime=true", "-Dorg.slf4j.simpleLogger.dateTimeFormat=HH:mm:ss.SSS")


def has_word(port, asked, part):
    """Returns whether a server answers a four-letter word, and with this in its answer; False where it doesn't."""
    try:
        return part in word(port, asked)
    except OSError:
        return False


def shown(process, lines):
    """Returns the last lines of a log, the longest of them cut off."""
    tail = "\n".join(it[:200] for it in process.tail(lines).splitlines())
    return f"--- {process.log.name}\n{tail}\n"


class Peer:
    """A real server, which keeps its folder and ports when it is started again."""

    def __init__(self, number, folder, ports, master=None):
        self.number, self.folder, self.master = number, folder, master
        self.client, self.quorum, self.election = ports
        self.process, self.is_frozen = None, False

    def configure(self, lines):
        self.folder.mkdir()
        (self.folder / "myid").write_text(f"{self.number}\n")
        limits = {"tick": TICK, "init_limit": INIT_LIMIT, "sync_limit": SYNC_LIMIT}
        bounds = {"least": TIMEOUTS[0], "greatest": TIMEOUTS[1]}
        text = CONFIGURATION.format(folder=self.folder, client=self.client, **limits, **bounds)
        if self.number == JAVA_OBSERVER:
            text += "peerType=observer\n"
        if self.master:
            text += f"observerMasterPort={self.master}\n"
        (self.folder / "zoo.cfg").write_text(text + "\n".join(lines) + "\n")

    def reaches_by(self, other, port):
        """Has it learn from another server by this port, from its next start on."""
        file, line = self.folder / "zoo.cfg", rf"(server\.{other.number}=127\.0\.0\.1:)\d+"
        file.write_text(re.sub(line, rf"\g<1>{port}", file.read_text()))

    def start(self, dialect=DIALECT):
        path = ":".join(str(JAVA / it) for it in JARS)
        words = ["java", *dialect, *OTHERS, *LOUD, *TIMED, "-cp", path, MAIN, self.folder / "zoo.cfg"]
        self.process, self.is_frozen = Process(f"zookeeper-{self.number}", words, self.folder.parent), False

    def lives(self):
        return self.process is not None and self.process.lives()

    def runs(self):
        return self.lives() and not self.is_frozen

    def serves(self):
        return self.runs() and has_word(self.client, "srvr", "Mode: ")

    def leads(self):
        return self.runs() and has_word(self.client, "srvr", "Mode: leader")

    def follows(self):
        return self.runs() and has_word(self.client, "srvr", "Mode: follower")

    def freeze(self):
        self.process.signal(signal.SIGSTOP)
        self.is_frozen = True

    def thaw(self):
        self.process.signal(signal.SIGCONT)
        self.is_frozen = False

    def kill(self):
        self.process.signal(signal.SIGKILL)
        self.process.ends()

    def stop(self):
        if self.process:
            self.process.stop()

    def said(self):
        """Returns its log."""
        return self.process.log.read_text(errors="replace")

    def keep(self, name):
        """Copies what it has on disk, while it is ended."""
        shutil.copytree(self.folder / "version-2", self.folder / name)

    def restore(self, name):
        """Puts a copy of its disk in the place of what it has there."""
        shutil.rmtree(self.folder / "version-2")
        shutil.copytree(self.folder / name, self.folder / "version-2")


class Ensemble:
    """The voters, and the servers' lines of their configuration."""

    def __init__(self, folder, with_masters=False):
        self.folder = folder
        ports = iter(free_ports(20))
        peers = {}
        for number in (*VOTERS, JAVA_OBSERVER):
            three = [next(ports) for _ in range(3)]
            master = next(ports) if with_masters and number in VOTERS else None
            peers[number] = Peer(number, folder / f"server-{number}", three, master)
        unused = (next(ports), next(ports))
        lines = []
        for number, it in peers.items():
            role = "participant" if number in VOTERS else "observer"
            lines.append(f"server.{number}=127.0.0.1:{it.quorum}:{it.election}:{role}")
        lines.append(f"server.{OUR_OBSERVER}=127.0.0.1:{unused[0]}:{unused[1]}:observer")
        for it in peers.values():
            it.configure(lines)
        self.java = peers.pop(JAVA_OBSERVER)
        self.voters = list(peers.values())

    def start(self, dialect=DIALECT):
        for it in self.voters:
            if not it.lives():
                it.start(dialect)
        self.settled()

    def settled(self):
        """Waits until each voter that runs serves, and returns the one that leads."""
        return self.leader()

    def leader(self, seconds=START_SECONDS):
        """Waits until one voter leads and the others that run follow, and returns the one that leads. One that was
        frozen takes itself for the leader for a while."""

        def found():
            running = [it for it in self.voters if it.runs()]
            leading = [it for it in running if it.leads()]
            return leading[0] if len(leading) == 1 and sum(it.follows() for it in running) == len(running) - 1 else None

        return until("one voter leads", found, seconds)

    def follower(self):
        """Returns a voter that follows."""
        return until("a voter follows", lambda: next((it for it in self.voters if it.follows()), None))

    def servers(self):
        """The addresses of the voters, as our observer is given them."""
        return ",".join(f"127.0.0.1:{it.quorum}" for it in self.voters)

    def mended(self):
        """Brings each voter up that was killed or frozen, and returns the one that leads."""
        for it in self.voters:
            if it.is_frozen:
                it.thaw()
        self.start()
        return self.leader()

    def stop(self):
        for it in (*self.voters, self.java):
            it.stop()

    def tails(self):
        return "".join(shown(it.process, 6) for it in (*self.voters, self.java) if it.process)


class Follower(Observer):
    """Our observer behind several servers."""

    def __init__(self, program, folder, name="follower", number=OUR_OBSERVER):
        super().__init__(program, folder, name, number)

    def begin(self, servers, client=0, *options):
        """Starts it, and waits until it says on which port it serves."""
        self.run("--servers", servers, "--client", client, "--id", self.number, "--log", "info", *options)

    def serves(self):
        return self.process.lives() and has_word(self.client, "isro", "rw")

    def waits_until_it_serves(self, seconds=20):
        """Waits until it serves, and returns how many seconds that took."""
        began = time.monotonic()
        until("the observer serves", self.serves, seconds)
        return time.monotonic() - began

    def freeze(self):
        self.process.signal(signal.SIGSTOP)

    def thaw(self):
        self.process.signal(signal.SIGCONT)

    def kill(self):
        self.process.signal(signal.SIGKILL)
        self.process.ends()

    def logged(self):
        return self.process.log.read_text(errors="replace")

    def pid(self):
        """The process that serves: the largest of those that were started, since a wrapper may stand before it."""
        found = []
        for name in os.listdir("/proc"):
            try:
                if name.isdigit() and os.getpgid(int(name)) == self.process.ran.pid:
                    found.append((resident(name), int(name)))
            except OSError:
                pass  # It has ended.
        if not found:
            raise Failed(f"{self.name} has ended")
        return max(found)[1]

    def threads(self):
        return len(os.listdir(f"/proc/{self.pid()}/task"))

    def descriptors(self):
        return len(os.listdir(f"/proc/{self.pid()}/fd"))

    def resident(self):
        """Returns the resident set in KiB."""
        return resident(self.pid())


def resident(pid):
    with open(f"/proc/{pid}/status", encoding="ascii") as it:
        return next((int(line.split()[1]) for line in it if line.startswith("VmRSS")), 0)
