"""A real ZooKeeper leader on 127.0.0.1, in a folder of its own, and what else the suites start: all of it is ended.

The leader is the only voter of its ensemble, with id 9, beside an observer that stands in its configuration. A later
server than 3.4 writes some transactions in forms that 3.4 doesn't have; the settings below keep it from that.
`defaults.py` has a leader with default settings.
"""
import os
import pathlib
import signal
import socket
import subprocess
import sys
import time

TOP = pathlib.Path(__file__).resolve().parent.parent.parent
sys.path.insert(0, str(TOP / "examples"))
from client import EXISTS, Client, Gone  # noqa: E402
from jute import boolean, text  # noqa: E402

JAVA = pathlib.Path("/usr/share/java")
# Starts a program with another clock than the machine's.
FAKETIME = "/usr/bin/faketime"
JARS = ("zookeeper.jar", "slf4j-simple.jar", "log4j-1.2.jar")
LEADER_ID, OBSERVER_ID = 9, 3
TIMEOUTS = (4000, 40000)
START_SECONDS = 180

CONFIGURATION = """
tickTime=500
initLimit=40
syncLimit=20
dataDir={folder}
clientPort={client}
clientPortAddress=127.0.0.1
minSessionTimeout={least}
maxSessionTimeout={greatest}
# A server that stands alone opens no port for learners.
standaloneEnabled=false
reconfigEnabled=false
admin.enableServer=false
4lw.commands.whitelist=*
maxClientCnxns=0
server.{leader_id}=127.0.0.1:{quorum}:{election}:participant
server.{observer_id}=127.0.0.1:{unused}:{unused_election}:observer
"""

# What a 3.4 leader never writes: a digest behind each transaction, and the ephemerals in a closeSession.
DIALECT = ("-Dzookeeper.digest.enabled=false", "-Dzookeeper.closeSessionTxn.enabled=false")
OTHERS = ("-Xmx512m", "-Dzookeeper.forceSync=no", "-Djava.net.preferIPv4Stack=true")
# A client of Java that lives for a short time.
BRIEF = ("-XX:+UseSerialGC", "-XX:TieredStopAtLevel=1", "-Dorg.slf4j.simpleLogger.defaultLogLevel=off")
QUIET = ("-Dzookeeper.jmx.log4j.disable=true", "-Dorg.slf4j.simpleLogger.defaultLogLevel=warn")


class Failed(Exception):
    """Something that a suite needs didn't happen."""


def free_ports(count):
    """Returns ports that nobody listens on now."""
    held = [socket.create_server(("127.0.0.1", 0)) for _ in range(count)]
    ports = [it.getsockname()[1] for it in held]
    for it in held:
        it.close()
    return ports


def until(what, condition, seconds=20):
    """Waits until a condition holds, and returns what it answered; raises Failed after so many seconds."""
    ends = time.monotonic() + seconds
    while True:
        try:
            found = condition()
            if found:
                return found
        except (OSError, Gone):
            pass  # Nobody listens or serves yet, or not any more.
        if time.monotonic() > ends:
            raise Failed(f"not within {seconds} seconds: {what}")
        time.sleep(0.05)


def word(port, asked):
    """Returns what a four-letter word is answered, as text."""
    with socket.create_connection(("127.0.0.1", port), 5) as connection:
        connection.sendall(asked.encode())
        parts = iter(lambda: connection.recv(65536), b"")
        return b"".join(parts).decode()


def zxid_of(port):
    """Returns the last zxid that a server names."""
    for line in word(port, "srvr").splitlines():
        if line.startswith("Zxid: 0x"):
            return int(line[len("Zxid: 0x") :], 16)
    return None


class Process:
    """A process of the suites', whose output lies in a file."""

    def __init__(self, name, words, folder, **how):
        self.log = folder / f"{name}.log"
        with open(self.log, "ab") as out:
            how = {"stdin": subprocess.DEVNULL, "stdout": out, "stderr": out, **how}
            self.ran = subprocess.Popen([str(it) for it in words], start_new_session=True, **how)

    def lives(self):
        return self.ran.poll() is None

    def signal(self, number):
        if self.lives():
            os.killpg(self.ran.pid, number)

    def ends(self, seconds=10):
        """Waits for the end, and returns the exit status."""
        try:
            return self.ran.wait(seconds)
        except subprocess.TimeoutExpired:
            raise Failed(f"{self.log.stem} hasn't ended after {seconds} seconds") from None

    def stop(self):
        """Ends the process, whatever it does."""
        if self.lives():
            self.signal(signal.SIGCONT)
            self.signal(signal.SIGTERM)
            try:
                self.ran.wait(5)
            except subprocess.TimeoutExpired:
                self.signal(signal.SIGKILL)
                self.ran.wait()

    def tail(self, lines=15):
        return "\n".join(self.log.read_text(errors="replace").splitlines()[-lines:])


def library(port, seconds=10, **how):
    """Returns a kazoo client with a session of this timeout at a port."""
    from kazoo.client import KazooClient

    client = KazooClient(f"127.0.0.1:{port}", timeout=seconds, **how)
    client.start(15)
    return client


def ended(*clients):
    """Ends kazoo clients, with their sessions."""
    for it in clients:
        it.stop()
        it.close()


def reaches(port, zxid, seconds=20):
    """Waits until a server has taken all up to this zxid, which a reply to any read tells."""
    client = until("the server opens a session", lambda: Client(port))
    what = f"the server reaches 0x{zxid:x}"
    until(what, lambda: client.call(EXISTS, text("/") + boolean(False)).zxid >= zxid, seconds)
    client.leave()


class Server:
    """A real server, which keeps its folder and ports when it is started again."""

    def __init__(self, folder, name, number, client, configuration):
        self.folder, self.name, self.client, self.process = folder / name, name, client, None
        self.folder.mkdir()
        (self.folder / "myid").write_text(f"{number}\n")
        (self.folder / "zoo.cfg").write_text(configuration)

    def start(self, flags=(), mode="Mode: "):
        """Starts it with these properties of Java, and waits until it serves in this mode."""
        path = ":".join(str(JAVA / it) for it in JARS)
        main = "org.apache.zookeeper.server.quorum.QuorumPeerMain"
        words = ["java", *flags, *OTHERS, *QUIET, "-cp", path, main, self.folder / "zoo.cfg"]
        self.process = Process(self.name, words, self.folder.parent)
        until(f"{self.name} serves", lambda: mode in word(self.client, "srvr"), START_SECONDS)

    def reaches(self, zxid, seconds=20):
        reaches(self.client, zxid, seconds)

    def stop(self):
        if self.process:
            self.process.stop()

    def kill(self):
        self.process.signal(signal.SIGKILL)
        self.process.ends()


class Leader(Server):
    """A real leader."""

    def __init__(self, folder):
        client, self.quorum, election, unused, unused_election = free_ports(5)
        configuration = CONFIGURATION.format(
            folder=folder / "leader",
            client=client,
            quorum=self.quorum,
            election=election,
            unused=unused,
            unused_election=unused_election,
            leader_id=LEADER_ID,
            observer_id=OBSERVER_ID,
            least=TIMEOUTS[0],
            greatest=TIMEOUTS[1],
        )
        super().__init__(folder, "leader", LEADER_ID, client, configuration)

    def start(self, dialect=DIALECT):
        super().start(dialect, "Mode: leader")


class Observer:
    """The observer under test, behind a leader's port."""

    def __init__(self, program, folder, name="observer", number=OBSERVER_ID):
        self.program, self.folder, self.name, self.number = program, folder, name, number
        self.process, self.client = None, None

    def start(self, quorum, client=0, *options):
        """Starts it behind one leader, and waits until it says on which port it serves."""
        given = ("--client", client, "--id", self.number, "--words", "all", "--log")
        self.run("--leader", quorum, *given, *options)

    def run(self, *options):
        """Starts it with these options, and waits until it says on which port it serves."""
        self.out = self.folder / f"{self.name}.out"
        with open(self.out, "wb") as out:
            self.process = Process(self.name, [*self.program, "serve", *options], self.folder, stdout=out)
        self.client = until("`serving PORT` is printed", self.said, START_SECONDS)

    def said(self):
        if not self.process.lives():
            raise Failed(f"{self.name} has ended with status {self.process.ran.returncode}: {self.process.tail()}")
        for line in self.out.read_text().splitlines():
            if line.startswith("serving "):
                return int(line[len("serving ") :])
        return None

    def reaches(self, zxid, seconds=20):
        reaches(self.client, zxid, seconds)

    def stop(self):
        if self.process:
            self.process.stop()
