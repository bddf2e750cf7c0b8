"""An ensemble with ZooKeeper's default settings: a leader, which is its only voter, and the server under test, which
is our observer, ZooKeeper's own, or the voter itself. All servers stand in the configuration with their client ports.
"""
from typing import NamedTuple

from lab import LEADER_ID, OBSERVER_ID, Observer, Server, free_ports

JAVA_ID = 5
# What a server may be that a suite tries.
PROGRAM, OBSERVER, VOTER = SERVERS = ("program", "observer", "voter")

CONFIGURATION = """
# As in the sample configuration.
tickTime=2000
initLimit=10
syncLimit=5
dataDir={folder}
# A server that stands alone opens no port for learners.
standaloneEnabled=false
# There are several servers on the machine.
admin.enableServer=false
{lines}
"""


class Place(NamedTuple):
    """Where a server of the ensemble is."""

    number: int
    role: str
    client: int
    quorum: int
    election: int

    def line(self):
        return f"server.{self.number}=127.0.0.1:{self.quorum}:{self.election}:{self.role};127.0.0.1:{self.client}"


def is_up(server):
    return server.process is not None and server.process.lives()


class Bench:
    """What a suite works with: the leader, the server under test, and their folder. `against` says what is under test,
    and `dialect` what else Java is told for each real server."""

    # What a suite needs besides the default settings: properties of Java, lines of the configuration, and options of the
    # program that say the same.
    FLAGS, LINES, OPTIONS = (), (), ()

    def __init__(self, program, folder):
        self.against, self.dialect, self.folder = PROGRAM, (), folder
        ports = free_ports(9)
        roles = ((LEADER_ID, "participant"), (OBSERVER_ID, "observer"), (JAVA_ID, "observer"))
        self.places = [Place(*role, *ports[at * 3 : at * 3 + 3]) for at, role in enumerate(roles)]
        leader, observer, java = self.places
        self.leader, self.java = self.real("leader", leader), self.real("java", java)
        self.ours, self.theirs = Observer(program, folder), self.real("observer", observer)

    def real(self, name, place):
        lines = "\n".join([f"peerType={place.role}", *self.LINES, *(it.line() for it in self.places)])
        text = CONFIGURATION.format(folder=self.folder / name, lines=lines)
        return Server(self.folder, name, place.number, place.client, text)

    @property
    def observer(self):
        """The server under test."""
        return {PROGRAM: self.ours, OBSERVER: self.theirs, VOTER: self.leader}[self.against]

    def __enter__(self):
        try:
            self.leader.start((*self.dialect, *self.FLAGS), "Mode: leader")
            self.begin()
        except BaseException:
            self.stop()
            raise
        return self

    def begin(self):
        """Starts the server under test, unless it runs."""
        if is_up(self.observer):
            return
        if self.against == PROGRAM:
            later = () if self.dialect else ("info", "--dialect", "3.8")
            self.ours.start(self.places[0].quorum, self.places[1].client, *later, *self.OPTIONS)
        else:
            self.theirs.start((*self.dialect, *self.FLAGS), "Mode: observer")

    def __exit__(self, *_):
        self.stop()

    def stop(self):
        for it in (self.java, self.ours, self.theirs, self.leader):
            it.stop()

    def tails(self):
        parts = [it.process for it in (self.ours, self.theirs, self.leader) if it.process]
        return "\n".join(f"--- {it.log.name}\n{it.tail()}" for it in parts)
