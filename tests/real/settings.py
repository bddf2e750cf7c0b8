"""In dialect 3.4, what a later leader writes past 3.4 is refused: each setting that keeps it from that is needed. The
observer ends with status 7, and its last line says what to do."""
import time

from kazoo.client import KazooClient

from lab import DIALECT, JARS, JAVA, OBSERVER_ID, Leader, Observer, Process, free_ports, until, word
from voters import Follower

DIGEST, CLOSE_SESSION = DIALECT
OLDER = ("--dialect", "3.4")


def fault_of(bench, name, dialect, cause):
    """Starts a new leader with these settings alone, does something there, and returns the observer's last line."""
    folder = bench.folder / name
    folder.mkdir()
    leader, observer = Leader(folder), Observer(bench.observer.program, folder)
    try:
        leader.start(dialect)
        observer.start(leader.quorum, 0, *OLDER)
        # Opening a session there would be a transaction too.
        until("the observer serves", lambda: word(observer.client, "isro") == "rw")
        client = KazooClient(f"127.0.0.1:{leader.client}")
        client.start(15)
        cause(client, leader)
        client.stop()
        client.close()
        assert observer.process.ends(10) == 7, observer.process.tail()
        return observer.process.tail(1)
    finally:
        observer.stop()
        leader.stop()


def digest(bench):
    """A digest behind each transaction."""
    said = fault_of(bench, "digest", (CLOSE_SESSION,), lambda client, _: client.create("/digest", b""))
    assert "F6 TrailingBytes" in said, said


def defaults(bench):
    """A server as it is installed, found among several addresses: the line says how to start the observer."""
    folder = bench.folder / "defaults"
    folder.mkdir()
    leader, observer = Leader(folder), Follower(bench.observer.program, folder, "defaults", OBSERVER_ID)
    try:
        leader.start(())
        began = time.monotonic()
        # Its first transaction may have come before the observer, which is then sent an image.
        observer.begin(f"127.0.0.1:{free_ports(1)[0]},127.0.0.1:{leader.quorum}", 0, *OLDER)
        until("the observer serves", observer.serves)
        client = KazooClient(f"127.0.0.1:{leader.client}")
        client.start(15)
        assert observer.process.ends(10) == 7, observer.process.tail()
        client.stop()
        client.close()
        last = observer.process.tail(1)
        print(f"     after {time.monotonic() - began:.1f} s: {last}")
        wanted = f"observer: F6 TrailingBytes from 127.0.0.1:{leader.quorum}: beside servers from 3.6 on, start it without"
        assert last.startswith(wanted), last
    finally:
        observer.stop()
        leader.stop()


def close_session(bench):
    """The ephemerals in a closeSession."""
    said = fault_of(bench, "close", (DIGEST,), lambda client, _: client.create("/ephemeral", b"", ephemeral=True))
    assert "F6 TrailingBytes" in said, said


def create2(bench):
    """A create that asks for the new node's Stat."""
    said = fault_of(bench, "create2", DIALECT, lambda client, _: client.create("/create2", b"", include_data=True))
    assert "F5 BadTxnType" in said, said


def container(bench):
    """A container."""
    path = ":".join(str(JAVA / it) for it in JARS)

    def make(_, leader):
        words = ["java", "-cp", path, "org.apache.zookeeper.ZooKeeperMain", "-server", f"127.0.0.1:{leader.client}"]
        Process("container", [*words, "create", "-c", "/container"], bench.folder).ends(30)

    said = fault_of(bench, "container", DIALECT, make)
    assert "F5 BadTxnType" in said, said


CHECKS = [digest, close_session, create2, container, defaults]
