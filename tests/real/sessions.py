"""Sessions and their ephemerals: they live as long as their clients are heard, and end at the leader."""
import signal
import time

from kazoo.exceptions import SessionMovedError

from lab import FAKETIME, OBSERVER_ID, Gone, Observer, ended, library, until, word, zxid_of
from proxy import Proxy
from raw import Raw, buffer, int32, text

CREATE, EPHEMERAL = 1, 1
SHORT = 4  # seconds, the least timeout of the leader's sessions
IDLE_SECONDS = 60


def is_at(client, path):
    client.sync("/")
    return client.exists(path) is not None


def ephemeral(client, path):
    """Makes an ephemeral node by a raw client."""
    acl = int32(1) + int32(31) + text("world") + text("anyone")
    reply = client.call(CREATE, text(path) + buffer(b"mine") + acl + int32(EPHEMERAL))
    assert reply.error == 0, reply


def after_a_close(bench):
    """Ephemerals made at the observer have its session as their owner, and are gone at both after the close."""
    client, other, leader = (library(it) for it in (bench.observer.client, bench.observer.client, bench.leader.client))
    paths = [f"/ephemeral-{number}" for number in range(20)]
    for path in paths:
        client.create(path, b"", ephemeral=True)
    session = client.client_id[0]
    assert session >> 56 == OBSERVER_ID
    leader.sync("/")
    assert all(leader.exists(path).ephemeralOwner == session for path in paths)
    told = []
    other.get("/ephemeral-7", watch=told.append)
    ended(client)
    assert not any(is_at(leader, path) for path in paths)
    assert not any(is_at(other, path) for path in paths)
    until("its watcher is told", lambda: [it.type for it in told] == ["DELETED"])
    ended(other, leader)


def after_a_cut(bench):
    """A client that goes without a close keeps its session and ephemerals for its timeout; then they are gone."""
    leader, client = library(bench.leader.client), Raw(bench.observer.client)
    ephemeral(client, "/cut-off")
    assert is_at(leader, "/cut-off")
    client.socket.close()
    began = time.monotonic()
    time.sleep(client.timeout / 1000 / 2)
    assert is_at(leader, "/cut-off"), "the session ends too early"
    until("the ephemeral is gone", lambda: not is_at(leader, "/cut-off"), 3 * client.timeout / 1000)
    assert time.monotonic() - began > client.timeout / 1000 * 0.8
    bench.observer.reaches(zxid_of(bench.leader.client))
    ended(leader)


def silent(bench):
    """A client that says nothing for its timeout is closed when the leader ends its session; one that pings isn't."""
    pinging, leader = library(bench.observer.client, SHORT), library(bench.leader.client)
    client, session = Raw(bench.observer.client), pinging.client_id
    ephemeral(client, "/said-nothing")
    began = time.monotonic()
    try:
        frame = client.frame(3 * client.timeout / 1000)
        raise AssertionError(f"it isn't closed: {frame}")
    except Gone:
        pass
    assert time.monotonic() - began > client.timeout / 1000 * 0.8
    assert not is_at(leader, "/said-nothing")
    assert pinging.client_id == session and pinging.connected
    ended(pinging, leader)


def taken_up(bench):
    """A client that is cut off and comes back within its timeout has its session and ephemerals."""
    proxy, leader = Proxy(bench.observer.client), library(bench.leader.client)
    client = library(proxy.port)
    try:
        client.create("/taken-up", b"", ephemeral=True)
        session = client.client_id
        for _ in range(3):
            proxy.cut()
            until("kazoo has seen the cut", lambda: not client.connected)
            proxy.mend()
            until("kazoo has come back", lambda: client.connected)
        assert client.client_id == session and is_at(leader, "/taken-up")
        client.set("/taken-up", b"still mine")
        assert client.get("/taken-up")[0] == b"still mine"
    finally:
        ended(client)
        proxy.close()
    assert not is_at(leader, "/taken-up")
    ended(leader)


def idle(bench):
    """Sessions of 4 seconds whose clients send only pings live for 60 seconds, with their ephemerals."""
    clients, leader = [library(bench.observer.client, SHORT) for _ in range(5)], library(bench.leader.client)
    sessions = [it.client_id for it in clients]
    states = []
    for number, it in enumerate(clients):
        it.create(f"/idle-{number}", b"", ephemeral=True)
        it.add_listener(states.append)
    time.sleep(IDLE_SECONDS)
    assert not states, states
    assert [it.client_id for it in clients] == sessions
    assert all(is_at(leader, f"/idle-{number}") for number in range(len(clients)))
    ended(*clients)
    assert not any(is_at(leader, f"/idle-{number}") for number in range(len(clients)))
    ended(leader)


def observer_gone(bench):
    """Where the observer goes, its clients' sessions end at the leader after their timeouts."""
    other = Observer(bench.observer.program, bench.folder, "gone", 5)
    other.start(bench.leader.quorum)
    other.reaches(0)
    client, leader = library(other.client, SHORT), library(bench.leader.client)
    client.create("/observer-gone", b"", ephemeral=True)
    assert is_at(leader, "/observer-gone")
    other.stop()
    until("the ephemeral is gone", lambda: not is_at(leader, "/observer-gone"), 30)
    ended(client, leader)


def is_moved(client, path):
    """Returns whether the leader refuses a write, as of a session that another connection to it has used."""
    try:
        client.retry(client.set, path, b"moved")
        return False
    except SessionMovedError:
        return True


def elsewhere(bench, second, tries):
    """A client of the observer takes its session up at a second one, which has started, and has its ephemeral there.
    Then `tries` gets the client. Its close ends the session."""
    second.reaches(0)
    proxy, leader = Proxy(bench.observer.client), library(bench.leader.client)
    client = library(proxy.port)
    try:
        client.create("/moved", b"", ephemeral=True)
        session = client.client_id
        second.reaches(zxid_of(bench.leader.client))
        proxy.cut()
        until("kazoo has seen the cut", lambda: not client.connected)
        proxy.target = second.client
        proxy.mend()
        until("kazoo has come back", lambda: client.connected)
        assert client.client_id == session and client.get("/moved")[1].ephemeralOwner == session[0]
        tries(client)
        assert is_at(leader, "/moved")
        ended(client)
        assert not is_at(leader, "/moved")
    finally:
        proxy.close()
        second.stop()
    ended(leader)


def at_another_observer(bench):
    """A client takes its session up at another observer: its ephemerals stay, the leader does its writes there, and its
    close ends the session."""
    second = Observer(bench.observer.program, bench.folder, "another", 6)
    second.start(bench.leader.quorum)

    def writes(client):
        client.retry(client.set, "/moved", b"from the other")
        assert client.get("/moved")[0] == b"from the other"

    elsewhere(bench, second, writes)


def unasked(bench):
    """The same in dialect 3.4, in which the leader isn't asked: it refuses the writes."""
    first = bench.observer
    bench.observer = Observer(first.program, bench.folder, "older", 5)
    second = Observer(first.program, bench.folder, "unasked", 6)
    try:
        for it in (bench.observer, second):
            it.start(bench.leader.quorum, 0, "--dialect", "3.4")
        bench.observer.reaches(0)

        def is_refused(client):
            assert is_moved(client, "/moved")

        elsewhere(bench, second, is_refused)
    finally:
        bench.observer.stop()
        bench.observer = first


def started_again(bench, proxy, client, how):
    """Has the observer started again in some way, and waits until a client is back on its session."""
    session = client.client_id
    bench.observer.process.signal(signal.SIGKILL)
    bench.observer.process.ends()
    until("kazoo has seen the end", lambda: not client.connected)
    how()
    proxy.target = bench.observer.client
    until("kazoo has come back", lambda: client.connected)
    assert client.client_id == session, "another session"


def apart_after(bench, how):
    """Where the observer is started again in some way, a client takes its session up and writes, and a new client has
    an id that no session of the earlier run has had; when that one ends, the older one's ephemeral stays."""
    bench.observer.stop()
    bench.observer.start(bench.leader.quorum)
    proxy, leader = Proxy(bench.observer.client), library(bench.leader.client)
    # The first session of this run, as the new client's is of the next one.
    until("the observer serves", lambda: word(bench.observer.client, "isro") == "rw")
    client = library(proxy.port)
    try:
        client.create("/restarted", b"", ephemeral=True)
        session = client.client_id[0]
        started_again(bench, proxy, client, how)
        assert client.get("/restarted")[1].ephemeralOwner == session
        client.retry(client.set, "/restarted", b"by the same session")
        assert is_at(leader, "/restarted")
        first = library(bench.observer.client)
        assert first.client_id[0] != session and first.client_id[0] >> 56 == session >> 56 == OBSERVER_ID
        first.create("/restarted-first", b"", ephemeral=True)
        ended(first)
        assert is_at(leader, "/restarted") and not is_at(leader, "/restarted-first")
        ended(client)
        assert not is_at(leader, "/restarted")
    finally:
        proxy.close()
    ended(leader)


def after_a_restart(bench):
    """Killed and started again under the same id: no session of the earlier run is given to a new client."""
    apart_after(bench, lambda: bench.observer.start(bench.leader.quorum))


def clock_set_back(bench):
    """The same, with the clock set back by an hour between the two runs."""
    program = bench.observer.program
    bench.observer.program = [FAKETIME, "-f", "-1h", *program]
    try:
        apart_after(bench, lambda: bench.observer.start(bench.leader.quorum))
    finally:
        bench.observer.program = program


CHECKS = [after_a_close, after_a_cut, silent, taken_up, idle, observer_gone, at_another_observer, unasked]
CHECKS += [after_a_restart, clock_set_back]
