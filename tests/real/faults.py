"""What goes wrong: leaders that stop, die, freeze or are at fault, a frozen observer, and clients that misbehave."""
import os
import random
import signal
import socket
import struct
import time

from kazoo.client import KazooClient

from lab import Failed, Gone, Observer, free_ports, until, zxid_of
from raw import Raw, int32, int64

FRAME_LIMIT = 1_048_575
MANY, CLIENTS = 2000, 500
# Answers of 500,000 bytes that a client asks for and doesn't read, and the most KiB that may be held for it.
GREEDY, MOST_HELD = 200, 40_000


def writer_of(bench):
    client = KazooClient(f"127.0.0.1:{bench.leader.client}", timeout=10)
    client.start(15)
    return client


def restarted(bench):
    """Brings leader and observer up, where a check before this one has ended them."""
    if not bench.leader.process.lives():
        bench.leader.start()
    if not bench.observer.process.lives():
        bench.observer.start(bench.leader.quorum)
    until("the observer serves", lambda: answers(bench))


def is_closed(connection, seconds=5):
    """Returns whether the other end closes the connection within this time; what it sends before is dropped."""
    connection.settimeout(seconds)
    try:
        while connection.recv(65536):
            pass
        return True
    except socket.timeout:
        return False
    except OSError:
        return True


def answers(bench):
    """Asks the observer for a node as a new client. Returns True, or raises Gone while it doesn't serve."""
    client = Raw(bench.observer.client)
    assert client.stat("/") is not None
    client.leave()
    return True


def ends_with_its_leader(bench, end):
    """A client's connection is closed, and the observer ends with status 0, when the leader goes."""
    restarted(bench)
    client = Raw(bench.observer.client)
    end()
    assert is_closed(client.socket), "the client's connection stays open"
    status = bench.observer.process.ends(5)
    assert status == 0, f"status {status}: {bench.observer.process.tail()}"


def leader_stopped(bench):
    """The leader is told to stop."""
    ends_with_its_leader(bench, bench.leader.stop)


def leader_killed(bench):
    """The leader is killed."""
    ends_with_its_leader(bench, bench.leader.kill)


def leader_killed_with_many_clients(bench):
    """With 500 clients the connection of each is closed, and the observer ends in a few seconds."""
    restarted(bench)
    clients = [Raw(bench.observer.client) for _ in range(CLIENTS)]
    began = time.monotonic()
    bench.leader.kill()
    assert bench.observer.process.ends(10) == 0, bench.observer.process.tail()
    seconds = time.monotonic() - began
    assert all(is_closed(it.socket) for it in clients), "a client's connection stays open"
    print(f"     with {CLIENTS} clients it has ended after {seconds:.2f} s")


def comes_back(bench):
    """A new observer behind the leader's next epoch has the tree."""
    restarted(bench)
    writer = writer_of(bench)
    writer.ensure_path("/faults/back")
    bench.observer.reaches(zxid_of(bench.leader.client))
    client = Raw(bench.observer.client)
    assert client.stat("/faults/back") is not None
    client.leave()
    writer.stop()


def leader_frozen(bench):
    """While the leader stands still for less than the sync limit, reads are answered; then the observer follows again.
    What comes after a longer time is a matter of the suite `ensemble`."""
    restarted(bench)
    writer, client = writer_of(bench), Raw(bench.observer.client)
    bench.leader.process.signal(signal.SIGSTOP)
    try:
        for _ in range(20):
            assert client.stat("/") is not None
            time.sleep(0.1)
    finally:
        bench.leader.process.signal(signal.SIGCONT)
    writer.ensure_path("/faults/thawed")
    bench.observer.reaches(zxid_of(bench.leader.client))
    client.leave()
    writer.stop()


def observer_frozen(bench):
    """Where the observer stands still for less than the leader waits, it goes on; for longer, it ends with status 0."""
    restarted(bench)
    writer = writer_of(bench)
    bench.observer.process.signal(signal.SIGSTOP)
    time.sleep(3)
    bench.observer.process.signal(signal.SIGCONT)
    writer.ensure_path("/faults/short")
    bench.observer.reaches(zxid_of(bench.leader.client))
    bench.observer.process.signal(signal.SIGSTOP)
    time.sleep(14)
    bench.observer.process.signal(signal.SIGCONT)
    status = bench.observer.process.ends(10)
    assert status == 0, f"status {status}: {bench.observer.process.tail()}"
    writer.stop()


def cannot_start(bench):
    """A port in use and a leader that isn't there: status 3, and a line that says so."""
    restarted(bench)
    unused = free_ports(1)[0]
    for leader, client, name in ((bench.leader.quorum, bench.observer.client, "in-use"), (unused, 0, "no-leader")):
        other = Observer(bench.observer.program, bench.folder, name)
        try:
            other.start(leader, client)
            raise AssertionError(f"it serves: {name}")
        except Failed:
            assert other.process.ends() == 3, other.process.tail()
            lines = other.process.tail(2).splitlines()
            assert lines[0].startswith("observer: cannot ") and lines[1] == "cannot open", other.process.tail()
        finally:
            other.stop()


def leader_at_fault(bench):
    """A leader whose first packet isn't LEADERINFO is left, with status 7 and a line that says what to do."""
    listener = socket.create_server(("127.0.0.1", 0))
    other = Observer(bench.observer.program, bench.folder, "at-fault")
    try:
        other.start(listener.getsockname()[1])
        connection, _ = listener.accept()
        connection.sendall(int32(13) + int64(0) + int32(-1) + int32(-1))
        assert is_closed(connection), "the leader's connection stays open"
        assert other.process.ends(5) == 7, other.process.tail()
        assert other.process.tail(1).startswith("observer: F12 UnexpectedPacket from "), other.process.tail()
    finally:
        other.stop()
        listener.close()


def leader_ends_in_an_image(bench):
    """A leader that goes in the middle of an image: status 0, and no client was served."""
    listener = socket.create_server(("127.0.0.1", 0))
    other = Observer(bench.observer.program, bench.folder, "in-an-image")
    try:
        other.start(listener.getsockname()[1])
        connection, _ = listener.accept()
        connection.sendall(int32(17) + int64(1 << 32) + int32(4) + int32(0x10000) + int32(-1))
        connection.sendall(int32(15) + int64(1 << 32) + int32(-1) + int32(-1) + int32(0) + int32(0) + int32(0))
        try:
            Raw(other.client)
            raise AssertionError("a client is served before there is a tree")
        except Gone:
            pass
        connection.close()
        assert other.process.ends(5) == 0, other.process.tail()
    finally:
        other.stop()
        listener.close()


def bad_clients(bench):
    """Lengths out of bounds, random bytes, cuts in the middle of a frame: they are closed, and the others served."""
    restarted(bench)
    chosen, served = random.Random(5), Raw(bench.observer.client)
    for sent in (struct.pack(">i", -1), struct.pack(">i", FRAME_LIMIT + 1), b"\xff" * 100, b"GET / HTTP/1.0\r\n\r\n"):
        with socket.create_connection(("127.0.0.1", bench.observer.client), 5) as connection:
            connection.sendall(sent)
            assert is_closed(connection), sent
    for _ in range(200):
        with socket.create_connection(("127.0.0.1", bench.observer.client), 5) as connection:
            connection.sendall(bytes(chosen.randrange(256) for _ in range(chosen.randrange(1, 200))))
        assert served.stat("/") is not None
    for count in range(1, 49):
        client = Raw(bench.observer.client)
        client.socket.sendall((struct.pack(">i", 15) + int32(1) + int32(4) + int32(2) + b"/a" + b"\0")[:count])
        client.close()
    silent = socket.create_connection(("127.0.0.1", bench.observer.client), 5)
    assert served.stat("/") is not None
    silent.close()
    served.leave()


def one_that_does_not_read(bench):
    """A client that asks for much and reads nothing stops itself alone; what it asked for comes once it reads."""
    restarted(bench)
    writer = writer_of(bench)
    writer.create("/faults-large", b"x" * 500_000)
    bench.observer.reaches(zxid_of(bench.leader.client))
    greedy, served = Raw(bench.observer.client), Raw(bench.observer.client)
    asked = struct.pack(">iii", 26, 1, 4) + struct.pack(">i", 13) + b"/faults-large" + b"\0"
    greedy.socket.settimeout(0.5)
    before, sent = memory(bench.observer), 0
    try:
        for _ in range(GREEDY):
            greedy.socket.sendall(asked)
            sent += 1
    except socket.timeout:
        pass
    began = time.monotonic()
    for _ in range(20):
        assert served.stat("/") is not None
    assert time.monotonic() - began < 5
    held = memory(bench.observer) - before
    assert held < MOST_HELD, f"{held} KiB are held for a client that doesn't read"
    for _ in range(sent):
        assert greedy.frame(20), "what was asked for doesn't come"
        # Others are served meanwhile; one that said nothing for its timeout would be closed.
        assert served.stat("/") is not None
    greedy.close()
    served.leave()
    writer.stop()


def memory(observer):
    """Returns the resident set of an observer's largest process, in KiB."""
    found = [0]
    for pid in os.listdir("/proc"):
        try:
            if pid.isdigit() and os.getpgid(int(pid)) == observer.process.ran.pid:
                with open(f"/proc/{pid}/status", encoding="ascii") as it:
                    found += [int(line.split()[1]) for line in it if line.startswith("VmRSS")]
        except OSError:
            pass  # It has ended.
    return max(found)


def opened_and_reset(bench):
    """Many connections are opened and reset at once; afterwards the observer serves as before."""
    restarted(bench)
    before = descriptors(bench.observer)
    held = []
    for number in range(MANY):
        connection = socket.create_connection(("127.0.0.1", bench.observer.client), 10)
        connection.setsockopt(socket.SOL_SOCKET, socket.SO_LINGER, struct.pack("ii", 1, 0))
        if number % 2:
            connection.sendall(bytes(number % 50))
        held.append(connection)
    for it in held:
        it.close()
    until("a new client is served", lambda: answers(bench), 60)
    until("their descriptors are closed", lambda: descriptors(bench.observer) <= before + 20)


def descriptors(observer):
    return len(os.listdir(f"/proc/{observer.process.ran.pid}/fd"))


CHECKS = [cannot_start, bad_clients, one_that_does_not_read, opened_and_reset, leader_frozen, leader_stopped]
CHECKS += [comes_back, leader_killed, leader_killed_with_many_clients, observer_frozen, leader_at_fault]
CHECKS += [leader_ends_in_an_image]
