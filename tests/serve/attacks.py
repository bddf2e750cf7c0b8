"""Attacks on the server's time: clients that ask for what costs much, beside one that reads and a leader that PINGs.

Where a whole attack would take long, a smaller one is tried, and the whole by `--long`.
"""
import signal
import socket
import struct
import threading
import time

import forwarded
import several
from beside import LEFT, Attacked, Beside
from leader import CREATE, buffer, received
from server import PING, PINGED_LEN, is_closed

DELETE, GET_CHILDREN, AUTH, SET_WATCHES = 2, 8, 100, 101
AUTH_FAILED = -115
MEGABYTE = 1_000_000
REFUSED = b"wchp is not executed because it is not in the whitelist.\n"


def scaled(some, whole):
    """Returns a number of an attack: a smaller one, or the whole by `--long`."""
    return whole if several.LONG else some


# ---- what is asked for


def list_of(path):
    return forwarded.frame(1, GET_CHILDREN, buffer(path) + b"\0")


def paths(first, count):
    """Paths at which nothing is."""
    return [b"/w%07d" % number for number in range(first, first + count)]


def watches(those):
    """A setWatches of paths at which nothing is."""
    many = struct.pack(">i", len(those)) + b"".join(map(buffer, those))
    return forwarded.frame(-8, SET_WATCHES, struct.pack(">q", 1 << 32) + bytes(4) + many + bytes(4))


def shows(text):
    return forwarded.frame(-4, AUTH, bytes(4) + buffer(b"digest") + buffer(text))


def auth(size):
    """An auth with so many bytes, of which a digest is made."""
    return shows(b"me:" + bytes(size))


def user(number, size):
    """An auth that shows an id of so many bytes, with a few more for its digest."""
    return shows(b"%0*d:" % (size, number))


def deletes(count):
    """Deletes of 22 bytes."""
    return count * forwarded.frame(1, DELETE, buffer(b"/a") + struct.pack(">i", -1))


# ---- what there is


def listed(leader, count):
    """Has the leader make a node with so many children, and returns its path."""
    path, rest = b"/many", buffer(b"") + forwarded.OPEN_ACL + struct.pack(">?i", False, -1)
    names = [path] + [path + b"/n%06d" % number for number in range(count)]
    with leader.lock:
        leader.send(b"".join(leader.made(CREATE, buffer(it) + rest) for it in names))
    leader.pinged(60)
    return path


def watching(client, count, at_once):
    """Has a client leave so many watches, with so many in a request."""
    for first in range(0, count, at_once):
        client.sendall(watches(paths(first, at_once)))
        assert forwarded.replied(client)[::2] == (-8, 0)
    return client


def leave_watches(client, at_once, most):
    """A client leaves watches, so many with each request, until it is closed. Returns how many were left."""
    for first in range(0, most, at_once):
        try:
            client.sendall(watches(paths(first, at_once)))
            assert forwarded.replied(client)[::2] == (-8, 0)
        except (ConnectionError, struct.error):
            return first
    return most


# ---- how it is asked for


def told(connection):
    """Returns all that comes until the connection is closed, however long it takes."""
    connection.settimeout(600)
    return b"".join(iter(lambda: connection.recv(1 << 18), b""))


def repeat(client, request, count, until):
    """Sends the same again and again, and takes its answers. Returns how often."""
    turns = 0
    while time.monotonic() < until:
        client.sendall(request)
        for _ in range(count):
            forwarded.text(client)
        turns += 1
    return turns


class Reading:
    """Reads whatever comes on connections, until it is told to stop."""

    def __init__(self, connections):
        self.stopped, self.threads = threading.Event(), []
        for it in connections:
            self.threads.append(threading.Thread(target=self.read, args=(it,), daemon=True))
            self.threads[-1].start()

    def read(self, connection):
        connection.settimeout(0.1)
        while not self.stopped.is_set():
            try:
                if not connection.recv(1 << 18):
                    return
            except socket.timeout:
                pass
            except OSError:
                return

    def __enter__(self):
        return self

    def __exit__(self, *_):
        self.stopped.set()
        for it in self.threads:
            it.join()


def play(clients, request, until):
    """Clients that ask for little, so that they may ask for much at once, and then do, all at the same time."""
    turns = 0
    while time.monotonic() < until:
        for number in (1, 2, 4, 8, 16, 16):
            for it in clients:
                it.sendall(number * PING)
            for it in clients:
                assert len(received(it, number * PINGED_LEN)) == number * PINGED_LEN
        for it in clients:
            it.sendall(16 * request)
        for it in clients:
            for _ in range(16):
                forwarded.text(it)
        turns += 1
    return turns


# ---- the attacks


def test_many_words_at_once():
    """Words that list or count many watches, by connections without a session."""
    count = scaled(5000, 20_000)
    for word, lines in ((b"wchp", count), (b"mntr", 0)):
        with Attacked("--words", "all", "--unconnected", "0") as server:
            with watching(server.client(), count, count), Beside(f"many {word.decode()}", server) as beside:
                asking = [beside.connection() for _ in range(scaled(15, 200))]
                for it in asking:
                    it.sendall(word)
                for it in asking:
                    content = told(it)
                    assert len(content) > 100 and content.count(b"/w") == lines, content[:100]


def test_words_that_are_not_allowed():
    with Attacked() as server:
        with watching(server.client(), 20_000, 20_000), Beside("many wchp that are refused", server) as beside:
            asking = [beside.connection() for _ in range(200)]
            for it in asking:
                it.sendall(b"wchp")
            for it in asking:
                content = told(it)
                assert content == REFUSED, content[:100]
            assert server.word(b"ruok") == b"imok"


def test_long_lists():
    """Clients that list many names again and again, and read them or don't."""
    with Attacked() as server:
        path, count = listed(server.leader, 100_000), scaled(20, 40)
        with Beside("long lists that nobody reads", server) as beside:
            for _ in range(count):
                beside.client().sendall(16 * list_of(path))
            beside.lasts(scaled(2, 20))
        with Beside("long lists that are read", server) as beside:
            clients = [beside.client() for _ in range(count)]
            with Reading(clients):
                for it in clients:
                    it.sendall(16 * list_of(path))
                beside.lasts(scaled(2, 20))


def hold_up(program, until):
    """Stops the program for 10 ms, 40 ms after the last time, as a machine with other work does."""
    while time.monotonic() < until:
        program.send_signal(signal.SIGSTOP)
        time.sleep(0.01)
        program.send_signal(signal.SIGCONT)
        time.sleep(0.04)


def test_a_server_that_is_held_up():
    """Who asks for little isn't put off with those who ask for much where the program was held up at its request."""
    with Attacked() as server:
        asked = 160 * list_of(listed(server.leader, 100_000))
        with Beside("long lists, and a program that is held up", server, readers=6) as beside:
            clients = [beside.client() for _ in range(20)]
            with Reading(clients):
                for it in clients:
                    it.sendall(asked)
                hold_up(server.program, beside.began + scaled(6, 20))


def test_long_requests_over_and_over():
    """One client that reads asks for what costs most."""
    with Attacked() as server:
        path = listed(server.leader, 100_000)
        asked = {
            "setWatches of 20,000 paths": (watches(paths(0, 20_000)), 1),
            "lists of 100,000 names": (16 * list_of(path), 16),
            "auths of 1 MB": (auth(1_000_000), 1),
        }
        for name, (request, count) in asked.items():
            with Beside(name, server) as beside:
                turns = repeat(beside.client(), request, count, beside.began + scaled(2, 20))
            print(f"  {turns} times")


def is_refused(client):
    """Returns whether the next reply refuses an id, and the connection is closed then."""
    return forwarded.replied(client)[::2] == (-4, AUTH_FAILED) and is_closed(client)


def insist(client, count):
    """Sends auths with ids of a megabyte, and then deletes, as far as the server takes them."""
    try:
        for number in range(count):
            client.sendall(user(number, MEGABYTE))
        client.sendall(deletes(100))
    except ConnectionError:
        pass


def test_ids_of_a_megabyte():
    """No id is taken that would make every later request of its connection long."""
    with Attacked() as server:
        with Beside("256 auths with ids of 1 MB, and then deletes", server) as beside:
            client = beside.client()
            client.sendall(user(0, MEGABYTE))
            assert is_refused(client)
            for _ in range(scaled(4, 20)):
                insist(beside.client(), 256)
            beside.are_closed(10)
            assert server.leader.requests.empty()


def test_requests_with_many_ids():
    """The leader is sent 64 KiB of ids for a small request at most."""
    with Attacked() as server:
        count = scaled(200, 1000)
        with Beside("63 auths with ids of 1 kB, and then deletes", server) as beside:
            client = beside.client()
            client.sendall(b"".join(user(number, 1000) for number in range(63)) + deletes(count))
            for _ in range(63):
                assert forwarded.replied(client)[::2] == (-4, 0)
            for _ in range(count):
                ids = server.leader.asked().ids
                assert len(ids) == 64 and sum(len(part) for one in ids for part in one) <= 1 << 16
            client.sendall(user(63, 1000))
            assert is_refused(client)


def test_many_watches():
    """One connection leaves watch after watch, until it is closed, which gives back their memory."""
    # By --long with the bound that there is without the option.
    words = scaled(("--max-watches", "30000"), ())
    with Attacked(*words) as server:
        for _ in range(2):
            with Beside("many watches of one connection", server) as beside:
                count = leave_watches(beside.client(), 10_000, scaled(60_000, 1_000_000))
                beside.are_closed(30)
            print(f"  {count} watches")
            assert scaled(30_000, 500_000) < count <= scaled(50_000, 520_000), count


def test_many_watches_at_once():
    """Of many setWatches that one connection sends together, one is taken: that oversteps, and the connection is closed."""
    with Attacked("--max-watches", "1000") as server:
        with Beside("36 setWatches of 20,000 paths each beyond --max-watches", server) as beside:
            client, asked = beside.client(), 36 * watches(paths(0, 20_000))
            # What it has sent besides is taken when the pause after so long a request is over.
            client.settimeout(60)
            try:
                client.sendall(asked)
                told(client)
            except ConnectionError:
                pass
            beside.are_closed(30)
            assert b"watches:0" in server.word(b"wchs")


def test_small_requests_and_then_long_ones():
    with Attacked() as server:
        path = listed(server.leader, 100_000)
        with Beside("small requests, and then long ones", server) as beside:
            clients = [beside.client() for _ in range(scaled(4, 8))]
            turns = play(clients, list_of(path), beside.began + scaled(2, 20))
        print(f"  {turns} times")
