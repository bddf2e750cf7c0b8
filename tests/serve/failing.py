"""What fails around the server: a leader's stream in its handshake, descriptors that run out, the disk of a record, and
streams whose end comes with their last bytes. And that what waits for a bound goes on as soon as it may."""
import os
import resource
import signal
import socket
import struct
import tempfile
import time

import forwarded
from leader import received
from server import (
    ACK, ACKEPOCH, CONNECT, DIFF, GET, LEADERINFO, NEWLEADER, OBSERVERINFO, UPTODATE, Server, is_closed, reset,
)

# What the leader sends, and what it is answered before it sends the next.
HANDSHAKE = ((b"", OBSERVERINFO), (LEADERINFO, ACKEPOCH), (DIFF + NEWLEADER, ACK), (UPTODATE, ACK))


def cut_handshakes():
    """Yields beginnings of a handshake: the pieces that are answered, and what the last one lacks."""
    for count in range(1, len(HANDSHAKE) + 1):
        yield HANDSHAKE[:count], 0
        yield HANDSHAKE[:count], 3


def test_the_leader_of_one_server_ends_in_its_handshake():
    """By a reset or not, between two packets or in one: the status is 0, and no thread is waited for."""
    for pieces, lacks in cut_handshakes():
        for ends in (socket.socket.close, reset):
            with Server("--log", "off", serves=False) as server:
                for sent, wanted in pieces[:-1]:
                    server.stream.sendall(sent)
                    received(server.stream, len(wanted))
                sent, wanted = pieces[-1]
                server.stream.sendall(sent[: len(sent) - lacks])
                if not lacks:
                    received(server.stream, len(wanted))
                ends(server.stream)
                assert server.ends() == "", (len(pieces), lacks)


def has_room_for(server, count):
    """Lets the program open so many descriptors more than it has."""
    most = resource.getrlimit(resource.RLIMIT_NOFILE)[1]
    resource.prlimit(server.program.pid, resource.RLIMIT_NOFILE, (min(server.descriptors() + count, most), most))


def begun(server):
    """A connection that asks for a session."""
    connection = server.connection()
    try:
        connection.sendall(CONNECT)
    except ConnectionError:
        pass
    return connection


def test_places_of_connections_that_cannot_be_served():
    """They are given back, each once: then there are as many connections as there may be, and never one more."""
    for option in ("--max-clients", "--max-per-address"):
        with Server(option, "3") as server:
            # A connection takes one descriptor, and three once it has said something: these are too few for that.
            for room in (1, 2):
                assert server.is_at_base()
                has_room_for(server, room)
                for _ in range(5):
                    assert is_closed(begun(server)), room
            has_room_for(server, 1000)
            for _ in range(2):
                clients = [server.client() for _ in range(3)]
                for _ in range(3):
                    assert is_closed(server.connection())
                assert all(server.answers(it) for it in clients)
                for it in clients:
                    it.close()
                assert server.is_at_base(), server.threads()
            assert "too many open files" in server.ends().lower()


def test_a_record_that_is_cut_in_its_last_line():
    """The last write takes a part of its bytes, and the next one none."""
    with tempfile.TemporaryDirectory() as room:
        name = os.path.join(room, "record")

        def limit():
            signal.signal(signal.SIGXFSZ, signal.SIG_IGN)

        with Server("--record", name, "--log", "off", limit=limit) as server:
            assert server.is_serving() and server.is_at_base()
            server.leader.pinged()
            length = os.path.getsize(name)
            resource.prlimit(server.program.pid, resource.RLIMIT_FSIZE, (length + 5, length + 5))
            told = server.ends(status=3).splitlines()
            assert told == ["observer: the record could not be written to its end", "cannot open"], told
        with open(name, "rb") as record:
            assert record.read()[length:] == b"leader end\n"[:5]


def test_ends_that_come_with_the_last_bytes():
    """One event tells of both, where the program was stopped meanwhile: it reads on after the last bytes."""
    with Server() as server:
        for client, last in ((server.client(), GET[:7]), (server.connection(), CONNECT[:9])):
            server.program.send_signal(signal.SIGSTOP)
            client.sendall(last)
            client.shutdown(socket.SHUT_WR)
            server.program.send_signal(signal.SIGCONT)
            client.settimeout(5)
            assert is_closed(client)
        assert server.is_at_base()
        server.ends()


def writes(number, each, size):
    """So many creates of a client, each with so many bytes of data."""
    return b"".join(forwarded.create(xid, b"/n%d-%d" % (number, xid), bytes(size)) for xid in range(each))


def are_written(client, each):
    """Takes the answers to so many creates."""
    with client.makefile("rb", 1 << 16) as stream:
        for xid in range(each):
            reply = stream.read(int.from_bytes(stream.read(4), "big"))
            assert reply[:4] + reply[12:16] == struct.pack(">ii", xid, 0), (xid, reply)


def forwarded_within(server, clients, each, size):
    """Each client writes so often, all at once. Returns what the leader was asked, how long that took, and how long a
    PING waited for its answer meanwhile at most."""
    asked, waited = [writes(number, each, size) for number in range(len(clients))], 0
    began = time.monotonic()
    for client, requests in zip(clients, asked):
        client.sendall(requests)
    requests = []
    while len(requests) < len(clients) * each:
        requests.append(server.leader.asked())
        if len(requests) % 100 == 0:
            pinged = time.monotonic()
            server.leader.pinged()
            waited = max(waited, time.monotonic() - pinged)
    return requests, time.monotonic() - began, waited


def test_many_writes_at_once_are_forwarded():
    """More than the leader's port has room for, and then far more bytes than may be under way to it: all go on whenever
    there is room, with no wait for the clock, and PINGs are answered meanwhile. Clients that go unanswered leave no
    trace."""
    with Server() as server:
        for each, size, are_answered in ((160, 2, False), (20, 20_000, True)):
            clients = [server.client() for _ in range(50)]
            requests, took, waited = forwarded_within(server, clients, each, size)
            assert took < 15 and waited < 2, (each, took, waited)
            if are_answered:
                with server.leader.lock:
                    server.leader.send(b"".join(map(server.leader.done, requests)))
                for client in clients:
                    are_written(client, each)
            for client in clients:
                client.close()
            assert server.is_at_base(), server.threads()
        server.ends(seconds=10)
