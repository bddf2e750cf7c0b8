"""What bounds the connections of clients: how many there may be of an address, how long one may say nothing, which words
it may ask, how much may wait for those that don't read, and how many watches one may leave. And the last words of a
leader."""
import fcntl
import os
import random
import re
import socket
import struct
import tempfile
import termios
import time

import forwarded
import load
import several
from attacks import paths, watches, watching
from leader import CREATE, received
from server import (
    CONNECT, CONNECTED_LEN, GET, OBSERVERINFO, UPTODATE, Server, got, hexa, is_closed, reset, wait_until,
)

WORDS = (
    b"ruok", b"isro", b"srvr", b"stat", b"mntr", b"conf", b"envi", b"dirs", b"wchs", b"wchp", b"wchc", b"dump", b"cons",
    b"crst", b"srst",
)


def connection_from(server, host):
    """A connection from this address, which asks for a session."""
    connection = socket.create_connection(("127.0.0.1", server.port), 10, source_address=(host, 0))
    try:
        connection.sendall(CONNECT)
    except ConnectionError:
        pass
    return connection


def is_let_in(connection):
    try:
        return len(received(connection, CONNECTED_LEN)) == CONNECTED_LEN
    except ConnectionError:
        return False


def test_most_clients_of_an_address():
    with Server("--max-per-address", "2") as server:
        assert server.is_at_base()
        first, second = server.client(), server.client()
        for _ in range(5):
            assert is_closed(server.connection())
        others = [connection_from(server, "127.0.0.2") for _ in range(3)]
        assert [is_let_in(it) for it in others] == [True, True, False]
        assert server.answers(first) and server.answers(second) and server.answers(others[0])
        # Whoever goes makes room for one of the same address.
        first.close()
        assert wait_until(lambda: is_let_in(connection_from(server, "127.0.0.1")), 5)
        third = connection_from(server, "127.0.0.2")
        assert not is_let_in(third)
        for it in (second, *others):
            it.close()
        assert "--max-per-address" in server.ends()


def test_timeouts_of_sessions():
    """They are within 2 and 20 ticks, or the options' bounds, which a record tells if they aren't those of a script."""
    for words, line, granted in (
        ([], None, [4000, 10_000, 40_000]),
        (["--tick", "500"], "timeouts 1000 10000", [1000, 10_000, 10_000]),
        (["--min-session-timeout", "5000"], "timeouts 5000 40000", [5000, 10_000, 40_000]),
        (["--tick", "500", "--max-session-timeout", "9000"], "timeouts 1000 9000", [1000, 9000, 9000]),
    ):
        with tempfile.TemporaryDirectory() as room:
            name = os.path.join(room, "record")
            with several.Following([several.Seat()], *words, "--record", name) as server:
                server.seats[0].accept().leads(1)
                for asked, timeout in zip((1, 10_000, 2**31 - 1), granted):
                    with server.connection() as client:
                        client.sendall(forwarded.Session(0, asked, bytes(16)).connect())
                        assert forwarded.connected(client).timeout == timeout, (words, asked)
            with open(name, encoding="ascii") as it:
                lines = it.read().splitlines()
            assert [it for it in lines if it.startswith("timeouts")] == ([line] if line else []), (words, lines[:5])


def answered(server, word):
    """Returns whether a word is answered, where it is told why if it isn't."""
    found = server.word(word)
    assert found, word
    return found != word + b" is not executed because it is not in the whitelist.\n"


def test_words_that_are_answered():
    for words, wanted in (
        ([], WORDS[:9]),
        (["--words", "all"], WORDS),
        (["--words", "none"], ()),
        (["--words", "wchp,ruok"], (b"ruok", b"wchp")),
        (["--words", "dump,wchc"], (b"wchc", b"dump")),
    ):
        with Server(*words) as server, server.client() as watching:
            # A watch, so that each word has something to tell.
            watching.sendall(GET[:-1] + b"\1")
            assert got(watching)
            assert [it for it in WORDS if answered(server, it)] == list(wanted), words
            assert server.is_serving()
            server.ends()


def test_connections_without_a_session():
    with Server("--unconnected", "1") as server:
        assert server.is_at_base()
        base, client = server.descriptors(), server.client()
        silent = [server.connection() for _ in range(20)]
        slow = server.connection()
        began = time.monotonic()
        for byte in CONNECT[:10]:
            slow.sendall(bytes([byte]))
            time.sleep(0.02)
        for it in (*silent, slow):
            assert is_closed(it)
            it.close()
        assert 0.9 < time.monotonic() - began < 3, time.monotonic() - began
        assert server.answers(client)
        client.close()
        assert server.is_at_base() and wait_until(lambda: server.descriptors() <= base, 5), server.descriptors()
        server.ends()
    with Server("--unconnected", "0") as server:
        silent = server.connection()
        time.sleep(1.5)
        silent.sendall(CONNECT)
        assert is_let_in(silent)
        silent.close()
        server.ends()


def test_clients_that_do_not_read_beyond_all_bounds():
    """The slowest are closed until what waits is within its bound; who reads is served meanwhile."""
    count = 12
    with Server("--max-under-way", "4") as server:
        assert server.is_at_base()
        node = load.made(server.leader, 900_000)
        good, stuck = server.client(), [server.client() for _ in range(count)]
        before = server.memory()
        for it in stuck:
            it.setsockopt(socket.SOL_SOCKET, socket.SO_RCVBUF, 4096)
            it.sendall(forwarded.get_data(1, node.path) * 40)
        for _ in range(300):
            began = time.monotonic()
            assert server.answers(good)
            assert time.monotonic() - began < 1
            time.sleep(0.005)
        # Of the others each has a part of an answer that isn't written, and in 4 MiB there isn't room for all.
        left = server.threads() - 4
        assert 1 <= left <= 9, left
        # What was freed isn't all given back.
        assert server.memory() - before < 40, (before, server.memory())
        for it in (good, *stuck):
            it.close()
        assert server.is_at_base()
        assert "--max-under-way" in server.ends()


def watched(server):
    """Returns how many connections watch how many paths, and the number of watches."""
    return [int(it) for it in re.findall(rb"[0-9]+", server.word(b"wchs"))]


def test_watches_of_a_connection():
    """Who leaves more watches than one may is closed, and they are gone with it; others keep theirs."""
    with Server("--log", "debug", "--max-watches", "1000") as server:
        assert server.is_at_base()
        base, good = server.descriptors(), watching(server.client(), 1000, 500)
        assert watched(server) == [1, 1000, 1000]
        one_more = server.client()
        one_more.sendall(watches(paths(0, 1000)) + GET[:-1] + b"\1")
        assert forwarded.replied(one_more)[::2] == (-8, 0) and got(one_more)
        assert is_closed(one_more)
        assert wait_until(lambda: watched(server) == [1, 1000, 1000], 5), watched(server)
        assert server.answers(good)
        for it in (good, one_more):
            it.close()
        assert server.is_at_base() and wait_until(lambda: server.descriptors() <= base, 5), server.descriptors()
        assert watched(server) == [0, 0, 0]
        assert "connections with too many watches were closed: --max-watches" in server.ends()
    with Server("--max-watches", "0") as server:
        client = watching(server.client(), 20_000, 10_000)
        assert watched(server) == [1, 20_000, 20_000] and server.answers(client)
        client.close()
        server.ends()


def are_taken(connection):
    """Returns whether all bytes that were sent are with the peer; its end may still be on the way."""
    return struct.unpack("i", fcntl.ioctl(connection, termios.TIOCOUTQ, bytes(4)))[0] <= 1


def test_a_leader_that_ends_right_after_what_is_refused():
    """Its fault is told, whenever its connection ends: the verdict comes after some work."""
    chance, refused = random.Random(3), hexa("00000008 0000000100000002 ffffff00")
    for turn in range(200 if several.LONG else 60):
        with Server("--log") as server:
            leader = server.leader
            leader.leave()
            bodies = (
                forwarded.buffer(b"/n%d" % number) + forwarded.buffer(b"hi") + forwarded.OPEN_ACL
                + struct.pack(">?i", False, number + 2)
                for number in range(600)
            )
            server.stream.sendall(b"".join(leader.made(CREATE, it) for it in bodies) + refused)
            server.stream.shutdown(socket.SHUT_WR)
            assert wait_until(lambda: are_taken(server.stream), 5)
            time.sleep(0.004 * chance.random())
            reset(server.stream)
            told = server.ends(status=7, seconds=5).splitlines()
            assert told[-1].startswith("observer: F2 BadLength from 127.0.0.1:"), (turn, told)
            assert any(it.split()[1] == "WARN" and "F2 BadLength" in it for it in told[:-1]), (turn, told)


def test_a_server_that_ends_right_after_what_no_leader_sends():
    for turn in range(40):
        with Server("--log", serves=False) as server:
            received(server.stream, len(OBSERVERINFO))
            server.stream.sendall(UPTODATE)
            told = server.ends(status=7).splitlines()
            assert told[-1].startswith("observer: F12 UnexpectedPacket from 127.0.0.1:"), (turn, told)
