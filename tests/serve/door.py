"""What connections get before they have said as much as a word: a place, and nothing else. Those that ask a word about
the server are answered without a thread, and those that end or say nothing get none, either."""
import socket
import threading
import time

from leader import received
from server import CONNECT, CONNECTED_LEN, GET, Server, got, is_closed, is_silent, reset, wait_until
from words import figures

# The main thread, those that accept and follow, and the leader's.
THREADS = 3


class Most:
    """The most threads that a server had meanwhile."""

    def __init__(self, server):
        self.server, self.most, self.ended = server, 0, threading.Event()
        self.thread = threading.Thread(target=self.look)

    def look(self):
        while not self.ended.is_set():
            self.most = max(self.most, self.server.threads())
            time.sleep(0.0005)

    def __enter__(self):
        self.thread.start()
        return self

    def __exit__(self, *_):
        self.ended.set()
        self.thread.join()


def whole(connection):
    """All that comes until the connection is closed."""
    found = b""
    while True:
        piece = connection.recv(65536)
        if not piece:
            return found
        found += piece


def test_words_take_no_thread():
    with Server("--words", "all") as server:
        assert server.is_at_base()
        with Most(server) as threads:
            for _ in range(50):
                for word in (b"srvr", b"mntr", b"conf", b"envi", b"dirs", b"crst", b"srst"):
                    assert server.word(word), word
            for _ in range(200):
                server.connection().close()
                reset(server.connection())
        assert threads.most == THREADS, threads.most
        assert int(figures(server)["num_alive_connections"]) == 1
        assert "client" not in server.ends()


def test_words_in_pieces():
    """A word that comes letter by letter, with a line end, with more than a word after it, or with the end of the stream."""
    with Server() as server:
        for after in (b"", b"\n", b"\r\n", b" " * 300):
            with server.connection() as it:
                for letter in b"srv":
                    it.sendall(bytes([letter]))
                    time.sleep(0.02)
                assert is_silent(it)
                it.sendall(b"r" + after)
                assert whole(it).startswith(b"Zookeeper version: "), after
        with server.connection() as it:
            it.sendall(b"mntr")
            it.shutdown(socket.SHUT_WR)
            assert whole(it).startswith(b"zk_version\t")
        # Three letters and the end are no word.
        with server.connection() as it:
            it.sendall(b"mnt")
            it.shutdown(socket.SHUT_WR)
            assert whole(it) == b""
        assert int(figures(server)["num_alive_connections"]) == 1
        server.ends()


def test_a_session_that_begins_in_pieces():
    with Server() as server:
        for cut in (1, 3, 4, 5, len(CONNECT) - 1):
            with server.connection() as it:
                it.sendall(CONNECT[:cut])
                time.sleep(0.05)
                it.sendall(CONNECT[cut:] + GET)
                assert len(received(it, CONNECTED_LEN)) == CONNECTED_LEN and got(it), cut
        server.ends()


def test_who_speaks_is_heard_among_many_that_come():
    """While connections come without end, those that wait say something, and are served."""
    with Server() as server:
        waiting = [server.connection() for _ in range(20)]
        ended = threading.Event()

        def come():
            while not ended.is_set():
                try:
                    server.connection().close()
                except OSError:
                    pass

        coming = [threading.Thread(target=come) for _ in range(4)]
        for it in coming:
            it.start()
        try:
            for it in waiting:
                time.sleep(0.01)
                began = time.monotonic()
                it.sendall(CONNECT)
                assert len(received(it, CONNECTED_LEN)) == CONNECTED_LEN
                assert time.monotonic() - began < 2
        finally:
            ended.set()
            for it in coming:
                it.join()
        for it in waiting:
            it.close()
        assert server.is_at_base(10)
        server.ends()


def test_who_waits_when_the_server_ends():
    with Server("--unconnected", "0") as server:
        silent = [server.connection() for _ in range(200)]
        assert wait_until(lambda: int(figures(server)["num_alive_connections"]) == 201, 5)
        server.ends()
        assert all(is_closed(it) for it in silent)


def test_places_of_who_says_nothing():
    """They count, and are given back when the connection ends or has waited too long."""
    with Server("--max-clients", "5", "--unconnected", "1") as server:
        assert server.is_at_base()
        silent = [server.connection() for _ in range(5)]
        assert is_closed(server.connection())
        for it in silent[:2]:
            it.close()
        assert wait_until(lambda: server.word(b"ruok") == b"imok", 5)
        began = time.monotonic()
        for it in silent[2:]:
            assert is_closed(it)
        assert time.monotonic() - began < 3
        clients = [server.client() for _ in range(4)]
        assert int(figures(server)["num_alive_connections"]) == 5
        assert int(figures(server)["connection_rejected"]) >= 1
        for it in clients:
            it.close()
        assert server.is_at_base()
        server.ends()
