"""A standard error that nobody reads. The server serves on, counts the lines that it drops, and ends in time."""
import os
import re
import threading
import time

from server import CONNECT, Server, hexa, is_closed, wait_until

LINE = re.compile(r"\d{4}-\d\d-\d\dT\d\d:\d\d:\d\d\.\d{3}Z (?:DEBUG|INFO |WARN ) (start|leader|client|hub|log) (.+)\n")
DROPPED = re.compile(r"(\d+) lines were dropped: standard error wasn't read, or memory was refused")
LAST_WORDS = re.compile(r"observer: .+\n|cannot open\n|no memory\n")

# A pipe takes 64 KiB, some 1,000 lines; the server's queue takes 1,024; and each connection is told of twice.
CONNECTIONS = 3_000


class Unread(Server):
    """A server whose standard error is a pipe that is read only when the test says so."""

    def start(self, words, errors, limit=None):
        self.errors, theirs = os.pipe()
        self.lines, self.reading = [], None
        try:
            super().start(words, theirs, limit)
        finally:
            os.close(theirs)

    def come_and_go(self, count):
        """Connections that say enough to be served, and go."""
        for _ in range(count):
            with self.connection() as it:
                it.sendall(CONNECT[:4])

    def begin_reading(self):
        """From now on its lines are read, to the end of the process."""

        def read():
            with os.fdopen(self.errors, "rb") as it:
                self.lines.extend(it.read().decode().splitlines(keepends=True))

        self.reading = threading.Thread(target=read)
        self.reading.start()

    def lines_told(self):
        """Returns each line's target and message, once the process has ended. Each line is whole."""
        if self.reading is None:
            self.begin_reading()
        self.reading.join(10)
        logged = [it for it in self.lines if not LAST_WORDS.fullmatch(it)]
        found = [LINE.fullmatch(it) for it in logged]
        assert logged and all(found), [it for it in logged if not LINE.fullmatch(it)]
        return [it.groups() for it in found]

    def ends(self, status=0, seconds=2.0):
        """The leader goes, and the program ends so and in time, whether its lines are read or not."""
        if self.leader:
            self.leader.leave()
        began = time.monotonic()
        self.stream.close()
        self.leader_socket.close()
        assert self.program.wait(20) == status, self.program.returncode
        took = time.monotonic() - began
        assert took < seconds, f"it took {took:.2f} s to end"

    def kill(self):
        self.end()
        if self.reading is None:
            os.close(self.errors)
        if self.leader:
            self.leader.leave()
        self.stream.close()
        self.leader_socket.close()


class Watch:
    """A client that reads a node again and again, and the longest time that it waited."""

    def __init__(self, server):
        self.server, self.slowest, self.reads = server, 0.0, 0
        self.client, self.stopped = server.client(), threading.Event()
        self.thread = threading.Thread(target=self.read)

    def read(self):
        while not self.stopped.is_set():
            began = time.monotonic()
            if not self.server.answers(self.client):
                return
            self.slowest = max(self.slowest, time.monotonic() - began)
            self.reads += 1
            time.sleep(0.002)

    def __enter__(self):
        self.thread.start()
        return self

    def __exit__(self, *_):
        self.stopped.set()
        self.thread.join()
        self.client.close()


def test_nobody_reads_the_log():
    with Unread("--log", "debug") as server:
        with Watch(server) as watch:
            server.come_and_go(CONNECTIONS)
            assert server.is_serving()
            assert wait_until(lambda: watch.reads >= 100, 10), watch.reads
        assert watch.slowest < 0.5, watch.slowest
        assert server.is_at_base()
        server.begin_reading()
        # What waits is written, and a line that comes then finds room.
        time.sleep(0.5)
        server.come_and_go(1)
        assert server.is_at_base()
        server.ends()
        told = server.lines_told()
        dropped = [(at, DROPPED.fullmatch(it)) for at, (_, it) in enumerate(told) if DROPPED.fullmatch(it)]
        assert len(dropped) == 1, dropped
        at, match = dropped[0]
        # One line stands for each line that isn't there: each connection came and went, the first and the last two too.
        clients = [it.split()[0] for target, it in told if target == "client"]
        connections = CONNECTIONS + 4
        assert len(clients) + int(match[1]) == 2 * connections, (len(clients), match[1])
        assert int(match[1]) > CONNECTIONS / 2, match[1]
        # The order is that of the connections, and what was dropped is told where it is missing.
        came = [int(it.split()[0]) for target, it in told if target == "client" and "connected" in it]
        assert came == sorted(set(came)), came
        assert told[at][0] == "log" and told[at + 1] == ("client", told[at + 1][1])
        assert int(told[at + 1][1].split()[0]) == connections, told[at + 1]


def test_nobody_reads_the_log_at_the_end():
    with Unread("--log", "debug") as server:
        server.come_and_go(CONNECTIONS)
        assert server.is_serving()
        server.ends()
        assert not any(DROPPED.fullmatch(it) for _, it in server.lines_told())


def test_nobody_reads_the_last_words():
    with Unread("--log", "debug") as server:
        server.come_and_go(CONNECTIONS)
        client = server.client()
        # A length below -1: a fault of the leader, of which the last line would tell.
        server.leader.send(hexa("00000008 0000000100000002 ffffff00"))
        assert is_closed(client)
        server.ends(status=7)
        server.lines_told()


def test_the_log_is_read_to_its_end():
    """Lines that wait when the server ends are written, and the last words come after them."""
    with Unread("--log", "debug") as server:
        server.come_and_go(CONNECTIONS)
        assert server.is_at_base()
        client = server.client()
        server.begin_reading()
        server.leader.send(hexa("00000008 0000000100000002 ffffff00"))
        assert is_closed(client)
        server.ends(status=7)
        told = server.lines_told()
        assert server.lines[-1].startswith("observer: F2 BadLength from 127.0.0.1:"), server.lines[-1]
        assert sum(1 for _, it in told if DROPPED.fullmatch(it)) == 1, told[-5:]
        # The fault's line is told, too, or it is one of those dropped: then only what came after it is told after these.
        at = next(n for n, (_, it) in enumerate(told) if DROPPED.fullmatch(it))
        faults = [n for n, (target, it) in enumerate(told) if target == "leader" and "F2 BadLength" in it]
        assert len(faults) == 1 and faults[0] > at or all("is gone" in it for _, it in told[at + 1:]), told[at:]
