"""`wait`: it ends when a server serves clients, and otherwise when its time is over, whatever it finds there."""
import socket
import subprocess
import threading
import time
from contextlib import ExitStack

from leader import received
from server import Program, Server

USAGE = "usage: wait HOST:PORT [--seconds N]\n"
# How far past its time it may be told that it has ended, on a busy machine.
LATE = 2.5


class Waiting:
    """A `wait` that goes on."""

    def __init__(self, *words):
        self.began = time.monotonic()
        how = {"stdin": subprocess.DEVNULL, "stdout": subprocess.PIPE, "stderr": subprocess.PIPE, "encoding": "utf-8"}
        self.program = subprocess.Popen([Program.PROGRAM, "wait", *words], **how)

    def goes_on(self):
        return self.program.poll() is None

    def ended(self):
        """Returns its status, and what standard output and standard error were told."""
        try:
            out, told = self.program.communicate(timeout=20)
        except subprocess.TimeoutExpired:
            self.program.kill()
            self.program.communicate()
            raise
        self.took = time.monotonic() - self.began
        return self.program.returncode, out, told


class Answering:
    """A port where each connection that says `isro` is answered so, and closed; None: it is left as it is."""

    def __init__(self, answer, host="127.0.0.1"):
        family = socket.AF_INET6 if ":" in host else socket.AF_INET
        self.answer, self.kept, self.asked = answer, [], 0
        self.socket = socket.create_server((host, 0), family=family)
        self.address = f"[{host}]" if ":" in host else host
        self.address += f":{self.socket.getsockname()[1]}"
        self.thread = threading.Thread(target=self.answers)
        self.thread.start()

    def answers(self):
        while True:
            try:
                connection, _ = self.socket.accept()
            except OSError:
                return
            self.kept.append(connection)
            connection.settimeout(10)
            if received(connection, 4) == b"isro":
                self.asked += 1
                connection.sendall(self.answer or b"")
            if self.answer is not None:
                connection.close()

    def __enter__(self):
        return self

    def __exit__(self, *_):
        self.socket.shutdown(socket.SHUT_RDWR)
        self.thread.join()
        self.socket.close()
        for it in self.kept:
            it.close()


def waits_in_vain(address, why, seconds=1):
    """It ends with status 8 after so many seconds, and one line that says why."""
    waiting = Waiting(address, "--seconds", str(seconds))
    status, out, told = waiting.ended()
    assert (status, out) == (8, ""), (address, status, out, told)
    assert told == f"observer: {address} isn't serving after {seconds} s ({why})\n", told
    assert seconds <= waiting.took < seconds + LATE, (address, waiting.took)


def test_a_wait_for_a_server():
    with Server("--log", "off", serves=False) as server:
        waiting = [Waiting(f"{host}:{server.port}") for host in ("127.0.0.1", "localhost")]
        waits_in_vain(f"127.0.0.1:{server.port}", "not serving")
        assert all(it.goes_on() for it in waiting)
        server.handshake()
        assert [it.ended() for it in waiting] == [(0, "", "")] * 2
        assert Waiting(f"127.0.0.1:{server.port}", "--seconds", "1").ended() == (0, "", "")
        server.ends()


def test_a_wait_that_begins_before_the_server():
    with socket.socket() as taken:
        taken.bind(("127.0.0.1", 0))
        address = f"127.0.0.1:{taken.getsockname()[1]}"
    waiting = Waiting(address, "--seconds", "86400")
    time.sleep(0.5)
    assert waiting.goes_on()

    class Here(Server):
        CLIENT = address

    with Here() as server:
        assert waiting.ended() == (0, "", "")
        server.ends()


def test_a_wait_for_an_answer():
    with Answering(b"rw") as server:
        assert Waiting(server.address).ended() == (0, "", "") and server.asked == 1
    for answer in (b"", b"r", b"ro", b"rw\n", b"null", b"rw" * 10_000):
        with Answering(answer) as server:
            waits_in_vain(server.address, "not serving")
            assert 2 <= server.asked <= 6, (answer, server.asked)


def test_a_wait_for_an_address_of_ipv6():
    try:
        server = Answering(b"rw", "::1")
    except OSError:
        return  # This machine has no such address.
    with server:
        assert Waiting(server.address, "--seconds", "5").ended() == (0, "", "")


def test_a_wait_for_nothing():
    with socket.socket() as closed:
        closed.bind(("127.0.0.1", 0))
        waits_in_vain(f"127.0.0.1:{closed.getsockname()[1]}", "no connection")
        waits_in_vain(f"localhost:{closed.getsockname()[1]}", "no connection", 2)
    status, out, told = Waiting("no-such-host.invalid:2181", "--seconds", "1").ended()
    assert (status, out) == (8, "") and told.endswith(" isn't serving after 1 s (unknown name)\n"), (status, told)


def test_a_wait_for_who_is_silent():
    for answer in (None, b"r"):
        with ExitStack() as stack:
            silent = stack.enter_context(socket.create_server(("127.0.0.1", 0)))
            address = f"127.0.0.1:{silent.getsockname()[1]}"
            if answer:
                threading.Thread(target=lambda: stack.enter_context(silent.accept()[0]).sendall(answer)).start()
            for seconds in (1, 2):
                waits_in_vain(address, "no answer", seconds)


def test_a_wait_for_who_does_not_accept():
    """Its connections wait until they are given up: the queue of those that nobody accepted is full."""
    with ExitStack() as stack:
        full = stack.enter_context(socket.socket())
        full.bind(("127.0.0.1", 0))
        full.listen(0)
        for _ in range(8):
            it = stack.enter_context(socket.socket())
            it.setblocking(False)
            it.connect_ex(full.getsockname())
        waits_in_vain(f"127.0.0.1:{full.getsockname()[1]}", "no connection", 2)


def test_words_that_are_no_wait():
    here = "127.0.0.1:2181"
    for words in (
        [], ["127.0.0.1"], ["2181"], [":2181"], ["127.0.0.1:"], ["127.0.0.1:0"], ["127.0.0.1:65536"], ["127.0.0.1:+1"],
        ["::1:2181"], ["[::1]2181"], ["[::1]"], ["[::1:2181"], ["[]:2181"], ["a[::1]:2181"], ["[::1]a:2181"],
        ["--help"], [here, "5"], [here, "--seconds"], [here, "--seconds", "0"], [here, "--seconds", "86401"],
        [here, "--seconds", "1s"], [here, "--seconds", "-1"], [here, "--second", "1"], ["--seconds", "1", here],
        [here, "--seconds", "1", "--seconds", "1"], ["--seconds", "30"],
    ):
        assert Waiting(*words).ended() == (2, "", USAGE), words
