"""Leaders that fall silent, and such as only seem to: who is given up, when, and what its clients see."""
import signal
import threading
import time

import forwarded
from leader import CREATE, PING
from server import CONNECT, CREATE_A, PING as CLIENT_PING, is_closed
from several import DIFF, EPOCH, NEWLEADER, SNAP, Following, Seat, at_once, image

TICK, TICKS = 100, 4
LIMIT = TICK * TICKS / 1000
LIMITS = ("--tick", str(TICK), "--init-limit", str(TICKS), "--sync-limit", str(TICKS))
# Before its LEADERINFO.
GREETING = 3.0
# A second look takes 0.2 s, and the machine has other work.
GRACE = 0.9


class Pinging:
    """A leader's PINGs, by a thread of their own, until it is told to stop."""

    def __init__(self, line, seconds=0.05):
        self.line, self.seconds, self.stopped = line, seconds, threading.Event()
        self.thread = threading.Thread(target=self.run, daemon=True)

    def run(self):
        while not self.stopped.wait(self.seconds):
            try:
                self.line.sends(PING, EPOCH)
            except OSError:
                return

    def __enter__(self):
        self.thread.start()
        return self

    def __exit__(self, *_):
        self.stopped.set()
        self.thread.join()


def nothing(line):
    pass


def greeted(line):
    line.introduced()
    line.greets(1)


def synchronised(line):
    greeted(line)
    line.sends(DIFF, 0)


def half_an_image(line):
    greeted(line)
    line.sends(SNAP, EPOCH)
    line.sends_bytes(image(EPOCH)[:50])


def replayed(line):
    synchronised(line)
    line.sends(NEWLEADER, EPOCH)
    line.acknowledged()


PHASES = {
    "connected": (nothing, GREETING),
    "greeted": (greeted, LIMIT),
    "behind a DIFF": (synchronised, LIMIT),
    "half an image": (half_an_image, LIMIT),
    "in the replay": (replayed, LIMIT),
    "serving": (lambda line: line.leads(1), LIMIT),
}


def is_given_up(phase, limit):
    """A leader that stops writing in a phase is left after its limit, and the next connection comes."""
    with Following([Seat()], *LIMITS, "--log", "debug") as server:
        line = server.seats[0].accept()
        phase(line)
        took = line.closed_after()
        assert limit - 0.1 < took < limit + GRACE, f"closed after {took:.2f} s"
        server.seats[0].accept().introduced()
        # Most servers that say nothing at first aren't silent leaders, but such as don't lead.
        words = ("WARN", "silent for") if phase is not nothing else ("DEBUG", "says nothing")
        told = [it for it in server.said().splitlines() if words[1] in it]
        assert len(told) == 1 and words[0] in told[0], server.said()
        assert f" 127.0.0.1:{server.seats[0].port} " in told[0], told


def test_silence_in_every_phase():
    at_once({name: lambda it=it: is_given_up(*it) for name, it in PHASES.items()})


def closes_its_clients():
    """Whatever its clients wait for, they are closed when their server gives its leader up."""
    with Following([Seat()], *LIMITS) as server:
        line = server.seats[0].accept()
        leader = line.leads(1)
        clients = [server.client() for _ in range(3)]
        leader.creates = False
        clients.append(server.connection())
        clients[1].sendall(forwarded.create(1, b"/b"))
        clients[2].sendall(forwarded.sync(1, b"/b"))
        clients[3].sendall(CONNECT)
        began = time.monotonic()
        # A client that is heard doesn't make up for a leader that isn't.
        while time.monotonic() - began < LIMIT / 2:
            clients[0].sendall(CLIENT_PING)
            clients[0].recv(1000)
            time.sleep(0.05)
        for it in clients:
            assert is_closed(it)
            it.close()
        assert time.monotonic() - began < LIMIT + GRACE
        assert server.word(b"isro") == b"null" and server.word(b"ruok") == b"imok"


def ends_with_the_one_leader():
    """With `--leader` the process ends, as it does when its leader ends."""
    with Following([Seat()], *LIMITS, option="--leader") as server:
        line = server.seats[0].accept()
        line.leads(1)
        assert LIMIT - 0.1 < line.closed_after() < LIMIT + GRACE
        assert "silent for" in server.ends(0)


def test_clients_of_a_silent_leader():
    at_once({"several servers": closes_its_clients, "one leader": ends_with_the_one_leader})


def keeps_one_that_pings():
    """PINGs alone keep a leader, for many times the limit."""
    with Following([Seat()], *LIMITS) as server:
        line = server.seats[0].accept()
        line.leads(1)
        with server.client() as client, Pinging(line, LIMIT / 2):
            time.sleep(5 * LIMIT)
            client.sendall(CLIENT_PING)
            assert client.recv(1000)
        assert not line.leader.has_ended.is_set()


def keeps_one_that_writes_slowly():
    """An image that takes many times the limit is fine, while its bytes come."""
    with Following([Seat()], *LIMITS) as server:
        line = server.seats[0].accept()
        greeted(line)
        line.sends(SNAP, EPOCH)
        content = image(EPOCH)
        size = len(content) // 8
        for at in range(0, len(content), size):
            time.sleep(LIMIT / 2)
            line.sends_bytes(content[at : at + size])
        line.finishes()
        assert server.word(b"isro") == b"rw"


def keeps_one_without_limits():
    """Limits of 0 ticks are none."""
    with Following([Seat()], "--tick", "50", "--init-limit", "0", "--sync-limit", "0") as server:
        line = server.seats[0].accept()
        synchronised(line)
        time.sleep(2)
        line.finishes()
        time.sleep(2)
        assert server.word(b"isro") == b"rw" and not line.leader.has_ended.is_set()


def test_leaders_that_are_heard_are_kept():
    at_once({
        "PINGs": keeps_one_that_pings,
        "an image": keeps_one_that_writes_slowly,
        "no limits": keeps_one_without_limits,
    })


def test_it_is_frozen_beside_a_busy_leader():
    with Following([Seat()], *LIMITS, "--log", "info") as server:
        line = server.seats[0].accept()
        line.leads(1)
        with Pinging(line), server.client() as client:
            for seconds in (2 * LIMIT, 3 * LIMIT, 4 * LIMIT):
                server.program.send_signal(signal.SIGSTOP)
                time.sleep(seconds)
                server.program.send_signal(signal.SIGCONT)
                time.sleep(2 * LIMIT)
                client.sendall(CLIENT_PING)
                assert client.recv(1000) and not line.leader.has_ended.is_set(), server.said()
        assert "silent for" not in server.said(), server.said()


def is_closed_before_its_session_ends():
    """A session of 4 seconds: its leader is given up after 3, though it might be silent for longer."""
    with Following([Seat()], "--tick", "200", "--sync-limit", "50", "--max-session-timeout", "40000") as server:
        line = server.seats[0].accept()
        leader = line.leads(1)
        with server.connection() as longer, server.connection() as client:
            for it, timeout in ((longer, 40_000), (client, 4000)):
                it.sendall(forwarded.Session(0, timeout, bytes(16)).connect())
                assert forwarded.connected(it).timeout == timeout
            leader.pinged()
            began = time.monotonic()
            while time.monotonic() - began < 2.5:
                client.sendall(CLIENT_PING)
                assert client.recv(1000), "closed too early"
                time.sleep(0.1)
            assert is_closed(client) and is_closed(longer)
            assert 2.9 < time.monotonic() - began < 4, time.monotonic() - began


def counts_those_that_are_connected():
    """A session of 4 seconds whose client is gone doesn't count."""
    with Following([Seat()], "--tick", "200", "--sync-limit", "22") as server:
        line = server.seats[0].accept()
        leader = line.leads(1)
        with server.connection() as client:
            client.sendall(forwarded.Session(0, 4000, bytes(16)).connect())
            assert forwarded.connected(client).timeout == 4000
        leader.pinged()
        assert 4.3 < line.closed_after() < 4.4 + GRACE


def is_left_three_half_ticks():
    """Where three quarters of a session are less than three half ticks, a leader may be silent for these."""
    with Following([Seat()], "--tick", "2400", "--min-session-timeout", "4000") as server:
        line = server.seats[0].accept()
        leader = line.leads(1)
        with server.connection() as client:
            client.sendall(forwarded.Session(0, 4000, bytes(16)).connect())
            assert forwarded.connected(client).timeout == 4000
            leader.pinged()
            assert 3.5 < line.closed_after() < 3.6 + GRACE


def test_no_client_is_served_past_its_session():
    at_once({
        "4 seconds": is_closed_before_its_session_ends,
        "gone": counts_those_that_are_connected,
        "half ticks": is_left_three_half_ticks,
    })


def test_the_next_leader_is_another_one():
    """The server that was lost by its silence is tried last."""
    seats = [Seat(), Seat(), Seat()]
    with Following(seats, *LIMITS) as server:
        line = seats[0].accept()
        leader = line.leads(1)
        leader.informs(CREATE, CREATE_A)
        began = time.monotonic()
        line = seats[1].accept()
        assert time.monotonic() - began < LIMIT + GRACE
        line.close()
        line = seats[2].accept()
        assert line.introduced() == 1
        assert line.greets(2) == (EPOCH + 1, 1)
        line.sends(DIFF, 0)
        line.finishes()
        assert server.is_serving()
