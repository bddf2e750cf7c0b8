"""What becomes of clients, of what they have asked for, and of the tree, when one leader ends and the next comes."""
import os
import random
import select
import signal
import socket
import struct
import time

import forwarded
import several
from leader import CREATE, CREATE2, INFORM, PING, PROPOSAL, buffer, packet
from server import CREATE_A, GET, PING as CLIENT_PING, TOP, is_closed, reset, wait_until
from several import (
    ACK, DIFF, EPOCH, LEADERINFO, NEWLEADER, SNAP, TRUNC, UPTODATE, Following, Seat, at_once, image,
)

ROUNDS, CONNECTIONS, WRITES, SECONDS = 100, 5, 10, 10
# Of the xids of a round, which tell its requests from those of the rounds before.
ROUND = 1000


class Writers:
    """Clients that keep their sessions from one leader to the next."""

    def __init__(self, server):
        self.server, self.connections, self.sessions = server, [], []

    def connect(self):
        """Opens their sessions, or takes them up again."""
        self.connections = [self.server.connection() for _ in range(CONNECTIONS)]
        if not self.sessions:
            for it in self.connections:
                it.sendall(forwarded.CONNECT)
            self.sessions = [forwarded.connected(it) for it in self.connections]
            return
        for it, session in zip(self.connections, self.sessions):
            it.sendall(session.connect())
        for it, session in zip(self.connections, self.sessions):
            assert forwarded.connected(it) == session, "another session"

    def write(self, turn):
        for number, it in enumerate(self.connections):
            xids = range(ROUND * turn + WRITES * number, ROUND * turn + WRITES * (number + 1))
            it.sendall(b"".join(forwarded.create(xid, b"/n%d" % xid) for xid in xids))

    def are_closed(self):
        """Takes what was answered, in its order, and then the end of each connection."""
        for it in self.connections:
            xid = -1
            try:
                while head := it.recv(4, socket.MSG_WAITALL):
                    content = it.recv(struct.unpack(">i", head)[0], socket.MSG_WAITALL)
                    found, _, error = struct.unpack(">iqi", content[:16])
                    assert error == 0 and found > xid, (found, xid, error)
                    xid = found
            except (ConnectionError, struct.error):
                pass  # It was reset, or it ended in a reply.
            it.close()


def asked_in(leader, turn, count):
    """Takes so many requests, all of this round, and returns them."""
    found = [leader.asked() for _ in range(count)]
    for it in found:
        assert it.xid // ROUND == turn, f"in round {turn} the leader is asked what was asked in round {it.xid // ROUND}"
    return found


def is_met(line, least, most, epoch):
    """Takes the observer's greeting: the epochs and the last zxid have to be those that it had."""
    assert line.introduced() == epoch - 1, f"in epoch {epoch}"
    zxid, current = line.greets(epoch)
    assert current == epoch - 1, f"epoch {current} before epoch {epoch}"
    assert least <= zxid <= most, f"last zxid 0x{zxid:x}, not 0x{least:x} to 0x{most:x}"
    return zxid


def test_ends_with_writes_under_way():
    chance, rounds = random.Random(3), ROUNDS * (10 if several.LONG else 1)
    seats = [Seat(), Seat(False)]
    # Connections that are gone don't count.
    with Following(seats, "--max-clients", str(3 * CONNECTIONS)) as server:
        writers, least, most = Writers(server), 0, 0
        for turn in range(rounds):
            here, there = seats[turn % 2], seats[1 - turn % 2]
            line = here.accept()
            least = most = is_met(line, least, most, turn + 1)
            line.sends(DIFF, 0)
            leader = line.finishes()
            if turn == 3:
                # From here on what it holds doesn't grow.
                assert server.is_at_base(), server.threads()
                descriptors = server.descriptors()
            writers.connect()
            if turn == 0:
                least = most = leader.zxid()  # Their sessions were made.
            writers.write(turn)
            asked = asked_in(leader, turn, chance.randrange(CONNECTIONS * WRITES + 1))
            done = chance.randrange(len(asked) + 1)
            for it in asked[:done]:
                most = leader.does(it)
            if turn % 3 == 0:
                # Once its PING is answered the observer has all of it.
                leader.pinged()
                least = most
            there.open()
            leader.leave()
            asked_in(leader, turn, leader.requests.qsize())
            if turn % 2:
                reset(line.connection)
            else:
                line.connection.close()
            here.close()
            writers.are_closed()
        line = seats[rounds % 2].accept()
        is_met(line, least, most, rounds + 1)
        assert server.is_at_base(), server.threads()
        assert wait_until(lambda: server.descriptors() <= descriptors, 5), (descriptors, server.descriptors())


def half(content):
    return content[: len(content) // 2]


def greeted(line):
    line.introduced()
    line.greets(1)


def synchronised(line):
    greeted(line)
    line.sends(DIFF, 0)


def half_a_proposal(line):
    synchronised(line)
    line.sends_bytes(half(packet(PROPOSAL, EPOCH + 1, bytes(40))))


def is_in_replay(line):
    synchronised(line)
    line.sends(NEWLEADER, EPOCH)
    line.acknowledged()


def half_an_image(line):
    greeted(line)
    line.sends(SNAP, EPOCH)
    line.sends_bytes(half(image(EPOCH)))


def whole_image(line):
    greeted(line)
    line.sends(SNAP, EPOCH)
    line.sends_bytes(image(EPOCH))


def half_a_transaction(line):
    leader = line.leads(1)
    line.sends_bytes(half(leader.made(CREATE, CREATE_A)))


# What a server does on its connection before it ends, and which epoch the observer has accepted then.
PHASES = {
    "accepted": (lambda line: None, 0),
    "introduced": (lambda line: line.introduced(), 0),
    "half a greeting": (lambda line: line.sends_bytes(half(packet(LEADERINFO, EPOCH, bytes(4)))), 0),
    "greeted": (greeted, 1),
    "half a DIFF": (lambda line: (greeted(line), line.sends_bytes(half(packet(DIFF, 0)))), 1),
    "behind a DIFF": (synchronised, 1),
    "half an image": (half_an_image, 1),
    "behind an image": (whole_image, 1),
    "half a proposal": (half_a_proposal, 1),
    "in the replay": (is_in_replay, 1),
    "half an UPTODATE": (lambda line: (is_in_replay(line), line.sends_bytes(half(packet(UPTODATE, EPOCH)))), 1),
    "serving": (lambda line: line.leads(1), 1),
    "half a transaction": (half_a_transaction, 1),
}


def ends_in(phase, accepted):
    """A server ends in a phase, and the next connection to it begins anew and leads."""
    with Following([Seat()]) as server:
        line = server.seats[0].accept()
        phase(line)
        line.close()
        line = server.seats[0].accept()
        assert line.introduced() == accepted
        line.greets(2)
        line.sends(DIFF, 0)
        leader = line.finishes()
        leader.informs(CREATE, CREATE_A)
        with server.client() as client:
            leader.pinged()
            assert client.fileno() and server.word(b"isro") == b"rw"


def test_ends_in_every_phase():
    at_once({name: lambda it=it: ends_in(*it) for name, it in PHASES.items()})


def test_clients_come_back_on_their_sessions():
    with Following([Seat()]) as server:
        line = server.seats[0].accept()
        leader = line.leads(1)
        client, other = server.connection(), server.connection()
        client.sendall(forwarded.CONNECT)
        session = forwarded.connected(client)
        # What is asked for while there is no leader gets no answer.
        client.sendall(forwarded.create(1, b"/b") + forwarded.sync(2, b"/") + CLIENT_PING)
        leader.creates = False
        other.sendall(forwarded.CONNECT)
        for _ in range(3):
            leader.asked()
        line.close()
        assert is_closed(client) and is_closed(other)
        line = server.seats[0].accept()
        line.introduced()
        for asked in (session.connect(), forwarded.CONNECT):
            with server.connection() as early:
                early.sendall(asked)
                assert is_closed(early), "it is served before there is a leader"
        assert server.word(b"isro") == b"null" and server.word(b"ruok") == b"imok"
        assert line.greets(2) == (EPOCH + 1, 1)
        line.sends(DIFF, 0)
        leader = line.finishes()
        with server.connection() as client:
            client.sendall(session.connect() + forwarded.create(1, b"/b"))
            assert forwarded.connected(client) == session
            zxid = leader.does(leader.asked())
            assert forwarded.replied(client) == (1, zxid, 0, buffer(b"/b"))
        assert leader.requests.empty()


def test_many_clients_at_the_end_of_a_leader():
    with Following([Seat()]) as server:
        line = server.seats[0].accept()
        leader = line.leads(1)
        clients = [server.client() for _ in range(500)]
        leader.pinged()
        line.close()
        for it in clients:
            assert is_closed(it)
            it.close()
        line = server.seats[0].accept()
        line.leads(2)
        assert server.is_at_base(), server.threads()


def push_writes(clients, size, count, seconds):
    """Sends so many writes of so many bytes on each connection, or as many as are taken in some seconds."""
    rest = {it: b"".join(forwarded.create(turn, b"/large", bytes(size)) for turn in range(count)) for it in clients}
    until = time.monotonic() + seconds
    while any(rest.values()) and time.monotonic() < until:
        _, ready, _ = select.select([], [it for it in clients if rest[it]], [], 0.1)
        for it in ready:
            it.setblocking(False)
            rest[it] = rest[it][it.send(rest[it][:size]) :]
            it.settimeout(SECONDS)


def is_followed_by_another(loses, *words):
    """A leader takes nothing of 25 MB that its observer has to send, which is more than sockets and queues hold, and is
    lost. The next one is greeted all the same, and asked for nothing of that."""
    with Following([Seat(), Seat()], *words) as server:
        line = server.seats[0].accept()
        leader = line.leads(1)
        clients = [server.client() for _ in range(10)]
        leader.leave()
        push_writes(clients, 100_000, 25, 2)
        loses(line)
        line = server.seats[1].accept()
        assert line.introduced() == 1
        assert line.greets(2) == (leader.zxid(), 1)
        line.sends(DIFF, 0)
        leader = line.finishes()
        for it in clients:
            assert is_closed(it)
            it.close()
        assert server.is_at_base(), server.threads()
        with server.client() as client:
            client.sendall(forwarded.create(1, b"/small"))
            asked = leader.asked()
            assert asked.body.startswith(buffer(b"/small")) and leader.requests.empty(), asked


def test_a_leader_that_takes_nothing():
    at_once({
        "it is reset": lambda: is_followed_by_another(lambda line: reset(line.connection)),
        "it falls silent": lambda: is_followed_by_another(
            lambda line: None, "--tick", "500", "--init-limit", "6", "--sync-limit", "6"
        ),
    })


def fill(client):
    """Sends reads whose answers nobody takes, until the server takes no more of them: its socket is full by then."""
    client.settimeout(0.5)
    try:
        while True:
            client.sendall(GET * 500)
    except socket.timeout:
        pass


def test_clients_that_do_not_read_at_the_end_of_a_leader():
    """Their connections are closed, too, and their threads end."""
    with Following([Seat()]) as server:
        line = server.seats[0].accept()
        leader = line.leads(1)
        leader.informs(CREATE, CREATE_A)
        clients = [server.client() for _ in range(8)]
        for it in clients:
            it.setsockopt(socket.SOL_SOCKET, socket.SO_RCVBUF, 4096)
        at_once({f"client {number}": lambda it=it: fill(it) for number, it in enumerate(clients)})
        line.close()
        began = time.monotonic()
        server.seats[0].accept().leads(2)
        assert time.monotonic() - began < 2
        assert server.is_at_base(), server.threads()
        for it in clients:
            it.close()


def test_a_server_that_does_not_accept():
    """A connection that nobody takes is given up after a second."""
    full, seat, filling = Seat(False), Seat(), []
    full.socket.listen(0)
    for _ in range(3):
        filling.append(socket.socket())
        filling[-1].setblocking(False)
        filling[-1].connect_ex(("127.0.0.1", full.port))
    time.sleep(0.1)
    began = time.monotonic()
    with Following([full, seat]) as server:
        seat.accept().leads(1)
        assert 0.9 < time.monotonic() - began < 2.5, time.monotonic() - began
        assert server.word(b"isro") == b"rw"
    for it in filling:
        it.close()


def test_one_of_two_servers_says_nothing():
    silent, seat = Seat(), Seat()
    with Following([silent, seat], "--log", "debug") as server:
        began = time.monotonic()
        line = seat.accept()
        took = time.monotonic() - began
        assert 2.9 < took < 4.5, took
        line.leads(1)
        assert f"127.0.0.1:{silent.port} says nothing" in server.said(), server.said()
        assert silent.accept().introduced() == 0 and server.word(b"isro") == b"rw"
        # The next time it isn't waited for as long.
        began = time.monotonic()
        line.close()
        seat.accept().leads(2)
        assert 0.4 < time.monotonic() - began < 2, time.monotonic() - began
        assert silent.accept().introduced() == 1


def test_all_servers_are_gone():
    seats = [Seat(), Seat()]
    with Following(seats) as server:
        line = seats[0].accept()
        line.leads(1)
        with server.connection() as client:
            client.sendall(forwarded.CONNECT)
            session = forwarded.connected(client)
            for it in seats:
                it.close()
            line.close()
            assert is_closed(client)
        until = time.monotonic() + 3
        while time.monotonic() < until:
            assert server.word(b"ruok") == b"imok" and server.word(b"isro") == b"null"
            for asked in (forwarded.CONNECT, session.connect()):
                with server.connection() as client:
                    client.sendall(asked)
                    assert is_closed(client)
            time.sleep(0.1)
        seats[1].open()
        began = time.monotonic()
        line = seats[1].accept()
        # A pause is two seconds at most, and a tenth of that.
        assert time.monotonic() - began < 3
        line.leads(2)
        with server.connection() as client:
            client.sendall(session.connect())
            assert forwarded.connected(client) == session


def test_it_is_stopped_while_it_looks():
    seats = [Seat(), Seat(False)]
    with Following(seats) as server:
        server.seats[0].accept()
        seats[0].close()
        time.sleep(0.3)
        began = time.monotonic()
        server.program.send_signal(signal.SIGTERM)
        assert server.program.wait(5) == -signal.SIGTERM
        assert time.monotonic() - began < 0.2


def test_it_gives_up():
    with Following([Seat(False)], "--give-up", "1", "--log", "off") as server:
        began = time.monotonic()
        told = server.ends(8)
        assert 0.8 < time.monotonic() - began < 3, time.monotonic() - began
        assert told == f"observer: no leader within 1 s among 127.0.0.1:{server.seats[0].port} (refused)\n", told
    with Following([Seat()], "--give-up", "2", "--log", "off") as server:
        line = server.seats[0].accept()
        line.leads(1)
        time.sleep(2.5)  # What is long is the service, and not the search.
        assert server.word(b"isro") == b"rw"
        server.seats[0].close()
        line.close()
        began = time.monotonic()
        server.ends(8)
        assert 1.5 < time.monotonic() - began < 4.5, time.monotonic() - began


def refused(kind, zxid, body, session=7, xid=1):
    """An INFORM of a transaction as it stands, whose fields may be wrong."""
    return packet(INFORM, zxid, struct.pack(">qiqqi", session, xid, zxid, 1000, kind) + body)


def created(path, flags=b"\0"):
    return buffer(path) + buffer(b"") + forwarded.OPEN_ACL + flags + struct.pack(">i", -1)


NEXT = EPOCH + 1
# What a leader of epoch 1 sends to those whom it serves, and the fault that this is.
REFUSED = {
    "F1 Short": packet(INFORM, NEXT),
    "F2 BadLength": bytes.fromhex("00000008 0000000100000001 ffffff00"),
    "F3 BadText": refused(CREATE, NEXT, created(b"/\xc0\xaf")),
    "F4 BadPath": refused(CREATE, NEXT, created(b"a")),
    "F5 BadTxnType": refused(12, NEXT, created(b"/a")),
    "F6 TrailingBytes": refused(CREATE, NEXT, created(b"/a") + bytes(11)),
    "F7 OutOfOrder": refused(CREATE, NEXT, created(b"/a")) * 2,
}
# What is refused with `--dialect 3.4` alone: a create2, and a digest behind a create.
REFUSED_EARLIER = {
    "F5 BadTxnType": refused(CREATE2, NEXT, created(b"/a")),
    "F6 TrailingBytes": refused(CREATE, NEXT, created(b"/a") + bytes(12)),
}


def ends_by(fault, line, server):
    """The program ends with status 7 and one line, which names the fault, the server, and what docs/OPERATING.md says
    of it."""
    assert line.closed_after() < 2
    told = server.ends(7)
    begin = f"observer: {fault} from 127.0.0.1:{server.seats[0].port}: "
    assert told.startswith(begin) and len(told.splitlines()) == 1, told
    with open(os.path.join(TOP, "docs", "OPERATING.md"), encoding="utf-8") as it:
        page = " ".join(it.read().replace("`", "").split())
    assert told[len(begin) :].strip() in page, f"docs/OPERATING.md doesn't say: {told[len(begin):].strip()}"
    return told


def refuses_while_it_serves(fault, content, *words):
    with Following([Seat()], "--log", "off", *words) as server:
        line = server.seats[0].accept()
        line.leads(1)
        with server.connection() as client:
            client.sendall(forwarded.CONNECT)
            line.sends_bytes(content)
            told = ends_by(fault, line, server)
            # What to do depends on the dialect that it was started with.
            assert "--dialect 3.4" not in told or "3.4" in words, told
            try:
                while client.recv(100):
                    pass
            except ConnectionError:
                pass  # It was closed before its connect was read.


def refuses_a_commit():
    with Following([Seat()], "--log", "off") as server:
        line = server.seats[0].accept()
        synchronised(line)
        line.sends(PROPOSAL, NEXT, refused(CREATE, NEXT, created(b"/a"))[16:-4])
        line.sends(4, NEXT + 1)
        ends_by("F8 CommitMismatch", line, server)


def refuses_a_packet():
    with Following([Seat()], "--log", "off") as server:
        line = server.seats[0].accept()
        greeted(line)
        line.sends(ACK, EPOCH)
        ends_by("F12 UnexpectedPacket", line, server)


def refuses_a_cut_below_its_base():
    with Following([Seat()], "--log", "off") as server:
        line = server.seats[0].accept()
        greeted(line)
        line.sends(SNAP, EPOCH + 5)
        line.sends_bytes(image(EPOCH + 5))
        line.finishes()
        line.close()
        line = server.seats[0].accept()
        line.introduced()
        assert line.greets(2) == (EPOCH + 5, 1)
        line.sends(TRUNC, EPOCH + 2)
        ends_by("F9 CannotTruncate", line, server)


def test_what_is_refused_ends_the_process():
    jobs = {name: lambda name=name, it=it: refuses_while_it_serves(name, it) for name, it in REFUSED.items()}
    for name, it in REFUSED_EARLIER.items():
        jobs[f"{name} in dialect 3.4"] = lambda name=name, it=it: refuses_while_it_serves(name, it, "--dialect", "3.4")
    jobs.update(F8=refuses_a_commit, F12=refuses_a_packet, F9=refuses_a_cut_below_its_base)
    at_once(jobs)


def broken_image(server):
    """The next connection brings an image that contradicts itself, which is refused."""
    line = server.seats[0].accept()
    line.introduced()
    line.greets(1)
    line.sends(SNAP, EPOCH + 5)
    line.sends_bytes(image(EPOCH + 5, b"BenWasThere"))
    assert line.closed_after() < 2


def goes_on_after_a_broken_image():
    with Following([Seat()]) as server:
        for _ in range(4):
            broken_image(server)
        line = server.seats[0].accept()
        greeted(line)
        line.sends(SNAP, EPOCH + 5)
        line.sends_bytes(image(EPOCH + 5))
        line.finishes()
        assert server.word(b"isro") == b"rw" and b"0x100000005" in server.word(b"srvr")


def ends_after_five_broken_images():
    with Following([Seat()], "--log", "off") as server:
        for _ in range(5):
            broken_image(server)
        told = server.ends(7)
        assert told.startswith("observer: F10 BadImage from 127.0.0.1:") and len(told.splitlines()) == 1, told


def goes_on_after_a_smaller_epoch():
    with Following([Seat(), Seat()]) as server:
        line = server.seats[0].accept()
        line.leads(3)
        line.close()
        line = server.seats[1].accept()
        assert line.introduced() == 3
        line.sends(LEADERINFO, 2 * EPOCH, struct.pack(">i", 0x10000))
        assert line.closed_after() < 2
        line = server.seats[0].accept()
        line.leads(4)
        assert server.word(b"isro") == b"rw"


def test_what_is_tried_again():
    at_once({
        "F10": goes_on_after_a_broken_image,
        "F10 five times": ends_after_five_broken_images,
        "F11": goes_on_after_a_smaller_epoch,
    })


def test_a_leader_takes_back_what_it_lost():
    with Following([Seat()]) as server:
        line = server.seats[0].accept()
        leader = line.leads(1)
        for number in range(5):
            leader.informs(CREATE, created(b"/n%d" % number))
        leader.pinged()
        line.close()
        line = server.seats[0].accept()
        line.introduced()
        assert line.greets(2) == (EPOCH + 5, 1)
        line.sends(TRUNC, EPOCH + 3)
        line.finishes()
        with server.connection() as client:
            client.sendall(forwarded.CONNECT)
            forwarded.connected(client)
            client.sendall(b"".join(forwarded.get_data(number, b"/n%d" % number) for number in range(5)))
            assert [forwarded.replied(client).error for _ in range(5)] == [0, 0, 0, -101, -101]


def test_pings_answered_by_the_next_leader_alone():
    with Following([Seat()]) as server:
        line = server.seats[0].accept()
        leader = line.leads(1)
        with server.client() as client:
            client.sendall(CLIENT_PING)
            client.recv(100)
            line.sends(PING, EPOCH)
            line.close()
        line = server.seats[0].accept()
        leader = line.leads(2)
        assert leader.pinged() == [] and leader.pings.empty()
