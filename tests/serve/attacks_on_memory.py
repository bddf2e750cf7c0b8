"""Attacks on what the server holds: clients that don't read, that say nothing, or that ask while the leader is slow."""
import time

import forwarded
import load
from attacks import scaled
from beside import LEFT, Attacked, Beside
from bounds import connection_from, is_let_in
from leader import CREATE_SESSION, received
from server import CONNECT, is_closed, wait_until

MEGABYTE = 1_000_000
# So many bytes wait for the leader while nothing more is taken of clients, in megabytes; and for that a test allows a
# message of each client besides.
KEPT = 64


def reads(path, count):
    return b"".join(forwarded.get_data(xid, path) for xid in range(count))


# ---- who doesn't read


def test_clients_that_do_not_read():
    """Who asks for much and doesn't read is closed, the slowest first, and others are served."""
    with Attacked() as server:
        node = load.made(server.leader, MEGABYTE)
        with Beside("150 clients that don't read", server) as beside:
            for _ in range(150):
                beside.client().sendall(reads(node.path, 16))
            beside.lasts(scaled(2, 20))


def test_sessions_that_end_and_do_not_read():
    """Whoever doesn't read is closed soon after its session has ended."""
    with Attacked() as server:
        node = load.made(server.leader, MEGABYTE)
        with Beside("sessions that end and don't read", server) as beside:
            sessions = []
            for _ in range(20):
                client = beside.connection()
                sessions.append(forwarded.joined(client))
                client.sendall(reads(node.path, 16))
            time.sleep(0.5)
            for it in sessions:
                server.leader.end(it)
            beside.are_closed(5)


def read_slowly(client, count, seconds):
    """Takes answers of a megabyte, a little at a time for so many seconds, and then the rest."""
    until, content = time.monotonic() + seconds, 0
    while time.monotonic() < until:
        content += len(client.recv(100_000))
        time.sleep(1)
    whole = count * (4 + 16 + 4 + MEGABYTE + 68)
    return content + len(received(client, whole - content)) == whole


def long_test_clients_that_read_slowly_or_never():
    """Whoever takes something now and then isn't closed; whoever takes nothing is, after 40 seconds."""
    with Attacked() as server:
        node = load.made(server.leader, MEGABYTE)
        with Beside("a client that reads slowly, and one that never does", server) as beside:
            slow, never = beside.client(), beside.client()
            for it in (slow, never):
                it.sendall(reads(node.path, 16))
            assert read_slowly(slow, 16, 60)
            assert server.threads() == beside.base.threads + 2
            assert server.answers(slow)


# ---- what waits for the leader


def ask_before_the_leader_answers(name, asked, count):
    """Clients that ask for something of the leader's, and at once for all that may wait. The leader is slow, and then
    answers all at the same time."""
    with Attacked() as server:
        node = load.made(server.leader, MEGABYTE)
        with Beside(f"{count} times {name} and 1,022 reads that wait", server) as beside:
            server.leader.creates = False
            clients = [beside.connection() for _ in range(count)]
            for it in clients:
                it.sendall(CONNECT + asked + reads(node.path, 1022))
            time.sleep(1)
            for _ in range(2 if asked else 1):
                answer_at_once(server.leader, count)
            server.leader.creates = True
            beside.lasts(scaled(3, 10))


def answer_at_once(leader, count):
    """Answers the next requests together."""
    requests = [leader.asked() for _ in range(count)]
    with leader.lock:
        leader.send(b"".join(answer(leader, it) for it in requests))


def answer(leader, request):
    if request.kind == CREATE_SESSION:
        return leader.made(request.kind, request.body, request.session, request.xid)
    return leader.done(request)


def test_reads_that_wait_for_the_leader():
    for count in scaled((24,), (3, 24)):
        ask_before_the_leader_answers("a connect", b"", count)
        ask_before_the_leader_answers("a sync", forwarded.sync(1, b"/"), count)
        ask_before_the_leader_answers("a create", forwarded.create(1, b"/b"), count)


def test_many_writes_at_once():
    with Attacked() as server:
        with Beside("100 clients that write 480 creates each", server) as beside:
            writes = b"".join(forwarded.create(xid, b"/b%d" % xid) for xid in range(480))
            for it in [beside.client() for _ in range(100)]:
                it.sendall(writes)
            beside.lasts(scaled(3, 10))


def keep_writing(clients, request, seconds):
    """Clients send the same request over and over. Returns how many bytes of it went out."""
    sent, until = [0] * len(clients), time.monotonic() + seconds
    for it in clients:
        it.setblocking(False)
    while time.monotonic() < until:
        for at, it in enumerate(clients):
            try:
                sent[at] += it.send(request[sent[at] % len(request) :])
            except BlockingIOError:
                pass
        time.sleep(0.01)
    return sum(sent)


def test_writes_while_the_leader_takes_nothing():
    """Whatever clients write, little of it is kept for the leader; and all is well when it goes on."""
    with Attacked() as server:
        base, clients = server.memory(), [server.client() for _ in range(50)]
        server.leader.stalls()
        sent = keep_writing(clients, forwarded.create(1, b"/b", bytes(100_000)), scaled(2, 5))
        held = server.memory()
        print(f"  writes of {sent / 1e6:.0f} MB while the leader takes nothing: {held:.0f} MB, {base:.0f} before")
        server.leader.goes_on()
        assert held < base + KEPT, (base, held)
        for it in clients:
            it.close()
        assert server.is_at_base(30) and server.is_serving()
        assert wait_until(lambda: server.memory() < base + LEFT, 5), (base, server.memory())


# ---- who says nothing


def test_connections_that_say_nothing():
    """Such as say nothing, and such as say little by little that they want a session."""
    with Attacked("--unconnected", "3") as server:
        with Beside("connections that say nothing", server) as beside:
            silent, trickling = ([beside.connection() for _ in range(100)] for _ in range(2))
            assert server.word(b"ruok") == b"imok"
            assert server.threads() < 10, server.threads()
            for at in range(4):
                for it in trickling:
                    it.sendall(CONNECT[at : at + 1])
                assert server.word(b"ruok") == b"imok"
                time.sleep(0.2)
            for it in silent + trickling:
                assert is_closed(it)


def test_many_connections_of_one_address():
    with Attacked("--max-per-address", "20") as server:
        with Beside("100 connections of one address", server) as beside:
            many = [connection_from(server, "127.0.0.2") for _ in range(100)]
            beside.connections += many
            assert sum(map(is_let_in, many)) == 20
            assert server.is_serving() and server.word(b"ruok") == b"imok"
