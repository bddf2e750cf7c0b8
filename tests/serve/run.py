#!/usr/bin/env python3
"""tests/serve/run.py [PROGRAM] [--long] [NAME ..]: faults over sockets, tried at `serve` of the built program.

It plays a small leader and many clients: some are reset, some are cut in the middle of a frame, some say nothing, some
don't read, some send what is no frame, some go while their session or a write of theirs waits for the leader, some
bring their sessions from elsewhere (claims.py), or with passwords of a secret (keyed.py), some ask for the address that
they come from (addresses.py), some ask words (words.py) or for figures (metrics.py), some say little or nothing
(door.py), some wait until it serves (waiting.py), and many of these load it together with clients that pipeline; and
leaders that fault, or end in the middle
of an image; and descriptors or the disk of a record run out (failing.py). Files of ensembles are tried, too
(configured.py, drawn_config.py). Then it attacks the server (attacks.py, attacks_on_memory.py). By --long some of this
is tried more often, or whole. What can't be tried on a machine is told as skipped and counted nowhere. PROGRAM is
crates/replay_runner/out/replay_runner if none is named. The last line is `N passed, M failed`.
"""
import os
import queue
import random
import resource
import socket
import struct
import subprocess
import sys
import tempfile
import threading
import time
from concurrent.futures import ThreadPoolExecutor

sys.dont_write_bytecode = True
import addresses  # noqa: E402
import attacks  # noqa: E402
import attacks_on_memory  # noqa: E402
import bounds  # noqa: E402
import checkpoints  # noqa: E402
import claims  # noqa: E402
import commands  # noqa: E402
import configured  # noqa: E402
import door  # noqa: E402
import drawn_config  # noqa: E402
import failing  # noqa: E402
import forwarded  # noqa: E402
import keyed  # noqa: E402
import load  # noqa: E402
import logs  # noqa: E402
import metrics  # noqa: E402
import next_leaders  # noqa: E402
import several  # noqa: E402
import silence  # noqa: E402
import waiting  # noqa: E402
import words  # noqa: E402
from leader import CLOSE_SESSION, CREATE, ERROR, EPOCH_1, received  # noqa: E402
from server import (  # noqa: E402
    ACKEPOCH, CONNECT, CONNECTED_LEN, GET, GOT_LEN, LEADERINFO, OBSERVERINFO, PING, PINGED_LEN, SNAP, UPTODATE, Program,
    Server, Skipped, got, hexa, is_closed, is_silent, reset, wait_until,
)

MODULES = (
    commands, configured, drawn_config, sys.modules[__name__], failing, claims, keyed, addresses, logs, next_leaders,
    silence, checkpoints, bounds, words, door, waiting, metrics, attacks, attacks_on_memory,
)


def test_a_client_reads():
    with Server("--log", "off") as server:
        assert server.is_serving()
        assert server.ends() == ""


def test_frames_come_in_pieces():
    with Server() as server:
        client = server.connection()
        for byte in CONNECT:
            client.sendall(bytes([byte]))
        assert len(received(client, CONNECTED_LEN)) == CONNECTED_LEN
        for at in range(1, len(GET)):
            client.sendall(GET[:at])
            time.sleep(0.002)
            client.sendall(GET[at:])
            assert got(client)
        client.sendall(PING * 100 + GET)
        assert len(received(client, 100 * PINGED_LEN)) == 100 * PINGED_LEN and got(client)
        client.close()
        server.ends()


def test_a_half_closed_client_is_answered():
    with Server() as server:
        client = server.client()
        client.sendall(GET * 40)
        client.shutdown(socket.SHUT_WR)
        assert got(client, 40)
        assert is_closed(client)
        assert server.is_at_base()
        server.ends()


def test_resets_and_cuts():
    with Server() as server:
        assert server.is_at_base()
        base = server.descriptors()
        for turn in range(100):
            client = server.client() if turn % 2 else server.connection()
            client.sendall((GET * 20)[: 7 * turn])
            if turn % 3:
                reset(client)
            else:
                client.close()
        assert server.is_at_base(), server.threads()
        assert wait_until(lambda: server.descriptors() <= base, 5), server.descriptors()
        assert server.is_serving()
        server.ends()


def test_silent_clients():
    with Server() as server:
        silent = [server.connection() for _ in range(100)]
        used = server.processor()
        began = time.monotonic()
        assert server.is_serving()
        # They have no threads.
        assert wait_until(lambda: server.threads() == 3, 5), server.threads()
        assert int(words.figures(server)["num_alive_connections"]) == 101
        time.sleep(1)
        assert (server.processor() - used) / (time.monotonic() - began) < 0.2
        for client in silent:
            client.close()
        assert server.is_at_base()
        server.ends()


def test_lengths_out_of_bounds():
    with Server() as server:
        for length in (1_048_576, 0x7FFFFFFF, 0x80000000, 0xFFFFFFFF):
            for client in (server.connection(), server.client()):
                client.sendall(length.to_bytes(4, "big") + bytes(100))
                assert is_closed(client), length
        longest = server.client()
        # A frame of the greatest length, of a type that is none: -6, and closed.
        body = hexa("00000009 000003e7") + bytes(1_048_575 - 8)
        longest.sendall(len(body).to_bytes(4, "big") + body)
        assert received(longest, 20)[-4:] == hexa("fffffffa")
        assert is_closed(longest)
        assert server.is_at_base()
        server.ends()


def test_random_bytes():
    chance = random.Random(5)
    with Server() as server:
        for turn in range(200):
            client = server.client() if turn % 2 else server.connection()
            try:
                client.sendall(bytes(chance.choices(range(256), k=chance.randrange(1, 5000))))
            except ConnectionError:
                pass
            client.close()
        assert server.is_at_base()
        assert server.is_serving()
        server.ends()


def test_a_client_that_does_not_read():
    count = 30_000
    with Server() as server:
        idle = server.client()
        stuck = server.client()
        stuck.settimeout(0.5)
        sent = 0
        try:
            while sent < count * len(GET):
                sent += stuck.send((GET * 500)[sent % len(GET) :][: count * len(GET) - sent])
        except socket.timeout:
            pass
        assert server.memory() < 200, server.memory()
        began = time.monotonic()
        for _ in range(100):
            assert server.answers(idle)
        assert time.monotonic() - began < 2
        # Once it reads, it gets each answer.
        stuck.settimeout(10)
        rest = (GET * 500)[sent % len(GET) :] + GET * count
        sender = threading.Thread(target=stuck.sendall, args=(rest[: count * len(GET) - sent],))
        sender.start()
        assert got(stuck, count)
        sender.join()
        stuck.close()
        idle.close()
        server.ends()


def test_a_full_client_at_the_end():
    with Server() as server:
        stuck = [server.client() for _ in range(20)]
        for client in stuck:
            client.setblocking(False)
            try:
                while True:
                    client.send(GET * 500)
            except BlockingIOError:
                pass
        server.ends()


def test_many_connections_at_once():
    with Server() as server:
        assert server.is_at_base()
        base = server.descriptors()
        for _ in range(2):
            storm = []
            for _ in range(1000):
                connection = socket.socket()
                connection.setblocking(False)
                connection.connect_ex(("127.0.0.1", server.port))
                storm.append(connection)
            for connection in storm:
                reset(connection)
        assert server.is_serving()
        assert server.is_at_base(), server.threads()
        assert wait_until(lambda: server.descriptors() <= base, 5), server.descriptors()
        server.ends()


def test_many_clients_at_the_end():
    with Server() as server:
        clients = [server.client() for _ in range(500)]
        server.ends()
        for client in clients:
            assert is_closed(client)
            client.close()


def test_connections_while_it_ends():
    for _ in range(5):
        with Server() as server:
            stop = threading.Event()

            def storm():
                while not stop.is_set():
                    try:
                        connection = socket.create_connection(("127.0.0.1", server.port), 1)
                        connection.send(CONNECT)
                        connection.close()
                    except OSError:
                        pass

            threads = [threading.Thread(target=storm) for _ in range(4)]
            for thread in threads:
                thread.start()
            time.sleep(0.1)
            try:
                server.ends()
            finally:
                stop.set()
                for thread in threads:
                    thread.join()


def test_faults_of_the_leader():
    with Server("--log", serves=False) as server:
        received(server.stream, len(OBSERVERINFO))
        server.stream.sendall(UPTODATE)
        assert is_closed(server.stream)
        told = server.ends(status=7)
        assert told.splitlines()[-1].startswith("observer: F12 UnexpectedPacket from 127.0.0.1:"), told
    with Server("--log") as server:
        client = server.client()
        server.leader.send(hexa("00000008 0000000100000002 ffffff00"))
        assert server.leader.is_closed() and is_closed(client)
        told = server.ends(status=7)
        assert told.splitlines()[-1].startswith("observer: F2 BadLength from 127.0.0.1:") and "DIFF" in told, told


def test_the_end_in_an_image():
    with Server("--log", serves=False) as server:
        received(server.stream, len(OBSERVERINFO))
        server.stream.sendall(LEADERINFO)
        received(server.stream, len(ACKEPOCH))
        # The image says that it has three sessions, and ends in the first.
        server.stream.sendall(SNAP + hexa("00000003 0000"))
        told = server.ends()
        assert "SNAP" not in told and "ended" in told, told


def test_a_leader_that_is_reset():
    with Server() as server:
        clients = [server.client() for _ in range(10)]
        server.leader.leave()
        reset(server.stream)
        server.ends()
        for client in clients:
            assert is_closed(client)


def test_few_descriptors():
    def limit():
        resource.setrlimit(resource.RLIMIT_NOFILE, (64, 64))

    with Server(limit=limit) as server:
        clients = [server.connection() for _ in range(200)]
        used, began = server.processor(), time.monotonic()
        time.sleep(1)
        assert (server.processor() - used) / (time.monotonic() - began) < 0.2
        for client in clients:
            client.close()
        assert wait_until(server.is_serving, 5)
        server.ends()


def test_most_clients():
    with Server("--max-clients", "2") as server:
        assert server.is_at_base()
        first, second = server.client(), server.client()
        third = server.connection()
        assert is_closed(third)
        assert server.answers(first) and server.answers(second)
        first.close()
        assert server.threads() <= 5

        def is_let_in():
            connection = server.connection()
            try:
                connection.sendall(CONNECT)
                return len(received(connection, CONNECTED_LEN)) == CONNECTED_LEN
            except ConnectionError:
                return False
            finally:
                connection.close()

        assert wait_until(is_let_in, 5)
        server.ends()


def test_what_is_recorded_replays():
    with tempfile.TemporaryDirectory() as room:
        name = os.path.join(room, "record")
        with Server("--record", name, "--id", "1") as server:
            client = server.client()
            client.sendall(GET * 3)
            sent = received(client, 3 * GOT_LEN)
            client.close()
            server.is_at_base()
            last = server.leader.last
            server.ends()
        replayed = subprocess.run([Server.PROGRAM, "replay", name], capture_output=True, timeout=20)
        assert replayed.returncode == 0, replayed.stderr
        lines = replayed.stdout.decode().splitlines()
        mine = [line.split()[2] for line in lines if line.startswith("C 2 ")]
        assert bytes.fromhex("".join(mine[1:])) == sent, lines
        assert lines[0] == "L " + OBSERVERINFO.hex()
        assert lines[-1] == f"end zxid=0x{EPOCH_1 + last:x} paths=4"


def test_a_record_that_cannot_be_written():
    with Server("--record", "/dev/full", "--log", "off") as server:
        assert server.is_serving()
        told = server.ends(status=3).splitlines()
        assert told == ["observer: the record could not be written to its end", "cannot open"], told


def test_want_of_memory():
    def limit():
        resource.setrlimit(resource.RLIMIT_AS, (600 << 20, 600 << 20))

    with Server("--log", limit=limit) as server:
        clients = [server.client() for _ in range(3)]
        data = forwarded.buffer(bytes(1_000_000)) + forwarded.OPEN_ACL
        for number in range(2, 2000):
            body = forwarded.buffer(b"/big%d" % number) + data + struct.pack(">?i", False, number)
            try:
                server.leader.informs(CREATE, body)
            except OSError:
                break
        assert server.program.wait(10) == 4
        assert server.program.stderr.read().decode().endswith("no memory\n")
        for client in clients:
            assert is_closed(client)


def test_writes_are_forwarded_and_answered():
    with Server() as server:
        client = server.connection()
        session = forwarded.joined(client)
        client.sendall(forwarded.create(1, b"/b") + forwarded.get_data(2, b"/b"))
        asked = server.leader.asked()
        assert asked[:3] == (session, 1, CREATE) and asked.ids == [forwarded.ADDRESS], asked
        # Nobody else is held up, and what is held isn't answered yet.
        assert server.is_serving()
        assert is_silent(client)
        zxid = server.leader.does(asked)
        assert forwarded.replied(client) == (1, zxid, 0, forwarded.buffer(b"/b"))
        read = forwarded.replied(client)
        assert read[:3] == (2, zxid, 0) and read.body.startswith(forwarded.buffer(b"hi")), read
        # A write that fails, a sync, and an id that goes with what comes after it.
        shown = forwarded.frame(-4, 100, bytes(4) + forwarded.buffer(b"digest") + forwarded.buffer(b"super:admin"))
        client.sendall(forwarded.create(3, b"/b") + shown + forwarded.sync(4, b"/"))
        assert forwarded.replied(client) == (-4, 0, 0, b"")
        write, sync = server.leader.asked(), server.leader.asked()
        shown = [forwarded.ADDRESS, (b"digest", b"super:xQJmxLMiHGwaqBvst5y6rkB6HQs=")]
        assert write.ids == [forwarded.ADDRESS] and sync.ids == shown, (write, sync)
        server.leader.does(sync)
        zxid = server.leader.refuses(write, -110)
        assert forwarded.replied(client) == (3, zxid, -110, b"")
        assert forwarded.replied(client) == (4, zxid, 0, forwarded.buffer(b"/"))
        client.close()
        server.ends()


def test_clients_that_go_while_they_wait():
    with Server() as server:
        assert server.is_at_base()
        base, clients = server.descriptors(), []
        for turn in range(100):
            client = server.connection()
            session = forwarded.joined(client)
            client.sendall(forwarded.create(1, b"/n%d" % turn) + forwarded.sync(2, b"/") + GET)
            clients.append((client, session))
        asked = [server.leader.asked() for _ in range(200)]
        gone = {session for turn, (_, session) in enumerate(clients) if turn % 4}
        for turn, (client, _) in enumerate(clients):
            if turn % 2:
                reset(client)
            elif turn % 4:
                client.close()
        assert wait_until(lambda: server.threads() == 3 + 25, 5), server.threads()
        zxids = {}
        for request in asked:
            zxid = server.leader.does(request)
            if request.kind == CREATE:
                zxids[request.session] = zxid
        for client, session in clients:
            if session in gone:
                continue
            assert forwarded.replied(client)[:3] == (1, zxids[session], 0)
            assert forwarded.replied(client)[::2] == (2, 0)
            assert forwarded.replied(client)[::2] == (1, 0)
            client.close()
        assert server.is_at_base(), server.threads()
        assert wait_until(lambda: server.descriptors() <= base, 5), server.descriptors()
        server.ends()


def test_the_end_with_writes_waiting():
    with Server() as server:
        clients = [server.client() for _ in range(50)]
        for client in clients:
            client.sendall(forwarded.create(1, b"/b") + forwarded.sync(2, b"/") + PING + GET)
        for _ in range(100):
            server.leader.asked()
        server.ends()
        for client in clients:
            assert is_closed(client)
            client.close()


def test_clients_that_go_while_they_connect():
    with Server() as server:
        assert server.is_at_base()
        base, server.leader.creates = server.descriptors(), False
        clients = [server.connection() for _ in range(100)]
        for client in clients:
            client.sendall(CONNECT + GET + forwarded.create(2, b"/b"))
        asked = [server.leader.asked() for _ in clients]
        for turn, client in enumerate(clients):
            if turn % 2:
                reset(client)
            elif turn % 4:
                client.close()
        assert wait_until(lambda: server.threads() == 3 + 25, 5), server.threads()
        # None is answered yet, and nobody else is held up.
        assert is_silent(clients[0])
        with server.leader.lock:
            server.leader.creates = True
            for request in asked:
                server.leader.create(request)
        assert server.is_serving()
        left = {forwarded.connected(client).id: client for client in clients[::4]}
        assert all(got(client) for client in left.values())
        # Only the creates of those that are left go to the leader.
        while left:
            request = server.leader.asked()
            server.leader.refuses(request, -110)
            assert forwarded.replied(left.pop(request.session))[::2] == (2, -110)
        for client in clients[::4]:
            client.close()
        assert server.is_at_base(), server.threads()
        assert wait_until(lambda: server.descriptors() <= base, 5), server.descriptors()
        server.ends()


def test_the_end_with_connects_waiting():
    with Server() as server:
        server.leader.creates = False
        clients = [server.connection() for _ in range(50)]
        for client in clients:
            client.sendall(CONNECT + GET + PING)
        for _ in clients:
            server.leader.asked()
        server.ends()
        for client in clients:
            assert is_closed(client)
            client.close()


def test_sessions_end():
    with Server() as server:
        client = server.connection()
        session = forwarded.joined(client)
        # What comes after a closeSession is dropped; a write before it isn't answered, as the leader keeps that here.
        client.sendall(forwarded.create(1, b"/b") + forwarded.frame(2, CLOSE_SESSION) + GET + PING)
        assert forwarded.replied(client) == (2, EPOCH_1 + server.leader.last, 0, b"")
        assert is_closed(client) and session not in server.leader.sessions
        # The leader ends a session by itself.
        expired, other = server.connection(), server.client()
        server.leader.end(forwarded.joined(expired))
        assert is_closed(expired) and server.answers(other)
        other.close()
        server.ends()


def test_a_session_is_taken_up():
    with Server() as server:
        older, thief = server.connection(), server.connection()
        older.sendall(forwarded.CONNECT)
        session = forwarded.connected(older)
        thief.sendall(session._replace(password=bytes(16)).connect())
        assert forwarded.connected(thief) == (0, 0, bytes(16)) and is_closed(thief) and server.answers(older)
        newer = server.connection()
        newer.sendall(session.connect())
        assert forwarded.connected(newer) == session and is_closed(older) and server.answers(newer)
        newer.close()
        server.ends()


def test_pings_keep_sessions():
    with Server() as server:
        idle, silent, joining = (server.connection() for _ in range(3))
        pinging, reading = forwarded.joined(idle), forwarded.joined(silent)
        # The client of the handshake had read, and has gone since.
        assert server.leader.pinged() == [(pinging - 1, 10000)]
        assert server.leader.pinged() == []
        for _ in range(20):
            idle.sendall(PING)
            assert len(received(idle, PINGED_LEN)) == PINGED_LEN
            assert server.leader.pinged() == [(pinging, 10000)]
        assert server.leader.pinged() == []
        # What comes with a connect is taken after its answer, and touches the session.
        server.leader.creates = False
        joining.sendall(forwarded.CONNECT + PING)
        server.leader.create(server.leader.asked())
        joined = forwarded.connected(joining).id
        assert len(received(joining, PINGED_LEN)) == PINGED_LEN and server.leader.pinged() == [(joined, 10000)]
        assert server.leader.pinged() == []
        assert server.answers(joining) and server.answers(silent)
        assert server.leader.pinged() == [(reading, 10000), (joined, 10000)]
        for client in (idle, silent, joining):
            client.close()
        server.ends()


def write_and_read(client, count, runs, free):
    """Creates nodes in runs of some, each followed by reads of the same nodes."""
    chance, first = random.Random(12), 0
    while first < count:
        run = range(first, min(first + chance.randint(1, 8), count))
        for _ in run:
            assert free.acquire(timeout=10), f"no answers before {run}"
        nodes = [(turn, b"/n%d" % turn) for turn in run]
        runs.put(run)
        client.sendall(b"".join(forwarded.create(2 * turn, path, path) for turn, path in nodes))
        client.sendall(b"".join(forwarded.get_data(2 * turn + 1, path) for turn, path in nodes))
        first = run.stop


def lead_writes(leader, count, zxids):
    """Does what comes, several at once where they are there, with transactions of others between."""
    chance = random.Random(11)
    while len(zxids) < count:
        requests = [leader.asked()]
        while not leader.requests.empty() and chance.randrange(8):
            requests.append(leader.asked())
        told = b""
        with leader.lock:
            for request in requests:
                if chance.randrange(3) == 0:
                    told += leader.made(ERROR, struct.pack(">i", -110))
                told += leader.done(request)
                zxids.append(EPOCH_1 + leader.last)
            leader.send(told)


def test_pipelined_writes_are_answered_in_order():
    count, ahead = 1000, 400
    with Server() as server, ThreadPoolExecutor(2) as pool:
        client = server.client()
        free, runs, zxids = threading.Semaphore(ahead), queue.Queue(), []
        jobs = [
            pool.submit(lead_writes, server.leader, count, zxids),
            pool.submit(write_and_read, client, count, runs, free),
        ]
        done = 0
        while done < count:
            run = runs.get(timeout=10)
            for turn in run:
                written = forwarded.replied(client)
                assert written == (2 * turn, zxids[turn], 0, forwarded.buffer(b"/n%d" % turn)), written
            # What is read shows all of the run's writes, and none of the next one's.
            for turn in run:
                read = forwarded.replied(client)
                assert read[:3] == (2 * turn + 1, zxids[run[-1]], 0), read
                assert read.body.startswith(forwarded.buffer(b"/n%d" % turn)), read
                free.release()
            done = run.stop
        for job in jobs:
            job.result()
        client.close()
        server.ends()


def test_recorded_writes_replay():
    with tempfile.TemporaryDirectory() as room:
        name = os.path.join(room, "record")
        with Server("--record", name, "--id", "1") as server:
            client = server.client()
            client.sendall(forwarded.create(1, b"/b") + forwarded.sync(2, b"/b") + GET)
            for _ in range(2):
                server.leader.does(server.leader.asked())
            sent = b"".join(forwarded.buffer(forwarded.text(client)) for _ in range(3))
            client.close()
            server.is_at_base()
            last = server.leader.last
            server.ends()
        replayed = subprocess.run([Server.PROGRAM, "replay", name], capture_output=True, timeout=20)
        assert replayed.returncode == 0, replayed.stderr
        lines = replayed.stdout.decode().splitlines()
        mine = [line.split()[2] for line in lines if line.startswith("C 2 ")]
        assert bytes.fromhex("".join(mine[1:])) == sent, lines
        # Two sessions, the create and the sync.
        assert len([line for line in lines if line.startswith("L 00000001ffffffffffffffff")]) == 4, lines
        assert lines[-1] == f"end zxid=0x{EPOCH_1 + last:x} paths=5"


def test_a_load_of_all_kinds():
    # Connections that say nothing stay for as long as the load.
    with Server("--unconnected", "0") as server:
        assert server.is_at_base(load.SECONDS), server.threads()
        base, before = server.descriptors(), server.memory()
        nodes = [load.made(server.leader, size) for size in (0, 2, 100, 900)]
        bursts = [(2000, 1), (2000, 4), (600, 1), (600, 4), (300, 1), (300, 20)]
        pipelining = [load.Pipelining(server, nodes, seed, *burst) for seed, burst in enumerate(bursts)]
        unknown, silent = [server.connection() for _ in range(10)], [server.client() for _ in range(10)]
        stuck = [server.client() for _ in range(5)]
        # Who has said nothing has no thread.
        assert wait_until(lambda: server.threads() == 3 + 21, load.SECONDS), server.threads()
        stop = threading.Event()
        with ThreadPoolExecutor(2 * len(pipelining) + 1) as pool:
            jobs = [pool.submit(client.read) for client in pipelining]
            jobs += [pool.submit(client.ask, stop) for client in pipelining] + [pool.submit(load.push, stuck, stop)]
            try:
                most = load.cut_many(server, 200, 8)
            finally:
                stop.set()
        for job in jobs:
            job.result()
        # Of a client that sends more than it reads, 1 MiB of requests, 1 MiB of answers and little more may be kept.
        assert most - before < 2.5 * len(pipelining + stuck), (before, most)
        # Who has said nothing gets a session, and whoever has one is answered.
        for client in unknown:
            client.sendall(CONNECT)
            assert len(received(client, CONNECTED_LEN)) == CONNECTED_LEN
        assert all(server.answers(client) for client in unknown + silent)
        for client in unknown + silent + stuck:
            client.close()
        assert server.is_at_base(load.SECONDS), server.threads()
        assert wait_until(lambda: server.descriptors() <= base, load.SECONDS), server.descriptors()
        assert server.is_serving()
        server.ends(seconds=load.SECONDS)


def tests():
    """Yields each test with its name, module by module; by `--long` those that take a minute, too."""
    prefixes = ("test_", "long_test_") if several.LONG else ("test_",)
    for module in MODULES:
        for name, it in list(vars(module).items()):
            if name.startswith(prefixes):
                yield name.partition("test_")[2], it


def main(words):
    # 500 clients take three descriptors each of the program, and one here.
    most = resource.getrlimit(resource.RLIMIT_NOFILE)[1]
    resource.setrlimit(resource.RLIMIT_NOFILE, (most, most))
    if "--long" in words:
        words.remove("--long")
        several.LONG = True
    if words and os.path.isfile(words[0]):
        Program.PROGRAM = os.path.realpath(words.pop(0))
    passed = failed = 0
    for name, test in tests():
        if words and name not in words:
            continue
        began = time.monotonic()
        try:
            test()
            passed += 1
            print(f"ok {name} ({time.monotonic() - began:.1f} s)", flush=True)
        except Skipped as why:
            print(f"skipped {name}: {why}", flush=True)
        except Exception as why:  # each failure is told, and the others go on
            failed += 1
            print(f"FAILED {name}: {type(why).__name__} {why}", flush=True)
            if os.environ.get("TRACE"):
                import traceback

                traceback.print_exc()
    print(f"{passed} passed, {failed} failed")
    return failed > 0


if __name__ == "__main__":
    sys.exit(main(sys.argv[1:]))
