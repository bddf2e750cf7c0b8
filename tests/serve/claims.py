"""Clients that bring their sessions: the leader is asked whether these live, and what it answers decides."""
import struct

import forwarded
from leader import CREATE, CREATE2, CREATE_SESSION, EPOCH_1, buffer, received
from server import GET, PING, PINGED_LEN, Server, got, is_closed, is_silent, reset, wait_until
from several import DIFF, Following, Seat

REFUSED = forwarded.Session(0, 0, bytes(16))
SESSION_MOVED, UNIMPLEMENTED = -118, -6
# The least timeout that a session of these servers may have, and one that a client asks for.
LEAST, LONGER = 4000, 24_000


def made_elsewhere(leader, session=0x0100001C0FFF0000, timeout=LEAST):
    """Another server of the ensemble makes a session. Returns it as a client of that server knows it."""
    leader.informs(CREATE_SESSION, struct.pack(">i", timeout), session, 0)
    return forwarded.Session(session, timeout, forwarded.password_of(session))


def claiming(server, session, more=b""):
    """Returns a connection whose client claims the session, and that claim."""
    client = server.connection()
    client.sendall(session.connect() + more)
    return client, server.leader.claimed()


def test_passwords_of_any_server():
    for session, password in (
        (0x0100001C0FFF0000, "339334df44b03bffc9f0776b2d645461"),
        (0x0200001C16D80000, "1ab9187c9f5d610988822651800cae01"),
        (0x7777, "3d7971b83a8c662f3c261e1fe4915c30"),
    ):
        assert forwarded.password_of(session).hex() == password, hex(session)
    with Server() as server, server.connection() as client:
        client.sendall(forwarded.CONNECT)
        session = forwarded.connected(client)
        assert session.password == forwarded.password_of(session.id), session


def test_a_session_from_elsewhere_is_admitted():
    with Server() as server:
        leader = server.leader
        leader.confirms = False
        session = made_elsewhere(leader)._replace(timeout=LONGER)
        client, claim = claiming(server, session, GET + forwarded.create(2, b"/b") + PING)
        assert claim == (session.id, LONGER), claim
        # Nothing is answered and nothing forwarded before the leader has answered, and nobody else is held up.
        assert server.is_serving() and is_silent(client) and leader.requests.empty()
        leader.settles(claim, True)
        assert forwarded.connected(client) == session
        assert got(client)
        asked = leader.asked()
        assert asked[:3] == (session.id, 2, CREATE), asked
        zxid = leader.does(asked)
        assert forwarded.replied(client) == (2, zxid, 0, buffer(b"/b"))
        assert len(received(client, PINGED_LEN)) == PINGED_LEN
        # The leader waits for the session as long as its client was told.
        assert dict(leader.pinged())[session.id] == LONGER
        client.close()
        server.ends()


def test_a_session_that_is_refused():
    with Server() as server:
        leader = server.leader
        leader.confirms = False
        session = made_elsewhere(leader)
        client, claim = claiming(server, session, GET + forwarded.create(2, b"/b"))
        leader.settles(claim, False)
        assert forwarded.connected(client) == REFUSED and is_closed(client)
        # Without its password nobody is asked.
        with server.connection() as thief:
            thief.sendall(session._replace(password=forwarded.password_of(session.id + 1)).connect())
            assert forwarded.connected(thief) == REFUSED and is_closed(thief)
        # One that has ended, as its leader knows: it ended before the PING that the observer answers. And one that
        # ends while its client waits.
        leader.confirms = True
        leader.end(session.id)
        leader.pinged()
        with server.connection() as late:
            late.sendall(session.connect())
            assert forwarded.connected(late) == REFUSED and is_closed(late)
        leader.confirms = False
        client, claim = claiming(server, made_elsewhere(leader, 0x7777))
        leader.end(claim.session)
        assert is_closed(client)
        leader.settles(claim, True)
        assert server.is_serving() and server.is_at_base(), server.threads()
        assert leader.requests.empty() and leader.claims.empty()
        server.ends()


def test_claims_of_one_session():
    with Server() as server:
        leader = server.leader
        leader.confirms = False
        session = made_elsewhere(leader)
        # The second client takes the place of the first one, which waits.
        first, claim = claiming(server, session)
        second, again = claiming(server, session, GET)
        assert claim == again == (session.id, session.timeout)
        assert is_closed(first) and is_silent(second)
        # The answer to the first claim is as good as the one to the second, which finds nobody.
        leader.settles(claim, True)
        assert forwarded.connected(second) == session and got(second)
        leader.settles(again, False)
        leader.pinged()
        assert server.answers(second)
        # The third one takes the place of the second, which has the session, before the leader has answered.
        third, claim = claiming(server, session)
        assert is_closed(second) and is_silent(third)
        leader.settles(claim, True)
        assert forwarded.connected(third) == session and server.answers(third)
        third.close()
        assert server.is_at_base(), server.threads()
        server.ends()


def test_clients_that_go_while_they_claim():
    with Server() as server:
        leader = server.leader
        assert server.is_at_base()
        base, leader.confirms = server.descriptors(), False
        sessions = [made_elsewhere(leader, 0x0200001C16D80000 + turn) for turn in range(40)]
        waiting = [claiming(server, it, GET + forwarded.create(2, b"/b")) for it in sessions]
        for turn, (client, _) in enumerate(waiting):
            if turn % 4 == 1:
                client.close()
            elif turn % 4:
                reset(client)
        assert wait_until(lambda: server.threads() == 3 + 10, 5), server.threads()
        for _, claim in waiting:
            leader.settles(claim, True)
        left = {session.id: client for session, (client, _) in list(zip(sessions, waiting))[::4]}
        for session, client in left.items():
            assert forwarded.connected(client).id == session and got(client)
        # Only the creates of those that are left go to the leader.
        while left:
            request = leader.asked()
            leader.refuses(request, -110)
            with left.pop(request.session) as client:
                assert forwarded.replied(client)[::2] == (2, -110)
        assert leader.requests.empty()
        assert server.is_at_base(), server.threads()
        assert wait_until(lambda: server.descriptors() <= base, 5), server.descriptors()
        server.ends()


def test_the_end_with_claims_waiting():
    with Server() as server:
        server.leader.confirms = False
        sessions = [made_elsewhere(server.leader, 0x0200001C16D80000 + turn) for turn in range(20)]
        clients = [claiming(server, it, GET + PING)[0] for it in sessions]
        server.ends()
        for client in clients:
            assert is_closed(client)
            client.close()


def test_the_next_leader_is_asked_again():
    with Following([Seat()]) as server:
        line = server.seats[0].accept()
        server.leader = line.leads(1)
        server.leader.confirms = False
        session = made_elsewhere(server.leader)
        client, _ = claiming(server, session, forwarded.create(1, b"/b"))
        line.close()
        assert is_closed(client)
        line = server.seats[0].accept()
        server.leader = line.leads(2)
        server.leader.confirms = False
        assert server.is_at_base(), server.threads()
        client, claim = claiming(server, session, forwarded.create(1, b"/c"))
        server.leader.settles(claim, True)
        assert forwarded.connected(client) == session
        asked = server.leader.asked()
        assert asked.body.startswith(buffer(b"/c")) and server.leader.requests.empty(), asked
        client.close()


def comes_back_to_its_leader(writes, *words):
    """The observer loses its leader and finds the same one, which does the writes of a session for the connection that
    it has confirmed it for. Returns what the log says."""
    with Following([Seat()], *words) as server:
        line = server.seats[0].accept()
        before = line.leads(1)
        with server.connection() as client:
            client.sendall(forwarded.CONNECT)
            session = forwarded.connected(client)
            line.close()
            assert is_closed(client)
        line = server.seats[0].accept()
        line.introduced()
        line.greets(1)
        line.sends(DIFF, 0)
        leader = line.finishes()
        leader.last = before.last
        with server.connection() as client:
            client.sendall(session.connect() + forwarded.create(1, b"/b"))
            assert forwarded.connected(client) == session
            asked = leader.asked()
            assert (session.id in leader.sessions) == writes
            zxid = leader.does(asked) if writes else leader.refuses(asked, SESSION_MOVED)
            assert forwarded.replied(client)[:3] == (1, zxid, 0 if writes else SESSION_MOVED)
        return server.said()


def test_the_same_leader_again():
    told = "the epoch is the same as before: a client that comes back with its session can read, and not write"
    assert told not in comes_back_to_its_leader(True)
    assert told in comes_back_to_its_leader(False, "--dialect", "3.4")


def test_a_session_that_has_moved_on():
    with Server() as server:
        client = server.connection()
        session = forwarded.joined(client)
        client.sendall(forwarded.create(1, b"/b") + GET)
        asked = server.leader.asked()
        assert asked.session == session
        server.leader.refuses(asked, SESSION_MOVED)
        # The write isn't answered, nor is what comes after it.
        assert is_closed(client) and server.is_at_base(), server.threads()
        assert server.is_serving()
        server.ends()


def stat(zxid, content):
    """The Stat of a new node."""
    return struct.pack(">qqqqiiiqiiq", zxid, zxid, 1000, 1000, 0, 0, 0, 0, len(content), 0, zxid)


def test_a_create2_is_answered_with_its_stat():
    with Server() as server:
        client = server.client()
        client.sendall(forwarded.create2(1, b"/b") + forwarded.get_data(2, b"/b"))
        asked = server.leader.asked()
        assert asked.kind == CREATE2
        zxid = server.leader.does(asked)
        assert forwarded.replied(client) == (1, zxid, 0, buffer(b"/b") + stat(zxid, b"hi"))
        assert forwarded.replied(client) == (2, zxid, 0, buffer(b"hi") + stat(zxid, b"hi"))
        client.sendall(forwarded.create2(3, b"/b"))
        zxid = server.leader.refuses(server.leader.asked(), -110)
        assert forwarded.replied(client) == (3, zxid, -110, b"")
        client.close()
        server.ends()


def test_dialect_3_4_asks_nobody():
    with Server("--dialect", "3.4") as server:
        older, newer = server.connection(), server.connection()
        older.sendall(forwarded.CONNECT)
        session = forwarded.connected(older)
        server.leader.confirms = False
        newer.sendall(session.connect() + forwarded.create(1, b"/b"))
        assert forwarded.connected(newer) == session and is_closed(older)
        # The leader does the writes of a session for the connection that it is from, and the client is told.
        zxid = server.leader.refuses(server.leader.asked(), SESSION_MOVED)
        assert forwarded.replied(newer) == (1, zxid, SESSION_MOVED, b"")
        assert server.answers(newer) and server.leader.claims.empty()
        # A create2 is no request there, and it waits for the create before it.
        newer.sendall(forwarded.create(2, b"/b") + forwarded.create2(3, b"/c"))
        asked = server.leader.asked()
        assert server.is_serving() and is_silent(newer) and server.leader.requests.empty()
        zxid = server.leader.does(asked)
        assert forwarded.replied(newer) == (2, zxid, 0, buffer(b"/b"))
        assert forwarded.replied(newer) == (3, zxid, UNIMPLEMENTED, b"")
        assert is_closed(newer) and zxid == EPOCH_1 + server.leader.last
        server.ends()
