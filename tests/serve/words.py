"""The four-letter words that the server answers by itself: their texts beside what has gone through it, while it serves
and while it doesn't, and that no message and no record has them."""
import os
import re
import resource
import socket
import tempfile
import time

import forwarded
from attacks import watching
from leader import CREATE, received
from server import (
    CONNECT, CONNECTED_LEN, CREATE_A, GET, PING, PINGED_LEN, Server, got, is_closed, wait_until,
)

NOT_SERVING = b"This ZooKeeper instance is not currently serving requests\n"
REFUSED = b" is not executed because it is not in the whitelist.\n"
VERSION = r"3\.8\.0-kezhundam-\d+\.\d+\.\d+"
STATE = (
    r"Latency min/avg/max: (\d+)/(\d+\.\d{4})/(\d+)\nReceived: (\d+)\nSent: (\d+)\nConnections: (\d+)\n"
    r"Outstanding: (\d+)\nZxid: 0x([0-9a-f]+)\nMode: observer\nNode count: (\d+)\n"
)
# In the order of a server of 3.8.0.
MNTR = (
    "version server_state peer_state ephemerals_count num_alive_connections avg_latency outstanding_requests"
    " znode_count global_sessions packets_sent packets_received watch_count min_latency max_file_descriptor_count"
    " open_file_descriptor_count uptime max_latency connection_rejected"
).split()


def state(server):
    """The figures of `srvr`: latencies, received, sent, connections, outstanding, zxid, nodes."""
    text = server.word(b"srvr").decode()
    found = re.fullmatch(rf"Zookeeper version: {VERSION}\n{STATE}", text)
    assert found, text
    return [int(found[1]), float(found[2]), int(found[3]), *map(int, found.groups()[3:7]), int(found[8], 16), int(found[9])]


def state_after(server, before, packets):
    """The figures of `srvr` once so many packets have come and gone since, this word among those that came. An answer is
    counted right after it was written, so a client may have it before: each word more is one more of both."""
    for more in range(50):
        now = state(server)
        if (now[3] - before[3], now[4] - before[4]) == (packets + more, packets + more):
            return now
        time.sleep(0.1)
    raise AssertionError((before, now, packets))


def figures(server):
    """The figures of `mntr`, by their names without `zk_`."""
    lines = [line.split("\t") for line in server.word(b"mntr").decode().splitlines()]
    assert [name for name, _ in lines] == ["zk_" + it for it in MNTR], lines
    return {name[3:]: value for name, value in lines}


def is_figure(server, name, wanted):
    """Whether a figure of `mntr` is this one soon. A word may find no place, until a connection before it is gone."""

    def is_now():
        try:
            return int(figures(server)[name]) == wanted
        except (AssertionError, ConnectionError):
            return False

    return wait_until(is_now, 5)


def test_what_has_gone_through():
    with Server() as server:
        assert server.is_at_base()
        before = state(server)
        with server.client() as client:
            client.sendall(PING * 10 + GET)
            assert len(received(client, 10 * PINGED_LEN)) == 10 * PINGED_LEN and got(client)
            # A connect, ten pings, a read, and the two words: this one's answer isn't sent yet when it is made.
            least, average, most, _, _, connections, outstanding, zxid, nodes = state_after(server, before, 13)
            # The least and the most are whole milliseconds, rounded down.
            assert least <= average < most + 1, (least, average, most)
            # The connection of the word before may not be gone yet.
            assert (outstanding, nodes) == (0, 5) and connections in (2, 3), (connections, outstanding, nodes)
            assert zxid == server.leader.zxid(), zxid
            listed = server.word(b"stat").decode()
            host, port = client.getsockname()
            assert re.search(rf"\n /{host}:{port}\[1\]\(queued=0,recved=12,sent=12\)\n", listed), listed
            clients = r"( /127\.0\.0\.1:\d+\[1\]\(queued=\d+,recved=\d+,sent=\d+\)\n){2,}"
            assert re.fullmatch(rf"Zookeeper version: {VERSION}\nClients:\n{clients}\n{STATE}", listed), listed
        assert wait_until(lambda: state(server)[5] == 1, 5)
        server.ends()


def test_what_is_counted_for_monitoring():
    with Server("--max-per-address", "4") as server:
        assert server.is_at_base()
        at_first = figures(server)
        assert (at_first["server_state"], at_first["peer_state"]) == ("observer", "observing - broadcast"), at_first
        assert (at_first["watch_count"], at_first["ephemerals_count"], at_first["znode_count"]) == ("0", "0", "5")
        one, two = server.client(), server.client()
        watching(one, 300, 100)
        watching(two, 20, 20)
        assert is_figure(server, "watch_count", 320)
        assert is_figure(server, "global_sessions", int(at_first["global_sessions"]) + 2)
        # Its transaction uses up a watch of each.
        path = b"/w0000007"
        server.leader.informs(CREATE, len(path).to_bytes(4, "big") + path + CREATE_A[6:])
        assert is_figure(server, "watch_count", 318) and is_figure(server, "znode_count", 6)
        one.close()
        assert is_figure(server, "watch_count", 19) and is_figure(server, "num_alive_connections", 2)
        asking = [server.connection() for _ in range(3)]
        assert is_closed(server.connection())
        for it in asking:
            it.close()
        assert is_figure(server, "num_alive_connections", 2)
        at_last = figures(server)
        assert int(at_last["connection_rejected"]) >= 1 and int(at_last["uptime"]) > int(at_first["uptime"]), at_last
        two.close()
        server.ends()


def test_requests_that_wait_are_outstanding():
    with Server() as server:
        client = server.client()
        client.sendall(forwarded.create(5, b"/new"))
        assert is_figure(server, "outstanding_requests", 1)
        asked = server.leader.asked()
        time.sleep(0.2)
        server.leader.refuses(asked, -110)
        assert is_figure(server, "outstanding_requests", 0)
        assert int(figures(server)["max_latency"]) >= 200
        # Who goes waits no longer.
        client.sendall(forwarded.create(6, b"/new"))
        assert is_figure(server, "outstanding_requests", 1)
        client.close()
        assert is_figure(server, "outstanding_requests", 0)
        server.ends()


def limit_of(most):
    """The limits of a process that may have so many descriptors."""
    return (most, resource.getrlimit(resource.RLIMIT_NOFILE)[1])


def tells_descriptors(server, most, told=figures):
    """Whether the server soon tells how many descriptors it has, and that it may have so many. It counts them once a
    second, and whoever asks just then is among them."""

    def is_now():
        time.sleep(0.3)
        count, found = server.descriptors(), told(server)
        return int(found["open_file_descriptor_count"]) == count and int(found["max_file_descriptor_count"]) == most

    return wait_until(is_now, 4)


def test_descriptors():
    with Server(limit=lambda: resource.setrlimit(resource.RLIMIT_NOFILE, limit_of(300))) as server:
        assert server.is_at_base()
        assert tells_descriptors(server, 300), figures(server)
        before = int(figures(server)["open_file_descriptor_count"])
        clients = [server.client() for _ in range(20)]
        assert tells_descriptors(server, 300), figures(server)
        # Each takes three.
        assert int(figures(server)["open_file_descriptor_count"]) >= before + 60, (before, figures(server))
        for it in clients:
            it.close()
        resource.prlimit(server.program.pid, resource.RLIMIT_NOFILE, limit_of(400))
        assert server.is_at_base()
        assert tells_descriptors(server, 400), figures(server)
        server.ends()


def test_settings_and_version():
    with Server("--max-per-address", "7", "--tick", "500", "--dialect", "3.4") as server:
        assert server.word(b"conf").decode() == (
            f"clientPort={server.port}\ntickTime=500\nmaxClientCnxns=7\nminSessionTimeout=1000\nmaxSessionTimeout=10000\n"
            "serverId=1\ninitLimit=10\nsyncLimit=5\npeerType=1\n"
        )
        assert re.fullmatch(r"Environment:\nzookeeper\.version=3\.4\.14-kezhundam-\S+\n", server.word(b"envi").decode())
        # This dialect has whole milliseconds.
        assert re.search(r"\nLatency min/avg/max: \d+/\d+/\d+\n", server.word(b"srvr").decode())
        assert server.word(b"dirs") == b"datadir_size: 0\nlogdir_size: 0\n"
        server.ends()


def test_while_it_does_not_serve():
    with Server("--words", "all", serves=False) as server:
        for word in (b"srvr", b"stat", b"mntr", b"conf", b"dirs", b"cons", b"crst", b"srst"):
            assert server.word(word) == NOT_SERVING, word
        assert server.word(b"envi").startswith(b"Environment:\nzookeeper.version=3.8.0-")
        assert server.word(b"isro") == b"null" and server.word(b"ruok") == b"imok"
        server.ends()


def test_counts_begin_anew():
    with Server("--words", "cons,srvr,crst,srst") as server:
        client = server.client()
        assert server.answers(client)

        def has_begun_anew():
            assert server.word(b"srst") == b"Server stats reset.\n"
            # The word that asks for it comes before, its end and this word after. The end of an answer before that may
            # be counted after it, too.
            return state(server)[3:5] == [1, 1]

        assert wait_until(has_begun_anew, 5), state(server)
        assert wait_until(lambda: b"recved=2,sent=2)" in server.word(b"cons"), 5), server.word(b"cons")
        assert server.word(b"crst") == b"Connection stats reset.\n"
        assert b"recved=0,sent=0)" in server.word(b"cons"), server.word(b"cons")
        client.close()
        server.ends()


def test_words_that_are_refused_by_default():
    with Server() as server:
        for word in (b"wchp", b"wchc", b"dump", b"cons", b"crst", b"srst"):
            assert server.word(word) == word + REFUSED, word
        assert server.word(b"reqs") == b""
        server.ends()


def test_a_word_comes_in_any_pieces():
    with Server() as server:
        with server.connection() as slow:
            for letter in b"envi":
                slow.sendall(bytes([letter]))
                time.sleep(0.02)
            assert b"".join(iter(lambda: slow.recv(100), b"")).startswith(b"Environment:\n")
        for more in (b"\n", b"\r\n", b"srvr" * 10):
            with server.connection() as it:
                it.sendall(b"envi" + more)
                it.shutdown(socket.SHUT_WR)
                assert b"".join(iter(lambda: it.recv(100), b"")).startswith(b"Environment:\n"), more
        # A frame that comes in pieces is none.
        with server.connection() as slow:
            for byte in CONNECT:
                slow.sendall(bytes([byte]))
            assert len(received(slow, CONNECTED_LEN)) == CONNECTED_LEN
        assert server.is_at_base()
        server.ends()


def test_no_record_has_them():
    with tempfile.TemporaryDirectory() as folder:
        file = os.path.join(folder, "record")
        with Server("--record", file) as server:
            for word in (b"srvr", b"mntr", b"stat", b"envi", b"ruok"):
                assert server.word(word)
            server.ends()
        with open(file, encoding="ascii") as it:
            content = it.read()
        assert b"ruok".hex() in content
        for word in (b"srvr", b"mntr", b"stat", b"envi"):
            assert word.hex() not in content, word


def test_words_beside_many_watches():
    with Server() as server, server.client() as client:
        watching(client, 2000, 2000)
        began = time.monotonic()
        for _ in range(100):
            assert figures(server)["watch_count"] == "2000"
        took = time.monotonic() - began
        assert took < 5, took
        assert server.is_serving()
        server.ends()
