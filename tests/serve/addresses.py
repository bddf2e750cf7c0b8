"""The address of a client is an id of its connection, in dialect 3.8."""
import os
import socket
import struct
import subprocess
import tempfile

import forwarded
from leader import buffer
from server import Server, wait_until

WHO_AM_I = 107
# ZooKeeper's spelling of ::1: that of java.net.InetAddress.getHostAddress.
LOOPBACK = (b"ip", b"0:0:0:0:0:0:0:1")


class AtLoopback(Server):
    """It takes clients at the IPv6 address of this machine."""

    CLIENT, HOST = "[::1]:0", "::1"


class AtBoth(Server):
    """It takes clients at every address, where one of IPv4 comes within one of IPv6."""

    CLIENT = "[::]:0"


def has_ipv6():
    try:
        with socket.socket(socket.AF_INET6) as it:
            it.bind(("::1", 0))
    except OSError:
        return False
    return True


def infos(ids):
    """The body that tells these ids, without the hash of a digest."""
    shown = [buffer(scheme) + buffer(name.split(b":")[0] if scheme == b"digest" else name) for scheme, name in ids]
    return struct.pack(">i", len(shown)) + b"".join(shown)


def tells(server, client, ids):
    """A client is told these ids, and a write of it brings them to the leader."""
    client.sendall(forwarded.frame(1, WHO_AM_I) + forwarded.create(2, b"/b"))
    asked = server.leader.asked()
    assert asked.ids == ids, asked
    told = forwarded.replied(client)
    assert told.error == 0 and told.body == infos(ids), (told, ids)
    server.leader.refuses(asked, -110)
    assert forwarded.replied(client).error == -110


def test_addresses_are_ids():
    with Server() as server:
        with server.connection() as client:
            forwarded.joined(client)
            tells(server, client, [forwarded.ADDRESS])
            digest = (b"digest", b"super:xQJmxLMiHGwaqBvst5y6rkB6HQs=")
            client.sendall(forwarded.frame(-4, 100, bytes(4) + buffer(b"digest") + buffer(b"super:admin")))
            assert forwarded.replied(client) == (-4, 0, 0, b"")
            tells(server, client, [forwarded.ADDRESS, digest])
        # The next connection, whose number may be the same, begins with its address alone.
        with server.connection() as client:
            forwarded.joined(client)
            tells(server, client, [forwarded.ADDRESS])
        server.ends()


def test_addresses_of_ipv6():
    if not has_ipv6():
        return
    for kind, wanted in ((AtLoopback, LOOPBACK), (AtBoth, forwarded.ADDRESS)):
        with kind() as server, server.connection() as client:
            forwarded.joined(client)
            tells(server, client, [wanted])
            client.close()
            server.ends()


def test_an_earlier_leader_is_sent_no_address():
    with Server("--dialect", "3.4") as server, server.connection() as client:
        forwarded.joined(client)
        client.sendall(forwarded.create(1, b"/b"))
        assert server.leader.asked().ids == []
        client.close()
        server.ends()


def test_recorded_addresses_replay():
    with tempfile.TemporaryDirectory() as room:
        name = os.path.join(room, "record")
        with Server("--record", name) as server:
            with server.connection() as client:
                forwarded.joined(client)
                tells(server, client, [forwarded.ADDRESS])
            assert wait_until(server.is_at_base, 5)
            server.ends()
        replayed = subprocess.run([Server.PROGRAM, "replay", name], capture_output=True, timeout=20)
        assert replayed.returncode == 0, replayed.stderr
        lines = replayed.stdout.decode().splitlines()
        shown = b"".join(map(buffer, forwarded.ADDRESS)).hex()
        assert [line for line in lines if line.startswith("L ") and line.endswith(shown)], lines
        assert [line for line in lines if line.startswith("C ") and line.endswith(infos([forwarded.ADDRESS]).hex())], lines
