"""Checkpoints, by which the log in memory is emptied, and records of what several leaders sent."""
import os
import struct
import subprocess
import tempfile
import time

import forwarded
from leader import CREATE, buffer
from server import Program, wait_until
from several import DIFF, EPOCH, TRUNC, Following, Seat

SET_DATA = 5
MEBIBYTE = 1 << 20
NODES, CONTENT = 8, 10_000


def create(number):
    return buffer(b"/n%d" % number) + buffer(b"0") + forwarded.OPEN_ACL + struct.pack(">?i", False, -1)


class Written:
    """Nodes that a leader sets, one after the other, each time to its next version."""

    def __init__(self):
        self.versions = {}

    def make(self, leader):
        for number in range(NODES):
            leader.informs(CREATE, create(number))
            self.versions[number] = 0

    def grow(self, leader, size):
        """Has the leader send so many bytes."""
        while size > 0:
            for number in self.versions:
                self.versions[number] += 1
                content = b"%d " % self.versions[number] + bytes(CONTENT)
                body = buffer(b"/n%d" % number) + buffer(content) + struct.pack(">i", self.versions[number])
                leader.informs(SET_DATA, body)
                size -= len(body)
        # A build with checks takes some seconds for a mebibyte.
        leader.pinged(60)

    def is_read(self, server):
        """A new client reads each node as it was written last. Returns all bytes that it was sent."""
        with server.connection() as client:
            client.sendall(forwarded.CONNECT)
            content = forwarded.text(client)
            whole = buffer(content)
            client.sendall(b"".join(forwarded.get_data(number, b"/n%d" % number) for number in self.versions))
            for number, version in self.versions.items():
                content = forwarded.text(client)
                whole += buffer(content)
                xid, _, error = struct.unpack(">iqi", content[:16])
                length = struct.unpack(">i", content[16:20])[0]
                assert (xid, error) == (number, 0) and content[20 : 20 + length].split(b" ")[0] == b"%d" % version
            return whole


def taken(server):
    return [it for it in server.said().splitlines() if "checkpoint at 0x" in it]


def is_taken(server, count):
    """Waits until so many checkpoints are taken."""
    assert wait_until(lambda: len(taken(server)) >= count, 30), server.said()


def replayed(name):
    """Returns what a replay of a record prints: what went to the leaders, to each client, and the last line."""
    ran = subprocess.run([Program.PROGRAM, "replay", name], capture_output=True, timeout=60, encoding="ascii")
    assert ran.returncode == 0, ran.stderr
    lines = ran.stdout.splitlines()
    clients, leaders = {}, b""
    for words in (it.split(" ") for it in lines[:-1]):
        if words[0] == "L" and words[1] != "close":
            leaders += bytes.fromhex(words[1])
        elif words[0] == "C" and words[2] != "close":
            clients[words[1]] = clients.get(words[1], b"") + bytes.fromhex(words[2])
    return leaders, list(clients.values()), lines[-1]


def test_checkpoints():
    with tempfile.TemporaryDirectory() as room:
        name = os.path.join(room, "record")
        seat, written, sent = Seat(), Written(), []
        with Following([seat], "--checkpoint", "1", "--record", name, "--log", "info") as server:
            line = seat.accept()
            leader = line.leads(1)
            written.make(leader)
            sent.append(written.is_read(server))
            for number in range(2):
                written.grow(leader, MEBIBYTE * 9 // 8)
                is_taken(server, number + 1)
                sent.append(written.is_read(server))
            # What comes after a checkpoint can be taken back.
            base = leader.zxid()
            leader.informs(CREATE, create(NODES))
            leader.pinged()
            line.close()
            line = seat.accept()
            assert line.introduced() == 1 and line.greets(2) == (base + 1, 1)
            line.sends(TRUNC, base)
            leader = line.finishes()
            assert b"Node count: %d\n" % (4 + NODES) in server.word(b"srvr"), server.word(b"srvr")
            sent.append(written.is_read(server))
            leader.pinged()
            line.close()
            # What came before can't.
            line = seat.accept()
            line.introduced()
            line.greets(3)
            line.sends(TRUNC, EPOCH + 1)
            told = server.ends(7)
            assert told.splitlines()[-1].startswith("observer: F9 CannotTruncate from "), told
            count, heard = len(taken(server)), b"".join(it.connection.heard for it in seat.lines)
        with open(name, encoding="ascii") as it:
            assert sum(line == "checkpoint\n" for line in it) == count
        leaders, clients, last = replayed(name)
        assert all(it in clients for it in sent), "the replay prints something else"
        assert leaders == heard, (leaders.hex()[-200:], heard.hex()[-200:])
        assert last.startswith("end zxid="), last


def test_no_checkpoints():
    seat, written = Seat(), Written()
    with Following([seat], "--checkpoint", "0", "--log", "info") as server:
        leader = seat.accept().leads(1)
        written.make(leader)
        written.grow(leader, MEBIBYTE * 9 // 8)
        time.sleep(1.5)
        assert not taken(server), server.said()
        written.is_read(server)


def test_a_record_of_several_leaders():
    """Leaders that end, fall silent, and end before clients are served, each with the next server."""
    with tempfile.TemporaryDirectory() as room:
        name = os.path.join(room, "record")
        seats, written, sent = [Seat(), Seat()], Written(), []
        words = ("--tick", "100", "--init-limit", "3", "--sync-limit", "3", "--record", name)
        with Following(seats, *words) as server:
            epoch = zxid = 0
            for turn in range(9):
                line = seats[turn % 2].accept()
                assert line.introduced() == epoch
                accepted, epoch = epoch, turn // 3 * 3 + 1
                assert line.greets(epoch) == (zxid, -1 if epoch == accepted else accepted), turn
                line.sends(DIFF, 0)
                if turn % 3 == 1:
                    line.close()
                    continue
                leader = line.finishes()
                if turn % 3 == 2:
                    # The same epoch's, so its transactions go on.
                    leader.last = zxid - leader.epoch
                if turn == 0:
                    written.make(leader)
                written.grow(leader, 1)
                sent.append(written.is_read(server))
                leader.pinged()
                zxid = leader.zxid()
                if turn % 3 == 0:
                    line.closed_after(5)  # It falls silent.
                line.close()
            seats[9 % 2].accept().introduced()
            heard = [it.connection.heard for seat in seats for it in seat.lines]
            server.program.kill()
            server.program.wait()
        leaders, clients, _ = replayed(name)
        assert all(it in clients for it in sent), "the replay prints something else"
        assert all(it in leaders for it in heard), "the replay prints something else for a leader"
