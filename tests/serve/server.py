"""A leader, the program that follows it, and its clients, over sockets of 127.0.0.1."""
import os
import select
import socket
import struct
import subprocess
import time

from leader import CREATE, Leader, received

TOP = os.path.dirname(os.path.dirname(os.path.dirname(os.path.realpath(__file__))))
hexa = bytes.fromhex

# What a leader of epoch 1 sends to an observer that has nothing, and what it is answered.
LEADERINFO = hexa("00000011 0000000100000000 00000004 00010000 ffffffff")
DIFF = hexa("0000000d 0000000000000000 ffffffff ffffffff")
SNAP = hexa("0000000f 0000000100000000 ffffffff ffffffff")
NEWLEADER = hexa("0000000a 0000000100000000 ffffffff ffffffff")
UPTODATE = hexa("0000000c 0000000100000000 ffffffff ffffffff")
OBSERVERINFO = hexa("00000010 0000000000000000 0000000c 0000000000000001 00010000 ffffffff")
ACKEPOCH = hexa("00000012 0000000000000000 00000004 00000000 ffffffff")
ACK = hexa("00000003 0000000100000000 ffffffff ffffffff")

# The body of a create of /a with the data "hi", which is the leader's first transaction, a getData of it, and its
# answer without the last zxid.
CREATE_A = hexa(
    "00000002 2f61 00000002 6869 00000001 0000001f 00000005 776f726c64 00000006 616e796f6e65 00 00000001"
)
GET = hexa("0000000f 00000001 00000004 00000002 2f61 00")
GOT = hexa(
    "0000005a 00000001 00000000 00000002 6869 0000000100000001 0000000100000001"
    "00000000000003e8 00000000000003e8 00000000 00000000 00000000 0000000000000000 00000002 00000000 0000000100000001"
)
GOT_LEN = len(GOT) + 8
CONNECT = hexa("0000002d 00000000 0000000000000000 00002710 0000000000000000 00000010") + bytes(17)
CONNECTED_LEN = 41
PING = hexa("00000008 fffffffe 0000000b")
PINGED_LEN = 20


def got(connection, count=1):
    """Returns whether the next replies are so many answers to the getData."""
    for _ in range(count):
        reply = received(connection, GOT_LEN)
        if reply[:8] + reply[16:] != GOT:
            return False
    return True


def is_closed(connection):
    """Returns whether the peer has closed, or does so within the time limit, and sends nothing before."""
    try:
        return connection.recv(1) == b""
    except ConnectionError:
        return True


def is_silent(connection):
    """Returns whether the connection is open, and nothing has come that wasn't taken."""
    return not select.select([connection], [], [], 0)[0]


def reset(connection):
    """Closes a connection so that the peer sees a reset."""
    connection.setsockopt(socket.SOL_SOCKET, socket.SO_LINGER, struct.pack("ii", 1, 0))
    connection.close()


def wait_until(holds, seconds):
    """Returns whether something holds within so many seconds."""
    until = time.monotonic() + seconds
    while not holds():
        if time.monotonic() > until:
            return False
        time.sleep(0.01)
    return True


class Skipped(Exception):
    """Why a test can't be tried on this machine."""


class Program:
    """The program as a server: a process, what it holds, and its client port."""

    PROGRAM = os.path.join(TOP, "crates", "replay_runner", "out", "replay_runner")
    # What its environment has besides.
    ENVIRONMENT = {}
    # The host at which its clients find it.
    HOST = "127.0.0.1"

    def start(self, words, errors, limit=None):
        words, environment = [self.PROGRAM, "serve", *words], {**os.environ, **self.ENVIRONMENT}
        self.program = subprocess.Popen(
            words, stdout=subprocess.PIPE, stderr=errors, preexec_fn=limit, env=environment
        )

    def takes_clients(self):
        """Waits until it says on which port."""
        line = self.program.stdout.readline()
        assert line.startswith(b"serving "), line
        self.port = int(line.split()[1])

    def answers(self, client):
        """Returns whether a client gets the node that it reads."""
        client.sendall(GET)
        return got(client)

    def connection(self):
        """Returns a connection that has said nothing yet."""
        connection = socket.create_connection((self.HOST, self.port), 10)
        connection.setsockopt(socket.IPPROTO_TCP, socket.TCP_NODELAY, 1)
        return connection

    def client(self):
        """Returns a connection with a session."""
        connection = self.connection()
        connection.sendall(CONNECT)
        assert len(received(connection, CONNECTED_LEN)) == CONNECTED_LEN
        return connection

    def is_serving(self):
        """Returns whether a new client gets its answer."""
        try:
            with self.client() as client:
                return self.answers(client)
        except (AssertionError, ConnectionError):
            return False

    def word(self, asked):
        """Returns what a four-letter word is answered."""
        with self.connection() as connection:
            connection.sendall(asked)
            return b"".join(iter(lambda: connection.recv(4096), b""))

    def threads(self):
        """Returns how many threads it has, without the one that writes the log."""
        return len(os.listdir(f"/proc/{self.program.pid}/task")) - 1

    def descriptors(self):
        return len(os.listdir(f"/proc/{self.program.pid}/fd"))

    def memory(self):
        """Returns how many megabytes it holds."""
        with open(f"/proc/{self.program.pid}/statm", encoding="ascii") as it:
            return int(it.read().split()[1]) * 4096 / 1e6

    def processor(self):
        """Returns how many seconds of a processor it has used."""
        with open(f"/proc/{self.program.pid}/stat", encoding="ascii") as it:
            fields = it.read().rpartition(")")[2].split()
        return (int(fields[11]) + int(fields[12])) / os.sysconf("SC_CLK_TCK")

    def end(self):
        """Ends the process, whatever it does."""
        if self.program.poll() is None:
            self.program.kill()
            self.program.wait()
        self.program.stdout.close()

    def __enter__(self):
        return self

    def __exit__(self, *_):
        self.kill()


class Server(Program):
    """A leader, and the program that follows it alone. Before it serves there is only the leader's connection."""

    LEADER = Leader
    # Where it takes clients.
    CLIENT = "0"

    def __init__(self, *words, serves=True, limit=None):
        self.leader_socket = socket.socket()
        self.leader_socket.bind(("127.0.0.1", 0))
        self.leader_socket.listen(5)
        self.leader_socket.settimeout(10)
        self.leader = None
        leader_port = str(self.leader_socket.getsockname()[1])
        self.start(["--leader", leader_port, "--client", self.CLIENT, *words], subprocess.PIPE, limit)
        self.stream, _ = self.leader_socket.accept()
        self.stream.settimeout(10)
        self.takes_clients()
        if serves:
            self.handshake()

    def handshake(self):
        assert received(self.stream, len(OBSERVERINFO))[-12:] == OBSERVERINFO[-12:]
        self.stream.sendall(LEADERINFO)
        assert received(self.stream, len(ACKEPOCH)) == ACKEPOCH
        self.stream.sendall(DIFF + NEWLEADER)
        assert received(self.stream, len(ACK)) == ACK
        self.stream.sendall(UPTODATE)
        assert received(self.stream, len(ACK)) == ACK
        self.leader = self.LEADER(self.stream)
        self.leader.informs(CREATE, CREATE_A)
        # Whoever has a session from now on sees the node.
        with self.client() as client:
            assert self.answers(client)

    def is_at_base(self, seconds=5):
        """Returns whether only the leader's thread, the acceptor's and the main one are left."""
        return wait_until(lambda: self.threads() == 3, seconds)

    def ends(self, status=0, seconds=1.0):
        """The leader goes. Returns what standard error was told, where the program ends so and in time."""
        if self.leader:
            self.leader.leave()
        began = time.monotonic()
        self.stream.close()
        self.leader_socket.close()
        _, errors = self.program.communicate(timeout=20)
        took = time.monotonic() - began
        assert self.program.returncode == status, f"status {self.program.returncode}: {errors.decode()}"
        assert took < seconds, f"it took {took:.2f} s to end"
        return errors.decode()

    def kill(self):
        self.end()
        self.program.stderr.close()
        if self.leader:
            self.leader.leave()
        self.stream.close()
        self.leader_socket.close()
