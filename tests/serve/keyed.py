"""Passwords of sessions that are made of a secret, in a file that observers of one farm share."""
import contextlib
import hashlib
import os
import struct
import subprocess
import tempfile

import commands
import configured
import forwarded
from claims import REFUSED, made_elsewhere
from leader import buffer
from server import GET, Program, Server, got, is_closed

SECRET = bytes(range(1, 33))
GUESSES = (b"", SECRET[:-1], SECRET + b"\n", b"abc")


@contextlib.contextmanager
def file_of(content, mode=0o600):
    """Yields the name of a file with these bytes."""
    with tempfile.TemporaryDirectory() as room:
        name = os.path.join(room, "secret")
        with open(name, "wb") as it:
            it.write(content)
        os.chmod(name, mode)
        yield name


def keyed(session, secret=SECRET):
    """Returns a session as its client knows it where its password is made of a secret."""
    password = hashlib.sha1(secret + struct.pack(">q", session.id)).digest()[:16]
    return session._replace(password=password)


def opened(server):
    """Returns a new session, which isn't connected any more."""
    with server.connection() as client:
        client.sendall(forwarded.CONNECT)
        return forwarded.connected(client)


def is_admitted(server, session):
    """Returns whether a client that brings the session has it, and reads."""
    with server.connection() as client:
        client.sendall(session.connect() + GET)
        found = forwarded.connected(client)
        if found == REFUSED:
            assert is_closed(client)
            return False
        return found == session and got(client)


def test_a_session_outlives_its_observer():
    with file_of(SECRET) as name:
        with Server("--secret-file", name) as server:
            session = opened(server)
            assert session == keyed(session), session
            server.ends()
        # Another process, and another leader, which knows the session. So may it be another observer of the farm.
        with Server("--secret-file", name) as server:
            made_elsewhere(server.leader, session.id, session.timeout)
            assert is_admitted(server, session)
            # Who knows the id alone is refused, and the leader isn't asked.
            server.leader.confirms = False
            for guess in [forwarded.password_of(session.id)] + [keyed(session, it).password for it in GUESSES]:
                assert not is_admitted(server, session._replace(password=guess)), guess.hex()
            assert server.leader.claims.empty() and server.is_serving()
            server.ends()
    # Without the secret it is refused, too, as ZooKeeper's own servers do.
    with Server() as server:
        made_elsewhere(server.leader, session.id, session.timeout)
        assert not is_admitted(server, session)
        assert is_admitted(server, session._replace(password=forwarded.password_of(session.id)))
        server.ends()


def test_a_secret_in_dialect_3_4():
    with file_of(SECRET) as name, Server("--dialect", "3.4", "--secret-file", name) as server:
        session = opened(server)
        assert session == keyed(session), session
        assert is_admitted(server, session)
        for guess in [forwarded.password_of(session.id)] + [keyed(session, it).password for it in GUESSES]:
            assert not is_admitted(server, session._replace(password=guess)), guess.hex()
        server.ends()


def test_what_is_a_secret():
    # Each content, the mode of its file, and the secret in it.
    for content, mode, secret in (
        (b"k", 0o400, b"k"),
        (b"\0", 0o600, b"\0"),
        (bytes(64), 0o640, bytes(64)),
        (b"s" * 64 + b"\n", 0o660, b"s" * 64),
        (b"two\n\n", 0o600, b"two\n"),
        (b"\r\n", 0o600, b"\r"),
        (b"\nfront", 0o600, b"\nfront"),
    ):
        with file_of(content, mode) as name, Server("--secret-file", name) as server:
            session = opened(server)
            assert session == keyed(session, secret), content
            server.ends()


def refuses(part, *words):
    """It ends with status 2, and a line that says which file, what is wrong with it, and what to do."""
    status, out, told = commands.run(*words)
    assert (status, out) == (2, ""), (status, out, told)
    line, last = told.splitlines()
    assert line.startswith(f"observer: {part}") and last == "usage", told


def test_what_is_no_secret():
    for content, mode, what in (
        (SECRET, 0o644, "others may read or write it: "),
        (SECRET, 0o602, "others may read or write it: "),
        (b"", 0o600, "it is empty: write 1 to 64 bytes into it"),
        (b"\n", 0o600, "it is empty: write 1 to 64 bytes into it"),
        (bytes(65), 0o600, "it has more than 64 bytes: write 1 to 64 into it"),
        (bytes(65) + b"\n", 0o600, "it has more than 64 bytes: "),
        (bytes(1 << 20), 0o600, "it has more than 64 bytes: "),
    ):
        with file_of(content, mode) as name:
            refuses(f"--secret-file {name}: {what}", *commands.GOOD, "--secret-file", name)
            with configured.file_of(configured.text_of("server.7=127.0.0.1:1:1")) as file:
                words = ["--check-config", file, "--secret-file", name]
                assert commands.run(*words)[0] == 2, words
    with tempfile.TemporaryDirectory() as room:
        missing = os.path.join(room, "secret")
        refuses(f"--secret-file {missing}: there is no such file: make one", *commands.GOOD, "--secret-file", missing)
        refuses(f"--secret-file {room}: it is a directory", *commands.GOOD, "--secret-file", room)
    for name in ("/dev/zero", "/dev/null"):
        refuses(f"--secret-file {name}: it is a directory or a device", *commands.GOOD, "--secret-file", name)


def test_a_record_with_a_secret():
    with file_of(SECRET + b"\n") as secret, tempfile.TemporaryDirectory() as room:
        name = os.path.join(room, "record")
        with Server("--secret-file", secret, "--record", name, "--id", "1") as server:
            session = opened(server)
            server.is_at_base()
            with server.connection() as client:
                client.sendall(session.connect() + GET)
                sent = b"".join(buffer(forwarded.text(client)) for _ in range(2))
            server.is_at_base()
            server.ends()
        assert os.stat(name).st_mode & 0o777 == 0o600, oct(os.stat(name).st_mode)
        with open(name, encoding="ascii") as it:
            assert [line for line in it if line.startswith("secret")] == [f"secret {SECRET.hex()}\n"]
        ran = subprocess.run([Program.PROGRAM, "replay", name], capture_output=True, timeout=20, encoding="ascii")
        assert ran.returncode == 0, ran.stderr
        mine = [line.split()[2] for line in ran.stdout.splitlines() if line.startswith("C 3 ")]
        assert bytes.fromhex("".join(mine)) == sent, ran.stdout
        # What others may read is refused, and left as it was.
        os.chmod(name, 0o644)
        size = os.path.getsize(name)
        words = [*commands.GOOD, "--secret-file", secret, "--record", name]
        refuses(f"--record {name}: others may read or write it: ", *words)
        assert os.path.getsize(name) == size


def test_the_log_names_the_file_and_not_the_secret():
    with file_of(b"correct horse") as name, Server("--secret-file", name, "--log", "debug") as server:
        session = opened(server)
        told = server.ends()
        assert f" --secret-file {name}" in told, told
        for it in (b"correct horse", keyed(session, b"correct horse").password):
            assert it.decode("latin-1") not in told and it.hex() not in told, told
