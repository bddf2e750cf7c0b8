"""`./observer get|ls|stat|words`, asked of the program behind a small leader."""
import os
import socket
import threading

import forwarded
from leader import CREATE
from packed import TOP, run
from server import Server

OBSERVER = os.path.join(TOP, "observer")
# What is in no text: a node's bytes are written as they are.
BYTES = bytes(range(256)) + b"\r\n\0"
FIELDS = [
    "czxid", "mzxid", "ctime", "mtime", "version", "cversion", "aversion",
    "ephemeralOwner", "dataLength", "numChildren", "pzxid",
]


def asked(*words, status=0, **how):
    return run(OBSERVER, *words, status=status, **how)


def with_nodes(server):
    """Has the leader create /b, and two children of it whose names aren't in order. Returns their zxids."""
    zxids = []
    for path, content, cversion in ((b"/b", BYTES, 2), (b"/b/y", b"", 1), (b"/b/x", b"", 2)):
        body = forwarded.buffer(path) + forwarded.buffer(content) + forwarded.OPEN_ACL
        zxids.append(server.leader.informs(CREATE, body + b"\0" + cversion.to_bytes(4, "big")))
    return zxids


def test_a_node_is_asked_for(pack):
    with Server() as server:
        zxids, address = with_nodes(server), f"127.0.0.1:{server.port}"
        out, error = asked("get", address, "/b", encoding=None)
        assert (out, error) == (BYTES, b""), (out, error)
        assert asked("get", address, "/b/x") == ("", "")
        assert asked("ls", address, "/b") == ("x\ny\n", "") and asked("ls", address, "/b/x") == ("", "")
        out, error = asked("stat", address, "/b")
        found = dict(it.split(" = ") for it in out.splitlines())
        assert list(found) == FIELDS and not error, (out, error)
        wanted = {"czxid": zxids[0], "pzxid": zxids[2], "dataLength": len(BYTES), "numChildren": 2, "ctime": 1000}
        assert {name: int(found[name]) for name in wanted} == wanted, found
        # Each command has closed its session at the leader; the one that is left is of the server's own start.
        assert len(server.leader.sessions) == 1, server.leader.sessions
        server.ends(seconds=20)


def test_a_node_that_is_not_there(pack):
    with Server() as server:
        address = f"localhost:{server.port}"
        for command in ("get", "ls", "stat"):
            assert asked(command, address, "/none", status=1) == ("", "observer: /none: NoNode\n"), command
        server.ends(seconds=20)


def test_a_word_is_asked(pack):
    with Server() as server:
        address = f"127.0.0.1:{server.port}"
        assert asked("words", address, "ruok") == ("imok\n", "")
        out, _ = asked("words", address, "mntr")
        assert "zk_znode_count\t" in out and out.endswith("\n") and not out.endswith("\n\n"), out
        server.ends(seconds=20)


def test_no_server_answers(pack):
    with socket.socket() as closed, socket.socket() as rude:
        closed.bind(("127.0.0.1", 0))
        rude.bind(("127.0.0.1", 0))
        rude.listen(5)
        threading.Thread(target=close_all, args=(rude,), daemon=True).start()
        for it in (closed, rude):
            address = f"127.0.0.1:{it.getsockname()[1]}"
            for command, what in (("get", "/"), ("ls", "/"), ("stat", "/"), ("words", "ruok")):
                out, error = asked(command, address, what, status=3)
                assert out == "" and error.startswith("observer: ") and error.count("\n") == 1, (command, out, error)


def close_all(listener):
    """Closes each connection that comes at once, until the listener is closed."""
    try:
        while True:
            listener.accept()[0].close()
    except OSError:
        pass


def test_wrong_command_lines(pack):
    here = "127.0.0.1:2181"
    for words in (
        ["get"], ["get", here], ["ls", here, "/", "more"], ["stat", "127.0.0.1", "/"], ["stat", here, "a"],
        ["get", "127.0.0.1:0", "/"], ["get", "::1:2181", "/"], ["words", here, "ruokk"], ["words", here],
    ):
        out, error = asked(*words, status=2)
        assert out == "" and error.startswith(f"usage: ./observer {words[0]} HOST:PORT "), (words, out, error)


def test_the_help_names_them(pack):
    out, _ = asked("--help")
    for command in ("get HOST:PORT PATH", "ls HOST:PORT PATH", "stat HOST:PORT PATH", "words HOST:PORT WORD"):
        assert f"./observer {command}\n" in out, command
