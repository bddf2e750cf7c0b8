"""Command lines: what is wrong with one, what can't be opened, and the ids of sessions."""
import json
import os
import re
import socket
import struct
import subprocess
import time

import forwarded
import several
from leader import received
from server import CONNECT, OBSERVERINFO, Program, hexa, is_closed
from several import ID, Following, Seat

GOOD = ["--leader", "1", "--client", "0"]
SEVERAL = ["--servers", "zk1:2888,zk2:2888", "--client", "0"]
RESTARTS = 20
MOST_COUNTER = 2**56 - 2


def run(*words):
    """Runs `serve` to its end. Returns its status, and what standard output and standard error were told."""
    words = [Program.PROGRAM, "serve", *words]
    ran = subprocess.run(words, stdin=subprocess.DEVNULL, capture_output=True, timeout=20, encoding="utf-8")
    return ran.returncode, ran.stdout, ran.stderr


# What each of these is told of it, where that is settled.
BAD = [
    ([], "--leader or --servers is missing"),
    (["--leader", "1"], "--client [ADDRESS:]PORT is missing"),
    (["--client", "1"], "--leader or --servers is missing"),
    (["--leader", "1", "--client"], "--client has no value"),
    (GOOD + ["--leader", "1"], "--leader is given twice"),
    (GOOD + ["--log", "--log"], "--log is given twice"),
    (GOOD + ["--leader-only", "--leader-only"], "--leader-only is given twice"),
    (GOOD + ["--leader-only", "yes"], "yes: no such option"),
    (GOOD + ["--workers"], "--workers has no value"),
    (GOOD + ["--workers", "0"], "--workers 0: 1 to 64"),
    (GOOD + ["--workers", "65"], "--workers 65: 1 to 64"),
    (GOOD + ["--workers", "+4"], "--workers +4: 1 to 64"),
    (GOOD + ["--batch", "0"], "--batch 0: 1 to 4096"),
    (GOOD + ["--batch", "4097"], "--batch 4097: 1 to 4096"),
    (GOOD + ["--id", "0"], "--id 0: 1 to 255"),
    (GOOD + ["--id", "256"], "--id 256: 1 to 255"),
    (GOOD + ["--id", "300"], "--id 300: 1 to 255"),
    (GOOD + ["--dialect", "3.9"], "--dialect 3.9: 3.4 or 3.8"),
    (GOOD + ["--counter", str(MOST_COUNTER + 1)], f"--counter {MOST_COUNTER + 1}: 0 to {MOST_COUNTER}"),
    (GOOD + ["--secret-file"], "--secret-file has no value"),
    (GOOD + ["--super-digest", "super:test"], "--super-digest super:test: a user, a colon and SHA-1 of"),
    (GOOD + ["--secret-file", "/no/such/file"], "--secret-file /no/such/file: there is no such file: "),
    (GOOD + ["--max-clients", "0"], "--max-clients 0: "),
    (GOOD + ["--max-per-address", "0"], "--max-per-address 0: at least 1"),
    (GOOD + ["--max-under-way", "0"], "--max-under-way 0: 1 to 1048576"),
    (GOOD + ["--max-under-way", "1048577"], "--max-under-way 1048577: 1 to 1048576"),
    (GOOD + ["--max-watches", "-1"], "--max-watches -1: 0 to 1000000000"),
    (GOOD + ["--max-watches", "1000000001"], "--max-watches 1000000001: 0 to 1000000000"),
    (GOOD + ["--unconnected", "3601"], "--unconnected 3601: 0 to 3600"),
    (GOOD + ["--unconnected", "-1"], "--unconnected -1: 0 to 3600"),
    (GOOD + ["--words"], "--words has no value"),
    (GOOD + ["--words", ""], "--words : all, none, or some of ruok,isro,srvr,stat,mntr,conf,envi,dirs,wchs,"),
    (GOOD + ["--words", "ruok,"], "--words ruok,: all, none, or some of "),
    (GOOD + ["--words", "ruok,wchx"], "--words ruok,wchx: all, none, or some of "),
    (GOOD + ["--words", "ruok, isro"], "--words ruok, isro: all, none, or some of "),
    (GOOD + ["--words", "ruok,all"], "--words ruok,all: all, none, or some of "),
    (GOOD + ["--words", "RUOK"], "--words RUOK: all, none, or some of "),
    (GOOD + ["--tick", "0"], "--tick 0: 1 to 3600000"),
    (GOOD + ["--tick", "3600001"], "--tick 3600001: 1 to 3600000"),
    (GOOD + ["--init-limit", "-1"], "--init-limit -1: "),
    (GOOD + ["--sync-limit", "five"], "--sync-limit five: "),
    (GOOD + ["--min-session-timeout", "0"], "--min-session-timeout 0: 1 to 2147483647"),
    (GOOD + ["--max-session-timeout", "2147483648"], "--max-session-timeout 2147483648: 1 to 2147483647"),
    (
        GOOD + ["--min-session-timeout", "2", "--max-session-timeout", "1"],
        "--min-session-timeout 2 is above --max-session-timeout 1; without them: 2 and 20 ticks",
    ),
    (GOOD + ["--max-session-timeout", "3999"], "--min-session-timeout 4000 is above --max-session-timeout 3999;"),
    (
        GOOD + ["--min-session-timeout", "2001", "--tick", "100"],
        "--min-session-timeout 2001 is above --max-session-timeout 2000;",
    ),
    (GOOD + ["--checkpoint", "64M"], "--checkpoint 64M: "),
    (GOOD + ["--give-up", "0"], "--give-up 0: "),
    (GOOD + ["--record"], "--record has no value"),
    (GOOD + ["--metrics"], "--metrics has no value"),
    (GOOD + ["--metrics", "localhost"], "--metrics localhost: PORT or HOST:PORT"),
    (GOOD + ["--metrics", "7000", "--metrics", "7000"], "--metrics is given twice"),
    (GOOD + ["--log", "loud"], "--log loud: off, error, warn, info or debug"),
    (GOOD + ["--log-format", "xml"], "--log-format xml: text or json"),
    (["--config"], "--config has no value"),
    (["--check-config"], "--check-config has no value"),
    (GOOD + ["--verbose"], "--verbose: no such option"),
    (GOOD + ["--cliemt", "1"], "--cliemt: no such option (did you mean --client?)"),
    (GOOD + ["more"], "more: no such option"),
    (["--leader", "65536", "--client", "0"], "--leader 65536: PORT or HOST:PORT"),
    (["--leader", "-1", "--client", "0"], "--leader -1: PORT or HOST:PORT"),
    (["--leader", "", "--client", "0"], "--leader : PORT or HOST:PORT"),
    (["--leader", "1", "--client", ":5"], "--client :5: "),
    (["--leader", "localhost:", "--client", "0"], "--leader localhost:: "),
    (["--leader", "zk1:2888", "--client", "0"], "--id N is missing: 1 to 255, and not the id of a server that votes"),
    (SEVERAL, "--id N is missing: 1 to 255, and not the id of a server that votes"),
    (SEVERAL + ["--id", "9", "--leader", "1"], "--leader and --servers are given"),
    (["--servers", "", "--client", "0", "--id", "9"], "--servers : 1 to 64 of HOST:PORT"),
    (["--servers", "zk1:2888,", "--client", "0", "--id", "9"], "--servers zk1:2888,: 1 to 64 of HOST:PORT"),
    (["--servers", ",".join(["a:1"] * 65), "--client", "0", "--id", "9"], "1 to 64 of HOST:PORT"),
]


def test_command_lines():
    for words, part in BAD:
        status, out, told = run(*words)
        lines = told.splitlines()
        assert (status, out) == (2, ""), (words, status, out)
        assert len(lines) == 2 and lines[1] == "usage", (words, told)
        assert lines[0].startswith("observer: ") and part in lines[0], (words, told)


def test_help_and_version():
    for words in (["--help"], GOOD + ["--help"], ["--help", "--cliemt"]):
        status, out, told = run(*words)
        assert (status, told) == (0, ""), (status, told)
        names = [line.split()[0] for line in out.splitlines() if line.strip().startswith("--")]
        wanted = {words[at] for words, _ in BAD for at in range(len(words)) if words[at].startswith("--")}
        wanted -= {"--verbose", "--cliemt"}
        assert wanted <= set(names) and {"--help", "--version"} <= set(names), sorted(wanted - set(names))
        assert len(names) == len(set(names)), names
    status, out, told = run("--version")
    assert (status, told) == (0, ""), (status, told)
    assert out.startswith("kezhundam 0.4.0, protocol of ZooKeeper 3.4"), out


def cannot_open(part, *words):
    """It ends with status 3, and one line that names what can't be opened, before that which always comes."""
    status, _, told = run(*words)
    lines = told.splitlines()
    assert status == 3 and lines[-1] == "cannot open", (status, told)
    assert any(it.startswith("observer: ") and part in it for it in lines), (part, told)


def test_what_cannot_be_opened():
    with socket.socket() as taken, socket.socket() as closed:
        taken.bind(("127.0.0.1", 0))
        taken.listen(5)
        closed.bind(("127.0.0.1", 0))
        here, gone = str(taken.getsockname()[1]), str(closed.getsockname()[1])
        cannot_open(gone, "--leader", gone, "--client", "0")
        unknown = "cannot resolve no-such-host.invalid: failed to lookup address information"
        cannot_open(unknown, "--leader", "no-such-host.invalid:2888", "--client", "0", "--id", "9")
        cannot_open(unknown, "--leader", here, "--client", "no-such-host.invalid:2181")
        cannot_open(here, "--leader", here, "--client", here)
        cannot_open(here, "--servers", f"127.0.0.1:{here}", "--client", here, "--id", "9")
        file = "/no/such/folder/file"
        cannot_open(file, "--leader", here, "--client", "0", "--record", file)


def test_names_and_addresses():
    with socket.socket() as leader:
        leader.bind(("127.0.0.1", 0))
        leader.listen(5)
        words = ["--leader", f"localhost:{leader.getsockname()[1]}", "--client", "127.0.0.1:0", "--id", "7"]
        program = subprocess.Popen([Program.PROGRAM, "serve", *words], stdout=subprocess.PIPE, stderr=subprocess.PIPE)
        connection, _ = leader.accept()
        found = received(connection, len(OBSERVERINFO))
        assert found == OBSERVERINFO.replace(hexa("0000000000000001 00010000"), hexa("0000000000000007 00010000"))
        connection.close()
        assert program.wait(10) == 0
        program.communicate()


def test_a_name_that_nobody_knows():
    """Among several servers one whose name is unknown is passed over; of a name's addresses each is tried."""
    seat = Seat()
    with Following([seat], others=f"no-such-host.invalid:2888,localhost:{seat.port},") as server:
        seat.accept().leads(1)
        assert server.word(b"isro") == b"rw"


def given_out(*words):
    """Starts a server. Returns the id of its first session, and the milliseconds since 1970 before and after."""
    before = time.time_ns() // 1_000_000
    with Following([Seat()], *words) as server:
        server.seats[0].accept().leads(1)
        with server.connection() as client:
            return forwarded.joined(client), before, time.time_ns() // 1_000_000


def test_ids_of_many_runs():
    found = set()
    for _ in range(RESTARTS * (50 if several.LONG else 1)):
        session, before, after = given_out()
        assert session >> 56 == ID and session not in found, hex(session)
        found.add(session)
        # Its counter began at the clock, which the two highest and the lowest bits have no room for.
        clock = (session & (2**56 - 1)) - 1 >> 16
        assert 0 <= (clock - before) % 2**39 <= after - before, (clock, before % 2**39)


def test_ids_from_a_counter():
    assert given_out("--counter", "0")[0] == ID << 56 | 1
    assert given_out("--counter", "4096")[0] == ID << 56 | 4097
    with Following([Seat()], "--counter", str(MOST_COUNTER)) as server:
        server.seats[0].accept().leads(1)
        with server.connection() as client, server.connection() as other:
            assert forwarded.joined(client) == ID << 56 | 2**56 - 1
            # There is none left.
            other.sendall(CONNECT)
            assert other.recv(100)[8:16] in (b"", bytes(8)) and is_closed(other)


TIMED = re.compile(r"\d{4}-\d\d-\d\dT\d\d:\d\d:\d\d\.\d{3}Z (DEBUG|INFO |WARN |ERROR) \w+ .+")


def told_with(*words, **environment):
    """Serves a client, loses its leader, and returns the lines of the log."""
    before = dict(os.environ)
    os.environ.pop("JOURNAL_STREAM", None)
    os.environ.update(environment)
    try:
        with Following([Seat()], *words) as server:
            line = server.seats[0].accept()
            line.leads(1)
            server.client().close()
            line.close()
            server.seats[0].accept().introduced()
            return server.said().splitlines()
    finally:
        os.environ.clear()
        os.environ.update(before)


def test_levels_and_formats_of_the_log():
    shown = {}
    for level in ("off", "error", "warn", "info", "debug"):
        lines = told_with("--log", level)
        assert all(TIMED.fullmatch(it) for it in lines), lines
        shown[level] = {it.split()[1] for it in lines}
    assert shown["off"] == shown["error"] == set() and shown["warn"] == {"WARN"}, shown
    assert shown["info"] == {"INFO", "WARN"} and shown["debug"] == {"DEBUG", "INFO", "WARN"}, shown
    assert {it.split()[1] for it in told_with("--log")} == shown["info"]
    assert {it.split()[1] for it in told_with()} == shown["warn"]
    for it in told_with("--log", "debug", "--log-format", "json"):
        entry = json.loads(it)
        assert set(entry) == {"ts", "level", "target", "msg"} and entry["level"] in ("DEBUG", "INFO", "WARN"), it
    # systemd's journal has times of its own.
    lines = told_with("--log", JOURNAL_STREAM="8:1234")
    assert lines and all(it.split()[0] in ("INFO", "WARN") for it in lines), lines


def test_an_id_that_is_not_given():
    """The port of a leader on this machine needs none, but for a warning."""
    seat = Seat()
    words = [Program.PROGRAM, "serve", "--leader", str(seat.port), "--client", "0"]
    ran = subprocess.Popen(words, stdout=subprocess.PIPE, stderr=subprocess.PIPE, encoding="utf-8")
    line = seat.accept()
    assert struct.unpack(">q", received(line.connection, 32)[16:24]) == (1,)
    line.close()
    _, told = ran.communicate(timeout=10)
    assert ran.returncode == 0 and "WARN" in told and "--id" in told, told
    seat.end()
