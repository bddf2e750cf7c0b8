"""Configuration files: a server that is started by one, what `--check-config` tells, and what is wrong with one."""
import contextlib
import os
import re
import tempfile

import commands
import several
from metrics import free_port
from several import Following, Seat

FILE = """\
# An ensemble of three voters, and this server.
tickTime=2000
initLimit=10
syncLimit = 5
dataDir={folder}
clientPort={port}
clientPortAddress=127.0.0.1
maxClientCnxns: 7
4lw.commands.whitelist=srvr, isro, \\
    stat
{others}
server.{id}=127.0.0.1:1:1:observer
"""


@contextlib.contextmanager
def file_of(text, number=several.ID):
    """Yields the name of a file with this text, and beside it the folder of the data."""
    with tempfile.TemporaryDirectory() as folder:
        if number is not None:
            with open(os.path.join(folder, "myid"), "w", encoding="ascii") as it:
                it.write(f"{number}\n")
        name = os.path.join(folder, "zoo.cfg")
        with open(name, "w", encoding="utf-8") as it:
            it.write(text.replace("{folder}", folder))
        yield name


def text_of(*others):
    values = {"others": "\n".join(others), "id": str(several.ID), "port": str(free_port())}
    return re.sub(r"\{(others|id|port)\}", lambda it: values[it[1]], FILE)


class ByFile(Following):
    """The program, which is started by a file."""

    def __init__(self, name, seats, *words):
        self.seats, self.errors = seats, tempfile.TemporaryFile()
        self.start(["--config", name, *words], self.errors, None)
        self.takes_clients()


def test_a_file_starts_it():
    seats = [Seat(is_open=False), Seat()]
    others = [f"server.{at + 7}=127.0.0.1:{it.port}:1:participant" for at, it in enumerate(seats)]
    with file_of(text_of(*others, "skipACL=yes", "noSuchKey=1")) as name:
        with ByFile(name, seats) as server:
            seats[1].accept().leads(1)
            assert server.word(b"isro") == b"rw"
            assert server.word(b"wchs") == b"wchs is not executed because it is not in the whitelist.\n"
            server.client().close()
            told = server.said()
    for part in ("zoo.cfg:13: skipACL isn't heeded", "zoo.cfg:14: noSuchKey is unknown"):
        assert part in told, (part, told)


def test_a_follower_is_tried_before_the_leader():
    for words, place in (([], 0), (["--leader-only"], 1)):
        follower, leader = seats = [Seat(), Seat()]
        lines = (f"server.7=127.0.0.1:{leader.port}:1", f"observerMasterPort={follower.port}")
        with file_of(text_of(*lines)) as name, ByFile(name, seats, *words) as server:
            seats[place].accept().leads(1)
            assert server.word(b"isro") == b"rw"


def test_where_followers_serve_observers():
    """Their port goes before each quorum port, unless it isn't above 0, or an option names the servers."""
    servers = ("server.7=zk1:2888:3888", "server.8=[::1]:2889:3889|zk3:2890:3890", "server.9=zk4:2888:3888:observer")
    quorum = "zk1:2888,[::1]:2889,zk3:2890"
    masters = "zk1:2191,[::1]:2191,zk3:2191"
    for line, words, wanted in (
        ("observerMasterPort=2191", [], f"--servers {masters},{quorum}"),
        ("observerMasterPort=+2191", [], f"--servers {masters},{quorum}"),
        ("observerMasterPort=2191", ["--leader-only"], f"--servers {quorum}"),
        ("observerMasterPort=2191", ["--servers", "zk5:1"], "--servers zk5:1"),
        ("observerMasterPort=2191", ["--leader", "zk5:1"], "--leader zk5:1"),
        ("observerMasterPort=0", [], f"--servers {quorum}"),
        ("observerMasterPort=-2147483648", [], f"--servers {quorum}"),
        ("", ["--leader-only"], f"--servers {quorum}"),
    ):
        with file_of(text_of(*servers, line)) as name:
            status, out, told = commands.run("--check-config", name, *words)
        assert (status, told) == (0, ""), (line, words, status, told)
        assert out.startswith(f"observer serve {wanted} --client "), (line, words, out)


def test_more_places_than_are_tried():
    """With the port of followers there are twice as many."""
    servers = [f"server.{it}=zk{it}:2888:3888" for it in range(2, 35)]
    key = "observerMasterPort=2191"
    for line, words, wanted in (("", [], 0), (key, [], 2), (key, ["--leader-only"], 0)):
        with file_of(text_of(*servers, line)) as name:
            status, _, told = commands.run("--check-config", name, *words)
        assert status == wanted, (line, words, status, told)
        assert not wanted or ": 1 to 64 of HOST:PORT" in told, told


def test_an_option_wins():
    digest = "DigestAuthenticationProvider.superDigest=super:D/InIHSb7yEEbrWz8b9l71RjZJU="
    with file_of(text_of("server.7=zk1:2888:3888", digest)) as name:
        status, out, told = commands.run("--check-config", name, "--tick", "500", "--words", "none")
    assert (status, told) == (0, ""), (status, told)
    assert " --tick 500 " in out and out.rstrip().endswith(" --words none --super-digest super:x"), out


def test_what_a_file_would_do():
    lines = ["server.7=zk1:2888:3888", "server.8=zk2:2888:3888|zk3:2889:3889", "digest.enabled=true", "skipACL=yes"]
    text = text_of(*lines)
    port = re.search("clientPort=([0-9]+)", text)[1]
    with file_of(text) as name:
        status, out, told = commands.run("--check-config", name)
        assert (status, told) == (0, ""), (status, told)
        assert out.splitlines() == [
            f"{name}:13: digest.enabled means nothing here",
            f"{name}:14: skipACL isn't heeded",
            f"observer serve --servers zk1:2888,zk2:2888,zk3:2889 --client 127.0.0.1:{port} --id 1 --dialect 3.8"
            " --workers 4 --batch 256 --max-per-address 7 --tick 2000 --init-limit 10 --sync-limit 5 --checkpoint 64"
            " --min-session-timeout 4000 --max-session-timeout 40000 --max-under-way 64 --max-watches 500000"
            " --unconnected 10 --words isro,srvr,stat",
        ], out
    with file_of(text_of(*lines, "tickTimes=1")) as name:
        status, out, told = commands.run("--check-config", name)
        assert status == 2 and f"{name}:15: tickTimes is unknown" in out.splitlines(), (status, out)
        assert told.splitlines() == [f"observer: {name}:15: unknown key", "usage"], told


def test_timeouts():
    """The bounds of timeouts: of the file, of an option, and of the tick; -1 in a file is as without the key."""
    for lines, words, least, greatest in (
        (["minSessionTimeout=5000", "maxSessionTimeout=60000"], [], 5000, 60000),
        (["minSessionTimeout=5000", "maxSessionTimeout=60000"], ["--min-session-timeout", "60000"], 60000, 60000),
        (["minSessionTimeout=5000", "maxSessionTimeout=-1"], ["--tick", "3600000"], 5000, 72000000),
        (["minSessionTimeout=-1", "tickTime=300"], [], 600, 6000),
    ):
        with file_of(text_of("server.7=zk1:2888:3888", *lines)) as name:
            status, out, told = commands.run("--check-config", name, *words)
        assert (status, told) == (0, ""), (status, told)
        assert f" --min-session-timeout {least} --max-session-timeout {greatest} " in out, (lines, words, out)


def test_metrics():
    lines = [
        "server.7=zk1:2888:3888",
        "metricsProvider.className=org.apache.zookeeper.metrics.prometheus.PrometheusMetricsProvider",
        "metricsProvider.httpHost=127.0.0.1",
        "metricsProvider.exportJvmInfo=true",
    ]
    with file_of(text_of(*lines)) as name:
        for words, address in (([], "127.0.0.1:7000"), (["--metrics", "[::1]:0"], "[::1]:0")):
            status, out, told = commands.run("--check-config", name, *words)
            assert (status, told) == (0, ""), (status, told)
            first, last = out.splitlines()
            assert first == f"{name}:14: metricsProvider.exportJvmInfo isn't heeded", out
            assert last.endswith(f" --words isro,srvr,stat --metrics {address}"), out


def test_a_dynamic_file():
    with file_of("server.7=zk1:2888:3888:participant;2181\nserver.1=here:2888:3888:observer;2182\n") as other:
        text = "dataDir={folder}\ntickTime=2000\ndynamicConfigFile=" + other + "\n"
        with file_of(text) as name:
            status, out, told = commands.run("--check-config", name)
    assert (status, told) == (0, ""), (status, told)
    assert "--servers zk1:2888 --client 0.0.0.0:2182 --id 1 " in out, out


# What is told of a file with this line as its eleventh.
BAD = [
    ("sslQuorum=true", "11: there is no TLS here"),
    ("secureClientPort=2281", "11: there is no TLS here"),
    ("quorum.auth.enableSasl=true", "11: there are no SASL"),
    ("localSessionsEnabled=true", "11: there are no local sessions"),
    ("dataLogDir=C:\\\\zookeeper", "11: escapes aren't read"),
    ("server.9=zk1", "11: server.N="),
    ("server.9=::1:2888:3888", "11: server.N="),
    ("server.9=zk1:2888:3888:Observer|zk2:2888:3888:participant", "11: server.N="),
    ("observerMasterPort=65536", "11: observerMasterPort=PORT, from 1 to 65535"),
    ("observerMasterPort=", "11: observerMasterPort=PORT, from 1 to 65535"),
    ("observerMasterPort=-2147483649", "11: observerMasterPort=PORT, from 1 to 65535"),
    ("observerMasterPort=2191,zk1:2191", "11: observerMasterPort=PORT, from 1 to 65535"),
    ("tickTime=0", " --tick 0: 1 to 3600000"),
    ("minSessionTimeout=0", " --min-session-timeout 0: 1 to 2147483647"),
    ("minSessionTimeout=40001", " --min-session-timeout 40001 is above --max-session-timeout 40000"),
    ("clientPort=x", " --client 127.0.0.1:x: PORT or HOST:PORT"),
    (
        "metricsProvider.httpPort=x\nmetricsProvider.className=org.apache.zookeeper.metrics.prometheus.PrometheusMetricsProvider",
        " --metrics 0.0.0.0:x: PORT or HOST:PORT",
    ),
]


def test_what_is_wrong_with_a_file():
    for line, part in BAD:
        with file_of(text_of("server.7=zk1:2888:3888").replace("server.7", line + "\nserver.7")) as name:
            for option in ("--config", "--check-config"):
                status, out, told = commands.run(option, name)
                assert (status, out) == (2, ""), (line, status, out)
                lines = told.splitlines()
                assert lines[0].startswith(f"observer: {name}:{part}") and lines[1:] == ["usage"], (line, told)
    with file_of(text_of("server.7=zk1:2888:3888").replace(":observer", "")) as name:
        status, _, told = commands.run("--check-config", name)
        assert status == 2 and "12: this server votes" in told, (status, told)
    with file_of("clientPort=2181\n") as name:
        status, _, told = commands.run("--config", name, "--id", "9")
        assert status == 2 and "--leader or --servers is missing" in told, (status, told)
        status, _, told = commands.run("--config", name, "--check-config", name)
        assert status == 2 and "--config and --check-config are given" in told, (status, told)
    with file_of(text_of("server.7=zk1:2888:3888"), number=None) as name:
        commands.cannot_open("myid", "--config", name)
    commands.cannot_open("/no/such/zoo.cfg", "--config", "/no/such/zoo.cfg")
