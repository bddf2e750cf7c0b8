"""The four-letter words, against what the leader says of the same tree."""
import socket
import time

from kazoo.client import KazooClient

from lab import until, word, zxid_of
from raw import Raw


def mntr(port):
    return dict(line.split("\t") for line in word(port, "mntr").splitlines() if "\t" in line)


def state(port):
    """What each line of srvr says, by its name."""
    return {name: value for name, _, value in (it.partition(": ") for it in word(port, "srvr").splitlines())}


def short_ones(bench):
    """ruok and isro."""
    assert word(bench.observer.client, "ruok") == "imok"
    assert word(bench.observer.client, "isro") == word(bench.leader.client, "isro") == "rw"


def srvr(bench):
    """The last zxid and the number of nodes are the leader's."""
    client = KazooClient(f"127.0.0.1:{bench.leader.client}")
    client.start(15)
    for number in range(30):
        client.create(f"/words-{number}", b"", ephemeral=number % 2 == 0)
    client.create("/words", b"")
    # A session of an earlier check may end meanwhile, which is a transaction too.
    for _ in range(100):
        bench.observer.reaches(zxid_of(bench.leader.client))
        ours, theirs = state(bench.observer.client), state(bench.leader.client)
        # The connection that asked before may be open for a moment more.
        if ours["Zxid"] == theirs["Zxid"] and ours["Connections"] == "1":
            break
        time.sleep(0.1)
    # A leader tells of its proposals, too.
    assert [it for it in theirs if not it.startswith("Proposal")] == list(ours), (ours, theirs)
    assert ours["Zxid"] == theirs["Zxid"], (ours, theirs)
    assert (ours["Mode"], ours["Connections"]) == ("observer", "1"), ours
    count = ours["Node count"]
    assert int(theirs["Node count"]) - int(count) in (0, 1), (ours, theirs)
    ours, at_leader = mntr(bench.observer.client), mntr(bench.leader.client)
    assert set(ours) - set(at_leader) <= {"zk_peer_state", "zk_uptime", "zk_connection_rejected"}, (ours, at_leader)
    assert ours["zk_server_state"] == "observer", ours
    assert ours["zk_znode_count"] == count, ours
    assert ours["zk_ephemerals_count"] == at_leader["zk_ephemerals_count"] == "15", (ours, at_leader)
    assert ours["zk_global_sessions"] == at_leader["zk_global_sessions"], (ours, at_leader)
    client.stop()
    client.close()


def watches(bench):
    """wchs, wchp, wchc and mntr tell of the watches of both tables."""
    port = bench.observer.client
    one, two = Raw(port), Raw(port)
    one.data("/words", True)
    one.children("/words", True)
    one.stat("/nowhere", True)
    two.data("/words", True)
    assert word(port, "wchs") == "2 connections watching 2 paths\nTotal watches:4\n", word(port, "wchs")
    first, second = sorted((one.session, two.session))
    listed = f"/nowhere\n\t0x{one.session:x}\n/words\n\t0x{first:x}\n\t0x{second:x}\n"
    assert word(port, "wchp") == listed, word(port, "wchp")
    paths = {one.session: "\t/nowhere\n\t/words\n", two.session: "\t/words\n"}
    listed = "".join(f"0x{session:x}\n{paths[session]}" for session in (first, second))
    assert word(port, "wchc") == listed, word(port, "wchc")
    # The connection that asked before may be open for a moment more.
    until("three connections are left", lambda: mntr(port)["zk_num_alive_connections"] == "3")
    assert mntr(port)["zk_watch_count"] == "4", mntr(port)
    one.leave()
    two.leave()
    assert word(port, "wchs") == "0 connections watching 0 paths\nTotal watches:0\n"


def owners(port):
    """The sessions that a server's dump has below its ephemeral nodes, each with its paths, but for those without."""
    text = word(port, "dump").partition("Sessions with Ephemerals ")[2].partition("Connections dump:")[0]
    found = {}
    for line in text.splitlines()[1:]:
        if line.startswith("\t"):
            found[session].add(line[1:])
        else:
            session = line.removesuffix(":")
            found[session] = set()
    return {session: paths for session, paths in found.items() if paths}


def dump(bench):
    """dump lists the sessions with their timeouts, and those with ephemeral nodes as the leader does."""
    port = bench.observer.client
    one, two = Raw(port, timeout=7000), Raw(bench.leader.client, timeout=5000)
    client = KazooClient(f"127.0.0.1:{port}")
    client.start(15)
    for path in ("/dump-b", "/dump-a"):
        client.create(path, b"", ephemeral=True)
    bench.observer.reaches(zxid_of(bench.leader.client))
    lines = word(port, "dump").splitlines()
    assert lines[0] == "SessionTracker dump:" and lines[1].startswith("Global Sessions("), lines
    end = lines.index("ephemeral nodes dump:")
    ids = [int(line.partition("\t")[0], 16) for line in lines[2:end]]
    assert ids == sorted(ids) and lines[1] == f"Global Sessions({len(ids)}):", lines
    assert {f"0x{one.session:x}\t7000ms", f"0x{two.session:x}\t5000ms"} <= set(lines[2:end]), lines
    session = f"0x{client.client_id[0]:x}"
    assert owners(port)[session] == {"/dump-a", "/dump-b"}, lines
    assert owners(port) == owners(bench.leader.client), lines
    client.stop()
    client.close()
    one.leave()
    two.leave()


def version(bench):
    """A client's library learns the version that is answered for."""
    client = KazooClient(f"127.0.0.1:{bench.observer.client}")
    client.start(15)
    assert client.server_version() in ((3, 4, 14), (3, 8, 0)), client.server_version()
    client.stop()
    client.close()


def no_words(bench):
    """A word that isn't answered here is no frame either, so the connection is closed without an answer."""
    for asked in ("gtmk", "reqs", "xxxx"):
        assert word(bench.observer.client, asked) == "", asked


def in_pieces(bench):
    """A word may come byte by byte."""
    with socket.create_connection(("127.0.0.1", bench.observer.client), 5) as connection:
        for letter in b"ruok":
            connection.sendall(bytes([letter]))
        assert b"".join(iter(lambda: connection.recv(100), b"")) == b"imok"


CHECKS = [short_ones, srvr, watches, dump, version, no_words, in_pieces]
