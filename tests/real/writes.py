"""Writes by clients of the observer: the leader does them, and the client sees each by its own reads after it."""
from kazoo.exceptions import (
    BadVersionError, NoAuthError, NoChildrenForEphemeralsError, NodeExistsError, NoNodeError, NotEmptyError,
    RolledBackError, RuntimeInconsistency,
)
from kazoo.security import make_acl, make_digest_acl

from lab import Observer, ended, library, zxid_of
from raw import GET_DATA, Raw, boolean, buffer, int32, text

ROUNDS, AHEAD, SECOND = 100, 500, 4
CREATE = 1


def raises(error, call):
    """Asserts that a call raises this error."""
    try:
        call()
    except error:
        return
    raise AssertionError(f"no {error.__name__}")


def own_writes(bench):
    """Each create, set, set of an ACL and delete is seen by the next read of its client, and then at the leader."""
    client, leader = library(bench.observer.client), library(bench.leader.client)
    client.create("/writes", b"")
    for number in range(ROUNDS):
        path, data = f"/writes/{number}", b"%d" % number
        assert client.create(path, data) == path
        assert client.get(path)[0] == data
        stat = client.set(path, data * 2, 0)
        assert client.get(path) == (data * 2, stat) and stat.version == 1
        stat = client.set_acls(path, [make_acl("world", "anyone", all=True), make_acl("world", "anyone", read=True)])
        assert client.get_acls(path)[1] == stat and stat.aversion == 1
        if number % 2:
            client.delete(path)
            assert client.exists(path) is None
    leader.sync("/")
    assert sorted(client.get_children("/writes")) == sorted(leader.get_children("/writes"))
    for name in client.get_children("/writes"):
        assert client.get(f"/writes/{name}") == leader.get(f"/writes/{name}")
        assert client.get_acls(f"/writes/{name}") == leader.get_acls(f"/writes/{name}")
    ended(client, leader)


def sorts_of_nodes(bench):
    """Sequential nodes, null data, large data, and text past ASCII, as at the leader."""
    client, leader = library(bench.observer.client), library(bench.leader.client)
    client.create("/sorts", None)
    names = [client.create("/sorts/seq-", b"", sequence=True) for _ in range(20)]
    assert names == sorted(names) and len(set(names)) == 20
    client.create("/sorts/large", bytes(range(256)) * 2000)
    client.create("/sorts/größe", "Grüße".encode())
    client.create("/sorts/a/b/c", b"deep", makepath=True)
    leader.sync("/")
    for path in ("/sorts", "/sorts/large", "/sorts/größe", "/sorts/a/b/c", *names):
        assert client.get(path) == leader.get(path), path
    client.delete("/sorts", recursive=True)
    assert client.exists("/sorts") is None
    ended(client, leader)


def that_fail(bench):
    """A write that fails is answered with the error that the leader gives, and changes nothing."""
    client, leader = library(bench.observer.client), library(bench.leader.client)
    leader.create("/fails/child", b"", makepath=True)
    leader.create("/fails/held", b"", ephemeral=True)
    leader.create("/fails/hidden", b"", acl=[make_digest_acl("another", "one", all=True)])
    bench.observer.reaches(zxid_of(bench.leader.client))
    calls = [
        (NodeExistsError, lambda it: it.create("/fails", b"")),
        (NoNodeError, lambda it: it.create("/fails/no/where", b"")),
        (NoNodeError, lambda it: it.set("/nowhere", b"")),
        (NoNodeError, lambda it: it.delete("/nowhere")),
        (BadVersionError, lambda it: it.set("/fails", b"", 7)),
        (BadVersionError, lambda it: it.delete("/fails/child", 7)),
        (NotEmptyError, lambda it: it.delete("/fails")),
        (NoAuthError, lambda it: it.set("/fails/hidden", b"")),
        (NoAuthError, lambda it: it.set_acls("/fails/hidden", [make_acl("world", "anyone", all=True)])),
        (NoChildrenForEphemeralsError, lambda it: it.create("/fails/held/child", b"")),
    ]
    for error, call in calls:
        for it in (client, leader):
            raises(error, lambda: call(it))
    assert client.get("/fails")[1].version == 0
    ended(client, leader)


def with_ids(bench):
    """An id that a client has shown counts for its writes at the leader, also where it is shown between them."""
    client, other = library(bench.observer.client), library(bench.observer.client)
    client.add_auth("digest", "writer:secret")
    client.create("/ids", b"", acl=[make_digest_acl("writer", "secret", all=True)])
    raises(NoAuthError, lambda: other.set("/ids", b"no"))
    other.add_auth("digest", "writer:secret")
    other.set("/ids", b"yes")
    assert client.get("/ids")[0] == b"yes"
    ended(client, other)


def pipelined(bench):
    """500 writes and as many reads are on the way at once: each is answered in its turn, and each read has the write
    before it."""
    maker, client = library(bench.observer.client), Raw(bench.observer.client)
    maker.create("/pipelined", b"")
    acl = int32(1) + int32(31) + text("world") + text("anyone")
    for number in range(AHEAD):
        path = text(f"/pipelined/{number}")
        client.send(buffer(int32(2 * number) + int32(CREATE) + path + buffer(b"%d" % number) + acl + int32(0)))
        client.send(buffer(int32(2 * number + 1) + int32(GET_DATA) + path + boolean(False)))
    zxid = 0
    for number in range(AHEAD):
        written, read = client.taken(30), client.taken(30)
        assert (written.xid, written.error, read.xid, read.error) == (2 * number, 0, 2 * number + 1, 0)
        assert written.body.text() == f"/pipelined/{number}" and read.body.buffer() == b"%d" % number
        assert zxid < written.zxid <= read.zxid
        zxid = written.zxid
    client.xid = 2 * AHEAD
    client.leave()
    ended(maker)


def sync_elsewhere(bench):
    """What was written at one observer is read at another one after a sync there, in each of 100 rounds."""
    second = Observer(bench.observer.program, bench.folder, "second", SECOND)
    second.start(bench.leader.quorum)
    second.reaches(0)
    writer, reader = library(bench.observer.client), library(second.client)
    try:
        assert writer.client_id[0] >> 56 == 3 and reader.client_id[0] >> 56 == SECOND
        writer.create("/synced", b"")
        for number in range(ROUNDS):
            writer.set("/synced", b"%d" % number)
            reader.sync_async("/synced")
            assert reader.get("/synced")[0] == b"%d" % number
    finally:
        ended(writer, reader)
        second.stop()


def with_a_stat(bench):
    """A create that asks for a Stat is answered with the one that the node has at the leader."""
    client, leader = library(bench.observer.client), library(bench.leader.client)
    path, stat = client.create("/with-a-stat", b"data", include_data=True)
    leader.sync("/")
    assert path == "/with-a-stat" and stat == leader.exists("/with-a-stat"), (path, stat)
    raises(NodeExistsError, lambda: client.create("/with-a-stat", b"", include_data=True))
    ended(client, leader)


def together(bench):
    """A multi is done as a whole or not at all, and each part has its result."""
    client = library(bench.observer.client)
    client.create("/together", b"")
    multi = client.transaction()
    multi.create("/together/new", b"first")
    multi.set_data("/together/new", b"second")
    path, stat = multi.commit()
    assert path == "/together/new" and stat.version == 1
    multi = client.transaction()
    multi.delete("/together/new")
    multi.check("/together", 7)
    multi.create("/together/other", b"")
    results = multi.commit()
    assert [type(it) for it in results] == [RolledBackError, BadVersionError, RuntimeInconsistency]
    assert client.get("/together/new")[0] == b"second"
    ended(client)


CHECKS = [own_writes, sorts_of_nodes, that_fail, with_ids, pipelined, sync_elsewhere, with_a_stat, together]
