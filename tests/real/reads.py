"""What is read at the observer is what is read at the leader: every node, Stat for Stat, ACL for ACL."""
import random

from kazoo.client import KazooClient
from kazoo.exceptions import KazooException, NoAuthError, NoNodeError
from kazoo.security import make_acl, make_digest_acl

from lab import zxid_of

ROUNDS, STEPS = 3, 150
USER, PASSWORD = "reader", "secret"
# A later leader's own node, which no transaction makes: only an observer that had an image has it.
UNLIKE = "/zookeeper/config"


def client_of(port):
    client = KazooClient(f"127.0.0.1:{port}", timeout=10)
    client.start(15)
    client.add_auth("digest", f"{USER}:{PASSWORD}")
    return client


def build(leader):
    """Makes nodes of each sort: deep, wide, large, null, with ACLs, with text past ASCII, ephemeral, by multi."""
    leader.create("/reads", b"top")
    for number in range(50):
        leader.create(f"/reads/wide-{number}", b"x" * number)
    leader.create("/reads/deep/a/b/c/d/e/f/g", b"deep", makepath=True)
    leader.create("/reads/large", bytes(range(256)) * 2000)
    leader.create("/reads/empty", b"")
    leader.create("/reads/null", None)
    leader.create("/reads/größe-零", "Grüße".encode())
    leader.create("/reads/seq-", b"", sequence=True)
    leader.create("/reads/ephemeral", b"mine", ephemeral=True)
    leader.create("/reads/digest", b"hidden", acl=[make_digest_acl(USER, PASSWORD, all=True)])
    leader.create("/reads/world-read", b"", acl=[make_acl("world", "anyone", read=True, admin=True)])
    leader.create("/reads/acl", b"")
    leader.set_acls("/reads/acl", [make_acl("world", "anyone", all=True), make_digest_acl(USER, PASSWORD, read=True)])
    multi = leader.transaction()
    multi.create("/reads/multi", b"1")
    multi.set_data("/reads/multi", b"2")
    multi.create("/reads/multi/child", b"")
    multi.check("/reads/multi", 1)
    assert not any(isinstance(it, Exception) for it in multi.commit())
    failed = leader.transaction()
    failed.create("/reads/never", b"")
    failed.delete("/reads/nowhere")
    assert isinstance(failed.commit()[1], NoNodeError)


def change(leader, chosen):
    """Makes some changes by chance, failing ones too."""
    for _ in range(STEPS):
        path = f"/reads/wide-{chosen.randrange(60)}"
        what = chosen.randrange(6)
        try:
            if what == 0:
                leader.create(path, b"new")
            elif what == 1:
                leader.delete(path, recursive=True)
            elif what == 2:
                leader.create(f"{path}/child-{chosen.randrange(5)}", b"c")
            elif what == 3:
                leader.delete(f"{path}/child-{chosen.randrange(5)}")
            elif what == 4:
                leader.set(path, bytes(chosen.randrange(200)))
            else:
                leader.set_acls(path, [make_acl("world", "anyone", all=True)])
        except KazooException:
            pass  # The path isn't there, or is there already, which is a transaction too.


def paths_below(client, path):
    yield path
    for name in client.get_children(path):
        yield from paths_below(client, f"{path.rstrip('/')}/{name}")


def described(client, path):
    """Returns all that can be read of a node."""
    data, stat = client.get(path)
    names, same_stat = client.get_children(path, include_data=True)
    assert names == client.get_children(path) or sorted(names) == sorted(client.get_children(path))
    assert stat == same_stat == client.exists(path), f"{path}: one node, but several Stats"
    return data, stat, sorted(names), client.get_acls(path)


def compare(leader, observer):
    """Compares each node at both. Returns how many there are."""
    at_leader = sorted(it for it in paths_below(leader, "/") if it != UNLIKE)
    at_observer = sorted(it for it in paths_below(observer, "/") if it != UNLIKE)
    assert at_leader == at_observer, f"other paths: {set(at_leader) ^ set(at_observer)}"
    for path in at_leader:
        if path == "/zookeeper":
            continue  # Its children are those without UNLIKE.
        ours, theirs = described(observer, path), described(leader, path)
        assert ours == theirs, f"{path}: {ours} at the observer, {theirs} at the leader"
        names = observer.get_children(path)
        assert names == sorted(names, key=str.encode), f"{path}: children that aren't in ascending order"
    return len(at_leader)


class Readers:
    """The two clients of a check."""

    def __init__(self, bench):
        self.bench = bench

    def __enter__(self):
        self.leader, self.observer = client_of(self.bench.leader.client), client_of(self.bench.observer.client)
        return self

    def __exit__(self, *_):
        for client in (self.leader, self.observer):
            client.stop()
            client.close()

    def settle(self):
        """Waits until the observer has all that the leader has done."""
        self.bench.observer.reaches(zxid_of(self.bench.leader.client))


def each_node(bench):
    """Nodes that come by INFORMs, and three rounds of changes."""
    with Readers(bench) as both:
        build(both.leader)
        both.settle()
        assert compare(both.leader, both.observer) > 60
        chosen = random.Random(1)
        for _ in range(ROUNDS):
            change(both.leader, chosen)
            both.settle()
            compare(both.leader, both.observer)


def after_an_image(bench):
    """A new observer gets the tree by an image, and follows from there."""
    bench.observer.stop()
    bench.observer.start(bench.leader.quorum)
    with Readers(bench) as both:
        both.settle()
        assert "SNAP" in bench.observer.process.log.read_text(), bench.observer.process.tail()
        compare(both.leader, both.observer)
        change(both.leader, random.Random(2))
        both.settle()
        compare(both.leader, both.observer)


def missing_and_forbidden(bench):
    """A node that isn't there, and one that may not be read, at both."""
    with Readers(bench) as both:
        both.leader.create("/forbidden", b"", acl=[make_digest_acl("another", "one", all=True)])
        both.settle()
        for client in (both.leader, both.observer):
            assert client.exists("/nowhere") is None
            for call, path, error in (
                (client.get, "/nowhere", NoNodeError),
                (client.get_children, "/nowhere", NoNodeError),
                (client.get, "/forbidden", NoAuthError),
                (client.get_children, "/forbidden", NoAuthError),
            ):
                try:
                    call(path)
                    raise AssertionError(f"{path} is read")
                except error:
                    pass


def closed_sessions(bench):
    """Ephemerals go with the session that made them."""
    with Readers(bench) as both:
        other = client_of(bench.leader.client)
        for number in range(20):
            other.create(f"/ephemeral-{number}", b"", ephemeral=True)
        both.settle()
        assert both.observer.get("/ephemeral-7")[1] == both.leader.get("/ephemeral-7")[1]
        other.stop()
        other.close()
        both.settle()
        assert both.observer.exists("/ephemeral-7") is None
        compare(both.leader, both.observer)


CHECKS = [each_node, after_an_image, closed_sessions, missing_and_forbidden]
