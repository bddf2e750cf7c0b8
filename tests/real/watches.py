"""One-shot watches: the same events as at the leader, each before what it tells of can be read."""
import threading
import time

from kazoo.client import KazooClient
from kazoo.recipe.watchers import ChildrenWatch, DataWatch

from lab import until, zxid_of
from raw import Raw

ROUNDS = 100


def writer_of(bench):
    client = KazooClient(f"127.0.0.1:{bench.leader.client}", timeout=10)
    client.start(15)
    return client


def settle(bench):
    bench.observer.reaches(zxid_of(bench.leader.client))


def both_of(bench):
    return Raw(bench.leader.client), Raw(bench.observer.client)


def same_events(bench):
    """A watch of each sort, a change for each: the leader and the observer tell the same, in the same order."""
    writer = writer_of(bench)
    for path in ("/w", "/w/set", "/w/parent", "/w/parent/old", "/w/gone", "/w/acl", "/w/multi"):
        writer.create(path, b"")
    other = writer_of(bench)
    other.create("/w/parent/held", b"", ephemeral=True)
    settle(bench)
    clients = both_of(bench)
    for it in clients:
        assert it.stat("/w/new", True) is None
        it.data("/w/set", True)
        it.children("/w/parent", True)
        it.data("/w/gone", True)
        it.children("/w/gone", True)
        it.data("/w/acl", True)
        it.data("/w/multi", True)
        it.children("/w/multi", True)
        it.stat("/w/parent/held", True)
    writer.create("/w/new", b"")
    writer.set("/w/set", b"1")
    writer.set("/w/set", b"2")
    writer.create("/w/parent/young", b"")
    writer.delete("/w/gone")
    writer.set_acls("/w/acl", writer.get_acls("/w/acl")[0])
    multi = writer.transaction()
    multi.set_data("/w/multi", b"1")
    multi.create("/w/multi/child", b"")
    multi.commit()
    failed = writer.transaction()
    failed.set_data("/w/acl", b"1")
    failed.delete("/w/nowhere")
    failed.commit()
    other.stop()
    settle(bench)
    told = [it.told(7, 3) for it in clients]
    assert told[0] == told[1], told
    wanted = [("NodeCreated", "/w/new"), ("NodeDataChanged", "/w/set"), ("NodeChildrenChanged", "/w/parent")]
    wanted += [("NodeDeleted", "/w/gone"), ("NodeDataChanged", "/w/multi"), ("NodeChildrenChanged", "/w/multi")]
    wanted += [("NodeDeleted", "/w/parent/held")]
    assert told[1] == wanted, told[1]
    for it in clients:
        it.leave()
    writer.stop()


def before_the_value(bench):
    """A change is told before it can be read: the event comes before the first reply that has the new value."""
    writer = writer_of(bench)
    writer.create("/order", b"0")
    settle(bench)
    reader = Raw(bench.observer.client)
    for number in range(1, ROUNDS + 1):
        reader.data("/order", True)
        setting = threading.Thread(target=writer.set, args=("/order", b"%d" % number))
        setting.start()
        reader.order.clear()
        ends = time.monotonic() + 10
        while reader.data("/order")[1] != b"%d" % number:
            assert time.monotonic() < ends, f"{number} isn't read"
        setting.join()
        events = [at for at, it in enumerate(reader.order) if not isinstance(it, int)]
        assert len(events) == 1, f"{len(events)} events for one set"
        assert events[0] < len(reader.order) - 1, f"the event of {number} came after the value"
    reader.leave()
    writer.stop()


def used_up(bench):
    """A watch tells once, and a connection that left watches and went is told nothing."""
    writer = writer_of(bench)
    writer.create("/once", b"")
    settle(bench)
    gone, reader = Raw(bench.observer.client), Raw(bench.observer.client)
    gone.data("/once", True)
    gone.close()
    reader.data("/once", True)
    reader.data("/once", True)
    for _ in range(3):
        writer.set("/once", b"")
    settle(bench)
    assert reader.told(2, 1) == [("NodeDataChanged", "/once")]
    reader.leave()
    writer.stop()


def after_a_cut(bench):
    """setWatches tells of what changed while the client was away, and sets the other watches again."""
    writer = writer_of(bench)
    for name in ("set", "same", "gone", "parent", "quiet"):
        writer.create(f"/cut/{name}", b"", makepath=True)
    settle(bench)
    firsts = both_of(bench)
    seen = [it.data("/cut/set")[0].zxid for it in firsts]
    for it in firsts:
        it.close()
    writer.set("/cut/set", b"1")
    writer.delete("/cut/gone")
    writer.create("/cut/new", b"")
    writer.create("/cut/parent/child", b"")
    settle(bench)
    clients = both_of(bench)
    for it, zxid in zip(clients, seen):
        data, exist = ("/cut/set", "/cut/same", "/cut/gone"), ("/cut/new", "/cut/later")
        assert it.set_watches(zxid, data, exist, ("/cut/parent", "/cut/quiet")) == 0
    told = [it.told(4) for it in clients]
    missed = {("NodeDataChanged", "/cut/set"), ("NodeDeleted", "/cut/gone")}
    missed |= {("NodeCreated", "/cut/new"), ("NodeChildrenChanged", "/cut/parent")}
    assert sorted(told[0]) == sorted(told[1]) == sorted(missed), told
    writer.set("/cut/same", b"1")
    writer.create("/cut/later", b"")
    writer.create("/cut/quiet/child", b"")
    told = [it.told(3) for it in clients]
    again = [("NodeDataChanged", "/cut/same"), ("NodeCreated", "/cut/later"), ("NodeChildrenChanged", "/cut/quiet")]
    assert told == [again, again], told
    for it in clients:
        it.leave()
    writer.stop()


def recipes(bench):
    """kazoo's DataWatch and ChildrenWatch at the observer see the last of each change."""
    writer, reader = writer_of(bench), KazooClient(f"127.0.0.1:{bench.observer.client}", timeout=10)
    reader.start(15)
    writer.create("/recipes", b"0")
    settle(bench)
    values, names = [], []
    DataWatch(reader, "/recipes", lambda data, stat: values.append(data) and None)
    ChildrenWatch(reader, "/recipes", lambda found: names.append(sorted(found)) and None)
    for number in range(50):
        writer.set("/recipes", b"%d" % number)
        writer.create(f"/recipes/{number}", b"")
    settle(bench)
    until("the last value is seen", lambda: values and values[-1] == b"49")
    until("all children are seen", lambda: names and len(names[-1]) == 50)
    assert [int(it) for it in values] == sorted(int(it) for it in values), values
    for it in (reader, writer):
        it.stop()
        it.close()


CHECKS = [same_events, before_the_value, used_up, after_a_cut, recipes]
