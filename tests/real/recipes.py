"""kazoo's recipes, with clients at the observer, and against clients at the leader."""
import threading
import time

from kazoo.exceptions import LockTimeout
from kazoo.recipe.cache import TreeCache, TreeEvent
from kazoo.recipe.watchers import ChildrenWatch, DataWatch

from lab import ended, library, until, zxid_of

CLIENTS, TURNS = 6, 10


def clients_of(bench, count=CLIENTS):
    """Returns clients of which every third is at the leader, and the others at the observer."""
    return [library(bench.leader.client if at % 3 == 2 else bench.observer.client) for at in range(count)]


def at_once(jobs):
    """Runs jobs on threads, and raises what one of them raised."""
    raised = []

    def tried(job):
        try:
            job()
        except Exception as why:
            raised.append(why)

    threads = [threading.Thread(target=tried, args=(it,), daemon=True) for it in jobs]
    for it in threads:
        it.start()
    for it in threads:
        it.join(60)
    assert not raised, raised
    assert not any(it.is_alive() for it in threads), "a client waits for ever"


def lock(bench):
    """A lock is held by one client at a time, and passes on when its holder is gone."""
    clients, holders, entered = clients_of(bench), [], []

    def take(client):
        for _ in range(TURNS):
            with client.Lock("/recipes/lock"):
                holders.append(client)
                assert holders == [client], "two hold the lock"
                entered.append(client)
                time.sleep(0.002)
                holders.remove(client)

    at_once([lambda it=it: take(it) for it in clients])
    assert len(entered) == CLIENTS * TURNS
    # One holds it, and is cut off with its session.
    clients[0].Lock("/recipes/lock").acquire()
    waiting = clients[1].Lock("/recipes/lock")
    try:
        waiting.acquire(timeout=1)
        raise AssertionError("two hold the lock")
    except LockTimeout:
        pass
    ended(clients[0])
    assert waiting.acquire(timeout=10)
    ended(*clients[1:])


def election(bench):
    """Of several candidates one leads at a time, each once."""
    clients, leading, led = clients_of(bench), [], []

    def lead(number):
        leading.append(number)
        assert leading == [number], "two lead"
        led.append(number)
        time.sleep(0.02)
        leading.remove(number)

    at_once([lambda at=at: clients[at].Election("/recipes/election", str(at)).run(lead, at) for at in range(CLIENTS)])
    assert sorted(led) == list(range(CLIENTS))
    ended(*clients)


def semaphore(bench):
    """A semaphore of 2 leases is held by two clients at most."""
    clients, holders, most = clients_of(bench), [], []

    def hold(client):
        for _ in range(TURNS // 2):
            with client.Semaphore("/recipes/semaphore", max_leases=2):
                holders.append(client)
                most.append(len(holders))
                time.sleep(0.01)
                holders.remove(client)

    at_once([lambda it=it: hold(it) for it in clients])
    assert max(most) == 2 and len(most) == CLIENTS * (TURNS // 2), most
    ended(*clients)


def party(bench):
    """Who joins a party is in it until it leaves, or its session ends."""
    clients = clients_of(bench)
    parties = [it.Party("/recipes/party", str(at)) for at, it in enumerate(clients)]
    for it in parties:
        it.join()
    for at in range(CLIENTS):
        until("all are there", lambda: sorted(parties[at]) == [str(it) for it in range(CLIENTS)])
    parties[0].leave()
    ended(clients[1])
    until("two have left", lambda: sorted(parties[4]) == [str(it) for it in range(2, CLIENTS)])
    ended(clients[0], *clients[2:])


def barriers(bench):
    """A barrier holds clients until it is removed; a double barrier lets them enter and leave together."""
    clients, passed = clients_of(bench), []
    barrier = clients[0].Barrier("/recipes/barrier")
    barrier.create()

    def wait(client):
        bench.observer.reaches(zxid_of(bench.leader.client))
        assert client.Barrier("/recipes/barrier").wait(20)
        passed.append(client)

    def remove():
        time.sleep(1)
        assert not passed, "one has passed the barrier"
        barrier.remove()

    at_once([remove, *(lambda it=it: wait(it) for it in clients[1:])])
    assert len(passed) == CLIENTS - 1
    inside = []

    def meet(client):
        barrier = client.DoubleBarrier("/recipes/double", CLIENTS)
        barrier.enter()
        inside.append(client)
        until("all are inside", lambda: len(inside) == CLIENTS)
        barrier.leave()

    at_once([lambda it=it: meet(it) for it in clients])
    ended(*clients)


def counter(bench):
    """A counter that several clients raise at once has the sum."""
    clients = clients_of(bench)

    def count(client):
        counted = client.Counter("/recipes/counter")
        for _ in range(TURNS):
            counted += 1
            counted -= 2
            counted += 2

    at_once([lambda it=it: count(it) for it in clients])
    clients[0].sync("/")
    assert clients[0].Counter("/recipes/counter").value == CLIENTS * TURNS
    ended(*clients)


def queue(bench):
    """What some put into a queue the others take out, each entry once, by priority."""
    clients, taken = clients_of(bench), []
    puts = [b"%d" % number for number in range(CLIENTS * TURNS)]

    def put(client, at):
        entries = client.Queue("/recipes/queue")
        for number in range(at, len(puts), CLIENTS // 2):
            entries.put(puts[number], priority=100 if number % 2 else 50)

    half = CLIENTS // 2
    at_once([lambda at=at: put(clients[at], at) for at in range(half)])

    def take(client):
        client.sync("/recipes/queue")
        entries = client.Queue("/recipes/queue")
        while len(taken) < len(puts):
            found = entries.get()
            if found is not None:
                taken.append(found)

    at_once([lambda it=it: take(it) for it in clients[half:]])
    assert sorted(taken) == sorted(puts), "an entry is missing, or was taken twice"
    # One alone takes those of the lower number first.
    for number in range(10):
        clients[0].Queue("/recipes/queue").put(puts[number], priority=100 - number)
    alone = clients[0].Queue("/recipes/queue")
    assert [alone.get() for _ in range(10)] == list(reversed(puts[:10]))
    ended(*clients)


def watchers(bench):
    """DataWatch and ChildrenWatch see the last of the changes that a client of the same observer makes."""
    writer, reader = library(bench.observer.client), library(bench.observer.client)
    writer.create("/recipes/watched", b"0", makepath=True)
    reader.sync("/")
    values, names = [], []
    DataWatch(reader, "/recipes/watched", lambda data, stat: values.append(data) and None)
    ChildrenWatch(reader, "/recipes/watched", lambda found: names.append(sorted(found)) and None)
    for number in range(50):
        writer.set("/recipes/watched", b"%d" % number)
        writer.create(f"/recipes/watched/{number}", b"")
    until("the last value is seen", lambda: values and values[-1] == b"49")
    until("all children are seen", lambda: names and len(names[-1]) == 50)
    assert [int(it) for it in values] == sorted(int(it) for it in values), values
    ended(reader, writer)


def tree_cache(bench):
    """A TreeCache has the nodes that a client of the same observer makes, changes and deletes."""
    writer, reader = library(bench.observer.client), library(bench.observer.client)
    writer.create("/recipes/tree/a", b"1", makepath=True)
    reader.sync("/")
    cache, told = TreeCache(reader, "/recipes/tree"), []
    cache.listen(lambda event: told.append(event.event_type))
    cache.start()
    until("it is filled", lambda: TreeEvent.INITIALIZED in told)
    assert cache.get_data("/recipes/tree/a").data == b"1"
    writer.set("/recipes/tree/a", b"2")
    writer.create("/recipes/tree/b/c", b"3", makepath=True)
    until("it has the new data", lambda: cache.get_data("/recipes/tree/a").data == b"2")
    until("it has the new node", lambda: cache.get_data("/recipes/tree/b/c"))
    writer.delete("/recipes/tree/b", recursive=True)
    until("it has the delete", lambda: cache.get_data("/recipes/tree/b") is None)
    cache.close()
    ended(reader, writer)


CHECKS = [lock, election, semaphore, party, barriers, counter, queue, watchers, tree_cache]
