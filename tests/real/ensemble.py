"""Three voters, of which one leads after the other, and our observer behind all of them, beside Java's.

What a check measures is printed, as seconds after the leader was killed or frozen.
"""
import random
import threading
import time

from kazoo.exceptions import KazooException

from lab import Gone, ended, library, until, word, zxid_of
from raw import Raw
from reads import client_of, compare
from seen import Reader, Seen, Writer
from voters import OUR_OBSERVER, SILENCE, START_SECONDS, Ensemble, Follower, shown

KILLS, WRITERS, NODES = 6, 4, 200
# A session of this many seconds is so long that only the sync limit counts, and one of those so short that it counts.
LONG, SHORT, LOCK_SESSION = 30, 10, 8
# What is waited beyond a limit: a second look of 0.2 s, and the machine's other work.
GRACE = 1.5
# How long after a freeze a client is back at the latest, where the voters have a leader that writes by then.
BACK = 13
# How long a follower may lag behind what its leader has answered.
LAG = 0.5
DOWN_SECONDS, FROZEN_SECONDS = 30, 15
SETS, CONTENT = 60_000, 100


class Bench:
    """What the checks work with: the voters, our observer behind them, and a folder."""

    def __init__(self, program, folder):
        self.program, self.folder = program, folder
        self.ensemble, self.observer = Ensemble(folder), Follower(program, folder)
        self.rounds, self.minutes = 1, 1

    def __enter__(self):
        try:
            self.ensemble.start()
            self.observer.begin(self.ensemble.servers())
            self.observer.waits_until_it_serves()
        except BaseException:
            self.stop()
            raise
        return self

    def __exit__(self, *_):
        self.stop()

    def stop(self):
        self.observer.stop()
        self.ensemble.stop()

    def tails(self):
        own = shown(self.observer.process, 40) if self.observer.process else ""
        return own + self.ensemble.tails()

    def mended(self, *options):
        """Brings all voters and the observer up, waits until it serves, and returns the voter that leads."""
        leader = self.ensemble.mended()
        if not self.observer.process.lives():
            self.observer.begin(self.ensemble.servers(), 0, *options)
        self.observer.waits_until_it_serves(30)
        return leader


def say(text):
    print(f"     {text}", flush=True)


def since(began, at):
    return "never" if at is None else f"{at - began:.2f} s"


def made(bench, path, data=b"0"):
    """Makes a node at the voters, where it isn't there yet, and waits until the observer has it."""
    client = library(bench.ensemble.leader().client)
    client.ensure_path(path)
    client.set(path, data)
    ended(client)
    bench.observer.reaches(zxid_of(bench.ensemble.leader().client))


def same_trees(bench):
    """Compares the observer's tree with the leader's, Stat for Stat, and returns how many nodes there are."""
    for left in range(5, 0, -1):
        # A session that ends meanwhile takes its ephemerals along.
        leader = bench.ensemble.leader()
        bench.observer.reaches(zxid_of(leader.client))
        ours, theirs = client_of(bench.observer.client), client_of(leader.client)
        try:
            return compare(theirs, ours)
        except (AssertionError, KazooException):
            if left == 1:
                raise
            time.sleep(2)
        finally:
            ended(ours, theirs)
    return None


def ephemeral_lives(bench, path, session):
    client = library(bench.ensemble.leader().client)
    stat = client.exists(path)
    ended(client)
    return stat is not None and stat.ephemeralOwner == session


def logged(bench, before, *parts):
    """Returns which of these stand in what the observer has logged since it had logged so much."""
    return [it for it in parts if it in bench.observer.logged()[before:]]


# ---- the next leader


def leader_killed(bench):
    """The leader is killed: a client is back on its session after about as long as at Java's observer, with its
    ephemeral, and the observer goes on by a DIFF."""
    bench.mended()
    ensemble = bench.ensemble
    ensemble.java.start()
    until("Java's observer serves", ensemble.java.serves, START_SECONDS)
    clients = {"Java's observer": Seen(ensemble.java.client), "ours": Seen(bench.observer.client)}
    try:
        for number, it in enumerate(clients.values()):
            it.client.create(f"/killed-{number}", b"", ephemeral=True)
        leader, before = ensemble.leader(), len(bench.observer.logged())
        began = time.monotonic()
        leader.kill()
        found = {}
        for name, it in clients.items():
            until(f"{name}: a client is back", lambda: it.back(began), 60)
            found[name] = it.back(began) - began
            say(f"{name}: cut off at {since(began, it.cut(began))}, back on its session at {found[name]:.2f} s")
            assert it.keeps_its_session(), f"{name}: another session"
        for number, it in enumerate(clients.values()):
            assert ephemeral_lives(bench, f"/killed-{number}", it.session)
        assert logged(bench, before, "DIFF", "SNAP") == ["DIFF"], bench.observer.logged()[before:]
        assert found["ours"] < max(1.5, found["Java's observer"] + 1), found
        clients["ours"].client.set("/killed-1", b"a write after it")
    finally:
        for it in clients.values():
            it.close()
        ensemble.java.stop()
    bench.mended()
    say(f"{same_trees(bench)} nodes are equal")


def kills_under_writes(bench):
    """Six leaders are killed while four clients write: each keeps its session, and the trees are equal at the end."""
    bench.mended()
    made(bench, "/kills")
    clients, stop, done, failed = [Seen(bench.observer.client) for _ in range(WRITERS)], threading.Event(), [], []

    def write(it, number):
        chosen = random.Random(number)
        while not stop.is_set():
            path = f"/kills/{number}-{chosen.randrange(NODES)}"
            try:
                if chosen.randrange(4) == 0 and it.client.exists(path):
                    it.client.delete(path)
                elif it.client.exists(path):
                    it.client.set(path, bytes(chosen.randrange(100)))
                else:
                    it.client.create(path, b"new")
                done.append(path)
            except KazooException as why:
                failed.append(type(why).__name__)
                time.sleep(0.05)

    threads = [threading.Thread(target=write, args=(it, number)) for number, it in enumerate(clients)]
    for it in threads:
        it.start()
    try:
        for _ in range(KILLS):
            time.sleep(3)
            leader, began, before = bench.ensemble.leader(), time.monotonic(), len(bench.observer.logged())
            leader.kill()
            # Voters on a busy machine may take long to agree.
            until("all clients are back", lambda: all(it.back(began) for it in clients), START_SECONDS)
            backs = [it.back(began) - began for it in clients]
            way = logged(bench, before, "DIFF", "SNAP", "TRUNC")
            say(f"cut off at {since(began, clients[0].cut(began))}, all are back at {max(backs):.2f} s ({way})")
            leader.start()
            bench.ensemble.settled()
    finally:
        stop.set()
        for it in threads:
            it.join()
        kept = [it.keeps_its_session() for it in clients]
        for it in clients:
            it.close()
    assert all(kept), "a session was lost"
    counts = {name: failed.count(name) for name in sorted(set(failed))}
    say(f"{len(done)} operations done, refused or lost: {counts}; {same_trees(bench)} nodes are equal")
    assert "SessionMovedError" not in counts, counts


def all_down(bench):
    """All voters are down for 30 seconds: the client port stays open, and sessions live on when they are back."""
    bench.mended()
    client = Seen(bench.observer.client, 40)
    client.client.create("/all-down", b"", ephemeral=True)
    began = time.monotonic()
    for it in bench.ensemble.voters:
        it.kill()
    until("isro is null", lambda: word(bench.observer.client, "isro") == "null")
    asked = 0
    while time.monotonic() - began < DOWN_SECONDS:
        assert word(bench.observer.client, "ruok") == "imok" and word(bench.observer.client, "isro") == "null"
        try:
            Raw(bench.observer.client)
            raise AssertionError("a session is opened without a leader")
        except Gone:
            asked += 1
        time.sleep(0.5)
    assert "no leader among " in bench.observer.logged(), bench.observer.process.tail()
    again = time.monotonic()
    bench.mended()
    until("the client is back", lambda: client.back(began), 30)
    say(f"{asked} connects were closed; back {client.back(began) - again:.2f} s after the voters were started")
    assert client.keeps_its_session() and ephemeral_lives(bench, "/all-down", client.session)
    client.client.set("/all-down", b"a write after it")
    client.close()
    same_trees(bench)


def leader_resigns(bench):
    """Both followers are frozen: the leader resigns, and with it the clients are closed; once there is a leader again,
    a client is back on its session."""
    leader = bench.mended()
    client = Seen(bench.observer.client, 40)
    try:
        client.client.create("/resigned", b"", ephemeral=True)
        began = time.monotonic()
        for it in bench.ensemble.voters:
            if it is not leader:
                it.freeze()
        until("the client is cut off", lambda: client.cut(began), 30)
        until("isro is null", lambda: word(bench.observer.client, "isro") == "null")
        time.sleep(2)
        thawed = time.monotonic()
        bench.mended()
        until("the client is back", lambda: client.back(began), 40)
        back = client.back(began) - thawed
        say(f"cut off at {since(began, client.cut(began))}, back {back:.2f} s after the followers were thawed")
        assert client.keeps_its_session() and ephemeral_lives(bench, "/resigned", client.session)
        client.client.set("/resigned", b"a write after it")
    finally:
        client.close()
    same_trees(bench)


# ---- leaders that fall silent


class Frozen:
    """A frozen leader beside a writer at another voter and a reader at the observer, for whom the time is kept."""

    def __init__(self, bench, path, seconds):
        made(bench, path)
        self.bench, self.leader = bench, bench.ensemble.leader()
        self.follower = bench.ensemble.follower()
        self.client = Seen(bench.observer.client, seconds)
        self.reader = Reader(bench.observer.client, path, seconds * 1000)
        self.writer = Writer(self.follower.client, path, 40_000)
        until("something is written and read", lambda: self.reader.reads and self.reader.reads[-1][2] > 1)
        self.before = len(bench.observer.logged())
        self.began = time.monotonic()
        self.leader.freeze()

    def after(self, at):
        return None if at is None else at - self.began

    def cut(self, seconds=SILENCE + 10):
        until("the client is cut off", lambda: self.client.cut(self.began), seconds)
        return self.after(self.client.cut(self.began))

    def back(self, seconds=60):
        until("the client is back", lambda: self.client.back(self.began), seconds)
        return self.after(self.client.back(self.began))

    def first_write(self, seconds=60):
        """Returns the first write that the next leader has answered: when, and its number."""
        writes = self.writer.writes
        return until("the next leader writes", lambda: [it for it in writes if it[0] > self.began + 1], seconds)[0]

    def stale(self):
        """Returns the times at which an older value was answered than that which the next leader wrote first, where
        that had been answered before the read was asked for."""
        at, number = self.first_write()
        reads = list(self.reader.reads)
        return [read - self.began for asked, read, found in reads if asked > at + LAG and found < number]

    def end(self):
        for it in (self.reader, self.writer):
            it.stop()
        self.client.close()
        self.bench.ensemble.mended()


def leader_frozen(bench):
    """The leader is frozen: its observer's clients are closed when it has been silent for the sync limit, `isro` is
    null, no read shows an older value than the next leader's, and the session goes on there. As often as --rounds."""
    for turn in range(bench.rounds):
        bench.mended()
        frozen = Frozen(bench, "/frozen", LONG)
        try:
            cut = frozen.cut()
            isro = word(bench.observer.client, "isro")
            first, number = frozen.first_write()
            back = frozen.back()
            time.sleep(max(0, frozen.began + SILENCE + GRACE + 3 - time.monotonic()))
            stale = frozen.stale()
            way = logged(bench, frozen.before, "DIFF", "SNAP", "TRUNC")
            say(
                f"closed at {cut:.2f} s, the next leader's first write at {frozen.after(first):.2f} s, back on its"
                f" session at {back:.2f} s ({way}); {len(stale)} older values were read after that write"
            )
            assert SILENCE - 0.5 < cut < SILENCE + GRACE, f"closed after {cut:.2f} s"
            assert isro == "null", isro
            assert not stale, stale
            assert frozen.client.keeps_its_session(), "another session"
            assert way == ["DIFF"], way
            assert back < max(BACK, frozen.after(first) + GRACE), f"back after {back:.2f} s"
            assert logged(bench, frozen.before, "silent for"), bench.observer.process.tail()
            assert any(read > first for _, read, found in frozen.reader.reads if found >= number)
        finally:
            frozen.end()
        say(f"round {turn + 1}: {same_trees(bench)} nodes are equal")


def short_session(bench):
    """Where a session of 10 seconds is connected, a frozen leader is given up after 7.5 of them."""
    bench.mended()
    frozen = Frozen(bench, "/short", SHORT)
    try:
        cut = frozen.cut()
        say(f"closed at {cut:.2f} s, back on its session at {frozen.back():.2f} s")
        assert SHORT * 0.75 - 0.5 < cut < SHORT * 0.75 + GRACE, f"closed after {cut:.2f} s"
        assert frozen.client.keeps_its_session(), "another session"
        assert not frozen.stale(), frozen.stale()
    finally:
        frozen.end()


def java_frozen(bench):
    """The same freeze at Java's observer, for the figures alone."""
    bench.mended()
    ensemble = bench.ensemble
    ensemble.java.start()
    until("Java's observer serves", ensemble.java.serves, START_SECONDS)
    client = Seen(ensemble.java.client, LONG)
    client.client.ensure_path("/java-frozen")
    leader, began = ensemble.leader(), time.monotonic()
    leader.freeze()
    try:
        until("its client is cut off", lambda: client.cut(began), 60)
        until("its client is back", lambda: client.back(began), 90)
        kept = "on its session" if client.keeps_its_session() else "with another session"
        cut, back = since(began, client.cut(began)), since(began, client.back(began))
        say(f"Java's observer: closed at {cut}, back {kept} at {back}")
    finally:
        client.close()
        ensemble.mended()
        ensemble.java.stop()


def started_while_frozen(bench):
    """Started while the leader is frozen, with the frozen server alone: the port is open, and a line says why nobody is
    served. With all of them it serves behind the next leader."""
    bench.mended()
    leader = bench.ensemble.leader()
    alone, other = (Follower(bench.program, bench.folder, f"while-frozen-{number}", number) for number in (102, 103))
    leader.freeze()
    try:
        began = time.monotonic()
        alone.begin(f"127.0.0.1:{leader.quorum}")
        other.begin(bench.ensemble.servers())
        assert word(alone.client, "ruok") == "imok" and word(alone.client, "isro") == "null"
        other.waits_until_it_serves(40)
        say(f"behind the next leader it serves after {time.monotonic() - began:.1f} s")
        wanted = f"no leader among 127.0.0.1:{leader.quorum} (silent)"
        until("a line says why", lambda: wanted in alone.logged(), 15)
        line = next(it for it in alone.logged().splitlines() if wanted in it)
        say(line)
        assert "WARN" in line, line
    finally:
        alone.stop()
        other.stop()
        bench.mended()


def observer_frozen(bench):
    """The observer itself is frozen for 15 seconds beside a busy leader: that isn't taken for the leader's silence."""
    bench.mended()
    made(bench, "/busy")
    writer = Writer(bench.ensemble.leader().client, "/busy", 40_000)
    try:
        for seconds in (SILENCE / 2, FROZEN_SECONDS):
            before, zxid = len(bench.observer.logged()), zxid_of(bench.ensemble.leader().client)
            bench.observer.freeze()
            time.sleep(seconds)
            bench.observer.thaw()
            bench.observer.waits_until_it_serves(30)
            bench.observer.reaches(zxid + 10)
            said = logged(bench, before, "silent for", "ended", "DIFF", "SNAP")
            say(f"after {seconds:.0f} s without a processor its log has {said}")
            assert "silent for" not in said, bench.observer.process.tail()
            if seconds < SILENCE:
                assert not said, said
    finally:
        writer.stop()
    same_trees(bench)


def locked(bench, is_alone):
    """One round with a lock: A holds it at the observer and B waits for it at a voter, when the leader is frozen.
    Returns when A was suspended, and when B had the lock, or None where A came back and kept it."""
    leader = bench.mended()
    observer = bench.observer
    if is_alone:
        # It knows the frozen server alone, so A can't come back, and its session ends at the next leader.
        observer = Follower(bench.program, bench.folder, "alone", 103)
        observer.begin(f"127.0.0.1:{leader.quorum}")
        observer.waits_until_it_serves()
    a, b = Seen(observer.client, LOCK_SESSION), Seen(bench.ensemble.follower().client, LONG)
    try:
        lock, waiting = a.client.Lock("/lock", "a"), b.client.Lock("/lock", "b")
        assert lock.acquire(timeout=10)
        had = []

        def wait():
            try:
                if waiting.acquire(timeout=60):
                    had.append(time.monotonic())
            except KazooException:
                pass  # Its connection was lost while it asked; B hasn't the lock then.

        waiter = threading.Thread(target=wait)
        waiter.start()
        until("B waits", lambda: len(library_children(bench, "/lock")) == 2)
        began = time.monotonic()
        leader.freeze()
        until("A is suspended", lambda: a.cut(began), 30)
        if is_alone:
            until("B has the lock", lambda: had, 60)
        else:
            until("A is back", lambda: a.back(began), 60)
            time.sleep(1)
            assert a.keeps_its_session() and not had, "A is back, and B has its lock"
            lock.release()
        waiter.join(70)
        assert had, "B never has the lock"
        suspended = a.cut(began)
        assert suspended < had[0], f"B has the lock {suspended - had[0]:.2f} s before A is suspended"
        waiting.release()
        return suspended - began, had[0] - began
    finally:
        for it in (a, b):
            it.close()
        if is_alone:
            observer.stop()
        bench.ensemble.mended()


def library_children(bench, path):
    client = library(bench.ensemble.leader().client)
    try:
        return client.get_children(path) if client.exists(path) else []
    finally:
        ended(client)


def locks(bench):
    """A lock that is held through the observer, whose leader is frozen: its holder is suspended before another one has
    it. Twice, or as often as --rounds."""
    for turn in range(max(2, bench.rounds)):
        suspended, had = locked(bench, turn % 2 == 0)
        way = "A can't come back" if turn % 2 == 0 else "A comes back and releases it"
        say(f"round {turn + 1}: A is suspended at {suspended:.2f} s, B has the lock at {had:.2f} s ({way})")


# ---- leaders that have lost what they had


def written(bench, path, count, data):
    client = library(bench.ensemble.leader().client)
    for number in range(count):
        client.create(f"{path}-{number}", data)
    ended(client)
    bench.observer.reaches(zxid_of(bench.ensemble.leader().client))


def went_back(bench, name, count, data):
    """All voters are put back to what they had some transactions before, of which the observer has all."""
    ensemble = bench.ensemble
    for it in ensemble.voters:
        it.stop()
        it.keep(name)
    bench.mended()
    written(bench, f"/{name}", count, data)
    for it in ensemble.voters:
        it.kill()
        it.restore(name)
    ensemble.start()


def restored(bench):
    """Voters that are put back to an older copy of their disks: the observer takes back what they have lost, by the
    same process."""
    bench.mended()
    process = bench.observer.process
    went_back(bench, "older", 20, b"lost")
    bench.observer.waits_until_it_serves(30)
    assert bench.observer.process is process and process.lives()
    before = bench.observer.logged()
    assert "TRUNC" in before, bench.observer.process.tail()
    client = library(bench.observer.client)
    assert client.exists("/older-0") is None
    ended(client)
    say(f"{same_trees(bench)} nodes are equal after a TRUNC")


def restored_below_a_checkpoint(bench):
    """The same, after a checkpoint has dropped what the TRUNC goes back to: F9 and status 7; then a new process has an
    image."""
    bench.mended()
    bench.observer.stop()
    bench.observer.begin(bench.ensemble.servers(), 0, "--checkpoint", 1)
    bench.observer.waits_until_it_serves()
    went_back(bench, "below", 40, bytes(100_000))
    assert bench.observer.process.ends(30) == 7, bench.observer.process.tail()
    last = bench.observer.process.tail(1)
    say(last)
    assert last.startswith("observer: F9 CannotTruncate from 127.0.0.1:"), last
    assert "checkpoint" in bench.observer.logged(), bench.observer.process.tail()
    bench.observer.begin(bench.ensemble.servers())
    bench.observer.waits_until_it_serves()
    assert "SNAP" in bench.observer.logged(), bench.observer.process.tail()
    say(f"{same_trees(bench)} nodes are equal after a SNAP")


# ---- ids, files, memory


def one_file(bench):
    """Java's observer and ours start by the same file, one after the other: with one id, at one port, with one tree."""
    bench.mended()
    made(bench, "/one-file")
    java, ours = bench.ensemble.java, Follower(bench.program, bench.folder, "by-file")
    java.start()
    until("Java's observer serves", java.serves, START_SECONDS)
    java.stop()
    ours.run("--config", java.folder / "zoo.cfg", "--log", "info")
    try:
        ours.waits_until_it_serves()
        assert ours.client == java.client and f" --id {java.number} " in ours.logged(), ours.process.tail()
        leader = bench.ensemble.leader()
        ours.reaches(zxid_of(leader.client))
        clients = client_of(leader.client), client_of(ours.client)
        say(f"{compare(*clients)} nodes")
        ended(*clients)
    finally:
        ours.stop()


def one_id(bench):
    """Killed and started again under one id: the first session is another one than that of the first run, and when it
    closes, the lock of the older client lives, which resumes its session."""
    bench.mended()
    bench.observer.stop()
    bench.observer.begin(bench.ensemble.servers())
    until("the observer serves", bench.observer.serves)
    holder = Seen(bench.observer.client, LONG)
    try:
        lock = holder.client.Lock("/one-id", "holder")
        assert lock.acquire(timeout=10)
        node = f"/one-id/{lock.node}"
        port, began = bench.observer.client, time.monotonic()
        bench.observer.kill()
        bench.observer.begin(bench.ensemble.servers(), port)
        until("the observer serves", bench.observer.serves)
        other = Seen(port)
        say(f"the holder's session is 0x{holder.session:x}, the new client's 0x{other.session:x}")
        assert other.session != holder.session and other.session >> 56 == holder.session >> 56 == OUR_OBSERVER
        other.close()
        until("the holder is back", lambda: holder.back(began), 30)
        assert holder.keeps_its_session() and ephemeral_lives(bench, node, holder.session)
    finally:
        holder.close()


def memory_is_flat(bench):
    """60,000 setDatas of 100 bytes on one node, with checkpoints: the second half takes next to no memory more."""
    bench.mended()
    bench.observer.stop()
    bench.observer.begin(bench.ensemble.servers(), 0, "--checkpoint", 1)
    bench.observer.waits_until_it_serves()
    client = library(bench.ensemble.leader().client)
    client.ensure_path("/flat")
    sizes = [bench.observer.resident()]
    for _ in range(10):
        for _ in range(SETS // 1000):
            asked = [client.set_async("/flat", bytes(CONTENT)) for _ in range(100)]
            for it in asked:
                it.get(30)
        bench.observer.reaches(zxid_of(bench.ensemble.leader().client), 60)
        sizes.append(bench.observer.resident())
    ended(client)
    taken = bench.observer.logged().count("checkpoint")
    say(f"KiB: {' '.join(map(str, sizes))}; {taken} lines of checkpoints")
    assert taken > 2, bench.observer.process.tail()
    assert sizes[-1] - sizes[5] < 2048, sizes
    bench.observer.stop()
    bench.mended()


CHECKS = [leader_killed, kills_under_writes, leader_resigns, leader_frozen, short_session, java_frozen]
CHECKS += [started_while_frozen, observer_frozen, all_down, one_id, locks, memory_is_flat, restored]
CHECKS += [restored_below_a_checkpoint, one_file]
