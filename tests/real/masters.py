"""Our observer behind followers that serve observers, at their `observerMasterPort` (ZooKeeper 3.6 and later)."""
import time

from ensemble import LONG, same_trees, say, since
from lab import ended, library, until, zxid_of
from proxy import Proxy
from seen import Seen
from voters import Ensemble, Follower, shown

NODES, LARGE = 20, 90_000


class Bench:
    """Three voters, each of which serves observers while it follows, and our observer, which each check begins."""

    def __init__(self, program, folder):
        self.ensemble, self.observer = Ensemble(folder, with_masters=True), Follower(program, folder)
        self.proxies = []

    def __enter__(self):
        try:
            self.ensemble.start()
        except BaseException:
            self.stop()
            raise
        return self

    def __exit__(self, *_):
        self.stop()

    def stop(self):
        self.observer.stop()
        for it in self.proxies:
            it.close()
        self.ensemble.stop()

    def tails(self):
        return (shown(self.observer.process, 40) if self.observer.process else "") + self.ensemble.tails()

    def proxy(self, port):
        self.proxies.append(Proxy(port))
        return self.proxies[-1]


def behind_a_master(bench):
    """A follower's observerMasterPort is followed as if it were a leader: reads, writes and syncs work, and after a
    restart of the observer the writes of a session that was opened before it; among several, the next one is found."""
    ensemble, observer = bench.ensemble, bench.observer
    master = f"127.0.0.1:{ensemble.follower().master}"
    observer.begin(master)
    observer.waits_until_it_serves()
    client = Seen(observer.client, LONG)
    client.client.create("/master", b"", ephemeral=True)
    client.client.set("/master", b"1")
    client.client.sync("/master")
    port, began = observer.client, time.monotonic()
    observer.kill()
    observer.begin(master, port)
    until("the client is back", lambda: client.back(began), 30)
    client.client.retry(client.client.set, "/master", b"2")
    assert client.keeps_its_session() and client.client.get("/master")[0] == b"2"
    observer.kill()
    observer.begin(",".join(f"127.0.0.1:{it.master}" for it in ensemble.voters), port)
    observer.waits_until_it_serves()
    until("the client is back", lambda: client.client.connected, 30)
    began = time.monotonic()
    ensemble.leader().kill()
    until("the client is back", lambda: client.back(began), 30)
    say(f"the leader is killed: back at {since(began, client.back(began))}")
    client.client.retry(client.client.set, "/master", b"3")
    assert client.keeps_its_session() and client.client.get("/master")[0] == b"3"
    client.close()
    observer.stop()
    ensemble.mended()


def by_the_file(bench):
    """By a follower's own file the observer follows that follower, and with --leader-only the leader."""
    ensemble, observer = bench.ensemble, bench.observer
    observer.stop()
    ensemble.mended()
    follower, name = ensemble.follower(), observer.folder / "masters.cfg"
    text, link = (follower.folder / "zoo.cfg").read_text(), bench.proxy(follower.master)
    name.write_text(text.replace(f"observerMasterPort={follower.master}", f"observerMasterPort={link.port}"))
    for options, ends in (((), 2), (("--leader-only",), 0)):
        observer.run("--config", name, "--client", 0, "--id", observer.number, "--words", "isro", *options)
        observer.waits_until_it_serves()
        assert len(link.sockets) == ends, (options, link.count, observer.process.tail())
        observer.stop()
        link.cut()
        link.mend()


class Lagging:
    """The observer behind a follower that has all, with another one to go to, which its leader's bytes reach through a
    proxy."""

    def __init__(self, bench, path, *options):
        self.observer, self.path = bench.observer, path
        self.observer.stop()
        self.leader = bench.ensemble.mended()
        near, far = [it for it in bench.ensemble.voters if it is not self.leader]
        self.feed, self.link = bench.proxy(self.leader.quorum), bench.proxy(near.master)
        far.stop()
        far.reaches_by(self.leader, self.feed.port)
        far.start()
        bench.ensemble.settled()
        self.observer.begin(f"127.0.0.1:{self.link.port},127.0.0.1:{far.master}", 0, *options)
        self.observer.waits_until_it_serves()
        self.voters = library(self.leader.client)
        self.voters.ensure_path(path)

    def writes(self, size):
        """Has so many nodes made, and waits until the observer has them. Returns the path of the last one."""
        for _ in range(NODES):
            last = self.voters.create(f"{self.path}/", bytes(size), sequence=True)
        self.observer.reaches(zxid_of(self.leader.client))
        return last

    def moves(self, size, client=None):
        """The other follower falls behind by some nodes, of which a client has seen the last one, and the observer has
        to go there. Returns when, and the path of that node."""
        self.feed.flows.clear()
        last = self.writes(size)
        assert client is None or client.client.exists(last)
        # A checkpoint that is due by now is taken.
        time.sleep(1)
        began = time.monotonic()
        self.link.cut()
        return began, last

    def end(self):
        ended(self.voters)
        self.observer.stop()


def master_lags(bench):
    """The observer goes from one follower to another that has less: it is sent a TRUNC, though nothing is lost, and
    serves what that one has; a client that has seen more is let in when that has caught up."""
    lagging = Lagging(bench, "/lags")
    lagging.writes(1)
    client = Seen(bench.observer.client, LONG)
    began, last = lagging.moves(1, client)
    until("the observer serves again", lambda: "TRUNC" in bench.observer.logged() and bench.observer.serves())
    had, has = zxid_of(lagging.leader.client), zxid_of(bench.observer.client)
    assert has < had, (has, had)
    time.sleep(1)
    assert client.cut(began) and client.back(began) is None, client.states
    lagging.feed.flows.set()
    until("the client is back", lambda: client.back(began))
    back = since(began, client.back(began))
    say(f"a TRUNC from 0x{had:x} to 0x{has:x}; the client is back {back} after the cut")
    assert client.keeps_its_session() and client.client.exists(last)
    client.close()
    say(f"{same_trees(bench)} nodes are equal")
    lagging.end()


def master_lags_below_a_checkpoint(bench):
    """The same where a checkpoint came in between: F9 and status 7, though nothing is lost; a new process serves."""
    lagging = Lagging(bench, "/lags-below", "--checkpoint", 1)
    lagging.moves(LARGE)
    assert bench.observer.process.ends(10) == 7, bench.observer.process.tail()
    last = bench.observer.process.tail(1)
    say(last)
    assert last.startswith("observer: F9 CannotTruncate from 127.0.0.1:"), last
    lagging.feed.flows.set()
    bench.observer.begin(bench.ensemble.servers())
    bench.observer.waits_until_it_serves()
    say(f"{same_trees(bench)} nodes are equal")
    lagging.end()


CHECKS = [behind_a_master, by_the_file, master_lags, master_lags_below_a_checkpoint]
