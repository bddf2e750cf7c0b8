"""A record of what the server took, replayed, prints byte for byte what it sent."""
import random
import subprocess
import threading

from kazoo.client import KazooClient

from lab import Observer, zxid_of
from raw import Raw, buffer, int32, text

SET_DATA, SYNC = 5, 9
CLIENTS, REQUESTS = 5, 200


class Kept(Raw):
    """A client that keeps all bytes that come."""

    def __init__(self, port):
        self.whole = b""
        super().__init__(port)

    def received(self, seconds):
        before = len(self.pending)
        found = super().received(seconds)
        self.whole += self.pending[before:]
        return found


def reads(client, chosen):
    """Asks for what comes to mind, watches some of it, and asks for syncs and changes."""
    for _ in range(REQUESTS):
        path = f"/records/{chosen.randrange(12)}"
        what = chosen.randrange(5)
        if what == 0:
            client.data(path, True)
        elif what == 1:
            client.stat(path, True)
        elif what == 2:
            client.children("/records", True)
        elif what == 3:
            client.call(SYNC, text(path))
        else:
            client.call(SET_DATA, text(path) + buffer(b"x") + int32(-1))


def changes(writer, chosen):
    for number in range(100):
        path = f"/records/{chosen.randrange(12)}"
        if not writer.exists(path):
            writer.create(path, b"%d" % number)
        elif number % 3:
            writer.set(path, b"%d" % number)
        else:
            writer.delete(path)


def sent(output):
    """Returns what a replay prints for each client, by its number."""
    found = {}
    for line in output.splitlines():
        words = line.split(" ")
        if words[0] == "C" and words[2] != "close":
            found[int(words[1])] = found.get(int(words[1]), b"") + bytes.fromhex(words[2])
    return found


def replayed(bench):
    """Clients that read and watch while the leader changes nodes; the replay prints what each was sent."""
    record = bench.folder / "record.script"
    observer = Observer(bench.observer.program, bench.folder, "recording")
    bench.observer.stop()
    writer = KazooClient(f"127.0.0.1:{bench.leader.client}")
    writer.start(15)
    writer.ensure_path("/records")
    try:
        observer.start(bench.leader.quorum, 0, "--record", record)
        observer.reaches(zxid_of(bench.leader.client))
        clients = [Kept(observer.client) for _ in range(CLIENTS)]
        asking = [threading.Thread(target=reads, args=(it, random.Random(at))) for at, it in enumerate(clients)]
        for it in asking:
            it.start()
        changes(writer, random.Random(9))
        for it in asking:
            it.join()
        for it in clients:
            it.leave()
        writer.stop()
        bench.leader.stop()
        assert observer.process.ends() == 0, observer.process.tail()
    finally:
        observer.stop()
    words = [*bench.observer.program, "replay", str(record)]
    done = subprocess.run(words, stdin=subprocess.DEVNULL, stdout=subprocess.PIPE, encoding="ascii", check=True)
    printed = list(sent(done.stdout).values())
    for it in clients:
        assert it.whole in printed, f"{len(it.whole)} bytes that the replay doesn't print"


CHECKS = [replayed]
