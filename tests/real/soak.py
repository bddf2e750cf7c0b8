"""Three voters under load, of which one after the other is killed, frozen or told to stop, for as long as --minutes.

Clients of the observer read and write all the while, by kazoo and by raw frames. In the end all of them are on the
sessions that they began with, the trees are equal, no thread and no descriptor is left, and the replay of the record
prints to the byte what was sent.
"""
import random
import subprocess
import threading
import time

from kazoo.exceptions import KazooException

import ensemble
from ensemble import LAG, logged, made, same_trees, say
from lab import Gone, until, zxid_of
from raw import GET_DATA, Raw, boolean, buffer, int32, text
from records import Kept
from seen import SET_DATA, Reader, Seen, Writer
from voters import SILENCE

CHANGES, CLIENTS, RAW_CLIENTS, NODES = 12, 4, 3, 300
# How long it may take until all clients are back, in seconds: after a kill, a stop and a freeze, and after the voters
# have a leader that serves, where that takes them longer.
LIMITS = {"killed": 2, "stopped": 4, "frozen": 13}
AFTER_ELECTION = 1.5
TIMEOUT = 30
# Each loop rests so long between two requests, in seconds.
REST = 0.01


class Bench(ensemble.Bench):
    """The same voters; the observer records, and takes checkpoints often."""

    def __enter__(self):
        self.record = self.folder / "soak.script"
        try:
            self.ensemble.start()
            words = ("--checkpoint", 1, "--record", self.record)
            self.observer.begin(self.ensemble.servers(), 0, *words)
            self.observer.waits_until_it_serves()
        except BaseException:
            self.stop()
            raise
        return self


class Load:
    """A kazoo client that reads, writes and deletes, with an ephemeral that lives as long as its session."""

    def __init__(self, port, number, stop):
        self.seen, self.number, self.stop = Seen(port, TIMEOUT), number, stop
        self.done, self.failed, self.wrong = 0, {}, None
        self.seen.client.create(f"/soak/ephemeral-{number}", b"", ephemeral=True)
        self.thread = threading.Thread(target=self.run, daemon=True)
        self.thread.start()

    def run(self):
        chosen = random.Random(self.number)
        while not self.stop.wait(REST):
            try:
                self.once(chosen)
                self.done += 1
            except KazooException as why:
                self.failed[type(why).__name__] = self.failed.get(type(why).__name__, 0) + 1
                time.sleep(0.1)
            except Exception as why:  # whoever ends the load is told
                self.wrong = why
                return

    def once(self, chosen):
        client, path = self.seen.client, f"/soak/{self.number}-{chosen.randrange(NODES)}"
        what = chosen.randrange(10)
        if what < 4:
            client.get_children("/soak") if what == 0 else client.exists(path)
        elif what == 4:
            client.sync(path)
        elif client.exists(path) is None:
            client.create(path, bytes(chosen.randrange(200)))
        elif what < 9:
            client.set(path, bytes(chosen.randrange(200)))
        else:
            client.delete(path)

    def end(self):
        self.thread.join()
        assert self.wrong is None, self.wrong
        assert self.seen.keeps_its_session(), f"client {self.number} has lost its session"


class Frames:
    """A raw client that keeps all bytes that come; where its connection ends it opens another one. `all` has what came
    on each."""

    def __init__(self, port, number, stop):
        self.port, self.number, self.stop, self.all = port, number, stop, []
        self.thread = threading.Thread(target=self.run, daemon=True)
        self.thread.start()

    def run(self):
        chosen, client = random.Random(100 + self.number), None
        while not self.stop.wait(5 * REST):
            try:
                if client is None:
                    client = Kept(self.port)
                    self.all.append(client)
                path = text(f"/soak/{chosen.randrange(4)}-{chosen.randrange(NODES)}")
                if chosen.randrange(3):
                    client.call(GET_DATA, path + boolean(True))
                else:
                    client.call(SET_DATA, path + buffer(b"raw") + int32(-1))
            except (Gone, OSError):
                client = self.left(client)
        if client is not None:
            try:
                client.leave()
            except (Gone, OSError):
                self.left(client)

    @staticmethod
    def left(client):
        if client is not None:
            client.close()

    def end(self):
        self.thread.join()
        return [it.whole for it in self.all if it.whole]


class Election(threading.Thread):
    """Asks the voters, but the one that is lost, until one of them leads and serves: `led` is when."""

    def __init__(self, voters, lost):
        super().__init__(daemon=True)
        self.voters, self.led = [it for it in voters if it is not lost], None
        self.start()

    def run(self):
        while self.led is None:
            if any(it.leads() for it in self.voters):
                self.led = time.monotonic()
            time.sleep(0.01)


def changed(bench, how, clients, reader):
    """Loses the leader in one way, and waits until all clients are back. Returns a line that tells of it, and whether
    that was in time."""
    voters = bench.ensemble
    leader, before = voters.leader(), len(bench.observer.logged())
    writer = Writer(voters.follower().client, "/soak-number", 40_000, int(time.time() * 1000) % 10**12)
    try:
        began = time.monotonic()
        if how == "killed":
            leader.kill()
        elif how == "frozen":
            leader.freeze()
        else:
            leader.stop()
        election = Election(voters.voters, leader)
        until("all clients are back", lambda: all(it.back(began) for it in clients), 90)
        cut, back = clients[0].cut(began) - began, max(it.back(began) for it in clients) - began
        writes = writer.writes
        election.join(60)
        first, number = until("the next leader writes", lambda: [it for it in writes if it[0] > began + 0.5], 60)[0]
        time.sleep(max(1, began + SILENCE + 3 - time.monotonic()) if how == "frozen" else 1)
    finally:
        writer.stop()
    stale = [read for asked, read, found in list(reader.reads) if asked > max(first + LAG, began) and found < number]
    stale = [it - began for it in stale if how != "frozen" or it > began + SILENCE + 1.5]
    way = logged(bench, before, "DIFF", "SNAP", "TRUNC")
    led, written = election.led - began, first - began
    line = f"{how}: cut off at {cut:.2f} s, a voter leads at {led:.2f} s and writes at {written:.2f} s"
    line += f", all are back at {back:.2f} s ({way})"
    assert not stale, f"{line}, and older values were read at {stale[:5]}"
    voters.mended()
    return line, back <= max(LIMITS[how], led + AFTER_ELECTION)


def replays(bench, connections):
    """Replays the record, and looks for what came on each connection in what the replay prints."""
    output = bench.folder / "replayed"
    with open(output, "wb") as out:
        # One thread prints the same, and waits for nobody where the machine is busy.
        words = [*bench.program, "replay", str(bench.record), "--workers", "1"]
        subprocess.run(words, stdin=subprocess.DEVNULL, stdout=out, check=True)
    wanted, found = {it[:37] for it in connections}, {}
    with open(output, encoding="ascii") as lines:
        for line in lines:
            words = line.split(" ")
            if words[0] == "C" and words[2] != "close\n":
                content = bytes.fromhex(words[2])
                # What begins as none of them does isn't kept.
                if words[1] in found or content[:37] in wanted:
                    found.setdefault(words[1], []).append(content)
    printed = [b"".join(it) for it in found.values()]
    for it in connections:
        assert any(known.startswith(it) for known in printed), f"{len(it)} bytes that the replay doesn't print"
    return sum(map(len, connections))


def soak(bench):
    """So many changes of the leader under load, spread over the minutes."""
    # With three minutes each leader serves for over ten seconds, and then the next one is looked for at once.
    observer = bench.observer
    made(bench, "/soak")
    made(bench, "/soak-number")
    # A client that came and went has left what stays.
    Raw(observer.client).leave()
    time.sleep(1)
    threads, descriptors, resident = observer.threads(), observer.descriptors(), observer.resident()
    stop, slow = threading.Event(), []
    loads = [Load(observer.client, number, stop) for number in range(CLIENTS)]
    frames = [Frames(observer.client, number, stop) for number in range(RAW_CLIENTS)]
    reader = Reader(observer.client, "/soak-number", TIMEOUT * 1000)
    began, chosen = time.monotonic(), random.Random(1)
    try:
        for number in range(CHANGES):
            rest = began + bench.minutes * 60 * (number + 0.5) / CHANGES - time.monotonic()
            time.sleep(max(rest, 3))
            how = ("killed", "frozen", "stopped")[number % 3 if bench.minutes >= 5 else chosen.choice((0, 2))]
            line, is_quick = changed(bench, how, [it.seen for it in loads], reader)
            say(f"{time.monotonic() - began:.0f} s: {line}; {observer.resident()} KiB, {observer.threads()} threads")
            if not is_quick:
                slow.append(line)
        time.sleep(max(0, began + bench.minutes * 60 - time.monotonic()))
    finally:
        stop.set()
        reader.stop()
    for it in loads:
        it.end()
    connections = [whole for it in frames for whole in it.end()]
    counts = {}
    for it in loads:
        for name, count in it.failed.items():
            counts[name] = counts.get(name, 0) + count
    say(f"{sum(it.done for it in loads)} operations done, refused or lost: {counts}")
    assert not slow, slow
    observer.reaches(zxid_of(bench.ensemble.leader().client))
    say(f"{same_trees(bench)} nodes are equal")
    for it in loads:
        it.seen.close()
    until("its threads have ended", lambda: observer.threads() <= threads, 20)
    until("its descriptors are closed", lambda: observer.descriptors() <= descriptors, 20)
    taken = observer.logged().count("checkpoint at")
    say(f"{resident} KiB at first, {observer.resident()} KiB in the end; {taken} checkpoints")
    observer.kill()
    say(f"the replay prints the {replays(bench, connections)} bytes of {len(connections)} raw connections")


CHECKS = [soak]
