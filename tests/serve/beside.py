"""What stands beside an attack: a client that reads, a leader that PINGs, and a look at what the program holds."""
import json
import os
import resource
import subprocess
import sys
import threading
import time
from typing import NamedTuple

from leader import PING, Leader, packet
from server import Server, wait_until

READER = os.path.join(os.path.dirname(os.path.realpath(__file__)), "reader.py")

# How long an answer may take, in seconds: a PING's, the slowest hundredth of a client's, and the slowest of all.
# Where the machine has other work, each may take as many times as long as other work does, and that many hundredths may
# be slow, since a client reads less often then.
PINGED, SLOW, SLOWEST = 0.3, 0.05, 0.5
# What may be held during an attack, and left of it afterwards, in megabytes.
HELD, LEFT = 300, 20
# An attack is measured for as long at least, in seconds, and nothing is waited for longer than this.
LEAST, MOST = 2, 30
# More address space isn't given to a program that is attacked, so that the machine outlives it.
ADDRESS_SPACE = 6 << 30


def limited():
    resource.setrlimit(resource.RLIMIT_AS, (ADDRESS_SPACE, ADDRESS_SPACE))


class Stalling(Leader):
    """A leader that may stop taking anything for a while."""

    def stalls(self):
        self.taking.clear()

    def goes_on(self):
        self.taking.set()

    def follow(self):
        self.taking = threading.Event()
        self.taking.set()
        super().follow()

    def take(self, *found):
        self.taking.wait()
        super().take(*found)


class Attacked(Server):
    """The program that is attacked. The C library gives memory back to the system as soon as it is freed, and keeps next
    to none for the next use, so that it is seen what the program holds."""

    LEADER = Stalling
    ENVIRONMENT = {
        "GLIBC_TUNABLES": "glibc.malloc.tcache_count=0:glibc.malloc.mxfast=0:glibc.malloc.mmap_threshold=131072"
        ":glibc.malloc.trim_threshold=131072"
    }

    def __init__(self, *words):
        super().__init__(*words, limit=limited)


class Apart:
    """A process of reader.py: a client that reads, or work that shows how busy the machine is."""

    def __init__(self, *words):
        words = [sys.executable, READER, *map(str, words)]
        self.process = subprocess.Popen(words, stdin=subprocess.PIPE, stdout=subprocess.PIPE)
        assert self.process.stdout.readline() == b"ready\n"

    def stop(self):
        """Returns what was measured."""
        told, _ = self.process.communicate(timeout=MOST)
        assert self.process.returncode == 0, "the client that reads wasn't answered"
        return json.loads(told)

    def end(self):
        if self.process.poll() is None:
            self.process.kill()
            self.process.wait()
        self.process.stdin.close()
        self.process.stdout.close()


class Pinging:
    """A leader's PINGs, each half a second after the last one was answered. That the leader takes its time for what
    comes before an answer isn't counted."""

    def __init__(self, leader):
        self.leader, self.took, self.wrong, self.stopped = leader, [], None, threading.Event()
        self.thread = threading.Thread(target=self.run, daemon=True)
        self.thread.start()

    def run(self):
        try:
            while not self.stopped.wait(0.5):
                # What the leader sends for an attack goes before, and isn't counted.
                with self.leader.lock:
                    began = time.monotonic() - self.leader.worked
                    self.leader.send(packet(PING, self.leader.zxid()))
                self.leader.pings.get(timeout=MOST)
                self.took.append(time.monotonic() - self.leader.worked - began)
        except Exception as why:  # whoever stops this is told
            self.wrong = why

    def stop(self):
        """Returns how long the answers took."""
        self.stopped.set()
        self.thread.join()
        assert self.wrong is None, f"a PING wasn't answered: {type(self.wrong).__name__} {self.wrong}"
        return self.took


class Held(NamedTuple):
    """What a program holds: megabytes, threads and descriptors."""

    memory: float
    threads: int
    descriptors: int


def held(server):
    return Held(server.memory(), server.threads(), server.descriptors())


class Beside:
    """The good ones, from the beginning of an attack until its connections have gone.

    Whoever attacks gets the connections here. They are closed at the end, which is measured, too; then the figures are
    judged. `most_held` during the attack and `most_left` of it are megabytes. There may be several clients that read.
    """

    def __init__(self, name, server, most_held=HELD, most_left=LEFT, readers=1):
        self.name, self.server, self.most_held, self.most_left = name, server, most_held, most_left
        self.count, self.readers, self.connections = readers, [], []

    def __enter__(self):
        self.base = self.most = held(self.server)
        self.readers = [Apart(self.server.port) for _ in range(self.count)]
        self.work = Apart()
        self.pinging, self.began, self.stopped = Pinging(self.server.leader), time.monotonic(), threading.Event()
        threading.Thread(target=self.watch, daemon=True).start()
        return self

    def watch(self):
        """Looks at what the program holds."""
        while not self.stopped.wait(0.1) and self.server.program.poll() is None:
            self.most = Held(*map(max, self.most, held(self.server)))

    def __exit__(self, kind, *_):
        try:
            if kind is None:
                self.lasts(LEAST)
                self.leave()
                reads, work = sum((it.stop() for it in self.readers), []), self.work.stop()
                # The leader goes on with its PINGs: at each, the program forgets which sessions it has heard of.
                left, pings = self.left(), self.pinging.stop()
                self.judge(sorted(reads), pings, work, left)
        finally:
            self.stopped.set()
            self.pinging.stopped.set()
            for it in (*self.readers, self.work):
                it.end()
            for it in self.connections:
                it.close()

    # ---- the attack's connections

    def connection(self):
        self.connections.append(self.server.connection())
        return self.connections[-1]

    def client(self):
        self.connections.append(self.server.client())
        return self.connections[-1]

    def lasts(self, seconds):
        """Waits until so many seconds of the attack are over."""
        time.sleep(max(0.0, self.began + seconds - time.monotonic()))

    def are_closed(self, seconds):
        """Waits until the program has closed the connections of the attack."""
        most = self.base.threads + len(self.readers)
        assert wait_until(lambda: self.server.threads() <= most, seconds), f"{self.server.threads()} threads"

    def leave(self):
        """Closes the connections of the attack."""
        for it in self.connections:
            it.close()
        self.are_closed(MOST)

    # ---- what is found

    def left(self):
        """Returns what is held when the attack is over: no thread or descriptor more than before."""
        server, base = self.server, self.base
        assert wait_until(lambda: server.threads() <= base.threads, MOST), f"{server.threads()} threads, {base}"
        assert wait_until(lambda: server.descriptors() <= base.descriptors, MOST), f"{server.descriptors()}, {base}"
        wait_until(lambda: server.memory() < base.memory + self.most_left, 5)
        return held(server)

    def judge(self, reads, pings, work, left):
        busy, busiest = max(1.0, sum(work) / len(work)), max(1.0, *work)
        slow = reads[int(len(reads) * max(0.0, 1 - 0.01 * busy))]
        told = (
            f"{self.name}: {len(reads)} reads, slow from {1000 * slow:.1f} ms on, the slowest"
            f" {1000 * reads[-1]:.0f} ms; {len(pings)} PINGs, the slowest {1000 * max(pings):.0f} ms;"
            f" {self.most.memory:.0f} MB, {self.base.memory:.0f} before and {left.memory:.0f} after;"
            f" {self.most.threads} threads; other work took {busy:.1f} times as long, at most {busiest:.1f}"
        )
        print("  " + told, flush=True)
        assert slow < SLOW * busy, told
        assert reads[-1] < SLOWEST * busiest, told
        assert max(pings) < PINGED * busiest, told
        assert self.most.memory < self.most_held, told
        assert left.memory < self.base.memory + self.most_left, told
