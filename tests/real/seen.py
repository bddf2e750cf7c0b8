"""Clients that keep the times of what they see: when they are cut off and back, what they read, what they wrote."""
import threading
import time

from kazoo.client import KazooClient, KazooState

from lab import Gone
from raw import GET_DATA, Raw, boolean, buffer, int32, text

SET_DATA = 5
# A client that is cut off tries again at once, so that what is measured is the server's time.
AT_ONCE = {"max_tries": -1, "delay": 0.05, "backoff": 1, "max_jitter": 0.1, "max_delay": 0.05}


class Seen:
    """A kazoo client, and the times at which its connection changed."""

    def __init__(self, hosts, seconds=10):
        self.states = []
        hosts = f"127.0.0.1:{hosts}" if isinstance(hosts, int) else hosts
        self.client = KazooClient(hosts, timeout=seconds, connection_retry=AT_ONCE, command_retry=AT_ONCE)
        self.client.add_listener(lambda state: self.states.append((time.monotonic(), state)))
        self.client.start(30)
        self.session = self.client.client_id[0]

    def first(self, state, since):
        """Returns the time at which the connection first came into a state after another time, or None."""
        return next((at for at, found in list(self.states) if found == state and at >= since), None)

    def cut(self, since):
        return self.first(KazooState.SUSPENDED, since)

    def back(self, since):
        """Returns when it was connected again after it was cut off, or None."""
        cut = self.cut(since)
        return None if cut is None else self.first(KazooState.CONNECTED, cut)

    def lost(self):
        """Returns whether its session has ended."""
        return any(state == KazooState.LOST for _, state in list(self.states)) or self.client.client_id is None

    def keeps_its_session(self):
        return not self.lost() and self.client.client_id[0] == self.session

    def close(self):
        self.client.stop()
        self.client.close()


class Loop:
    """Does something again and again by a thread of its own, until it is stopped; a raw client is made anew where it
    is gone."""

    PAUSE = 0.02

    def __init__(self, port, timeout):
        self.port, self.timeout, self.client = port, timeout, None
        self.stopped, self.wrong = threading.Event(), None
        self.thread = threading.Thread(target=self.run, daemon=True)
        self.thread.start()

    def run(self):
        while not self.stopped.wait(self.PAUSE):
            try:
                if self.client is None:
                    self.client = Raw(self.port, timeout=self.timeout)
                self.once()
            except (Gone, OSError, TimeoutError):
                self.leave()
            except Exception as why:  # It is told by whoever stops the loop.
                self.wrong = why
                return

    def leave(self):
        if self.client is not None:
            self.client.close()
            self.client = None

    def stop(self):
        self.stopped.set()
        self.thread.join()
        if self.client is not None:
            try:
                self.client.leave()
            except (Gone, OSError):
                self.leave()
        assert self.wrong is None, self.wrong


class Reader(Loop):
    """Reads a number from a node: `reads` has when it asked, when it was answered, and the number."""

    def __init__(self, port, path, timeout):
        self.path, self.reads = path, []
        super().__init__(port, timeout)

    def once(self):
        asked = time.monotonic()
        reply = self.client.call(GET_DATA, text(self.path) + boolean(False))
        if reply.error == 0:
            self.reads.append((asked, time.monotonic(), int(reply.body.buffer())))


class Writer(Loop):
    """Sets a node to ever greater numbers: `writes` has when a write was answered, and its number."""

    def __init__(self, port, path, timeout, first=1):
        self.path, self.number, self.writes = path, first, []
        super().__init__(port, timeout)

    def once(self):
        number, self.number = self.number, self.number + 1
        reply = self.client.call(SET_DATA, text(self.path) + buffer(b"%d" % number) + int32(-1))
        if reply.error == 0:
            self.writes.append((time.monotonic(), number))
