"""`./observer demo`: a leader, the observer that follows it and a client of the observer, which say what happens.

The leader and the client are examples/leader.py and examples/client.py. All three run on 127.0.0.1, on ports that the
system picks. The leader goes after its last change, the observer ends when its leader goes, and the client ends after
some events, so all of it ends by itself.
"""
import os
import signal
import subprocess
import sys
import threading
import time

from common import NOT_BUILT, PROGRAM, TOP, say

EXAMPLES = os.path.join(TOP, "examples")
CHANGES, EVENTS, INTERVAL, TICK = 16, 6, 300, 500
# How long the three may take when the program is built, and with building it.
SECONDS, WITH_BUILD = 30, 900


class Part:
    """One of the three, whose lines are printed with its name in front."""

    def __init__(self, name, words):
        self.name, self.first, self.has_begun = name, None, threading.Event()
        how = {"stdin": subprocess.DEVNULL, "stdout": subprocess.PIPE, "stderr": subprocess.STDOUT}
        self.ran = subprocess.Popen(words, encoding="utf-8", errors="replace", start_new_session=True, **how)
        self.telling = threading.Thread(target=self.tell, daemon=True)
        self.telling.start()

    def tell(self):
        for line in self.ran.stdout:
            print(f"{self.name:<9}| {line.rstrip()}", flush=True)
            if line.startswith(("leading ", "serving ")):
                self.first = line.split()[1]
                self.has_begun.set()
        self.has_begun.set()

    def port(self, until):
        """Waits until it says on which port it listens, and returns that."""
        self.has_begun.wait(max(until - time.monotonic(), 0))
        if not self.first:
            raise TimeoutError(f"the {self.name} does not begin")
        return self.first

    def status(self, until):
        """Waits for its end, and returns its exit status."""
        status = self.ran.wait(max(until - time.monotonic(), 0))
        self.telling.join()
        return status

    def stop(self):
        """Ends it, where it hasn't ended."""
        if self.ran.poll() is None:
            self.ran.terminate()
            try:
                self.ran.wait(10)
            except subprocess.TimeoutExpired:
                os.killpg(self.ran.pid, signal.SIGKILL)
                self.ran.wait()


def example(name, *options):
    return [sys.executable, "-B", os.path.join(EXAMPLES, name), *(str(it) for it in options)]


def play(program, until, parts):
    """Starts the three, and waits for their ends. Returns the exit statuses that aren't 0, by their names."""
    changes = ("--changes", CHANGES, "--interval", INTERVAL, "--tick", TICK)
    parts.append(Part("leader", example("leader.py", "--port", 0, *changes)))
    words = ["serve", "--leader", parts[0].port(until), "--client", "0", "--id", "1", "--counter", "0", "--log"]
    parts.append(Part("observer", program + words))
    port = parts[1].port(until)
    parts.append(Part("client", example("client.py", "--port", port, "--events", EVENTS)))
    ended = {it.name: it.status(until) for it in parts}
    return {name: status for name, status in ended.items() if status}


def stop(number, _):
    sys.exit(128 + number)


def start(is_proved):
    """Plays the demo. Returns 0, or 1 where something fails, or 70 where the program can't be built."""
    program, seconds = [PROGRAM], SECONDS
    if is_proved:
        import proved

        if not proved.is_there():
            return NOT_BUILT
    else:
        program, seconds = [sys.executable, "-B", os.path.join(TOP, "observer"), "--unproved"], WITH_BUILD
    signal.signal(signal.SIGTERM, stop)
    parts = []
    try:
        failed = play(program, time.monotonic() + seconds, parts)
    except (TimeoutError, subprocess.TimeoutExpired) as why:
        say(f"the demo was given up: {why}")
        return 1
    except KeyboardInterrupt:
        return 130
    finally:
        for it in reversed(parts):
            it.stop()
    for name, status in failed.items():
        say(f"the {name} ended with status {status}")
    return 1 if failed else 0
