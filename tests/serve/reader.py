#!/usr/bin/env python3
"""reader.py PORT: a client that reads a node, 2 ms after each answer, until its standard input ends. It says when it
begins, and prints how many seconds each answer took.

    reader.py

Without a port it works for 10 ms of a processor, 100 ms after the last time, and prints how many times as long that
took by the clock: more than once if the machine has other work.

It is a process of its own, so that what it measures doesn't wait for other work of a test.
"""
import json
import select
import sys
import time

sys.dont_write_bytecode = True
from server import Program  # noqa: E402

READ_PAUSE, WORK_PAUSE, WORK = 0.002, 0.1, 0.01


def reads(port):
    """Yields how many seconds each read took."""
    server = Program()
    server.port = port
    with server.client() as client:
        print("ready", flush=True)
        while not told_to_stop(READ_PAUSE):
            began = time.monotonic()
            assert server.answers(client), "closed, or answered wrongly"
            yield time.monotonic() - began


def works():
    print("ready", flush=True)
    while not told_to_stop(WORK_PAUSE):
        began, used = time.monotonic(), time.process_time()
        while time.process_time() < used + WORK:
            pass
        yield (time.monotonic() - began) / (time.process_time() - used)


def told_to_stop(seconds):
    return bool(select.select([sys.stdin], [], [], seconds)[0])


if __name__ == "__main__":
    print(json.dumps(list(reads(int(sys.argv[1])) if len(sys.argv) > 1 else works())))
