"""Proves and builds a program's crates one after the other, each on all processors, and shows how far it is.

Each crate is proved and built by `rt lib`, and the program itself by `rt run`, whose own run of it is dropped. What rt
says of a crate stands in out/observer/CRATE.log, and its lines say how many functions are checked.
"""
import os
import re
import signal
import subprocess
import sys
import time

from common import KEPT, TOP, how_long, say

# Between two lines that say how far it is, in seconds.
PAUSE = 15
COUNTED = re.compile(rb"(?:^checked \S+, (\d+) of (\d+)$)|(?:^so far: (\d+) of (\d+) functions checked)", re.MULTILINE)


def folder_of(name):
    return os.path.join(TOP, "crates", name)


def below():
    """Returns what crates.txt says: for each crate the crates of this repository that it stands on."""
    found = {}
    with open(os.path.join(TOP, "crates.txt"), encoding="utf-8") as it:
        for line in it:
            words, colon, libraries = line.partition("#")[0].partition(":")
            if colon:
                found[words.split()[0]] = libraries.split()
    return {name: [it for it in found[name] if it in found] for name in found}


def needed(program):
    """Returns the crates that a program stands on and itself, each with what it stands on."""
    all_crates, found, open_names = below(), {}, [program]
    while open_names:
        name = open_names.pop()
        if name not in found:
            found[name] = all_crates[name]
            open_names += all_crates[name]
    return found


def functions_in(name):
    """Returns how many functions a crate's sources have, which is about how many its check counts."""
    count = 0
    for at, _, files in os.walk(os.path.join(folder_of(name), "src")):
        for file in files:
            if file.endswith(".rt"):
                with open(os.path.join(at, file), encoding="utf-8") as it:
                    count += len(re.findall(r"^\s*(?:pub )?fn \w", it.read(), re.MULTILINE))
    return count


class Crate:
    """A crate that is being built: its process, and what its log says."""

    def __init__(self, name, is_program, jobs):
        self.name, self.log = name, os.path.join(KEPT, name + ".log")
        given = os.path.join(folder_of(name), "stdin")
        words = ["rt", "run" if is_program else "lib", "--jobs", str(jobs)]
        with open(given if os.path.isfile(given) else os.devnull, "rb") as stdin, open(self.log, "wb") as log:
            out = subprocess.DEVNULL if is_program else log
            self.ran = subprocess.Popen(
                words, cwd=folder_of(name), stdin=stdin, stdout=out, stderr=log, start_new_session=True
            )

    def counted(self):
        """Returns how many functions are checked and how many there are, by the last line that says so."""
        with open(self.log, "rb") as it:
            found = COUNTED.findall(it.read())
        if not found:
            return 0, 0
        numbers = [int(it) for it in found[-1] if it]
        return numbers[0], numbers[1]

    def waits(self):
        """Returns whether another rt works in this crate, so that this one waits for it."""
        with open(self.log, "rb") as it:
            return it.read().rstrip().split(b"\n")[-1].startswith(b"rt: waiting for another rt")

    def stop(self):
        """Ends what this crate's build started, which has a session of its own."""
        if self.ran.poll() is None:
            os.killpg(self.ran.pid, signal.SIGTERM)
            self.ran.wait()


class Build:
    """What is built, what runs, and what waits. rt works in one crate and those below it at a time, so one runs at a time."""

    def __init__(self, program, before):
        self.program, self.before = program, before
        self.crates = needed(program)
        self.weights = {name: functions_in(name) for name in self.crates}
        self.done, self.now = set(), None
        self.began = self.told = time.monotonic()
        self.jobs = len(os.sched_getaffinity(0)) if hasattr(os, "sched_getaffinity") else os.cpu_count() or 1

    def start(self):
        """Starts a crate that stands on nothing that isn't built."""
        name = next(it for it in self.crates if it not in self.done and self.done.issuperset(self.crates[it]))
        self.now = Crate(name, name == self.program, self.jobs)

    def failed(self):
        """Returns whether the crate that runs has ended in a failure; where it has ended well, it is done."""
        status = self.now.ran.poll()
        if status == 0:
            self.done.add(self.now.name)
            self.now = None
        return bool(status)

    def fraction(self):
        """Returns which part of all functions is checked."""
        part = sum(self.weights[name] for name in self.done)
        checked, of = self.now.counted()
        part += self.weights[self.now.name] * checked / of if of else 0
        return part / max(sum(self.weights.values()), 1)

    def rest(self):
        """Returns about how long it still takes, in words."""
        passed, part = time.monotonic() - self.began, self.fraction()
        if self.before and self.before > passed:
            return f"; about {how_long(self.before - passed)} more"
        if part < 0.05:
            return ""
        return f"; about {how_long(passed / part * (1 - part))} more"

    def tell(self):
        """Says how far it is, where the last time is long enough ago."""
        if time.monotonic() - self.told < PAUSE:
            return
        self.told = time.monotonic()
        checked, of = self.now.counted()
        part = f" {checked} of {of} functions" if of else ", which another rt works in" if self.now.waits() else ""
        say(f"{len(self.done)} of {len(self.crates)} crates done, now {self.now.name}{part}{self.rest()}")

    def run(self):
        """Builds all. Returns the crate that failed, if one did."""
        try:
            while len(self.done) < len(self.crates):
                if self.now is None:
                    self.start()
                if self.failed():
                    return self.now
                if self.now is not None:
                    self.tell()
                    time.sleep(0.2)
            return None
        finally:
            if self.now is not None:
                self.now.stop()


def build(program, before):
    """Proves and builds a program. Returns whether all went well, and says what went wrong."""
    whole = Build(program, before)
    count = sum(whole.weights.values())
    long = "about " + how_long(before) if before else "one to two hours on four processors"
    say(f"proving and building {len(whole.crates)} crates with {count} functions, which takes {long}")
    failed = whole.run()
    if not failed:
        return True
    with open(failed.log, encoding="utf-8", errors="replace") as it:
        for line in it.read().splitlines()[-20:]:
            print("  " + line, file=sys.stderr)
    say(f"the crate {failed.name} was not built (all that rt said: {os.path.relpath(failed.log, TOP)})")
    return False
