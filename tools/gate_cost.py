#!/usr/bin/env python3
"""Runs the gate and sums the prover's processor time by crate and kind, for docs/GATE.md.

    tools/gate_cost.py                     runs .ci/run, best in a fresh clone on an idle machine
    tools/gate_cost.py COMMAND ARG ..      another command, such as `rt must-fail values`

It prints a table in Markdown: what each crate's proof takes (checks and builds of it), its tests and its edits, in
processor minutes, and the sums; then the minutes by the clock, and what the whole command took. Every ten minutes the
table so far goes to standard error. The exit status is the command's.

The prover's processes are looked at once a second, in /proc, so this works on Linux alone. What a process uses between
the last look and its end is missed: half a second each, and the whole of one that lives shorter than a second. The last
line has the command's processor time exactly, prover and all else, so that the difference can be seen.
"""
import os
import resource
import subprocess
import sys
import time

TOP = os.path.dirname(os.path.dirname(os.path.realpath(__file__)))
TICKS = os.sysconf("SC_CLK_TCK")
KINDS = ("proof", "tests", "edits")
SHOWN_EVERY = 600


def read(path):
    with open(path, encoding="utf-8", errors="replace") as it:
        return it.read()


class Process:
    """A process as /proc shows it: its parent, when it was started, and the time that it and its ended children used."""

    def __init__(self, pid):
        fields = read(f"/proc/{pid}/stat").rpartition(")")[2].split()
        self.pid, self.parent, self.started = pid, int(fields[1]), fields[19]
        self.used = sum(int(it) for it in fields[11:15]) / TICKS
        self.words = read(f"/proc/{pid}/cmdline").split("\0")
        self.is_prover = self.words[0].endswith("/rattle") and "--crate-name" in self.words

    def crate(self):
        return self.words[self.words.index("--crate-name") + 1]

    def kind(self):
        """An edit is tried in a folder of its own, whose name says so."""
        if "rt-edit" in os.readlink(f"/proc/{self.pid}/cwd"):
            return "edits"
        return "tests" if "--test" in self.words else "proof"


def processes():
    """Returns all processes by their number."""
    found = {}
    for name in os.listdir("/proc"):
        if name.isdigit():
            try:
                found[int(name)] = Process(int(name))
            except OSError:
                pass  # it has ended
    return found


def line_above(process, there):
    """Returns the processes above one, the nearest first."""
    above = []
    while process.parent in there:
        process = there[process.parent]
        above.append(process)
    return above


def look(top, seen):
    """Notes what each of the prover's runs below `top` has used; its jobs are processes below it, and count with it."""
    there, used, kinds = processes(), {}, {}
    for process in there.values():
        above = line_above(process, there)
        if not any(it.pid == top for it in above):
            continue
        provers = [it for it in [process] + above if it.is_prover]
        if provers:
            run = provers[-1]
            used[run.pid] = used.get(run.pid, 0) + process.used
    for pid, seconds in used.items():
        run = there[pid]
        try:
            kinds[pid] = run.kind()
        except OSError:
            continue  # it has ended
        before = seen.get((pid, run.started), (None, None, 0))[2]
        seen[pid, run.started] = (run.crate(), kinds[pid], max(seconds, before))


def row(name, minutes):
    cells = [f"{minutes[it]:.1f}" for it in KINDS] + [f"{sum(minutes.values()):.1f}"]
    return f"| {name} | " + " | ".join(cells) + " |"


def table(seen):
    """Returns the table in Markdown, the crates in the order of crates.txt."""
    sums = {}
    for crate, kind, seconds in seen.values():
        sums.setdefault(crate, dict.fromkeys(KINDS, 0.0))[kind] += seconds / 60
    with open(os.path.join(TOP, "crates.txt"), encoding="utf-8") as it:
        order = [line.partition(":")[0].split()[:1] for line in it]
    names = [it[0] for it in order if it and it[0] in sums]
    names += sorted(set(sums) - set(names))
    whole = {kind: sum(sums[name][kind] for name in names) for kind in KINDS}
    rows = ["| Crate | Proof | Tests | Edits | All |", "|---|---|---|---|---|"]
    return "\n".join(rows + [row(name, sums[name]) for name in names] + [row("all", whole)])


def main():
    words = sys.argv[1:] or [os.path.join(TOP, ".ci", "run")]
    if words[0] in ("-h", "--help"):
        print(__doc__.strip())
        return 0
    began, shown, seen = time.monotonic(), 0, {}
    ran = subprocess.Popen(words, stdin=subprocess.DEVNULL)
    while ran.poll() is None:
        look(ran.pid, seen)
        time.sleep(1)
        if time.monotonic() - began > shown + SHOWN_EVERY:
            shown += SHOWN_EVERY
            print(f"after {shown / 60:.0f} minutes\n{table(seen)}", file=sys.stderr, flush=True)
    minutes = (time.monotonic() - began) / 60
    whole = resource.getrusage(resource.RUSAGE_CHILDREN)
    print(table(seen))
    print(f"\nProcessor minutes; {minutes:.1f} minutes by the clock on {os.cpu_count()} processors.")
    print(f"The whole command: {(whole.ru_utime + whole.ru_stime) / 60:.1f} processor minutes.")
    return ran.returncode


if __name__ == "__main__":
    sys.exit(main())
