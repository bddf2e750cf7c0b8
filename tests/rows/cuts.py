#!/usr/bin/env python3
"""Cuts the bytes of the worked rows at every place, and ends their leaders at every place.

    tests/rows/cuts.py [PROGRAM]
    tests/rows/cuts.py --step 1 [PROGRAM]       at each place; without it at each 17th
    tests/rows/cuts.py --only multi [PROGRAM]   the rows with that in their name

Each replay that ends with status 0 is tried in two ways.

- **Cuts.** An event that brings bytes, of the leader or of a client, becomes two, at each place after its first byte
  and before its last, one such place in a run. What is printed is the row's output, every line of it: events aren't
  numbered or counted in a script's output, so no line may depend on a cut.
- **Fronts.** After each front of what a leader sends, the leader ends. What is printed is what the front brings, as the
  observer of model/ works it out; then, if the leader is still there, `L close F1 Short` exactly if an item is open,
  which model/ reads off the bytes; then each open connection is closed, and the end line follows.

A row that brings more than 6,000 bytes has all its events cut in one run, each after its first byte, then each after
its second, and so on up to the longest event, at 300 places at most. Its leaders aren't ended: that would be the same
packets over and over.

A row counts as one for its cuts, and as one for its fronts. The last line is `N passed, M failed`; the exit status is 0
if none failed and there was one at least.
"""
import argparse
import concurrent.futures
import os
import pathlib
import subprocess
import sys
import tempfile
from typing import List, NamedTuple, Tuple

sys.dont_write_bytecode = True
import run as rows  # noqa: E402
from sampling import first_of  # noqa: E402

sys.path.insert(0, str(rows.HERE / "model"))
from learner import DOWN  # noqa: E402
from observer import play, prepared  # noqa: E402

PROGRAM = rows.HERE.parent.parent / "crates" / "replay_runner" / "out" / "replay_runner"
STEP = 17
LONG, MOST = 6000, 300
SECONDS = 60


class Event(NamedTuple):
    """A line of a script, and the bytes that it brings, if it brings some, behind this front of it."""

    line: bytes
    front: bytes = b""
    content: bytes = b""

    def piece(self, begin, end):
        return self.front + self.content[begin:end].hex().encode()


def event_of(line):
    words = line.split(b" ", 2 if line.startswith(b"client ") else 1)
    if words[0] not in (b"leader", b"client") or words[-1].split(b" ")[0] in (b"up", b"end"):
        return Event(line)
    return Event(line, b" ".join(words[:-1]) + b" ", bytes.fromhex(words[-1].decode()))


class Row(NamedTuple):
    name: str
    events: List[Event]
    wanted: bytes

    def size(self):
        return sum(len(it.content) for it in self.events)

    def with_pieces(self, cut_events, place):
        """The script with these events in two pieces, cut at the place where they are longer."""
        lines = []
        for number, it in enumerate(self.events):
            if number in cut_events and 0 < place < len(it.content):
                lines += [it.piece(0, place), it.piece(place, None)]
            else:
                lines.append(it.line)
        return b"\n".join([*lines, b""])


def row_of(path):
    """Returns a row, if it is a replay that ends with status 0."""
    script = path.read_bytes()
    audited, status, _ = rows.directives(script)
    if audited is not None or status:
        return None
    lines = [it for it in script.split(b"\n") if it and not it.startswith(b"#")]
    return Row(path.stem, [event_of(it) for it in lines], path.with_suffix(".expected").read_bytes())


# ---- the scripts that are made of a row: each a name, a function that makes its text, and what it has to print


def cuts(row):
    """Each place at which an event is cut."""
    if row.size() > LONG:
        longest, every = max(len(it.content) for it in row.events), range(len(row.events))
        for place in range(1, longest, -(-longest // MOST)):
            yield f"all at {place}", lambda place=place: row.with_pieces(every, place), row.wanted
        return
    for number, it in enumerate(row.events):
        for place in range(1, len(it.content)):
            made = lambda number=number, place=place: row.with_pieces((number,), place)  # noqa: E731
            yield f"event {number} at {place}", made, row.wanted


def printed_at_end(observer):
    """What is printed when the leader ends now: that it is cut, where it is; the connections, if there was a leader."""
    lines, learner = list(observer.out), observer.learner
    if learner.phase != DOWN:
        lines += ["L close F1 Short"] * learner.is_cut()
        lines += [f"C {number} close" for number in sorted(observer.clients.open)]
    return "\n".join([*lines, observer.ended(), ""]).encode()


def fronts(row):
    """Each front of what a leader sends, after which it ends."""
    if row.size() > LONG:
        return
    observer, events = prepared(b"\n".join(it.line for it in row.events))
    settings = len(row.events) - len(events)
    for number, (it, (word, rest)) in enumerate(zip(row.events[settings:], events), settings):
        if word != "leader" or not it.content:
            play(observer, word, rest)
            continue
        before = [other.line for other in row.events[:number]]
        for place in range(1, len(it.content) + 1):
            observer.leader(it.content[place - 1 : place])
            made = lambda it=it, before=before, place=place: b"\n".join(  # noqa: E731
                [*before, it.piece(0, place), b"leader end", b""]
            )
            yield f"event {number} ends at {place}", made, printed_at_end(observer)


# ---- runs


def fault(program, script, wanted):
    """Replays a script. Returns what is wrong, if something is."""
    command = [program, "replay", "-"]
    try:
        done = subprocess.run(command, input=script, timeout=SECONDS, stdout=subprocess.PIPE, stderr=subprocess.PIPE)
    except subprocess.TimeoutExpired:
        return f"no end after {SECONDS} seconds"
    if done.returncode or done.stderr:
        return f"status {done.returncode}, and on standard error {done.stderr[-300:]!r}"
    return None if done.stdout == wanted else rows.first_difference(wanted, done.stdout)


def tried(program, row, way, step) -> Tuple[int, List[str]]:
    """Tries a row in one way. Returns how many runs there were, and the faults."""
    every = list(way(row))
    chosen = every[first_of(row.name, len(every), step) :: step]
    found = [(name, fault(program, made(), wanted)) for name, made, wanted in chosen]
    return len(chosen), [f"{name}: {why}" for name, why in found if why]


def try_all(args, room):
    """Tries the rows with that in their name. Returns how many held, and how many failed."""
    rows.make(room)
    paths = [*rows.HERE.glob("*/*.script"), *room.glob("*.script")]
    # The longest first, so that none is left alone at the end.
    paths.sort(key=lambda it: (-it.stat().st_size, it.stem))
    chosen = [it for it in map(row_of, paths) if it and args.only in it.name]
    jobs = [(row, way) for way in (cuts, fronts) for row in chosen]
    passed = failed = 0
    runs = {cuts: 0, fronts: 0}
    with concurrent.futures.ThreadPoolExecutor(args.jobs) as pool:
        results = pool.map(lambda it: tried(args.program, *it, args.step), jobs)
        for (row, way), (count, faults) in zip(jobs, results):
            runs[way] += count
            passed, failed = passed + bool(count and not faults), failed + bool(faults)
            for line in faults[:3]:
                print(f"FAIL {row.name}, {len(faults)} of {count} {way.__name__}: {line}", flush=True)
    print(f"{runs[cuts]} runs with cuts, and {runs[fronts]} with fronts, of {len(chosen)} rows")
    return passed, failed


def main():
    parser = argparse.ArgumentParser(description=__doc__, formatter_class=argparse.RawDescriptionHelpFormatter)
    parser.add_argument("--step", type=int, default=STEP, help="from one place that is tried to the next of a row")
    parser.add_argument("--only", default="", help="a part of a row's name")
    parser.add_argument("--jobs", type=int, default=os.cpu_count(), help="how many runs there are at a time")
    parser.add_argument("program", nargs="?", default=str(PROGRAM))
    args = parser.parse_args()
    if not os.access(args.program, os.X_OK):
        print(f"no program {args.program}: nothing was cut\n0 passed, 1 failed")
        return 1
    with tempfile.TemporaryDirectory(prefix="cuts-") as room:
        passed, failed = try_all(args, pathlib.Path(room))
    print(f"{passed} passed, {failed} failed")
    return 1 if failed or not passed else 0


if __name__ == "__main__":
    sys.exit(main())
