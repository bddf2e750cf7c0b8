#!/usr/bin/env python3
"""Has each growth of memory refused in turn, in each worked row and in a run of the server.

    tests/refused/run.py [PROGRAM]
    tests/refused/run.py --step 1 [PROGRAM]     each growth; without it each 41st of a row, and each 5th of the server
    tests/refused/run.py --step 1 --most 1000   each growth of a row that has up to 1,000, and 1,000 of a longer one
    tests/refused/run.py --only multi [PROGRAM] runs with that in their name: the row and its workers, or `serve`
    tests/refused/run.py --install [PROGRAM]    gets Debian's C compiler first, if there is none (as root)

A library that is preloaded counts the growths of a run and refuses one of them (refuse.c). Each row of tests/rows is
run by one worker and by two, and is tried until a run meets no refusal. A run that met one

- prints the first lines of the row's output, whole ones and never the last, which is the end line or an audit's answer,
- tells `no memory` on standard error, and nothing else,
- ends with status 4.

With two workers it may also do without a thread that couldn't be started for want of memory, since the answers don't
depend on which threads may start: then one thread fewer was started than without a refusal, and the run prints and ends
as the row says. What the server has to do is in serving.py.

A row with a number of workers counts as one, and so does each run of the server. The last line is `N passed, M failed`;
the exit status is 0 if none failed and there was one at least.
"""
import argparse
import collections
import concurrent.futures
import itertools
import os
import pathlib
import subprocess
import sys
import tempfile
from typing import List, NamedTuple

sys.dont_write_bytecode = True
import serving  # noqa: E402
from refusing import Refuser, built, compiler, install  # noqa: E402

TOP = pathlib.Path(__file__).resolve().parent.parent.parent
sys.path.insert(0, str(TOP / "tests" / "rows"))
import run as rows  # noqa: E402
from sampling import first_of  # noqa: E402

PROGRAM = TOP / "crates" / "replay_runner" / "out" / "replay_runner"
WORKERS = (1, 2)
STEP, SERVER_STEP = 41, 5
SECONDS = 60
REFUSED = 4
MOST_TOLD = 3  # faults of a row


class Row(NamedTuple):
    """A worked row with a number of workers: its command, and how that ends where nothing is refused."""

    name: str
    workers: int
    command: List[str]
    wanted: bytes
    status: int
    complaint: bytes


class Tried(NamedTuple):
    """What became of a row: how many growths it has, how many runs met a refusal, how many of these did without a
    thread, and what was wrong."""

    growths: int
    refused: int
    without_thread: int
    faults: List[str]


def runs_of_row(program, path):
    """Returns the row for each number of workers; an audit has none to choose."""
    audited, *end = rows.directives(path.read_bytes())
    wanted = path.with_suffix(".expected").read_bytes()
    if audited is not None:
        return [Row(path.stem, 1, [program, "audit", str(path), audited], wanted, *end)]
    plain = [program, "replay", str(path), "--workers"]
    return [Row(f"{path.stem} --workers {it}", it, [*plain, str(it)], wanted, *end) for it in WORKERS]


def is_front(wanted, printed):
    """Returns whether this is whole lines of the wanted ones from the first on, without the last."""
    lines = wanted.splitlines(keepends=True)
    return printed == b"".join(lines[: min(printed.count(b"\n"), max(len(lines) - 1, 0))])


def fault(row, clean, seen, done):
    """Returns what is wrong with a run; none where it ended as it has to. `clean` is what was seen where nothing was
    refused."""
    is_whole = (done.returncode, done.stdout, done.stderr) == (row.status, row.wanted, row.complaint)
    lacks_thread = row.workers > 1 and seen.threads == clean.threads - 1
    if is_whole and (not seen.refused or lacks_thread):
        return None
    is_told = (done.returncode, done.stderr) == (REFUSED, b"no memory\n")
    if seen.refused and is_told and is_front(row.wanted, done.stdout):
        return None
    met = f"refused, with {seen.threads} threads of {clean.threads}" if seen.refused else "not refused"
    differs = rows.first_difference(row.wanted, done.stdout)
    return f"{met}: status {done.returncode}; {differs}; standard error {done.stderr[-300:]!r}"


def once(row, refuser, number):
    """Runs a row with the growth of that number refused. Returns what was seen, and how it ended."""
    environment = refuser.environment(number)
    how = {"stdin": subprocess.DEVNULL, "stdout": subprocess.PIPE, "stderr": subprocess.PIPE}
    done = subprocess.run(row.command, env=environment, timeout=SECONDS, **how)
    return refuser.seen(), done


def numbers(row, growths, args):
    """Yields the numbers of the growths that are refused."""
    step = max(args.step or STEP, -(-growths // (args.most or growths)))
    return itertools.count(1 + first_of(row.name, growths, step), step)


def tries(row, refuser, args):
    """Has one growth after the other refused, until a run meets no refusal."""
    clean, done = once(row, refuser, 0)
    growths, refused, without_thread = clean.growths, 0, 0
    found = [it for it in [fault(row, clean, clean, done)] if it]
    if found or not growths:
        return Tried(0, 0, 0, found or ["no growth was counted"])
    for number in numbers(row, growths, args):
        try:
            seen, done = once(row, refuser, number)
        except subprocess.TimeoutExpired:
            found.append(f"growth {number}: no end after {SECONDS} seconds")
            break
        why = fault(row, clean, seen, done)
        if why:
            found.append(f"growth {number}: {why}")
        refused += seen.refused
        without_thread += seen.refused and not why and done.returncode != REFUSED
        if not seen.refused and number > growths:
            break
    return Tried(growths, refused, without_thread, found)


def refuse_in_rows(args, library, room):
    """Tries the rows with that in their name. Returns how many held, and how many failed."""
    scripts = room / "rows"
    scripts.mkdir()
    rows.make(scripts)
    paths = [*rows.HERE.glob("*/*.script"), *scripts.glob("*.script")]
    # The longest first, so that none is left alone at the end.
    paths.sort(key=lambda it: (-it.stat().st_size, it.stem))
    every = [it for path in paths for it in runs_of_row(args.program, path) if args.only in it.name]

    def tried(row):
        return tries(row, Refuser(library, room / f"seen-{every.index(row)}"), args)

    with concurrent.futures.ThreadPoolExecutor(args.jobs) as pool:
        results = []
        for row, found in zip(every, pool.map(tried, every)):
            results.append(found)
            if found.faults:
                print(f"FAIL {row.name}: {len(found.faults)} faults", flush=True)
            for line in found.faults[:MOST_TOLD]:
                print(f"  {line}", flush=True)
    growths, refused, without_thread = (sum(it[at] for it in results) for at in range(3))
    print(f"{len(every)} rows with their workers have {growths} growths", end=": ")
    print(f"{refused} runs met a refusal, {without_thread} of them did without a thread", flush=True)
    failed = sum(bool(it.faults) for it in results)
    return len(every) - failed, failed


def serve_once(program, refuser, number):
    """Runs the server with the growth of that number refused. Returns what was seen, what became of the run, and what
    is wrong, if something is."""
    try:
        ending = serving.play(program, refuser.environment(number))
        became, is_right = serving.outcome(ending, refuser.seen().refused)
        wrong = None if is_right else f"{became}: {ending}"
    except Exception as why:  # each failure is told, and the others go on
        became, wrong = "failed", f"{type(why).__name__} {why}"
    return refuser.seen(), became, wrong


def refuse_in_server(args, library, room):
    """Tries the server, until a run meets no refusal. Returns how many runs held, and how many failed."""
    if args.only not in "serve":
        return 0, 0

    def tried(number):
        found = serve_once(args.program, Refuser(library, room / f"serve-{number}"), number)
        if found[-1]:
            print(f"FAIL serve, growth {number}: {found[-1]}", flush=True)
        return found

    clean = tried(0)
    growths, step = clean[0].growths, args.step or SERVER_STEP
    with concurrent.futures.ThreadPoolExecutor(args.jobs) as pool:
        found = [clean, *pool.map(tried, range(1 + first_of("serve", growths, step), growths + 1, step))]
    for number in itertools.count(growths + 1):
        found.append(tried(number))
        if not found[-1][0].refused:
            break
    kinds = collections.Counter(became for seen, became, _ in found if seen.refused)
    print(f"serve: {sum(kinds.values())} runs met a refusal: {', '.join(f'{kinds[it]} {it}' for it in sorted(kinds))}")
    failed = sum(bool(wrong) for _, _, wrong in found)
    # Where no run met a refusal nothing was tried.
    return (len(found) - failed, failed) if kinds else (0, 1)


def read_arguments():
    parser = argparse.ArgumentParser(description=__doc__, formatter_class=argparse.RawDescriptionHelpFormatter)
    parser.add_argument("--step", type=int, help="from one growth that is refused to the next")
    parser.add_argument("--only", default="", help="a part of a run's name")
    parser.add_argument("--most", type=int, help="the most growths of a row that are tried, at even steps")
    parser.add_argument("--jobs", type=int, default=os.cpu_count(), help="how many runs there are at a time")
    parser.add_argument("--install", action="store_true", help="get a C compiler first, where there is none")
    parser.add_argument("program", nargs="?", default=str(PROGRAM))
    return parser.parse_args()


def main():
    args = read_arguments()
    if args.install and not compiler():
        install()
    lacking = "there is no C compiler `cc` (Debian: gcc and libc6-dev; --install gets them)" if not compiler() else None
    if not os.access(args.program, os.X_OK):
        lacking = f"no program {args.program}"
    if lacking:
        print(f"{lacking}: nothing was refused\n0 passed, 1 failed")
        return 1
    with tempfile.TemporaryDirectory(prefix="refused-") as name:
        room = pathlib.Path(name)
        library = built(room)
        counts = [refuse(args, library, room) for refuse in (refuse_in_rows, refuse_in_server)]
    passed, failed = map(sum, zip(*counts))
    print(f"{passed} passed, {failed} failed")
    return 1 if failed or not passed else 0


if __name__ == "__main__":
    sys.exit(main())
