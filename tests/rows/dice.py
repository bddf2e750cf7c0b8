#!/usr/bin/env python3
"""Draws scripts by chance and compares what the program prints with what the observer in model/ prints.

    tests/rows/dice.py PROGRAM [--count N] [--seed S]       the scripts of N seeds, from S on
    tests/rows/dice.py PROGRAM --planted [--count N]        the same with mistakes that are planted in the model
    tests/rows/dice.py --script --seed S                    prints the script of a seed
    tests/rows/dice.py --show [--count N]                   prints how many scripts reach what

Each of these takes `--dialect 3.8`, and draws scripts of the later dialect then.

Each script is drawn from its seed alone (drawing.py), with a number of workers and the most transactions of a batch.
Both outputs have to be the same, byte for byte, with nothing on standard error and status 0. One that differs is shrunk
and printed. The last line is `N passed, M failed`, where each script counts as one; the exit status is 0 if none
failed.

With `--planted` a script counts for nothing, and each planted mistake as one: it passes if a script reveals it. So the
drawing is shown to reach what it has to reveal.

To have the scripts contain something new:

1. Write a maker in drawn_requests.py (clients) or drawn_packets.py (the leader): a function that draws bytes which fit
   the model's present state. `TABLE` in drawing.py says how often it comes in each phase. A new maker gives each seed
   another script.
2. Give a new behaviour a mark in drawn_marks.py. `--show` says how many scripts reach each mark; one in twenty should.
3. Add a mistake that is easily made to planted.py, and run `--planted`.
4. If program and model differ, docs/COMPATIBILITY.md says which one is wrong. Make the small script a row.
"""
import argparse
import collections
import concurrent.futures
import functools
import shutil
import subprocess
import sys

sys.dont_write_bytecode = True
from run import HERE, SECONDS, first_difference  # noqa: E402

sys.path.insert(0, str(HERE / "model"))
import planted  # noqa: E402
import shrink  # noqa: E402
from dialects import Dialect  # noqa: E402
from drawing import drawn  # noqa: E402
from drawn_marks import marks_of  # noqa: E402
from observer import replayed  # noqa: E402

COUNT = 2000
SHOWN = 2  # of the scripts that differ so many are shrunk
PROCESSES = 2


def printed(program, script):
    """Runs the program on a script. Returns what it prints, and what is wrong with how it ends; None is nothing."""
    command = [program, "replay", "-", "--workers", str(script.workers), "--batch", str(script.batch)]
    try:
        done = subprocess.run(command, input=script.text(), capture_output=True, timeout=SECONDS)
    except subprocess.TimeoutExpired:
        return b"", f"no end after {SECONDS} seconds"
    if done.returncode or done.stderr:
        return done.stdout, f"exit status {done.returncode}, standard error {done.stderr[-300:]!r}"
    return done.stdout, None


def difference(program, script):
    """Returns what tells the program from the model by a script; None where they agree."""
    wanted, (got, wrong) = replayed(script.text()), printed(program, script)
    return wrong or (None if wanted == got else first_difference(wanted, got))


def of_seed(program, dialect, seed):
    return difference(program, drawn(seed, dialect))


def show_failure(program, dialect, seed, found, is_shrunk):
    """Prints a script that differs, made small where that is wanted."""
    print(f"FAIL seed {seed}: {found}", flush=True)
    if not is_shrunk:
        return
    script = shrink.shrunk(drawn(seed, dialect), lambda it: difference(program, it) is not None)
    print(f"  shrunk, with --workers {script.workers} --batch {script.batch}: {difference(program, script)}")
    for line in script.text().decode().splitlines():
        print(f"    {line}")


def compare(program, dialect, seeds):
    """Compares the scripts of the seeds. Returns how many agree, and how many don't."""
    failed = 0
    with concurrent.futures.ProcessPoolExecutor(PROCESSES) as pool:
        told = pool.map(functools.partial(of_seed, program, dialect), seeds, chunksize=25)
        for seed, found in zip(seeds, told):
            if found:
                show_failure(program, dialect, seed, found, failed < SHOWN)
            failed += bool(found)
    return len(seeds) - failed, failed


def find_planted(program, dialect, seeds):
    """Tells each planted mistake from the program. Returns how many were told, and how many not."""
    mistakes = planted.mistakes_in(dialect)
    left = list(mistakes)
    for number, seed in enumerate(seeds, 1):
        if not left:
            break
        script = drawn(seed, dialect)
        got, wrong = printed(program, script)
        if wrong or got != replayed(script.text()):
            continue  # what differs without a mistake tells none
        for mistake in list(left):
            with planted.in_place(mistake):
                shown = replayed(script.text())
            if shown != got:
                left.remove(mistake)
                print(f"script {number} (seed {seed}) tells: {mistake.name}")
    for mistake in left:
        print(f"FAIL no script tells: {mistake.name}")
    return len(mistakes) - len(left), len(left)


def show_marks(dialect, seeds):
    """Prints of what a script can reach how many reach it."""
    counted = collections.Counter(mark for seed in seeds for mark in marks_of(drawn(seed, dialect).text()))
    for mark, count in sorted(counted.items()):
        print(f"{100 * count / len(seeds):5.1f} % {mark}")


def main():
    parser = argparse.ArgumentParser(description=__doc__, formatter_class=argparse.RawDescriptionHelpFormatter)
    parser.add_argument("--count", type=int, default=COUNT, help=f"how many scripts, {COUNT} without it")
    parser.add_argument("--seed", type=int, default=1, help="the seed of the first script, 1 without it")
    parser.add_argument("--planted", action="store_true", help="plant mistakes in the model, which have to be told")
    parser.add_argument("--script", action="store_true", help="print the script of the seed, and compare nothing")
    parser.add_argument("--show", action="store_true", help="print what the scripts reach, and compare nothing")
    parser.add_argument("--dialect", type=Dialect, default=Dialect.ZK34, help="3.4 or 3.8; without it 3.4")
    parser.add_argument("program", nargs="?", help="the program")
    args = parser.parse_args()
    seeds = range(args.seed, args.seed + args.count)
    if args.script:
        script = drawn(args.seed, args.dialect)
        print(f"# --workers {script.workers} --batch {script.batch}\n{script.text().decode()}", end="")
        return 0
    if args.show:
        show_marks(args.dialect, seeds)
        return 0
    if not args.program or not shutil.which(args.program):
        print(f"no program {args.program}: no script was run\n0 passed, 1 failed")
        return 1
    passed, failed = (find_planted if args.planted else compare)(args.program, args.dialect, seeds)
    print(f"{passed} passed, {failed} failed")
    return 1 if failed or not passed else 0


if __name__ == "__main__":
    sys.exit(main())
