#!/usr/bin/env python3
"""Runs a program on the rows of the later dialect in rows/, and compares every byte that it prints.

    tests/dialect/run.py PROGRAM
    tests/dialect/run.py --only revalidate PROGRAM      rows with that in their name

A row is NAME.script and NAME.expected, which is what `PROGRAM replay NAME.script` writes to standard output, whatever
the options of a replay are. rows/recorded/ is compare.py's.

The last line is `N passed, M failed`; the exit status is 0 if none failed and there was one at least.
"""
import argparse
import concurrent.futures
import os
import pathlib
import subprocess
import sys

sys.dont_write_bytecode = True
HERE = pathlib.Path(__file__).resolve().parent
sys.path.insert(0, str(HERE.parent / "rows"))
from run import LIMITS, first_difference  # noqa: E402

SECONDS = 60


def printed(program, script, options):
    """Returns what a replay of the script prints."""
    command = [program, "replay", str(script), *options]
    done = subprocess.run(command, stdin=subprocess.DEVNULL, capture_output=True, timeout=SECONDS, check=False)
    return done.stdout


def faults(program, script):
    """Returns what is wrong with a row, in lines."""
    wanted = script.with_suffix(".expected").read_bytes()
    found = []
    for options in ("", *LIMITS):
        got = printed(program, script, options.split())
        if got != wanted:
            found.append(f"{options or 'without options'}: {first_difference(wanted, got)}")
    return found


def main():
    parser = argparse.ArgumentParser(description=__doc__, formatter_class=argparse.RawDescriptionHelpFormatter)
    parser.add_argument("--only", default="", help="a part of a row's name")
    parser.add_argument("program")
    args = parser.parse_args()
    program = os.path.abspath(args.program)
    if not os.path.isfile(program):
        print(f"no program {args.program}: no row was run\n0 passed, 1 failed")
        return 1
    rows = [it for it in sorted((HERE / "rows").glob("*.script")) if args.only in it.stem]
    failed = 0
    with concurrent.futures.ThreadPoolExecutor(os.cpu_count()) as pool:
        for row, found in zip(rows, pool.map(lambda it: faults(program, it), rows)):
            if found:
                failed += 1
                print(f"FAIL {row.stem}")
            for line in found:
                print(f"  {line}")
    print(f"{len(rows) - failed} passed, {failed} failed")
    return 1 if failed or not rows else 0


if __name__ == "__main__":
    sys.exit(main())
