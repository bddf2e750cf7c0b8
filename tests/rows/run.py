#!/usr/bin/env python3
"""Runs a program on the worked rows of this folder and compares every byte that it writes.

    tests/rows/run.py PROGRAM [ARG ..]
    tests/rows/run.py --only multi PROGRAM      runs with that in their name

A row is NAME.script and NAME.expected, which is what `PROGRAM ARG .. replay NAME.script` writes to standard output. The
rows lie in folders by what they show, and no two have one name. In examples/ are the outputs of the scripts in the
repository's own examples/.

The comments at the head of a script say what the row shows, and three kinds of them are directives:

    # audit /a                      the row is run as `PROGRAM ARG .. audit NAME.script /a`
    # status 1                      the exit status that is wanted; without it 0
    # stderr line 4: bad line       the one line that standard error has; without it none

Lines count in a bad script, so a comment there is replaced and never added. Rows that are too long for a file are made
by made.py.

A replay prints the same whatever its limits, so each row that isn't an audit is run again with the options of LIMITS,
and a few with those of WORKERS too. Beside the rows, wrong command lines are tried, and rows whose output can't be
written. Each run counts: the last line printed is `N passed, M failed`; the exit status is 0 if none failed and
there was one at least.
"""
import argparse
import concurrent.futures
import contextlib
import os
import pathlib
import shutil
import subprocess
import sys
import tempfile

sys.dont_write_bytecode = True
import made  # noqa: E402

HERE = pathlib.Path(__file__).resolve().parent
EXAMPLES = HERE.parent.parent / "examples"
SECONDS = 60

# The options of a replay by which each row is run beside the run without options.
LIMITS = ("--workers 1 --batch 1", "--workers 3 --batch 2", "--workers 64 --batch 4096")
# The rows that are run by these numbers of workers too, with batches as they are by default.
SHARED = (
    "close-ephemerals", "close-in-a-batch", "close-session", "connect-held", "connect-in-a-batch", "connects-many",
    "create-then-get", "forwarded-create-then-get", "forwarded-many", "leader-sessions-1", "leader-sessions-2",
    "many-reads", "multi-meets-two", "set-then-get", "touched-by-runs", "two-groups", "two-groups-told",
)
WORKERS = ("--workers 1", "--workers 2", "--workers 64")

# What isn't a command line. There is no such file, so a program that opened it first would end with another status.
NO_FILE = "no-such-file.script"
WRONG_LINES = (
    "replay",
    "replay --workers 1",
    f"replay {NO_FILE} --workers",
    f"replay {NO_FILE} --batch 1 --workers",
    f"replay {NO_FILE} --workers 1 --batch",
    f"replay {NO_FILE} --workers 2 --workers 2",
    f"replay {NO_FILE} --batch 2 --workers 2 --batch 2",
    f"replay {NO_FILE} --workers 0",
    f"replay {NO_FILE} --workers 65",
    f"replay {NO_FILE} --workers 18446744073709551617",
    f"replay {NO_FILE} --batch 0",
    f"replay {NO_FILE} --batch 4097",
    f"replay {NO_FILE} --batch 18446744073709551617",
    f"replay {NO_FILE} --workers +1",
    f"replay {NO_FILE} --workers 0x1",
    f"replay {NO_FILE} --batch one",
    f"replay {NO_FILE} --groups 2",
    f"replay {NO_FILE} more",
    f"audit {NO_FILE}",
    f"audit {NO_FILE} / --workers 1",
)

# Rows whose output goes to a device that is full. Only the last flush of the first two writes anything; the third one's
# output is longer than what is gathered.
FULL = ("nothing-primed", "audit-made", "many-reads")
DEVICE = "/dev/full"


def directives(script):
    """Returns what the comments at the script's head ask for: the path of an audit, if it is one, the exit status, and
    the bytes on standard error."""
    audited, status, complaint = None, 0, b""
    for line in script.split(b"\n"):
        if not line.startswith(b"#"):
            break
        if line.startswith(b"# audit "):
            audited = line[len(b"# audit ") :].decode()
        elif line.startswith(b"# status "):
            status = int(line[len(b"# status ") :])
        elif line.startswith(b"# stderr "):
            complaint = line[len(b"# stderr ") :] + b"\n"
    return audited, status, complaint


def first_difference(wanted, got):
    """Returns what tells two outputs apart: the first line in which they differ, in both."""
    ours, theirs = wanted.split(b"\n"), got.split(b"\n")
    for number, (one, other) in enumerate(zip(ours, theirs), 1):
        if one != other:
            return f"line {number}: wanted {one!r}, got {other!r}"
    return f"wanted {len(ours)} lines, got {len(theirs)}"


def faults(command, wanted, status, complaint):
    """Runs a command and returns what is wrong, in lines; none where it prints and ends as it has to. Where `wanted` is
    None its output goes to a device that is full."""
    try:
        with contextlib.ExitStack() as opened:
            out = subprocess.PIPE if wanted is not None else opened.enter_context(open(DEVICE, "wb"))
            how = {"stdin": subprocess.DEVNULL, "stdout": out, "stderr": subprocess.PIPE}
            done = subprocess.run(command, timeout=SECONDS, **how)
    except OSError as failed:
        return [f"can't start the program: {failed}"]
    except subprocess.TimeoutExpired:
        return [f"no end after {SECONDS} seconds"]
    found = []
    if done.returncode != status:
        found.append(f"exit status: wanted {status}, got {done.returncode}")
    if done.stdout != wanted:
        found.append(f"standard output: {first_difference(wanted, done.stdout)}")
    if done.stderr != complaint:
        found.append(f"standard error: wanted {complaint!r}, got {done.stderr[-300:]!r}")
    return found


def runs_of_row(words, path):
    """Returns each run of a row: its name, and what `faults` is given."""
    audited, status, complaint = directives(path.read_bytes())
    wanted = path.with_suffix(".expected").read_bytes()
    if audited is not None:
        return [(path.stem, [*words, "audit", str(path), audited], wanted, status, complaint)]
    options = ["", *LIMITS, *(WORKERS if path.stem in SHARED else ())]
    plain = [*words, "replay", str(path)]
    return [(f"{path.stem} {it}".strip(), plain + it.split(), wanted, status, complaint) for it in options]


def runs_of_wrong_lines(words):
    """Returns the runs of what isn't a command line."""
    return [(f"usage of {it}", [*words, *it.split()], b"", 2, b"usage\n") for it in WRONG_LINES]


def runs_on_a_full_device(words, rows):
    """Returns the runs of rows whose output can't be written."""
    runs = [runs_of_row(words, path)[0] for path in rows if path.stem in FULL]
    return [(f"full device for {name}", command, None, 3, b"cannot open\n") for name, command, *_ in runs]


def make(room):
    """Writes the rows that made.py makes into a folder, and those whose scripts are examples."""
    for name, script, wanted in made.rows():
        (room / f"{name}.script").write_bytes(script)
        (room / f"{name}.expected").write_bytes(wanted)
    for wanted in HERE.glob("examples/*.expected"):
        shutil.copy(EXAMPLES / f"{wanted.stem}.script", room / f"example-{wanted.stem}.script")
        shutil.copy(wanted, room / f"example-{wanted.name}")


def run(words, only, room):
    """Makes the runs with that in their name, as many side by side as there are processors. Returns how many held, and
    how many failed."""
    make(room)
    rows = sorted([*HERE.glob("*/*.script"), *room.glob("*.script")], key=lambda it: it.stem)
    runs = [it for path in rows for it in runs_of_row(words, path)] + runs_of_wrong_lines(words)
    runs += runs_on_a_full_device(words, rows)
    runs = [it for it in runs if only in it[0]]
    passed = failed = 0
    with concurrent.futures.ThreadPoolExecutor(os.cpu_count()) as pool:
        for (name, *_), found in zip(runs, pool.map(lambda it: faults(*it[1:]), runs)):
            passed, failed = passed + (not found), failed + bool(found)
            if found:
                print(f"FAIL {name}")
            for line in found:
                print(f"  {line}")
    return passed, failed


def main():
    parser = argparse.ArgumentParser(description=__doc__, formatter_class=argparse.RawDescriptionHelpFormatter)
    parser.add_argument("--only", default="", help="a part of a run's name: the row, and the options it is run with")
    parser.add_argument("program", help="the program, and what stands before `replay`")
    parser.add_argument("arguments", nargs=argparse.REMAINDER)
    args = parser.parse_args()
    if not shutil.which(args.program):
        print(f"no program {args.program}: no row was run\n0 passed, 1 failed")
        return 1
    with tempfile.TemporaryDirectory(prefix="rows-") as room:
        passed, failed = run([args.program] + args.arguments, args.only, pathlib.Path(room))
    print(f"{passed} passed, {failed} failed")
    return 1 if failed or not passed else 0


if __name__ == "__main__":
    sys.exit(main())
