#!/usr/bin/env python3
"""Compares what each row has to print with what a second observer prints, the one in model/.

    tests/rows/agree.py [--only PART] [--write]

The observer in model/ is written after the rules of docs/COMPATIBILITY.md and shares no line with the program, so that
what rows have to print can be worked out and checked without it. With `--write` the outputs of rows that lie in files
are made anew by it, for rows that are new or whose scripts were changed. Audits and scripts with a bad line are left
out. The last line is `N passed, M failed`; the exit status is 0 if none failed.
"""
import argparse
import pathlib
import sys
import tempfile

sys.dont_write_bytecode = True
import run  # noqa: E402

sys.path.insert(0, str(run.HERE / "model"))
from observer import replayed  # noqa: E402


def main():
    parser = argparse.ArgumentParser(description=__doc__, formatter_class=argparse.RawDescriptionHelpFormatter)
    parser.add_argument("--only", default="", help="a part of a row's name")
    parser.add_argument("--write", action="store_true", help="make the outputs of rows in files anew")
    args = parser.parse_args()
    passed = failed = 0
    with tempfile.TemporaryDirectory(prefix="rows-") as room:
        run.make(pathlib.Path(room))
        rows = sorted([*run.HERE.glob("*/*.script"), *pathlib.Path(room).glob("*.script")], key=lambda it: it.stem)
        for path in (it for it in rows if args.only in it.stem):
            script, kept = path.read_bytes(), path.with_suffix(".expected")
            audited, status, _ = run.directives(script)
            if audited is not None or status:
                continue
            shown = replayed(script)
            if args.write:
                kept.write_bytes(shown)
            wanted = kept.read_bytes()
            passed, failed = passed + (shown == wanted), failed + (shown != wanted)
            if shown != wanted:
                print(f"FAIL {path.stem}\n  {run.first_difference(wanted, shown)}")
    print(f"{passed} passed, {failed} failed")
    return 1 if failed else 0


if __name__ == "__main__":
    sys.exit(main())
