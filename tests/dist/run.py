#!/usr/bin/env python3
"""tests/dist/run.py [PROGRAM] [NAME ..]: what tools/dist packs, tried as one who has no toolchain would use it.

It packs PROGRAM, or without one the proved program, and tries the archive, the package of Debian, the man page, the
completion and the unit; and the commands of ./observer that ask a server, with that program as the server. What can't
be tried on a machine, since a tool isn't there or root is needed, is told as skipped and counted nowhere. The last line
is `N passed, M failed`.
"""
import os
import sys
import time

sys.dont_write_bytecode = True
from packed import Pack, Skipped  # noqa: E402
import archive  # noqa: E402
import asked  # noqa: E402
import boxed  # noqa: E402
import manuals  # noqa: E402
import package  # noqa: E402
import stamps  # noqa: E402
from common import PROGRAM  # noqa: E402
from server import Program  # noqa: E402

MODULES = (archive, package, boxed, manuals, stamps, asked)


def tests():
    """Yields each test with its name, module by module."""
    for module in MODULES:
        for name, it in list(vars(module).items()):
            if name.startswith("test_"):
                yield name.partition("test_")[2], it


def is_done(name, test, pack):
    """Does a test, and tells how it ended. Returns whether it passed, or None where it is skipped."""
    began = time.monotonic()
    try:
        test(pack)
    except Skipped as why:
        print(f"skipped {name}: {why}", flush=True)
        return None
    except Exception as why:  # each failure is told, and the others go on
        print(f"FAILED {name}: {type(why).__name__} {why}", flush=True)
        return False
    print(f"ok {name} ({time.monotonic() - began:.1f} s)", flush=True)
    return True


def main(words):
    given = os.path.realpath(words.pop(0)) if words and os.path.isfile(words[0]) else None
    Program.PROGRAM = given or PROGRAM
    pack = Pack(Program.PROGRAM, ["--program", given] if given else [])
    try:
        done = [is_done(name, test, pack) for name, test in tests() if not words or name in words]
    finally:
        pack.end()
    print(f"{done.count(True)} passed, {done.count(False)} failed")
    return done.count(False) > 0


if __name__ == "__main__":
    sys.exit(main(sys.argv[1:]))
