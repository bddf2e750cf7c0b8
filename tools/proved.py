"""Where the proved program is, and of which sources it was made.

tools/building.py proves and builds it; a passing `rt ci` leaves the same executable behind. Neither says later of which
sources an executable that lies there was made. So a file of our own, out/observer/built.json, keeps what is known of
the last build: a hash of the sources, a hash of the executable, how long the build took, and the last line of the gate.
The executable is started only if both hashes are still right.
"""
import fcntl
import hashlib
import json
import os
import subprocess
import sys
import time

import building
from common import KEPT, NOT_BUILT, PROGRAM, PROGRAM_CRATE, TOP, how_long, say

BUILT = os.path.join(KEPT, "built.json")


def files_below(folder):
    """Returns the files of a folder and the folders in it, in a fixed order."""
    found = []
    for at, folders, files in os.walk(folder):
        folders.sort()
        found += [os.path.join(at, name) for name in sorted(files)]
    return found


def sources():
    """Returns the files that say what the program is: of each crate src/, specs/ and proofs/, and two at the top."""
    found = [os.path.join(TOP, name) for name in ("crates.txt", "HANDLES")]
    for crate in sorted(os.listdir(os.path.join(TOP, "crates"))):
        for part in ("src", "specs", "proofs"):
            found += files_below(os.path.join(TOP, "crates", crate, part))
    return found


def hash_of_file(path):
    with open(path, "rb") as it:
        return hashlib.sha256(it.read()).hexdigest()


def hash_of_sources():
    """Returns one hash of the toolchain's version and of every source's name and content."""
    version = subprocess.run(["rt", "version"], stdin=subprocess.DEVNULL, stdout=subprocess.PIPE, check=True).stdout
    whole = hashlib.sha256(version)
    for path in sources():
        whole.update(f"\n{os.path.relpath(path, TOP)} {hash_of_file(path)}".encode())
    return whole.hexdigest()


def kept():
    """Returns what is known of the last build; nothing where there was none."""
    try:
        with open(BUILT, encoding="utf-8") as it:
            found = json.load(it)
    except (OSError, ValueError):
        return {}
    return found if isinstance(found, dict) else {}


def note(found):
    """Writes what is known of the last build."""
    os.makedirs(KEPT, exist_ok=True)
    with open(BUILT + ".new", "w", encoding="utf-8") as it:
        json.dump(found, it, indent=1)
        it.write("\n")
    os.replace(BUILT + ".new", BUILT)


def keep(of_sources, seconds=None):
    """Notes that the executable that lies there now was proved and built from these sources."""
    found = kept()
    found.update(sources=of_sources, program=hash_of_file(PROGRAM))
    # A gate that came to its end was one of another build.
    found.pop("gate", None)
    if seconds is not None:
        found.update(seconds=round(seconds, 1))
    note(found)


def is_built(of_sources):
    """Returns whether the executable that lies there was proved and built from these sources."""
    found = kept()
    if found.get("sources") != of_sources or not os.path.isfile(PROGRAM):
        return False
    return found.get("program") == hash_of_file(PROGRAM)


def build(of_sources):
    """Proves and builds the program. Returns whether all went well, and says what went wrong."""
    before = kept().get("seconds")
    began = time.monotonic()
    if not building.build(PROGRAM_CRATE, before if isinstance(before, (int, float)) else None):
        return False
    seconds = time.monotonic() - began
    if not os.path.isfile(PROGRAM):
        say("the program was not left where it belongs")
        return False
    if hash_of_sources() != of_sources:
        say("the sources changed while the program was built: start again")
        return False
    keep(of_sources, seconds)
    say(f"proved and built in {how_long(seconds)}")
    return True


def is_made():
    """Builds the program unless that was done. Of two that come at once the second waits for the first."""
    os.makedirs(KEPT, exist_ok=True)
    with open(os.path.join(KEPT, "lock"), "w", encoding="utf-8") as lock:
        fcntl.flock(lock, fcntl.LOCK_EX)
        of_sources = hash_of_sources()
        return is_built(of_sources) or build(of_sources)


def is_there():
    """Returns whether the proved program is there, after building it where it must be. Says why where it isn't."""
    try:
        return is_built(hash_of_sources()) or is_made()
    except FileNotFoundError as failed:
        say(f"can't find {failed.filename}: the Rattle toolchain's `rt` has to be on the PATH")
    except (OSError, subprocess.CalledProcessError) as failed:
        say(f"can't build the program: {failed}")
    except KeyboardInterrupt:
        say("stopped before the program was built")
    return False


def start(arguments):
    """Becomes the proved program. Comes back only where it can't be built or started, with an exit status for that."""
    if is_there():
        try:
            os.execv(PROGRAM, [PROGRAM] + arguments)
        except OSError as failed:
            say(f"can't start the program: {failed}")
    return NOT_BUILT


def main(words):
    """Does what the gate asks.

    `hash` prints the hash of the sources, `keep HASH` notes that what lies there was proved and built from these, and
    `gate HASH LINE` how the gate of these ended.
    """
    if words == ["hash"]:
        print(hash_of_sources())
        return 0
    if len(words) == 2 and words[0] == "keep":
        if not os.path.isfile(PROGRAM) or hash_of_sources() != words[1]:
            return 1
        keep(words[1])
        return 0
    if len(words) == 3 and words[0] == "gate":
        if not is_built(words[1]):
            return 1
        note({**kept(), "gate": words[2]})
        return 0
    print("usage: tools/proved.py hash | keep HASH | gate HASH LINE", file=sys.stderr)
    return 2


if __name__ == "__main__":
    sys.exit(main(sys.argv[1:]))
