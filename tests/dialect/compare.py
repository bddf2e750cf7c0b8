#!/usr/bin/env python3
"""Compares what rows of the later dialect have to print with what the observer in tests/rows/model prints.

    tests/dialect/compare.py [FOLDER ..] [--only PART] [--write]

Without a folder those of this repository are taken: rows/ and rows/recorded/. A row is NAME.script and
NAME.expected. Where that ends with the end line, it is all that the row has to print, and each byte is compared. With
`--write` the observer in tests/rows/model makes such an output anew, and that of a row which has none yet.

A row without an end line was recorded beside a real server, and is never written here. Of what it prints these lines
are compared: what clients ask of the leader, and whether their sessions live, in this order; and of each connection all
that it is sent. Names that a real server lists in any order are sorted there. Of a recorded row the digests are
compared, too, which a leader of 3.6 and later writes after each transaction: it is a sum over all nodes, with fields
that no reply shows. At the head of the script may be told

    # session 0200000000000001 was 0200001b78f10000         what number a session had where the row was recorded
    # digests hold but at 10000000f 100000010               the zxids whose digests aren't the tree's; else all are

The last line is `N passed, M failed`; the exit status is 0 if none failed.
"""
import argparse
import collections
import pathlib
import struct
import sys
import zlib

sys.dont_write_bytecode = True
HERE = pathlib.Path(__file__).resolve().parent
ROWS = HERE.parent / "rows"
sys.path[:0] = [str(ROWS), str(ROWS / "model")]
from run import first_difference  # noqa: E402
from observer import play, prepared, replayed  # noqa: E402
from transactions import DIGEST, txn_of  # noqa: E402

FOLDERS = (HERE / "rows", HERE / "rows" / "recorded")
ASKED = ("L 00000001ffffffffffffffff", "L 00000006ffffffffffffffff", "L close")  # a REQUEST, a REVALIDATE, and the end


# ---- what is printed


def told_apart(shown):
    """Returns the lines for the leader that count, and those of each connection."""
    lines = collections.defaultdict(list)
    for line in shown.decode().splitlines():
        if line.startswith("C "):
            lines["connection " + line.split(" ")[1]].append(line)
        elif line.startswith(ASKED):
            lines["leader"].append(line)
    return lines


def differences(wanted, got):
    """Returns what tells the outputs of a recorded row apart, in lines."""
    wanted, got, found = told_apart(wanted), told_apart(got), []
    for who in sorted({*wanted, *got}):
        ours, theirs = "\n".join(wanted[who]).encode(), "\n".join(got[who]).encode()
        if ours != theirs:
            found.append(f"{who}, {first_difference(ours, theirs)}")
    return found


# ---- digests


def directives(script):
    """Returns the sessions that had other numbers where the row was recorded, and the zxids whose digests aren't the
    tree's, or None where digests aren't compared."""
    sessions, but = {}, None
    for line in script.decode().splitlines():
        words = line.split(" ")
        if words[0] != "#":
            break
        if words[1::2] == ["session", "was"]:
            sessions[int(words[2], 16)] = int(words[4], 16)
        elif words[1:3] == ["digests", "hold"]:
            but = [int(it, 16) for it in words[5:]]
    return sessions, but


def digest_of(tree, sessions):
    """The digest of a tree as a leader makes it: a sum over the nodes but those below /zookeeper."""
    total = 0
    for path, node in tree.nodes.items():
        if not path.startswith(b"/zookeeper/"):
            times = struct.pack(">5q", node.czxid, node.mzxid, node.pzxid, node.ctime, node.mtime)
            versions = struct.pack(">3i", node.version, node.cversion, node.aversion)
            owner = struct.pack(">q", sessions.get(node.owner, node.owner))
            total += zlib.crc32((b"" if path == b"/" else path) + (node.content or b"") + times + versions + owner)
    return total % 2**64


def told_digest(content, dialect):
    """The digest behind a transaction; None where there is none."""
    try:
        has_digest = txn_of(content[:-DIGEST], dialect) == txn_of(content, dialect)
    except Exception:
        return None
    return int.from_bytes(content[-8:], "big") if has_digest else None


class Digests:
    """Compares the digests of a row, each after its transaction."""

    def __init__(self, learner, sessions):
        self.learner, self.sessions, self.told, self.count, self.differ = learner, sessions, {}, 0, []
        self.take, self.apply = learner.txn_of, learner.applied
        learner.txn_of, learner.applied = self.taken, self.applied

    def taken(self, found):
        txn = self.take(found)
        self.told[txn.zxid] = told_digest(found.content, self.learner.dialect)
        return txn

    def applied(self, txn, take=None):
        effect = self.apply(txn, take)
        told = self.told.get(txn.zxid)
        if told is not None:
            self.count += 1
            self.differ += [txn.zxid] if told != digest_of(self.learner.tree, self.sessions) else []
        return effect


def of_digests(script):
    """Returns what is wrong with the digests of a row, in lines."""
    sessions, but = directives(script)
    if but is None:
        return []
    observer, events = prepared(script)
    digests = Digests(observer.learner, sessions)
    for word, rest in events:
        play(observer, word, rest)
    if digests.differ == but and digests.count > len(but):
        return []
    return [f"{digests.count} digests, other than the tree's: " + " ".join(f"{it:x}" for it in digests.differ)]


# ---- rows


def is_whole(output):
    """Returns whether this is all that a row has to print, and not what was recorded beside a real server."""
    return output.rstrip(b"\n").rpartition(b"\n")[2].startswith(b"end ")


def faults(path):
    """Returns what is wrong with what the model makes of a row, in lines."""
    script, wanted = path.read_bytes(), path.with_suffix(".expected").read_bytes()
    got = replayed(script)
    if is_whole(wanted):
        return [] if wanted == got else [first_difference(wanted, got)]
    return differences(wanted, got) + of_digests(script)


def write(path):
    """Makes the output of a row by the model, unless it was recorded."""
    kept = path.with_suffix(".expected")
    before, made = kept.read_bytes() if kept.exists() else None, replayed(path.read_bytes())
    if made != before and (before is None or is_whole(before)):
        kept.write_bytes(made)
        print(f"wrote {kept}")


def main():
    parser = argparse.ArgumentParser(description=__doc__, formatter_class=argparse.RawDescriptionHelpFormatter)
    parser.add_argument("--only", default="", help="a part of a row's name")
    parser.add_argument("--write", action="store_true", help="make the outputs anew that weren't recorded")
    parser.add_argument("folders", nargs="*", type=pathlib.Path, help="folders of rows")
    args = parser.parse_args()
    passed = failed = 0
    for path in sorted(row for folder in args.folders or FOLDERS for row in folder.glob("*.script")):
        if args.only not in path.stem:
            continue
        if args.write:
            write(path)
        found = faults(path)
        passed, failed = passed + (not found), failed + bool(found)
        for line in found:
            print(f"FAIL {path.stem}\n  {line}")
    print(f"{passed} passed, {failed} failed")
    return 1 if failed or not passed else 0


if __name__ == "__main__":
    sys.exit(main())
