#!/usr/bin/env python3
"""Tries the edits that the gate leaves out, and reads that each edit still applies.

    tools/edits.py NAME ..           tries crates/NAME/more-edits/*.edit: the prover has to refuse each
    tools/edits.py                   tries those of all crates
    tools/edits.py --apply-only      reads that each edit of must-fail/ and more-edits/ applies, and proves nothing

An edit turns the meaning of a function's body. It is a file with a line `file: src/lib.rt` (or a file of specs/ or
proofs/) and then pairs of lines, `old: TEXT` and `new: TEXT`, which are taken in order; each old text stands in its
file exactly once. `rt must-fail` and the gate try those of must-fail/; the others are tried here, on a copy of the
repository in which they stand in the place of these.

The last line is `N passed, M failed`; the exit status is 0 if nothing failed, 1 if something did, and 2 for a
command line that is none.
"""
import argparse
import os
import re
import shutil
import subprocess
import sys
import tempfile

TOP = os.path.dirname(os.path.dirname(os.path.realpath(__file__)))
FOLDERS = ("must-fail", "more-edits")
TOLD = re.compile(r"(?:rt: )?must-fail (\S+\.edit): (.*)")
REFUSED = "refused, as it must be"


def crates_with(folder):
    """Returns the crates that have this folder, in order."""
    crates = os.path.join(TOP, "crates")
    return [it for it in sorted(os.listdir(crates)) if os.path.isdir(os.path.join(crates, it, folder))]


# ---- whether an edit applies


def pairs_of(text):
    """Returns an edit's pairs in order, each as file, old text and new text. Raises ValueError where it is no edit."""
    pairs, path, old = [], None, None
    for line in text.split("\n"):
        word, blank, rest = line.partition(" ")
        if word == "file:":
            path = rest.strip()
        elif word == "old:":
            if old is not None:
                raise ValueError("an `old:` has no `new:`")
            old = rest
        elif word == "new:":
            if not path or not old:
                raise ValueError("a `new:` has no `file:` or no `old:` before it")
            pairs.append((path, old, rest))
            old = None
    if not pairs or old is not None:
        raise ValueError("an `old:` has no `new:`" if pairs else "it has no pair of `old:` and `new:`")
    return pairs


def text_of(crate, path):
    """Returns the text of a crate's file that an edit may change."""
    if os.path.normpath(path) != path or not path.startswith(("src/", "specs/", "proofs/")):
        raise ValueError(f"{path} is no file of src/, specs/ or proofs/")
    with open(os.path.join(crate, path), encoding="utf-8") as it:
        return it.read()


def apply(crate, edit):
    """Applies an edit to the texts of a crate's files, in memory. Raises ValueError or OSError where it doesn't apply."""
    if not re.fullmatch(r"[A-Za-z0-9_-][A-Za-z0-9_.-]*\.edit", os.path.basename(edit)):
        raise ValueError("its name is not of letters, digits, _, - and ., with .edit at the end")
    with open(edit, encoding="utf-8") as it:
        pairs = pairs_of(it.read())
    texts = {}
    for path, old, new in pairs:
        before = texts[path] if path in texts else text_of(crate, path)
        found = before.count(old)
        if found != 1:
            raise ValueError(f"an `old:` text stands in {path} {found} times: {old.strip()[:60]}")
        texts[path] = before.replace(old, new)


def read_all():
    """Reads that each edit of each crate applies. Returns how many do, and how many don't."""
    passed = failed = 0
    for folder in FOLDERS:
        for name in crates_with(folder):
            crate = os.path.join(TOP, "crates", name)
            for edit in sorted(os.listdir(os.path.join(crate, folder))):
                try:
                    apply(crate, os.path.join(crate, folder, edit))
                    passed += 1
                except (OSError, ValueError) as why:
                    failed += 1
                    print(f"{name}/{folder}/{edit} doesn't apply: {why}")
    return passed, failed


# ---- whether the prover refuses it


def left_out(folder, names):
    """Returns what a copy of the repository does without: its history, and what checks kept of their own work."""
    dropped = {it for it in names if it in (".git", "incremental")}
    return dropped | ({"out"} & set(names) if os.path.samefile(folder, TOP) else set())


def copy_with_edits(room, names):
    """Copies the repository, and puts the edits of these crates where `rt must-fail` looks for them."""
    there = os.path.join(room, "repository")
    shutil.copytree(TOP, there, ignore=left_out)
    for name in names:
        crate = os.path.join(there, "crates", name)
        shutil.rmtree(os.path.join(crate, "must-fail"), ignore_errors=True)
        os.rename(os.path.join(crate, "more-edits"), os.path.join(crate, "must-fail"))
    return there


def count(lines):
    """Prints what was said of each edit. Returns how many were refused, and how many were not."""
    passed = failed = 0
    for line in lines:
        said = TOLD.match(line)
        if not said:
            print(line, end="", flush=True)
            continue
        refused = said.group(2).startswith(REFUSED)
        passed, failed = passed + refused, failed + (not refused)
        print(f"{'ok  ' if refused else 'FAIL'} {said.group(1)}: {said.group(2)}", flush=True)
    return passed, failed


def try_all(names):
    """Tries the further edits of these crates on a copy. Returns how many were refused, and how many were not."""
    with tempfile.TemporaryDirectory(prefix="more-edits-") as room:
        there = copy_with_edits(room, names)
        how = {"cwd": there, "stdin": subprocess.DEVNULL, "stdout": subprocess.PIPE, "stderr": subprocess.STDOUT}
        with subprocess.Popen(["rt", "must-fail"] + names, encoding="utf-8", errors="replace", **how) as ran:
            passed, failed = count(ran.stdout)
    if ran.returncode and not failed:
        print(f"rt must-fail ended with status {ran.returncode}")
        failed = 1
    return passed, failed


def main():
    parser = argparse.ArgumentParser(description=__doc__, formatter_class=argparse.RawDescriptionHelpFormatter)
    parser.add_argument("--apply-only", action="store_true", help="read that each edit applies, and prove nothing")
    parser.add_argument("names", nargs="*", metavar="NAME", help="a crate with a folder more-edits/")
    args = parser.parse_args()
    there = crates_with("more-edits")
    if args.apply_only and args.names:
        parser.error("--apply-only reads those of all crates")
    unknown = [it for it in args.names if it not in there]
    if unknown:
        parser.error(f"no crate with a folder more-edits/: {', '.join(unknown)}")
    try:
        passed, failed = read_all() if args.apply_only else try_all(args.names or there)
    except OSError as why:
        print(f"can't try the edits: {why}")
        passed, failed = 0, 1
    print(f"{passed} passed, {failed} failed")
    return 1 if failed or not passed else 0


if __name__ == "__main__":
    sys.exit(main())
