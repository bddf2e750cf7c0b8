#!/usr/bin/env python3
"""Compares the recipes of docs/CHANGING.md with the files that name their examples.

    tools/recipes.py

A recipe with an example has a line such as

    Example: setACL, which files name as `SetAcl` or `set_acl`.

Then each file of a crate of code (in src/, specs/ or proofs/) that names it so has to be named by the recipe, and the
other way round. A file is named by its path from crates/ or, after that, from its crate or its folder; if a step says
"(if ..)" right after a file's name, the example needn't be named there. Files that meet an example in another way are
in a line such as

    Elsewhere: `forwarding`, of the client's write.

Each recipe with an example counts as one. The last line is `N passed, M failed`; the exit status is 0 if nothing
failed.
"""
import os
import re
import sys

TOP = os.path.dirname(os.path.dirname(os.path.realpath(__file__)))
CRATES = os.path.join(TOP, "crates")
CHANGING = os.path.join(TOP, "docs", "CHANGING.md")
# Programs that measure or show something; no recipe touches them.
NO_PRODUCT = {"load_runner", "batch_runner", "engine_example"}
FOLDERS = ("src", "specs", "proofs")
EXAMPLE = re.compile(r"^Example: (\S+), which files name as (.*?)\.$", re.M | re.S)
ELSEWHERE = re.compile(r"^Elsewhere: (.*?)\.$", re.M | re.S)
QUOTED = re.compile(r"`([^`\n]+)`(\s+\(if\b)?")


def crates_of_code():
    return sorted(it for it in os.listdir(CRATES) if not it.endswith("_tests") and it not in NO_PRODUCT)


def files_of(crate):
    """Yields the files of a crate, each as its path from crates/."""
    for folder in FOLDERS:
        for at, _, names in os.walk(os.path.join(CRATES, crate, folder)):
            yield from (os.path.relpath(os.path.join(at, it), CRATES) for it in names if it.endswith((".rt", ".antt")))


def naming(words, passed_over):
    """Returns the files that name one of the words, alone or in a longer name of several words."""
    word = re.compile("(?:" + "|".join(map(re.escape, words)) + ")(?![a-z])")
    found = set()
    for crate in crates_of_code():
        for file in [] if crate in passed_over else files_of(crate):
            with open(os.path.join(CRATES, file), encoding="utf-8") as it:
                if word.search(it.read()):
                    found.add(file)
    return found


def place_of(name, crate, folder):
    """Returns the crate, the folder and the path of what a recipe names, or None where that is no file of a crate."""
    if not name.endswith((".rt", ".antt")):
        is_crate = os.path.isdir(os.path.join(CRATES, name, "src"))
        return (name, folder, None) if is_crate else None
    parts = name.split("/")
    if os.path.isdir(os.path.join(CRATES, parts[0], "src")) and len(parts) > 1:
        crate, parts = parts[0], parts[1:]
    elif parts[0] not in FOLDERS:
        parts = [*folder, *parts]
    return crate, parts[:-1] if len(parts) < 3 else parts[:1], "/".join([crate, *parts])


def named_in(recipe):
    """Returns the files that a recipe names, and those of them in which the example needn't be named."""
    crate, folder, named, free = "", ["src"], set(), set()
    for name, is_free in QUOTED.findall(recipe):
        found = place_of(name, crate, folder)
        if found is None:
            continue
        crate, folder, path = found
        if path is not None:
            named.add(path)
            if is_free:
                free.add(path)
    return named, free


def judged(title, recipe):
    """Prints what is wrong with a recipe that has an example, and returns whether nothing is; None without one."""
    example = EXAMPLE.search(recipe)
    if example is None:
        return None
    elsewhere = ELSEWHERE.search(recipe)
    passed_over = set(re.findall(r"`(\w+)`", elsewhere.group(1))) if elsewhere else set()
    steps = recipe[max(it.end() for it in (example, elsewhere) if it) :]
    words = re.findall(r"`(\w+)`", example.group(2))
    wanted, (named, free) = naming(words, passed_over), named_in(steps)
    lines = [f"{it} isn't named" for it in sorted(wanted - named)]
    lines += [f"{it} doesn't name {example.group(1)}" for it in sorted(named - wanted - free)]
    lines += [f"there is no {it}" for it in sorted(free) if not os.path.isfile(os.path.join(CRATES, it))]
    for it in lines:
        print(f"FAIL {title}: {it}")
    print(f"{title}: {len(wanted)} files", flush=True)
    return not lines


def main():
    with open(CHANGING, encoding="utf-8") as it:
        recipes = re.split(r"^### ", it.read().split("\n## House forms")[0], flags=re.M)[1:]
    found = [judged(*it.split("\n", 1)) for it in recipes]
    passed, failed = found.count(True), found.count(False)
    print(f"{passed} passed, {failed} failed")
    return failed > 0


if __name__ == "__main__":
    sys.exit(main())
