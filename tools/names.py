#!/usr/bin/env python3
"""Checks the names of definitions, and the sizes of crates and files.

    tools/names.py

What it refuses:

- a definition (in specs/ of a crate) whose name is a single lower-case word, unless docs/GLOSSARY.md lists it under
  "Names of one word": such a name seldom says of what it speaks;
- a name that definitions of two or more crates have, unless docs/GLOSSARY.md lists it under "Names in several crates",
  with the one meaning that it has in all of them;
- an entry of these two lists whose crates are not those that define the name;
- a crate of more than 100 functions, or of more than 125 with those that it derives, and a source file of more than 800
  lines. A `drop` by hand counts no more than a derived one.

Each crate counts as one, and so does the glossary. The last line is `N passed, M failed`; the exit status is 0 if
nothing failed.
"""
import collections
import os
import re
import sys

TOP = os.path.dirname(os.path.dirname(os.path.realpath(__file__)))
CRATES = os.path.join(TOP, "crates")
GLOSSARY = os.path.join(TOP, "docs", "GLOSSARY.md")
MOST_FUNCTIONS = 100
MOST_WITH_DERIVED = 125
MOST_LINES = 800

# A declaration begins its line: words like `abbrev pub`, the name, parameters, a colon. In a module it is indented.
PARAMETERS = r"(?:\{[^}]*\}|\((?:[^()]|\([^()]*\))*\))"
DECLARATION = re.compile(
    rf"(?:(?:pub|abbrev|unfoldable|opaque|data|record)\s+)*([^\s:(){{}},]+)\s*(?:{PARAMETERS}\s*)*(?::(?=\s)|$)"
)
NO_NAMES = {"use", "module", "--", "}", ")", "pub"}
ONE_WORD = re.compile(r"[a-z]+")
FUNCTION = re.compile(r"^\s*(?:pub(?:\([a-z]+\))?\s+)?(?:const\s+)?(?:unsafe\s+)?fn\s+(?!drop\b)\w+", re.M)
DERIVES = re.compile(r"^\s*#\[derive\(([^)]*)\)\]", re.M)
# These derive no function that runs.
MARKERS = {"Copy", "Drop", "Eq", "Send", "Sync"}
NAMES_OF_ONE_WORD = "Names of one word"
NAMES_IN_SEVERAL_CRATES = "Names in several crates"


def files_in(crate, folders, ending):
    """Yields the files of a crate in these folders that have this ending, in order."""
    for folder in folders:
        for at, below, names in os.walk(os.path.join(CRATES, crate, folder)):
            below.sort()
            yield from (os.path.join(at, it) for it in sorted(names) if it.endswith(ending))


def text_of(file):
    with open(file, encoding="utf-8") as it:
        return it.read()


def names_in(file):
    """Yields the names that a file of specs/ declares."""
    in_module = False
    for line in text_of(file).split("\n"):
        if line and not line[0].isspace():
            in_module = line.startswith(("module ", "pub module "))
        depth = 2 if in_module else 0
        if line[:depth].strip() or line[depth : depth + 1].isspace():
            continue
        found = DECLARATION.match(line, depth)
        if found and found[1] not in NO_NAMES:
            yield found[1]


def definitions():
    """Returns the definitions of all crates, each as crate, file and name."""
    found = []
    for crate in sorted(os.listdir(CRATES)):
        for file in files_in(crate, ["specs"], ".antt"):
            found += [(crate, os.path.relpath(file, CRATES), name) for name in names_in(file)]
    return found


def listed_under(heading):
    """Returns the names of the glossary's table under this heading, each with the crates of its second column."""
    _, found, after = text_of(GLOSSARY).partition(f"\n## {heading}\n")
    if not found:
        raise ValueError(f"docs/GLOSSARY.md has no heading `{heading}`")
    section = after.partition("\n## ")[0]
    rows = re.findall(r"^\| `([^`]+)` \| ([^|]*) \|", section, re.M)
    return {name: set(crates.split(", ")) for name, crates in rows}


def wrong_names(found):
    """Yields what is wrong with the names of definitions: of which crate (or the glossary), and what."""
    one_word, several = listed_under(NAMES_OF_ONE_WORD), listed_under(NAMES_IN_SEVERAL_CRATES)
    crates_of = collections.defaultdict(set)
    for crate, file, name in found:
        crates_of[name].add(crate)
        if ONE_WORD.fullmatch(name) and name not in one_word:
            yield crate, f"{file}: `{name}` is a single word: say of what, or list it under `{NAMES_OF_ONE_WORD}`"
    for name, crates in sorted(crates_of.items()):
        if len(crates) > 1 and name not in several:
            for crate in sorted(crates):
                others = ", ".join(sorted(crates - {crate}))
                why = f"is a definition of {others} too: rename it, or list it under `{NAMES_IN_SEVERAL_CRATES}`"
                yield crate, f"{crate}: `{name}` {why}"
    for heading, listed in ((NAMES_OF_ONE_WORD, one_word), (NAMES_IN_SEVERAL_CRATES, several)):
        for name, crates in sorted(listed.items()):
            if crates != crates_of[name]:
                found = ", ".join(sorted(crates_of[name])) or "no crate"
                yield GLOSSARY, f"docs/GLOSSARY.md: `{name}` under `{heading}` is a definition of {found}"
    for name in sorted(several):
        if len(crates_of[name]) == 1:
            yield GLOSSARY, f"docs/GLOSSARY.md: only one crate has `{name}`, which is under `{NAMES_IN_SEVERAL_CRATES}`"


def derived_in(text):
    """Returns how many functions a source file derives."""
    traits = (it.strip() for listed in DERIVES.findall(text) for it in listed.split(","))
    return sum(it not in MARKERS for it in traits if it)


def wrong_sizes(crates):
    """Yields the crates of too many functions or with files of too many lines, and what is too much."""
    for crate in crates:
        sources = [text_of(file) for file in files_in(crate, ["src"], ".rt")]
        count = sum(len(FUNCTION.findall(it)) for it in sources)
        if count > MOST_FUNCTIONS:
            yield crate, f"{crate}: {count} functions, and it may have {MOST_FUNCTIONS}"
        count += sum(map(derived_in, sources))
        if count > MOST_WITH_DERIVED:
            yield crate, f"{crate}: {count} functions with derived ones, and it may have {MOST_WITH_DERIVED}"
        for file in files_in(crate, ["src", "specs", "proofs"], (".rt", ".antt")):
            count = text_of(file).count("\n")
            if count > MOST_LINES:
                yield crate, f"{os.path.relpath(file, CRATES)}: {count} lines, and a file has at most {MOST_LINES}"


def main():
    crates = sorted(it for it in os.listdir(CRATES) if os.path.isdir(os.path.join(CRATES, it, "src")))
    try:
        wrong = [*wrong_names(definitions()), *wrong_sizes(crates)]
    except (OSError, ValueError) as why:
        wrong = [(GLOSSARY, str(why))]
    for _, why in wrong:
        print(why)
    failed = len({subject for subject, _ in wrong})
    print(f"{len(crates) + 1 - failed} passed, {failed} failed")
    return 1 if failed else 0


if __name__ == "__main__":
    sys.exit(main())
