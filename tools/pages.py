#!/usr/bin/env python3
"""Compares the pages, which are README.md and docs/, with the program and with each other.

    tools/pages.py             compares
    tools/pages.py --print     prints the two tables of docs/OPERATING.md as they have to be

In docs/OPERATING.md it refuses

- an option whose line differs from what `serve --help` prints of its row in crates/serve_options/src/row.rt, and one
  that is missing or that the program doesn't have;
- a fault of crates/values/src/fault.rt whose line doesn't begin with its hint in crates/serve_failures/src/hint.rt,
  word for word, and one that is missing, or that isn't in the program's order.

In every page it refuses (tools/cited.py)

- a link to a file that isn't there, or to a heading that a page doesn't have;
- a word in backticks that looks like a file, a folder, a name of the code (`name`, `crate::Type::name`), a worked row
  or an option, or a name of the code in a picture, and that nothing in the repository is called (words of ZooKeeper,
  Rust and others are listed there). Indented blocks aren't read, nor is docs/measurements, an archive;
- a name that the file beside which it stands doesn't declare: in "`name` in `file`", or in a column whose head names
  the file or its folder;
- a figure of README.md (a number in its text) that isn't in a page to which its paragraph leads, or in no page, if it
  leads to none; and a second toolchain;
- a list of crates in docs/ARCHITECTURE.md that differs from crates.txt in a heading, a crate or the order;
- a list of proofs in docs/INDEX.md that lacks a module of a crate's `proofs` that another crate names, or has one that
  no other crate names.

Each option and each fault counts as one, and so do the links of a page, its names, and each of the last three. The last
line is `N passed, M failed`; the exit status is 0 if nothing failed. tools/manual.py makes the man page and the
completion of the same rows as the table of options.
"""
import os
import re
import sys
from typing import NamedTuple

import cited

TOP = os.path.dirname(os.path.dirname(os.path.realpath(__file__)))
PAGE = os.path.join(TOP, "docs", "OPERATING.md")
ROWS = os.path.join(TOP, "crates", "serve_options", "src", "row.rt")
HINTS = os.path.join(TOP, "crates", "serve_failures", "src", "hint.rt")
FAULTS = os.path.join(TOP, "crates", "values", "src", "fault.rt")
VERSIONS = os.path.join(TOP, "crates", "serve_options", "src", "lib.rt")

TEXT = r'"((?:[^"\\]|\\.)*)"'
ROW = re.compile(rf"const \w+: Row = Row \{{\s*word: {TEXT},\s*value: {TEXT},\s*kind: (.*?),\s*without: (.*?),\s*help:\s*{TEXT},\s*\}};", re.S)
# The hint of a fault in dialect 3.4, and in the later one.
BY_DIALECT = re.compile(
    rf"Fault::(\w+) => match dialect \{{\s*Dialect::Zk34 =>\s*{TEXT},\s*Dialect::Zk38 =>\s*{TEXT},\s*\}}"
)
NUMBER = re.compile(r"from_to!\(([\w:]+), ([\w:]+)\)")


def text_of(file):
    with open(file, encoding="utf-8") as it:
        return it.read()


def kinds(text):
    """Returns what a value of each kind may be, by the kind's name, for the kinds without bounds."""
    return dict(re.findall(rf"Kind::(\w+) => f\.write_str\(\s*{TEXT},?\s*\)", text))


def value_text(kind, words):
    """Returns what the value of an option may be, in the words of `serve --help`."""
    found = NUMBER.fullmatch(kind)
    if found is None:
        return words[kind.split("::")[1]]
    least, most = (it.replace("_", "") for it in found.groups())
    return f"at least {least}" if most == "u64::MAX" else f"{least} to {most}"


class Option(NamedTuple):
    """An option of `serve`: its kind by name (Number where it has bounds), and its texts as `serve --help` has them."""

    word: str
    value: str
    purpose: str
    kind: str
    may: str
    without: str
    is_default: bool

    def head(self):
        return f"{self.word} {self.value}".strip()


def rows():
    """Returns the program's options, in its order."""
    text = text_of(ROWS)
    words, found = kinds(text), []
    for word, value, kind, without, purpose in ROW.findall(text):
        may = "" if kind == "Kind::Nothing" else value_text(kind, words)
        told = re.search(TEXT, without)
        name = "Number" if NUMBER.fullmatch(kind) else kind.split("::")[1]
        found.append(Option(word, value, purpose, name, may, told[1] if told else "", "::Value" in without))
    if len(found) != text.count(": Row = Row {"):
        raise ValueError(f"{ROWS}: a row that isn't understood")
    return found


def version():
    """Returns the program's version, as `serve --version` prints it."""
    return re.search(rf"pub const VERSION: &str = {TEXT};", text_of(VERSIONS))[1]


def options():
    """Returns the page's line for each option, in the program's order."""
    found = []
    for it in rows():
        given = f"`{it.without}`" if it.is_default else it.without
        found.append(f"| `{it.head()}` | {it.purpose} | {it.may} | {given} |")
    return found


def faults():
    """Returns the beginning of the page's line for each fault, in order."""
    numbers = re.findall(r"^    (\w+)(?: = 1)?,$", text_of(FAULTS).split("pub enum Fault {")[1].split("}")[0], re.M)
    text = text_of(HINTS)
    hints = dict(re.findall(rf"Fault::(\w+) =>\s*(?:\{{\s*)?{TEXT}", text))
    for word, earlier, later in BY_DIALECT.findall(text):
        hints[word] = f"{later}; with `--dialect 3.4`: {earlier}"
    return [f"| F{number} {word} | {hints[word]} |" for number, word in enumerate(numbers, 1)]


def table(page, head):
    """Returns the lines of the page's table that has this head."""
    behind = page.split(f"\n{head}\n")[1].split("\n")[1:]
    end = next(at for at, line in enumerate(behind) if not line.startswith("|"))
    return behind[:end]


def wrong(page):
    """Yields what is wrong with the page, and whether it is."""
    lines = table(page, "| Option | What it is for | What it may be | Without it |")
    for wanted, line in zip(options() + [""] * len(lines), lines):
        yield (f"the option's line is `{line}`, and the program says `{wanted}`", line != wanted)
    for missing in options()[len(lines):]:
        yield (f"the page lacks `{missing}`", True)
    lines = table(page, "| Fault | What to do, as the program says it | What is wrong |")
    for wanted, line in zip(faults() + [""] * len(lines), lines):
        yield (f"the fault's line is `{line}`, and the program says `{wanted}`", not wanted or not line.startswith(wanted))
    for missing in faults()[len(lines):]:
        yield (f"the page lacks `{missing}`", True)


def main():
    if sys.argv[1:] == ["--print"]:
        print("\n".join([*options(), "", *faults()]))
        return 0
    try:
        found = list(wrong(text_of(PAGE)))
        found += [("\n".join(lines) or what, bool(lines)) for what, lines in cited.checks()]
    except (OSError, ValueError, IndexError, KeyError, StopIteration) as why:
        found = [(f"{type(why).__name__}: {why}", True)]
    for what, is_wrong in found:
        if is_wrong:
            print(what)
    failed = sum(is_wrong for _, is_wrong in found)
    print(f"{len(found) - failed} passed, {failed} failed")
    return 1 if failed else 0


if __name__ == "__main__":
    sys.exit(main())
