"""What the pages cite: links, files, names, figures. tools/pages.py says what it refuses, and prints it."""
import collections
import os
import re

TOP = os.path.dirname(os.path.dirname(os.path.realpath(__file__)))
# What is built or kept, and no part of the repository.
NO_FOLDERS = {".git", "out", "__pycache__"}
# An archive: its names are of the day on which it was measured. Its links are checked all the same.
ARCHIVE = os.path.join("docs", "measurements")
# Rows are no place to look for names, and this file isn't either, since it lists what isn't there.
NO_SOURCES = (".md", ".script", ".expected")
# Words of the outside world: of ZooKeeper, Rust, the toolchain, Debian and others.
OUTSIDE = set(
    """
    --allow-holes --start GetACL bin/observer bin/observer.sh clap jute.maxbuffer serde_json sslQuorum superDigest
    thread::map_vec
    """.split()
)

FILE = re.compile(r"[\w.*/-]+\.(?:rt|antt|py|md|sh|script|expected|edit|json|toml|txt|c|svg)")
FOLDER = re.compile(r"[\w.-]+(?:/[\w.-]+)*/?")
PATH = re.compile(r"\w+(?:::\w+)+")
NAME = re.compile(r"[A-Za-z_]\w{2,}")
PAIR = re.compile(r"[a-z_]\w*\.[a-z_]\w*")
ROW = re.compile(r"[a-z]\w*(?:-\w+)+")
OPTION = re.compile(r"(?<![\w-])--[a-z][a-z-]+")
WORD = re.compile(r"[A-Za-z_]\w*")
# A word in capitals stands for what the reader puts there, as in `must-fail/NAME.edit`.
STANDS_FOR = re.compile(r"(?<![A-Za-z])[A-Z]{3,}(?![A-Za-z])")
PICTURE = re.compile(r"^```.*?^```$", re.M | re.S)
DRAWN = re.compile(r"\b\w+(?:::\w+)+|\b[a-z]+(?:_[a-z]+)+\b")
QUOTED = re.compile(r"`([^`\n]+)`")
LINK = re.compile(r"\[[^\]]*\]\(([^)\s]+)\)")
BESIDE = re.compile(r"((?:`[^`\n]+`(?:,\s+|\s+and\s+|\s+or\s+)?)+)\s*in\s+`([\w./-]+\.(?:rt|antt|py))`")
# A number or a range of numbers, with the name before it, if it has one, as in `Python 3.8`.
FIGURE = re.compile(r"(?:\b[A-Z]\w+ )?(?<![\w.])\d+(?:[.,]\d+)*(?: to \d+(?:[.,]\d+)*)?")
# What a file of code declares: an item, or a variant or a field on a line of its own.
DECLARED = re.compile(
    r"\b(?:fn|struct|enum|trait|const|static|type|mod) (\w+)|^ +(?:pub(?:\(\w+\))? )?(\w+)(?: ?[,({:=]|$)", re.M
)
# What a file of specs/ or proofs/ declares.
STATED = re.compile(r"^ *(?:(?:pub|abbrev|unfoldable|opaque|data|record) )*(\w+)(?=[^\n]* : |:)", re.M)
PROOF = re.compile(r"\b(\w+)(?:\.|::)proofs(?:\.|::)([\w.:]+)")
TOOLCHAIN = re.compile(r"rattle-kit-\w+ logic \w+")


def text_of(file):
    with open(os.path.join(TOP, file), encoding="utf-8", errors="replace") as it:
        return it.read()


def files():
    """Yields the repository's files, by their paths from its top."""
    for at, below, names in os.walk(TOP):
        below[:] = sorted(set(below) - NO_FOLDERS)
        yield from (os.path.relpath(os.path.join(at, it), TOP) for it in sorted(names))


def without_code(page):
    """Returns a page's text with its pictures and its blocks of code emptied; its lines stay where they are."""
    kept, before = [], ""
    for line in PICTURE.sub(lambda it: "\n" * it[0].count("\n"), page).split("\n"):
        is_block = line.startswith("    ") and not before
        kept.append("" if is_block else line)
        before = "" if is_block else line
    return "\n".join(kept)


def anchors_of(page):
    """Returns the anchors of a page's headings."""
    found = collections.Counter()
    for heading in re.findall(r"^#+ (.*)$", without_code(page), re.M):
        plain = LINK.sub(lambda it: it[0][1:].split("]")[0], heading).lower()
        found["".join(it for it in plain.replace(" ", "-") if it.isalnum() or it in "-_")] += 1
    return {f"{it}-{n}" if n else it for it, count in found.items() for n in range(count)}


class Repository:
    """What there is to be cited."""

    def __init__(self):
        self.files = list(files())
        self.ends = collections.defaultdict(list)
        folders = {at for it in self.files for at in parents_of(os.path.dirname(it))}
        for it in [*self.files, *sorted(folders)]:
            self.ends[os.path.basename(it)].append(it)
        self.pages = [it for it in self.files if it == "README.md" or it.startswith("docs/") and it.endswith(".md")]
        self.text = {it: text_of(it) for it in self.pages}
        self.words, self.options, self.rows, self.proofs = {}, set(), set(), collections.defaultdict(set)
        for it in self.files:
            if it.endswith((".script", ".expected")):
                self.rows.add(os.path.splitext(os.path.basename(it))[0])
            elif not it.endswith(NO_SOURCES) and it != os.path.join("tools", "cited.py"):
                text = text_of(it)
                self.words[it] = set(WORD.findall(text))
                self.options |= set(OPTION.findall(text))
                self.rows |= set(ROW.findall(text)) if it.startswith("tests") else set()
                self.proofs[crate_of(it)] |= set(PROOF.findall(text)) if it.endswith((".rt", ".antt")) else set()
        self.words_of = collections.defaultdict(set)
        for it, words in self.words.items():
            self.words_of[crate_of(it)] |= words
        self.all_words = set().union(*self.words_of.values())

    def named(self, name):
        """Returns the files and folders that a page may mean by this name, which may be the end of their paths."""
        name = name[2:] if name.startswith("./") else name.rstrip("/")
        return [it for it in self.ends[os.path.basename(name)] if it == name or it.endswith("/" + name)]

    def lacks(self, word):
        """Returns whether a word of a page, in backticks, names what isn't there."""
        # `is_` is how names begin, and a toolchain is a date of a figure.
        if word in OUTSIDE or word.endswith("_") or word.startswith("rattle-kit-"):
            return False
        if FILE.fullmatch(word):
            return not (self.named(word) or STANDS_FOR.search(word) or "*" in word or "out" in word.split("/"))
        if PATH.fullmatch(word):
            first, *others = word.split("::")
            if first in self.words_of:
                return not set(others) <= self.words_of[first]
            return not any({first, *others} <= it for it in self.words_of.values())
        if NAME.fullmatch(word):
            # A test of tests/serve is named without the word with which its function begins.
            return not {word, f"test_{word}"} & self.all_words
        if PAIR.fullmatch(word):
            return not set(word.split(".")) <= self.all_words
        if ROW.fullmatch(word):
            return word not in self.rows
        if "/" in word.rstrip("/") and FOLDER.fullmatch(word):
            return not (self.named(word) or STANDS_FOR.search(word) or "out" in word.split("/"))
        return False


def crate_of(file):
    return file.split("/")[1] if file.startswith("crates/") else ""


def parents_of(folder):
    while folder:
        yield folder
        folder = os.path.dirname(folder)


def wrong_links(here, page):
    """Yields the page's links that lead nowhere."""
    for target in LINK.findall(without_code(here.text[page])):
        file, _, anchor = target.partition("#")
        if "://" in target:
            continue
        at = os.path.normpath(os.path.join(os.path.dirname(page), file)) if file else page
        if not os.path.exists(os.path.join(TOP, at)):
            yield f"{page}: there is no {target}"
        elif anchor and anchor not in anchors_of(text_of(at)):
            yield f"{page}: {at} has no heading #{anchor}"


def wrong_names(here, page):
    """Yields the names in backticks and in pictures that nothing has."""
    for word in DRAWN.findall("".join(PICTURE.findall(here.text[page]))):
        if here.lacks(word):
            yield f"{page}: nothing is named {word}, as in a picture"
    for quoted in QUOTED.findall(without_code(here.text[page])):
        words = quoted.split()
        for word in words if len(words) > 1 else []:
            if FILE.fullmatch(word) and here.lacks(word):
                yield f"{page}: `{quoted}`: there is no {word}"
        if len(words) == 1 and here.lacks(quoted):
            yield f"{page}: nothing is named `{quoted}`"
        for option in OPTION.findall(quoted):
            if option not in here.options and option not in OUTSIDE:
                yield f"{page}: `{quoted}`: nothing has the option {option}"


def places_of(here, page):
    """Yields each name that a page says to be in a file, and the files that it may mean."""
    folders = []
    for line in without_code(here.text[page]).split("\n"):
        cells = line.split(" | ") if line.startswith("|") else []
        if cells and not folders:
            folders = [QUOTED.search(it) for it in cells]
        folders = folders if cells else []
        for head, cell in zip(folders, cells):
            rest = BESIDE.sub("", cell)
            if head and FILE.fullmatch(head[1]) and line[1:].strip() and cell.find(head[0]) < 0:
                yield from ((it, here.named(head[1])) for it in QUOTED.findall(rest))
            for names, file in BESIDE.findall(cell):
                inside = here.named(f"{head[1]}/{file}") if head and not FILE.fullmatch(head[1]) else []
                yield from ((it, inside or here.named(file)) for it in QUOTED.findall(names))
    prose = "\n".join(it for it in without_code(here.text[page]).split("\n") if not it.startswith("|"))
    for names, file in BESIDE.findall(prose):
        yield from ((it, here.named(file)) for it in QUOTED.findall(names))


def declares(file, name):
    found = {".rt": DECLARED, ".antt": STATED}.get(os.path.splitext(file)[1], WORD).findall(text_of(file))
    return any(name in it if isinstance(it, tuple) else name == it for it in found)


def wrong_places(here, page):
    """Yields the names that aren't declared in the file beside which they stand."""
    for name, found in places_of(here, page):
        if WORD.fullmatch(name) and found and not any(declares(it, name) for it in found):
            yield f"{page}: {' or '.join(found)} doesn't declare `{name}`"


def paragraphs(text):
    for it in re.split(r"\n\s*\n|\n(?=\d+\. |- )", without_code(text)):
        if it.strip() and not it.startswith("#"):
            yield re.sub(r"^\d+\. ", "", it)


def wrong_figures(here):
    """Yields the README's figures that no page has to which their paragraph leads (any page, if it leads to none)."""
    pages = {it for it in here.pages if it != "README.md"}
    for it in paragraphs(here.text["README.md"]):
        targets = {target.partition("#")[0] for target in LINK.findall(it)} & pages or pages
        plain = " ".join(QUOTED.sub("", LINK.sub(lambda link: link[0].split("](")[0], it)).split())
        for figure in FIGURE.findall(plain):
            shown = re.compile(r"(?<![\w.])" + r"\s+".join(map(re.escape, figure.split())) + r"(?![\w]|[.,]\d)")
            if not any(shown.search(here.text[target]) for target in targets):
                yield f"README.md: the figure {figure} isn't in {' or '.join(sorted(targets))}"
    found = {it for text in here.text.values() for it in TOOLCHAIN.findall(text)}
    if len(found) > 1:
        yield f"pages name several toolchains: {', '.join(sorted(found))}"


def listed_crates(text, heading, crate):
    """Returns the crates under each heading, both found by these expressions."""
    found, under = [], None
    for line in text.split("\n"):
        is_head, is_crate = re.match(heading, line), re.match(crate, line)
        if is_head:
            under = is_head[1]
        elif is_crate and under:
            found.append((under, is_crate[1]))
    return found


def wrong_crates(here):
    """Yields what ARCHITECTURE lists otherwise than crates.txt; the crates of tests aside."""
    wanted = listed_crates(text_of("crates.txt"), r"# ([A-Z][a-z ]*?)(?: \(.*)?$|# Tests", r"(\w+):")
    wanted = [it for it in wanted if not it[1].endswith("_tests")]
    page = here.text["docs/ARCHITECTURE.md"].partition("\n## The crates\n")[2].partition("\n## ")[0]
    found = listed_crates(page, r"### (.*)$", r"- `(\w+)`: ")
    for it in sorted(set(wanted) ^ set(found)) or [it for it, other in zip(wanted, found) if it != other][:1]:
        yield f"docs/ARCHITECTURE.md: {it[1]} under {it[0]} isn't as in crates.txt"


def proofs_named(here):
    """Returns the modules in proofs/ that other crates name, by crate."""
    found = collections.defaultdict(set)
    for crate, other, path in {(crate, *it) for crate, cited in here.proofs.items() for it in cited if it[0] != crate}:
        parts = re.split(r"\.|::", path)
        fronts = ["/".join(parts[:n]) for n in range(len(parts), 0, -1)]
        found[other] |= set([it for it in fronts if f"crates/{other}/proofs/{it}.antt" in here.words][:1])
    return found


def wrong_proofs(here):
    """Yields what INDEX lists otherwise as proofs that other crates name."""
    section = here.text["docs/INDEX.md"].partition("\n## Proofs that other crates name\n")[2].partition("\n## ")[0]
    listed = {crate: set(QUOTED.findall(cell)) for crate, cell in re.findall(r"^\| (\w+) \| (`.*) \|$", section, re.M)}
    wanted = proofs_named(here)
    for crate in sorted(set(listed) | set(wanted)):
        for it in sorted(listed.get(crate, set()) ^ wanted[crate]):
            which = "other crates name" if it in wanted[crate] else "no other crate names"
            yield f"docs/INDEX.md: {which} crates/{crate}/proofs/{it}.antt"


def checks():
    """Yields each check: what it is of, and what is wrong."""
    here = Repository()
    for page in here.pages:
        yield f"links of {page}", list(wrong_links(here, page))
        if not page.startswith(ARCHIVE):
            yield f"names of {page}", [*wrong_names(here, page), *wrong_places(here, page)]
    yield "figures of README.md", list(wrong_figures(here))
    yield "crates of docs/ARCHITECTURE.md", list(wrong_crates(here))
    yield "proofs of docs/INDEX.md", list(wrong_proofs(here))
