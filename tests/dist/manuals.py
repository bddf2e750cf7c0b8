"""The man page and the completion, beside what the program says of itself."""
import os
import re
import shutil

from packed import TOP, needs, run


def helped(program):
    """Returns the options of `serve --help`: each its head, what it is for, and what it may be."""
    out, _ = run(program, "serve", "--help")
    found = []
    for block in re.split(r"\n\n(?=  --)", out)[1:]:
        lines = [it.strip() for it in block.splitlines()]
        found.append((lines[0], lines[1], lines[2] if len(lines) > 2 else ""))
    assert len(found) > 20, out
    return found


def plain(text):
    """Returns a text of a man page without its marks."""
    text = re.sub(r"\\f[BRIP]|\\[&:]", "", text).replace("\\-", "-").replace("\\e", "\\")
    # A value begins with its blank, in quotes.
    return text.replace(' " ', " ").replace('"', "")


def section(page, name):
    return page.split(f"\n.SH {name}\n")[1].split("\n.SH ")[0]


def manual(pack):
    with open(pack.made().place("observer.8"), encoding="utf-8") as it:
        return it.read()


def test_the_options_of_the_man_page(pack):
    """They are those of --help, in the same order, and in the same words."""
    blocks = [plain(it).splitlines() for it in section(manual(pack), "OPTIONS").split(".TP\n")[1:]]
    wanted = helped(pack.program)
    assert [it[0] for it in blocks] == [f".BI {head}" for head, _, _ in wanted], blocks
    for block, (head, purpose, may) in zip(blocks, wanted):
        assert block[1].lower().rstrip(".") == purpose.replace("`", "").lower().rstrip("."), (head, block)
        told = [it.partition(": ")[2].rstrip(".") for it in block[2:] if it != ".br"]
        assert "; without it: ".join(told) == may.replace("`", ""), (head, told, may)


def test_the_statuses_of_the_man_page(pack):
    """They are those of the table of OPERATING and of that of SCRIPT, but for the wrapper's own."""
    text = section(manual(pack), "EXIT STATUS")
    assert re.findall(r"^\.B (\d+)$", text, re.MULTILINE) == list("023478") + list("0248") + list("0123456"), text
    assert "](" not in text and "`" not in text, text


def test_the_man_page_is_one(pack):
    page = manual(pack)
    wanted = ["NAME", "SYNOPSIS", "DESCRIPTION", "OPTIONS", "EXIT STATUS", "SIGNALS", "FILES", "SEE ALSO"]
    assert re.findall(r"^\.SH (.+)$", page, re.MULTILINE) == wanted
    needs("groff")
    out, error = run("groff", "-man", "-Tascii", "-ww", pack.place("observer.8"))
    # A bold letter is written twice, with a step back between.
    assert error == "" and "--max-watches N" in re.sub(r".\x08", "", out), error
    if shutil.which("lexgrog"):
        out, _ = run("lexgrog", pack.place("observer.8"))
        assert '"observer - ' in out, out


def completed(pack, *words):
    """Returns what bash would offer for the last word."""
    given = 'source "$1"; shift; COMP_WORDS=("$@"); COMP_CWORD=$(($# - 1))'
    script = given + '; _observer; printf "%s\\n" "${COMPREPLY[@]}"'
    place = pack.made().place("observer.bash")
    out, error = run("bash", "--norc", "-c", script, "bash", place, *words, cwd=os.path.join(TOP, "examples"))
    assert error == "", error
    return out.split()


def test_the_completion(pack):
    needs("bash")
    options = [head.split()[0] for head, _, _ in helped(pack.program)]
    assert completed(pack, "observer", "serve", "") == options
    assert completed(pack, "observer", "serve", "--max-w") == ["--max-watches"]
    assert completed(pack, "observer", "serve", "--log-format", "") == ["text", "json"]
    assert completed(pack, "observer", "serve", "--log", "") == ["off", "error", "warn", "info", "debug", *options]
    assert completed(pack, "observer", "serve", "--words", "w") == ["wchs", "wchp", "wchc"]
    assert completed(pack, "observer", "serve", "--id", "") == []
    assert completed(pack, "observer", "re") == ["replay"]
    assert completed(pack, "observer", "wait", "") == []
    assert completed(pack, "observer", "wait", "127.0.0.1:2181", "") == ["--seconds"]
    for words in (["serve", "--record"], ["replay"], ["audit"]):
        assert completed(pack, "observer", *words, "watch.") == ["watch.script"], words
    assert completed(pack, "observer", "replay", "watch.script", "--w") == ["--workers"]


def test_the_completion_is_bound(pack):
    needs("bash")
    out, _ = run("bash", "--norc", "-c", 'source "$1"; complete -p', "bash", pack.made().place("observer.bash"))
    assert {it.split()[-1] for it in out.splitlines()} == {"observer", "observer.sh"}, out
