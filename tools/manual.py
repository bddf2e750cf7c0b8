"""The man page and the completion of the program, made of its own table of options and of three tables of docs/."""
import os
import re
import time

import pages
from common import TOP
from packing import filled

SCRIPT = os.path.join(TOP, "docs", "SCRIPT.md")
SERVE_HEAD = "| Status | When | Last line of standard error | Start it again? |"
WAIT_HEAD = REPLAY_HEAD = "| Status | Meaning | Standard error |"
# The wrapper's own status, which the program never has.
WRAPPER_STATUS = "70"
# What a table says of standard error where nothing is told there.
NO_WORD = ("–", "nothing")
# Which values the completion offers, by the kind of an option.
OFFERED = ("Level", "Format", "Words", "Release")


def roff(text):
    """Returns a text of the docs for a man page: links are their texts, and code is bold."""
    text = re.sub(r"\[([^\]]*)\]\([^)]*\)", r"\1", text).replace("\\", "\\e").replace("-", "\\-")
    text = re.sub(r"`([^`]*)`", r"\\fB\1\\fR", text)
    # A long list may be broken after a comma.
    text = re.sub(r",(?=\w)", r",\\:", text)
    # A line that begins so would be a request.
    return re.sub(r"^([.'])", r"\\&\1", text)


def sentence(text):
    return text[:1].upper() + text[1:] + ("" if text.endswith(".") else ".")


def option_text(option):
    """Returns the man page's paragraph for an option: its purpose, what it may be, and what holds without it."""
    value = f' " {roff(option.value)}"' if option.value else ""
    lines = [".TP", f".BI {roff(option.word)}{value}", roff(sentence(option.purpose))]
    if option.may:
        lines += [".br", roff(f"Value: {option.may}.")]
    if option.without:
        given = f"`{option.without}`" if option.is_default else option.without
        lines += [".br", roff(f"Without it: {given}.")]
    return "\n".join(lines)


def cells(line):
    return [it.strip() for it in line.strip("|").split("|")]


def status_texts(file, head):
    """Returns the man page's paragraphs for a table of exit statuses: when, and what standard error ends with."""
    found = []
    for line in pages.table(pages.text_of(file), head):
        status, when, error = cells(line)[:3]
        if status.isdigit() and status != WRAPPER_STATUS:
            ends = [] if error in NO_WORD else [".br", roff(f"Standard error ends with: {error}.")]
            found.append("\n".join([".TP", f".B {status}", roff(sentence(when)), *ends]))
    if not found:
        raise ValueError(f"{file}: no exit status is in the table")
    return "\n".join(found)


def man_page(date, where):
    """Returns the man page; `where` is the folder of the documents that it names."""
    return filled(
        "observer.8",
        version=pages.version(),
        date=time.strftime("%Y-%m-%d", time.gmtime(date)),
        options="\n".join(option_text(it) for it in pages.rows()),
        serve_statuses=status_texts(pages.PAGE, SERVE_HEAD),
        wait_statuses=status_texts(pages.PAGE, WAIT_HEAD),
        replay_statuses=status_texts(SCRIPT, REPLAY_HEAD),
        documents=roff(where),
    )


def choices(option):
    """Returns the words that an option's value may be, where these are few."""
    if option.kind not in OFFERED:
        return []
    return [it for it in re.split(r", or some of |, | or |,", option.may) if it]


def completion():
    """Returns the completion for bash. An option with a value isn't followed by another option, but for --log."""
    found, arms = pages.rows(), []
    every = " ".join(it.word for it in found)
    for it in found:
        words = " ".join(choices(it))
        if it.value.startswith("[") and words:
            words = f"{words} $options"
        if words:
            arms.append(f'        {it.word}) _observer_offers "{words}" ;;')
        elif it.kind == "File":
            arms.append(f"        {it.word}) _observer_files ;;")
    bare = "|".join(it.word for it in found if it.kind not in ("Nothing", "File") and not choices(it))
    arms.append(f"        {bare}) ;;")
    return filled("observer.bash", options=every, values="\n".join(arms))
