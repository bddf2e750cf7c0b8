"""Builds the library of refuse.c, and tells what a run with it has met."""
import os
import pathlib
import shutil
import struct
import subprocess
from typing import NamedTuple

HERE = pathlib.Path(__file__).resolve().parent
COMPILERS = ("cc", "gcc", "clang")
# What refuse.c keeps in its file.
FORM = struct.Struct("QQQ")


def compiler():
    """Returns the machine's C compiler; None where there is none."""
    return next((it for it in COMPILERS if shutil.which(it)), None)


def install():
    """Gets Debian's C compiler."""
    for words in (["update"], ["install", "-y", "gcc", "libc6-dev"]):
        subprocess.run(["apt-get", *words], stdin=subprocess.DEVNULL, check=True)


def built(room):
    """Builds the library in a folder, and returns its file."""
    library = room / "refuse.so"
    words = ["-O2", "-Wall", "-Wextra", "-Werror", "-fPIC", "-shared", "-o", library, HERE / "refuse.c", "-ldl"]
    subprocess.run([compiler(), *words], check=True)
    return library


class Seen(NamedTuple):
    """What a run has met: how many growths there were, how many of them were refused, which is one at most, and how
    many threads were started."""

    growths: int
    refused: int
    threads: int


class Refuser:
    """Has one growth of each run refused. Of the runs of one refuser there is one at a time."""

    def __init__(self, library, file):
        self.library, self.file = str(library), file

    def environment(self, number):
        """Begins a run whose growth with this number is refused, with 0 none, and returns what its environment has."""
        self.file.write_bytes(bytes(FORM.size))
        return {**os.environ, "LD_PRELOAD": self.library, "REFUSE_FILE": str(self.file), "REFUSE_AT": str(number)}

    def seen(self):
        """Returns what the run has met that was begun last."""
        return Seen(*FORM.unpack(self.file.read_bytes()))
