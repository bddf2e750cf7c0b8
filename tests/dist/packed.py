"""The packs of a program, which tools/dist makes, and how the other modules run what is in them."""
import os
import shutil
import subprocess
import sys
import tarfile
import tempfile

TOP = os.path.dirname(os.path.dirname(os.path.dirname(os.path.realpath(__file__))))
sys.path[:0] = [os.path.join(TOP, "tools"), os.path.join(TOP, "tests", "serve")]
import pages  # noqa: E402
from server import Server  # noqa: E402

VERSION = pages.version()
FOLDER = f"kezhundam-{VERSION}-linux-x86_64"
ARCHIVE, PACKAGE = f"{FOLDER}.tar.gz", f"observer_{VERSION}_amd64.deb"
TOOLS = ("strip", "readelf", "ldd", "dpkg-deb")


class Skipped(Exception):
    """Why something can't be tried on this machine."""


def run(*words, status=0, **how):
    """Runs a program to its end. Returns what standard output and standard error were told."""
    how = {"stdin": subprocess.DEVNULL, "capture_output": True, "timeout": 300, "encoding": "utf-8", **how}
    ran = subprocess.run(words, **how)
    assert ran.returncode == status, f"{words}: status {ran.returncode}: {ran.stdout} {ran.stderr}"
    return ran.stdout, ran.stderr


def dist(*words, top=TOP, status=0, **environment):
    return run(os.path.join(top, "tools", "dist"), *words, status=status, env={**os.environ, **environment})


def needs(*tools):
    for it in tools:
        if not shutil.which(it):
            raise Skipped(f"{it} isn't there")


def needs_root():
    if os.geteuid():
        raise Skipped("this needs root")


class Pack:
    """The pack of a program in a folder of its own: `out` is what tools/dist made, `unpacked` the archive's content."""

    def __init__(self, program, options):
        self.program, self.options = program, options
        self.room = tempfile.mkdtemp(prefix="dist-test-")
        self.out, self.unpacked = os.path.join(self.room, "out"), os.path.join(self.room, FOLDER)

    def made(self):
        """Makes the pack where that wasn't done, and returns itself."""
        needs(*TOOLS)
        if not os.path.isdir(self.unpacked):
            dist(self.out, *self.options)
            with tarfile.open(os.path.join(self.out, ARCHIVE)) as it:
                it.extractall(self.room)
        return self

    def place(self, *path):
        return os.path.join(self.unpacked, *path)

    def command(self, name, *words):
        """Returns a script that becomes a command, since a server of tests/serve is started by one name."""
        place = os.path.join(self.room, name)
        with open(place, "w", encoding="utf-8") as it:
            it.write("#!/bin/sh\nexec " + " ".join(f"'{word}'" for word in words) + ' "$@"\n')
        os.chmod(place, 0o755)
        return place

    def end(self):
        shutil.rmtree(self.room)


def serving(command):
    """Returns a server that a command starts, behind a leader."""

    class Packed(Server):
        PROGRAM = command

    return Packed()
