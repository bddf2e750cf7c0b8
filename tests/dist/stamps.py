"""Which program tools/dist takes without --program: the proved one, of the sources as they are."""
import os
import shutil
import sys

from packed import TOOLS, TOP, dist, needs, run

DATE = {"SOURCE_DATE_EPOCH": "1000000000"}


def linked(pack, name):
    """Returns a folder of links to this repository in which the tested program lies where the proved one does.

    The toolchain there is a script that tells a version. So this needs none, and the repository's own notes are left
    alone.
    """
    top = os.path.join(pack.room, name)
    runner = os.path.join(top, "crates", "replay_runner")
    os.makedirs(os.path.join(runner, "out"))
    for it in ("contrib", "docs", "packaging", "CHANGELOG.md", "LICENSE", "crates.txt"):
        os.symlink(os.path.join(TOP, it), os.path.join(top, it))
    shutil.copy(os.path.join(TOP, "HANDLES"), top)
    shutil.copytree(os.path.join(TOP, "tools"), os.path.join(top, "tools"))
    for it in sorted(os.listdir(os.path.join(TOP, "crates"))):
        if it != "replay_runner":
            os.symlink(os.path.join(TOP, "crates", it), os.path.join(top, "crates", it))
    os.symlink(os.path.join(TOP, "crates", "replay_runner", "src"), os.path.join(runner, "src"))
    shutil.copy(pack.program, os.path.join(runner, "out", "replay_runner"))
    os.mkdir(os.path.join(top, "bin"))
    with open(os.path.join(top, "bin", "rt"), "w", encoding="utf-8") as it:
        it.write("#!/bin/sh\necho a toolchain of the test\n")
    os.chmod(os.path.join(top, "bin", "rt"), 0o755)
    return top, {"PATH": os.path.join(top, "bin") + os.pathsep + os.environ["PATH"], **DATE}


def append(path, content):
    with open(path, "ab") as it:
        it.write(content)


def is_refused(top, room, environment):
    """Returns whether nothing is packed, and the way out is told."""
    out = os.path.join(room, "none")
    _, error = dist(out, top=top, status=70, **environment)
    return ".ci/run" in error and not os.path.exists(out)


def proved(top, environment, *words, status=0):
    """Runs the tool that keeps the stamp, and returns what it prints."""
    tool = os.path.join(top, "tools", "proved.py")
    return run(sys.executable, "-B", tool, *words, status=status, env={**os.environ, **environment})[0].strip()


def test_only_a_proved_program_is_packed(pack):
    needs(*TOOLS)
    top, environment = linked(pack, "sources")
    assert is_refused(top, pack.room, environment)
    sources = proved(top, environment, "hash")
    # How a gate ended isn't noted where no program was kept.
    proved(top, environment, "gate", sources, "5 passed, 0 failed", status=1)
    proved(top, environment, "keep", sources)
    proved(top, environment, "gate", sources, "5 passed, 0 failed")
    out = os.path.join(pack.room, "stamped")
    dist(out, top=top, **environment)
    archive = next(it for it in os.listdir(out) if it.endswith(".tar.gz"))
    text, _ = run("tar", "xzOf", os.path.join(out, archive), f"{archive[:-7]}/PROVED")
    toolchain, gate = "proved by: a toolchain of the test\n", "gate: 5 passed, 0 failed\n"
    for it in (f"sources: {sources} ", toolchain, gate, "date: 2001-"):
        assert it in text, (it, text)
    append(os.path.join(top, "HANDLES"), b"\n")
    assert is_refused(top, pack.room, environment)


def test_another_program_than_the_proved_one_is_refused(pack):
    needs(*TOOLS)
    top, environment = linked(pack, "other-program")
    proved(top, environment, "keep", proved(top, environment, "hash"))
    append(os.path.join(top, "crates", "replay_runner", "out", "replay_runner"), b"\0")
    assert is_refused(top, pack.room, environment)


def test_what_is_no_program_is_refused(pack):
    needs(*TOOLS)
    out = os.path.join(pack.room, "none")
    for it in (os.path.join(TOP, "observer"), "/no/such/file"):
        _, error = dist(out, "--program", it, status=70)
        assert "is no program for Linux on x86-64" in error, error
    _, error = dist(out, "--program", os.path.realpath("/bin/true"), status=70)
    assert "says that it is" in error, error
    for words in ([], ["--program"], [out, "--program"], [out, "more"], ["--help-me"]):
        _, error = dist(*words, status=2)
        assert error.startswith("usage: tools/dist"), error
    assert not os.path.exists(out)
