"""The archive: what is in it, and that it runs without anything else."""
import hashlib
import os
import re
import shutil
import signal
import subprocess
import tarfile
import time

import pages
from packed import ARCHIVE, FOLDER, PACKAGE, TOP, VERSION, Skipped, dist, needs, needs_root, run, serving

# Which libraries a program needs rests on how it was linked; these are of the C library.
LIBRARIES = {"libc.so.6", "libm.so.6"}
OTHERS = {
    "INSTALL", "LICENSE", "PROVED", "SHA256SUMS", "doc/COMPATIBILITY.md", "doc/OPERATING.md", "doc/SCRIPT.md",
    "doc/alerts.yml", "doc/grafana.json", "doc/prometheus.yml", "lib/copyright", "observer.8", "observer.bash", "observer.default", "observer.service",
}

# From the start of the unpacking to the first answer, at most.
MOST_SECONDS = 60


def executables(pack):
    """Returns the archive's files that may be executed: of the libraries those whose names the program has."""
    program = content_of(pack.program)
    needed = {f"lib/{it}" for it in LIBRARIES if b"\0" + it.encode() + b"\0" in program}
    return {"bin/observer", "bin/observer.sh", "lib/ld-linux-x86-64.so.2", *needed}


def content_of(*path):
    with open(os.path.join(*path), "rb") as it:
        return it.read()


def test_the_files_of_the_archive(pack):
    with tarfile.open(os.path.join(pack.made().out, ARCHIVE)) as archive:
        entries = archive.getmembers()
    names = [it.name for it in entries]
    assert names == sorted(names) and all(it.split("/")[0] == FOLDER for it in names), names
    modes = {it.name[len(FOLDER) + 1 :]: it.mode for it in entries if it.isfile()}
    assert modes == {**dict.fromkeys(executables(pack), 0o755), **dict.fromkeys(OTHERS, 0o644)}, modes
    assert {(it.uid, it.gid, it.uname, it.gname) for it in entries} == {(0, 0, "", "")}
    assert len({it.mtime for it in entries}) == 1


def test_sums(pack):
    of_release = {ARCHIVE, PACKAGE, "NOTES.md", "SHA256SUMS"}
    for folder, names in ((pack.made().unpacked, executables(pack) | OTHERS), (pack.out, of_release)):
        lines = content_of(folder, "SHA256SUMS").decode().splitlines()
        sums = {name: digest for digest, name in (it.split("  ") for it in lines)}
        assert set(sums) == names - {"SHA256SUMS"}, sums
        for name, digest in sums.items():
            assert hashlib.sha256(content_of(folder, name)).hexdigest() == digest, name


def test_two_packs_are_equal(pack):
    """Another folder, another time zone and other permissions for new files don't matter."""
    again = os.path.join(pack.made().room, "again")
    before = os.umask(0o077)
    try:
        dist(again, *pack.options, TZ="Asia/Kolkata", PYTHONHASHSEED="7")
    finally:
        os.umask(before)
    assert sorted(os.listdir(again)) == sorted(os.listdir(pack.out))
    for name in os.listdir(again):
        assert content_of(again, name) == content_of(pack.out, name), name


def test_what_is_told_of_the_proof(pack):
    text = content_of(pack.made().place("PROVED")).decode()
    known = dict(re.findall(r"^([^:\n]+): (.+)$", text, re.MULTILINE))
    assert known["program"] == f"kezhundam {VERSION}", text
    assert known["sha256 as built"] == hashlib.sha256(content_of(pack.program)).hexdigest(), text
    assert known["sha256 as packed"] == hashlib.sha256(content_of(pack.place("bin", "observer"))).hexdigest(), text
    assert ("--program" in known["proved by"]) == bool(pack.options), text


def test_the_notes(pack):
    """They are the changelog's newest section, and nothing of an older one."""
    text, whole = content_of(pack.made().out, "NOTES.md"), content_of(TOP, "CHANGELOG.md")
    assert text.startswith(b"## ") and text.count(b"\n## ") == 0 and text in whole + b"\n", text[:100]
    assert whole.index(b"\n## ") + 1 == whole.index(text[:40])


def test_it_starts_with_nothing_around_it(pack):
    """With an empty environment, from another folder, through a link, and where the folder's name has a blank."""
    moved = os.path.join(pack.made().room, "an other place")
    shutil.copytree(pack.unpacked, moved)
    link = os.path.join(pack.room, "link")
    os.symlink(os.path.join(moved, "bin", "observer.sh"), link)
    for program in (pack.place("bin", "observer"), pack.place("bin", "observer.sh"), link):
        out, error = run("/usr/bin/env", "-i", program, "serve", "--version", cwd="/")
        assert out.startswith(f"kezhundam {VERSION}, ") and not error, (program, out, error)
        out, _ = run("/usr/bin/env", "-i", program, "serve", "--help", cwd="/")
        assert all(it.word in out for it in pages.rows()), (program, out)
        _, error = run("/usr/bin/env", "-i", program, "serve", "--cliemt", status=2, cwd="/")
        assert error.endswith("usage\n"), (program, error)


def test_it_serves_within_a_minute(pack):
    """Unpacked as OPERATING says, and with its own library: the time from then until a client is answered."""
    needs("tar", "sha256sum")
    archive, room = os.path.join(pack.made().out, ARCHIVE), os.path.join(pack.room, "fresh")
    folder = os.path.join(room, FOLDER)
    os.mkdir(room)
    command = pack.command("alone", "/usr/bin/env", "-i", os.path.join(folder, "bin", "observer.sh"))
    began = time.monotonic()
    run("tar", "xzf", archive, "-C", room)
    run("sha256sum", "-c", "--quiet", "SHA256SUMS", cwd=folder)
    with serving(command) as server:
        assert server.word(b"isro") == b"rw"
        took = time.monotonic() - began
        assert server.is_serving()
        server.ends(seconds=20)
    print(f"   it serves {took:.1f} s after the unpacking began", flush=True)
    assert took < MOST_SECONDS, took


def test_its_own_library_is_used(pack):
    """Without its lib/libc.so.6 another one would be found, so the names of the files that are mapped are looked at."""
    words = [pack.made().place("bin", "observer.sh"), "serve", "--servers", "127.0.0.1:1", "--client", "0", "--id", "9"]
    with subprocess.Popen(words, stdout=subprocess.PIPE, stderr=subprocess.DEVNULL) as ran:
        assert ran.stdout.readline().startswith(b"serving ")
        mapped = content_of("/proc", str(ran.pid), "maps").decode()
        ran.terminate()
        # Nothing handles the signal by which a service manager ends it.
        assert ran.wait(20) == -signal.SIGTERM
    files = {line.split(None, 5)[5] for line in mapped.splitlines() if line.count("/")}
    assert files == {pack.place(it) for it in executables(pack) - {"bin/observer.sh"}}, files


def may_change_root(command):
    """Sees that the system lets root change its root, as some containers don't. Where CI runs this it has to."""
    ran = subprocess.run([command, "serve", "--version"], capture_output=True, encoding="utf-8")
    if "Operation not permitted" in ran.stderr and os.environ.get("CI") != "true":
        raise Skipped(ran.stderr.strip())
    assert ran.returncode == 0, ran.stderr


def test_it_serves_in_an_empty_root(pack):
    """The root has the archive's files and a name of a host, and neither a shell nor another C library."""
    needs_root()
    root = os.path.join(pack.made().room, "root")
    shutil.copytree(pack.unpacked, root)
    os.mkdir(os.path.join(root, "etc"))
    with open(os.path.join(root, "etc", "hosts"), "w", encoding="ascii") as it:
        it.write("127.0.0.1 zk1\n")
    loader = ["/lib/ld-linux-x86-64.so.2", "--library-path", "/lib", "/bin/observer"]
    command = pack.command("rooted", "chroot", root, *loader)
    may_change_root(command)
    with serving(command) as server:
        assert server.is_serving()
        server.ends(seconds=20)
    # Names of hosts are resolved by what the C library has of its own.
    _, error = run(command, "serve", "--leader", "zk1:1", "--client", "0", "--id", "9", status=3)
    assert "cannot connect to zk1:1: Connection refused" in error, error
