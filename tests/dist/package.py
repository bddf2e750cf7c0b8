"""The package of Debian, and the unit that it shares with the archive."""
import os
import re
import subprocess

import pages
from packed import PACKAGE, TOP, VERSION, needs, needs_root, run

DOCUMENTS = "./usr/share/doc/observer/"
INSTALLED = {
    "./etc/default/observer", "./usr/bin/observer", "./usr/lib/systemd/system/observer.service",
    "./usr/share/bash-completion/completions/observer", "./usr/share/man/man8/observer.8.gz",
    *(DOCUMENTS + it for it in ("COMPATIBILITY.md", "OPERATING.md", "SCRIPT.md")),
    *(DOCUMENTS + it for it in ("alerts.yml", "grafana.json", "prometheus.yml")),
    *(DOCUMENTS + it for it in ("PROVED", "changelog.gz", "copyright")),
}
UNIT = os.path.join(TOP, "packaging", "observer.service")
OPTIONS = os.path.join(TOP, "packaging", "observer.default")
WAIT = "wait $OBSERVER_ADDRESS --seconds 30"


def package_of(pack):
    return os.path.join(pack.made().out, PACKAGE)


def test_what_the_package_says_of_itself(pack):
    out, _ = run("dpkg-deb", "--info", package_of(pack))
    fields = dict(re.findall(r"^ ([A-Z][\w-]+): (.+)$", out, re.MULTILINE))
    assert (fields["Package"], fields["Version"], fields["Architecture"]) == ("observer", VERSION, "amd64"), out
    needed, _ = run("readelf", "-V", pack.place("bin", "observer"))
    versions = {tuple(map(int, it.split("."))) for it in re.findall(r"GLIBC_([\d.]+)", needed)}
    least = ".".join(map(str, max(versions)))
    assert fields["Depends"] == f"libc6 (>= {least})", (fields, versions)
    with open(pages.PAGE, encoding="utf-8") as page:
        assert f"if the system has glibc {least} or later" in " ".join(page.read().split()), least
    assert {"conffiles", "control", "postinst", "prerm", "postrm"} <= set(re.findall(r"lines  [ *]+(\S+)", out)), out
    conffiles, _ = run("dpkg-deb", "--info", package_of(pack), "conffiles")
    assert conffiles == "/etc/default/observer\n", conffiles


def test_the_files_of_the_package(pack):
    out, _ = run("dpkg-deb", "--contents", package_of(pack))
    entries = [it.split() for it in out.splitlines()]
    assert {it[1] for it in entries} == {"root/root"}, out
    files = {it[5]: it[0] for it in entries if it[0].startswith("-")}
    assert set(files) == INSTALLED, set(files) ^ INSTALLED
    assert {name for name, mode in files.items() if mode == "-rwxr-xr-x"} == {"./usr/bin/observer"}, files
    assert all(mode in ("-rwxr-xr-x", "-rw-r--r--") for mode in files.values()), files


def test_it_is_installed_and_removed(pack):
    """In a root of its own, which has no systemd. What was changed in the options outlives all but a purge."""
    needs("dpkg")
    needs_root()
    root = os.path.join(pack.made().room, "dpkg-root")
    for it in ("info", "updates", "triggers"):
        os.makedirs(os.path.join(root, "var", "lib", "dpkg", it))
    open(os.path.join(root, "var", "lib", "dpkg", "status"), "wb").close()
    force = ("--force-depends", "--force-script-chrootless", "--force-confdef", "--force-unsafe-io")
    dpkg = ("dpkg", f"--root={root}", *force)
    run(*dpkg, "-i", package_of(pack))
    out, _ = run(os.path.join(root, "usr", "bin", "observer"), "serve", "--version")
    assert out.startswith(f"kezhundam {VERSION}, "), out
    options = os.path.join(root, "etc", "default", "observer")
    with open(options, "a", encoding="ascii") as it:
        it.write("OBSERVER_OPTIONS=mine\n")
    run(*dpkg, "-i", package_of(pack))
    run(*dpkg, "-r", "observer")
    with open(options, encoding="ascii") as it:
        assert it.read().endswith("OBSERVER_OPTIONS=mine\n")
    left = [os.path.join(at, it) for at, _, names in os.walk(root) for it in names if "/var/" not in at]
    assert left == [options], left
    run(*dpkg, "-P", "observer")
    assert not os.path.exists(options)


def asked_of_systemd(pack, script, *words):
    """Runs a script of the package beside a systemctl that notes what it is asked. Returns its notes."""
    room = os.path.join(pack.room, "systemd")
    os.makedirs(room, exist_ok=True)
    notes = os.path.join(room, "notes")
    open(notes, "wb").close()
    with open(os.path.join(room, "systemctl"), "w", encoding="utf-8") as it:
        it.write(f"#!/bin/sh\necho \"$@\" >> '{notes}'\n")
    os.chmod(it.name, 0o755)
    with open(os.path.join(TOP, "packaging", "debian", script), encoding="utf-8") as it:
        text = it.read()
    assert "/run/systemd/system" in text
    path = room + os.pathsep + os.environ["PATH"]
    run("sh", "-c", text.replace("/run/systemd/system", room), script, *words, env={"PATH": path})
    with open(notes, encoding="utf-8") as it:
        return it.read().splitlines()


def test_the_scripts_of_the_package(pack):
    """A server is neither enabled nor started by them, unless it runs already."""
    assert asked_of_systemd(pack, "postinst", "configure", "") == ["daemon-reload"]
    assert asked_of_systemd(pack, "postinst", "configure", "0.3.0") == ["daemon-reload", "try-restart observer.service"]
    assert asked_of_systemd(pack, "prerm", "upgrade", "0.5.0") == []
    assert asked_of_systemd(pack, "prerm", "remove") == ["disable --now observer.service"]
    assert asked_of_systemd(pack, "postrm", "remove") == ["daemon-reload"]
    assert asked_of_systemd(pack, "postrm", "purge") == []


def words_of_unit(path):
    """Returns what each setting of a unit says, of the lines that count."""
    found = {}
    with open(path, encoding="utf-8") as it:
        for line in it:
            key, equals, value = line.strip().partition("=")
            if equals and not line.startswith("#"):
                found.setdefault(key, []).append(value)
    return found


def test_the_unit(pack):
    """Both units are one text but for where the program lies; systemd takes it, and it starts what is there."""
    theirs, mine = words_of_unit(pack.made().place("observer.service")), words_of_unit(UNIT)
    assert theirs.pop("ExecStart") == ["/opt/kezhundam/bin/observer.sh serve $OBSERVER_OPTIONS"], theirs
    assert mine.pop("ExecStart") == ["/usr/bin/observer serve $OBSERVER_OPTIONS"], mine
    assert theirs.pop("ExecStartPost") == [f"-/opt/kezhundam/bin/observer.sh {WAIT}"], theirs
    assert mine.pop("ExecStartPost") == [f"-/usr/bin/observer {WAIT}"], mine
    assert theirs.pop("Documentation") != mine.pop("Documentation") and theirs == mine
    assert mine["RestartPreventExitStatus"] == ["2"] and mine["EnvironmentFile"] == ["/etc/default/observer"], mine
    needs("systemd-analyze")
    for name, program in (("a", pack.place("bin", "observer.sh")), ("b", pack.place("bin", "observer"))):
        made = os.path.join(pack.room, f"{name}.service")
        with open(pack.place("observer.service"), encoding="utf-8") as text, open(made, "w", encoding="utf-8") as it:
            it.write(text.read().replace("/opt/kezhundam/bin/observer.sh", program))
        out, error = run("systemd-analyze", "verify", "--man=no", made)
        assert (out, error) == ("", ""), (out, error)


def test_the_line_about_memory(pack):
    """The unit has the line of OPERATING, and the server runs with it."""
    with open(UNIT, encoding="utf-8") as unit, open(pages.PAGE, encoding="utf-8") as page:
        lines = re.findall(r"^#(Environment=GLIBC_TUNABLES=\S+)$", unit.read(), re.MULTILINE)
        assert len(lines) == 1 and f"\n    {lines[0]}\n" in page.read(), lines
    name, _, value = lines[0].partition("=")[2].partition("=")
    _, error = run(pack.program, "serve", "--version", env={name: value})
    assert error == "", error


def test_the_options_of_the_unit(pack):
    """The line that is to be uncommented is a command line that the program takes."""
    with open(OPTIONS, encoding="utf-8") as it:
        given = re.findall(r'^#OBSERVER_OPTIONS="(.+)"$', it.read(), re.MULTILINE)
    assert len(given) == 1, given
    # These are ports at which nobody listens, in place of those of an ensemble.
    here = re.sub(r"zk\d:2888", "127.0.0.1:1", given[0]).replace("0.0.0.0:2181", "0").split()
    ran = subprocess.run([pack.program, "serve", *here, "--give-up", "1"], capture_output=True, timeout=30)
    assert ran.returncode == 8 and b"no leader" in ran.stderr, ran
