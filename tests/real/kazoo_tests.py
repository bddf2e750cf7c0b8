"""kazoo's own tests, as its package has them, at the server under test."""
import json
import os
import pathlib
import re
import subprocess
import sys

import defaults
from lab import Failed, Process

HERE = pathlib.Path(__file__).resolve().parent
PACKAGES = pathlib.Path("/usr/lib/python3/dist-packages")
TESTS = PACKAGES / "kazoo" / "tests"
# Where the tests are told the version, they don't ask for it by a word, which isn't allowed by default.
VERSION = {"TRAVIS": "true", "ZOOKEEPER_VERSION": "3.8.0"}
# What one test may take, and all tests of a file.
SECONDS, FILE_SECONDS = 90, 1500
PYTEST = (sys.executable, "-B", "-m", "pytest", "-q", "--rootdir", PACKAGES, "-p", "no:cacheprovider")

# What ZooKeeper's own observer doesn't pass either: it has no read-only mode and no SASL here, so kazoo asks it for a token
# over and over; the rest needs Kerberos, or is of kazoo's own builds.
LEFT_OUT = (
    "TestReadOnlyMode",
    "test_connect_sasl_auth",
    "test_invalid_sasl_auth",
    "TestSASLGSSAPIAuthentication",
    "TestBuildEnvironment",
)


def collected():
    """Returns the tests: a file, a class and a name, with colons."""
    words = [str(it) for it in (*PYTEST, "--collect-only", TESTS)]
    found = subprocess.run(words, stdout=subprocess.PIPE, cwd=PACKAGES, check=True).stdout.decode()
    return [it for it in found.splitlines() if "::" in it and not any(out in it for out in LEFT_OUT)]


class Bench(defaults.Bench):
    """The ensemble with the settings of kazoo's harness, and the outcomes of the files whose tests have run."""

    LINES = ("4lw.commands.whitelist=*", "reconfigEnabled=true", "maxClientCnxns=0")
    SUPER = "super:D/InIHSb7yEEbrWz8b9l71RjZJU="
    FLAGS = (f"-Dzookeeper.DigestAuthenticationProvider.superDigest={SUPER}",)
    OPTIONS = ("--super-digest", SUPER)

    def __init__(self, program, folder):
        super().__init__(program, folder)
        self.outcomes = {}

    def outcome(self, test):
        """Returns the outcome of a test, after it has run all tests of the test's file."""
        file = test.split("::")[0]
        if file not in self.outcomes:
            self.begin()
            self.outcomes[file] = self.tried(file)
        return self.outcomes[file].get(test, ("not run", ""))

    def tried(self, file):
        name = pathlib.Path(file).stem
        lines = self.folder / f"{name}.outcomes"
        lines.touch()
        own = {"UNDER_TEST": str(self.observer.client), "OUTCOMES": str(lines), "PYTHONPATH": str(HERE), **VERSION}
        wanted = f"not ({' or '.join(LEFT_OUT)})"
        words = [*PYTEST, "-p", "kazoo_cluster", f"--timeout={SECONDS}", "-k", wanted, PACKAGES / file]
        process = Process(name, words, self.folder, env={**os.environ, **own}, cwd=self.folder)
        try:
            process.ends(FILE_SECONDS)
        finally:
            process.stop()
        found = [json.loads(it) for it in lines.read_text().splitlines()]
        return {test: (outcome, why) for test, outcome, why in found}


def check_of(test):
    file, *names = test.split("::")

    def check(bench):
        outcome, why = bench.outcome(test)
        if outcome != "passed":
            raise Failed(f"{outcome}: {why}")

    check.__name__ = ".".join([re.sub("test_", "", pathlib.Path(file).stem, 1), *names])
    check.__doc__ = "kazoo's own test passes."
    return check


CHECKS = [check_of(it) for it in collected()]
