"""A plugin of pytest for kazoo's own tests: the cluster of their harness is the server under test, whose port is in
$UNDER_TEST, and the outcome of each test is a line of $OUTCOMES: the test, passed or not, and why.
"""
import json
import os

from kazoo.testing import harness

from proxy import Proxy

MEMBERS = 3


class Member:
    """A server of the cluster: one of several ways to the server under test, which can be shut."""

    def __init__(self, port):
        self.proxy, self.running = Proxy(port), True
        self.address = f"127.0.0.1:{self.proxy.port}"

    def stop(self):
        self.proxy.cut()

    def run(self):
        self.proxy.mend()


CLUSTER = [Member(int(os.environ["UNDER_TEST"])) for _ in range(MEMBERS)]
harness.get_global_cluster = lambda: CLUSTER
REPORTS = {}


def pytest_runtest_logreport(report):
    """Keeps what went wrong before, in and after a test, and writes a line when all of it is over."""
    found = REPORTS.setdefault(report.nodeid, [])
    if report.outcome != "passed":
        crash = getattr(report.longrepr, "reprcrash", None)
        found.append((report.outcome, str(crash or report.longrepr)))
    if report.when == "teardown":
        outcome, why = found[0] if found else ("passed", "")
        with open(os.environ["OUTCOMES"], "a", encoding="utf-8") as out:
            print(json.dumps([report.nodeid, outcome, why]), file=out)
