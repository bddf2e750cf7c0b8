"""The figures of `--metrics`, as Prometheus' own library for Python reads them, beside those of ZooKeeper's observer
after the same load. Debian's zookeeper lacks the jar of its Prometheus provider, but `mntr` has the same figures, with
`zk_` before each name."""
import urllib.request

from prometheus_client.parser import text_string_to_metric_families

import defaults  # It makes the examples' modules known.
from jute import OPEN_ACL, buffer, int32, text
from lab import free_ports, until, word
from raw import Raw

CREATE, EPHEMERAL = 1, 1
SESSION = 30_000
NODES, EPHEMERALS, CLIENTS, READS = 12, 5, 3, 40
# What both servers say of the tree and of their clients, whoever asks.
SHARED = (
    "znode_count ephemerals_count watch_count global_sessions num_alive_connections outstanding_requests"
    " connection_rejected"
).split()
OTHERS = ("packets_received", "packets_sent", "avg_latency", "min_latency", "max_latency", "uptime")
COUNTERS = ("connection_rejected", "observer_transactions")
HISTOGRAMS = ("observer_answer_seconds", "observer_turn_seconds")


class Bench(defaults.Bench):
    """Both observers beside one leader."""

    LINES = ("4lw.commands.whitelist=*",)

    def __init__(self, program, folder):
        super().__init__(program, folder)
        self.metrics, self.words = free_ports(1)[0], 0
        self.OPTIONS = ("--metrics", f"127.0.0.1:{self.metrics}")

    def begin(self):
        super().begin()
        self.java.start(self.dialect, "Mode: observer")

    def families(self):
        """The families as the library reads them, by their names; that of a counter is without `_total`."""
        with urllib.request.urlopen(f"http://127.0.0.1:{self.metrics}/metrics", timeout=10) as answer:
            return {it.name: it for it in text_string_to_metric_families(answer.read().decode())}

    def told(self):
        """What our observer tells, where it is one number."""
        return {name: it.samples[0].value for name, it in self.families().items() if len(it.samples) == 1}

    def told_by_theirs(self):
        """The same figures of ZooKeeper's observer, without the connections that asked for them and their requests."""
        self.words += 1
        lines = dict(line.split("\t") for line in word(self.java.client, "mntr").splitlines() if "\t" in line)
        found = {name: float(lines[f"zk_{name}"]) for name in (*SHARED, *OTHERS)}
        found["num_alive_connections"] -= 1
        found["packets_received"] -= self.words
        return found


def is_read(bench):
    """The library takes the text: each family has a help and its type, and each histogram all of its buckets."""
    families = bench.families()
    assert {*SHARED, *OTHERS, *COUNTERS, *HISTOGRAMS} <= set(families), sorted(families)
    for name, it in families.items():
        kind = "counter" if name in COUNTERS else "histogram" if name in HISTOGRAMS else "gauge"
        assert it.documentation and it.type == kind, it
        if kind != "histogram":
            assert len(it.samples) == 1 and not it.samples[0].labels, it
            continue
        buckets = [(float(one.labels["le"]), one.value) for one in it.samples if one.name == f"{name}_bucket"]
        values = {one.name: one.value for one in it.samples if not one.labels}
        assert buckets == sorted(buckets) and len(buckets) == 11, it
        assert [count for _, count in buckets] == sorted(count for _, count in buckets), it
        assert buckets[-1] == (float("inf"), values[f"{name}_count"]) and values[f"{name}_sum"] >= 0, it


def shared(told):
    return [told[name] for name in SHARED]


def asks(client):
    """One client's part of the load: reads, and watches of three kinds. Returns how many requests that are."""
    for number in range(NODES):
        client.data(f"/metrics/n{number}", True)
    client.children("/metrics", True)
    client.stat("/metrics/nowhere", True)
    for _ in range(READS):
        client.data("/metrics/n0")
    return NODES + 2 + READS


def same_load(bench):
    """After the same load both observers tell the same of the tree, the clients and their requests."""
    owner = Raw(bench.leader.client, timeout=SESSION)
    for number in range(-1, NODES):
        path = f"/metrics/n{number}" if number >= 0 else "/metrics"
        flags = EPHEMERAL if 0 <= number < EPHEMERALS else 0
        assert owner.call(CREATE, text(path) + buffer(b"") + OPEN_ACL + int32(flags)).error == 0
    until("both have the nodes", lambda: bench.told()["ephemerals_count"] == EPHEMERALS)
    until("both have the nodes", lambda: bench.told_by_theirs()["ephemerals_count"] == EPHEMERALS)
    before, theirs_before = bench.told(), bench.told_by_theirs()
    clients = [Raw(port, timeout=SESSION) for port in (bench.ours.client, bench.java.client) for _ in range(CLIENTS)]
    requests = sum(map(asks, clients)) // 2 + CLIENTS
    until("all are answered", lambda: bench.told()["packets_sent"] == before["packets_sent"] + requests)
    # A connection that asked before may not be gone yet.
    until("both tell the same", lambda: shared(bench.told()) == shared(bench.told_by_theirs()))
    ours, theirs = bench.told(), bench.told_by_theirs()
    pairs = (ours, before), (theirs, theirs_before)
    assert ours["watch_count"] == CLIENTS * (NODES + 2) and ours["num_alive_connections"] == CLIENTS, ours
    came = [now["packets_received"] - then["packets_received"] for now, then in pairs]
    assert came == [requests, requests], (came, requests)
    print("     " + ", ".join(f"{name} {ours[name]:g}" for name in SHARED), flush=True)
    for it in clients:
        it.leave()
    owner.leave()
    until("the watches are gone", lambda: bench.told()["watch_count"] == 0)


CHECKS = [is_read, same_load]
