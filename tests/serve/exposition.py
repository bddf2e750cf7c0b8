"""What `serve --metrics` answers: HTTP as it comes over the wire, and the text format of Prometheus, version 0.0.4,
read as strictly as it has to be written."""
import re
import socket
from typing import Dict, List, NamedTuple

HEADERS = b" HTTP/1.1\r\nHost: 127.0.0.1\r\n"
TYPE = "text/plain; version=0.0.4; charset=utf-8"
BOUNDS = "0.000100 0.000500 0.001000 0.005000 0.010000 0.050000 0.100000 0.500000 1.000000 5.000000 +Inf".split()

# How a value is written.
WHOLE, FOUR_PLACES, SIX_PLACES, DECIMAL = r"\d+", r"\d+\.\d{4}", r"\d+\.\d{6}", r"\d+(?:\.\d+)?"
# The families in their order, each with its type and the form of its value, which a histogram hasn't.
FAMILIES = [
    ("uptime", "gauge", WHOLE),
    ("num_alive_connections", "gauge", WHOLE),
    ("connection_rejected", "counter", WHOLE),
    ("znode_count", "gauge", WHOLE),
    ("watch_count", "gauge", WHOLE),
    ("ephemerals_count", "gauge", WHOLE),
    ("avg_latency", "gauge", FOUR_PLACES),
    ("max_latency", "gauge", WHOLE),
    ("min_latency", "gauge", WHOLE),
    ("packets_received", "gauge", WHOLE),
    ("packets_sent", "gauge", WHOLE),
    ("outstanding_requests", "gauge", WHOLE),
    ("global_sessions", "gauge", WHOLE),
    ("observer_serving", "gauge", "[01]"),
    ("observer_last_zxid", "gauge", WHOLE),
    ("observer_transactions_total", "counter", WHOLE),
    ("observer_log_transactions", "gauge", WHOLE),
    ("observer_leader_silence_seconds", "gauge", DECIMAL),
    ("process_resident_memory_bytes", "gauge", WHOLE),
    ("open_file_descriptor_count", "gauge", WHOLE),
    ("max_file_descriptor_count", "gauge", WHOLE),
    ("observer_answer_seconds", "histogram", ""),
    ("observer_turn_seconds", "histogram", ""),
]


# ---- HTTP


class Answer(NamedTuple):
    """An answer; the names of its headers are in small letters. Its head and its body are as they came."""

    status: int
    headers: Dict[str, str]
    body: bytes


def read(content, has_body=True):
    """Reads an answer, which is all that came until the connection was closed."""
    head, end, body = content.partition(b"\r\n\r\n")
    status, *lines = head.decode("ascii").split("\r\n")
    found = re.fullmatch(r"HTTP/1\.1 (\d{3}) [ -~]*", status)
    assert found and end, content[:200]
    headers = {}
    for line in lines:
        name, colon, value = line.partition(":")
        assert colon and re.fullmatch(r"[A-Za-z-]+", name) and name.lower() not in headers, line
        headers[name.lower()] = value.strip(" ")
    assert "transfer-encoding" not in headers and headers.get("connection", "close") == "close", headers
    if has_body:
        assert int(headers.get("content-length", len(body))) == len(body), (headers, len(body))
    else:
        assert body == b"", body
    return Answer(int(found[1]), headers, body)


def everything(connection):
    """Returns all that comes until the connection is closed."""
    found = b""
    try:
        while piece := connection.recv(1 << 16):
            found += piece
    except ConnectionError:
        pass
    return found


def said(port, content, seconds=10):
    """Sends these bytes on a connection of its own, and returns all that comes until that is closed."""
    with socket.create_connection(("127.0.0.1", port), seconds) as connection:
        try:
            connection.sendall(content)
        except ConnectionError:
            pass  # It is refused before all of it has come.
        return everything(connection)


def asked(port, path, method="GET"):
    """Asks for a path, and returns the answer."""
    content = said(port, f"{method} {path}".encode() + HEADERS + b"\r\n")
    return read(content, method != "HEAD")


# ---- the text


class Histogram(NamedTuple):
    """How many values are at most each bound, the sum of all, and how many they are."""

    buckets: List[int]
    sum: float
    count: int

    def least_sum(self):
        """The least sum that values in these buckets have."""
        counts = [it - before for it, before in zip(self.buckets, [0, *self.buckets])]
        return sum(count * float(bound) for count, bound in zip(counts[1:], BOUNDS))


def value_of(form, text):
    assert re.fullmatch(form, text), (form, text)
    return float(text) if "." in text else int(text)


def histogram_of(name, samples):
    wanted = [f'{name}_bucket{{le="{it}"}}' for it in BOUNDS] + [f"{name}_sum", f"{name}_count"]
    names, values = zip(*(it.rsplit(" ", 1) for it in samples))
    assert list(names) == wanted, names
    buckets, count = [value_of(WHOLE, it) for it in values[:-2]], value_of(WHOLE, values[-1])
    assert buckets == sorted(buckets) and buckets[-1] == count, (buckets, count)
    return Histogram(buckets, value_of(SIX_PLACES, values[-2]), count)


def figures_of(text):
    """Returns the figures of a text by their names, in its order: numbers and histograms. Each family has to be there."""
    assert text.startswith("# HELP ") and text.endswith("\n"), text[:100]
    known, found = {name: rest for name, *rest in FAMILIES}, {}
    for block in ("\n" + text[:-1]).split("\n# HELP ")[1:]:
        purpose, told, *samples = block.split("\n")
        name = purpose.partition(" ")[0]
        assert name in known and name not in found and re.fullmatch(r"\w+ [^\\ ][^\\]*", purpose), purpose
        kind, form = known[name]
        assert told == f"# TYPE {name} {kind}", (name, told)
        if kind == "histogram":
            found[name] = histogram_of(name, samples)
        else:
            assert len(samples) == 1 and samples[0].startswith(f"{name} "), samples
            found[name] = value_of(form, samples[0].partition(" ")[2])
    assert set(found) == set(known), set(known) - set(found)
    return found


def figures(port):
    """Asks for /metrics, and returns its figures."""
    answer = asked(port, "/metrics")
    assert answer.status == 200 and answer.headers["content-type"] == TYPE, answer
    return figures_of(answer.body.decode("utf-8"))
