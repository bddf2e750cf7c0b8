"""The figures of `--metrics`: their form, and their values beside what has gone through the server; its health; and
scrapers that ask for what isn't there, are slow, or hang while it ends."""
import json
import os
import re
import resource
import signal
import socket
import time

import forwarded
import words
from attacks import watching
from exposition import FAMILIES, HEADERS, TYPE, asked, everything, figures, figures_of, read, said
from held import Held
from leader import CREATE, buffer
from server import CONNECT, GET, TOP, Server, got, is_closed, is_silent, reset, wait_until
from several import DIFF, Following, Seat, at_once
from silence import GRACE, LIMIT, LIMITS, Pinging

# How long a scraper is waited for, and how much later the machine may see to it.
PATIENCE, LATE = 2.0, 1.0
OK = (200, b"ok\n")
NOT_SERVED = (503, b"clients are not served\n")
NO_TURN = (503, b"the engine has made no turn for ten seconds\n")
# How long the engine may be without a turn.
LONGEST_TURN = 10.0
SILENT = re.compile(rb"the leader has been silent for (\d+) milliseconds\n")


def free_port():
    with socket.create_server(("127.0.0.1", 0)) as it:
        return it.getsockname()[1]


class Metered(Server):
    """A server that tells its figures at the port `metrics`."""

    def __init__(self, *options, address="127.0.0.1:", **how):
        self.metrics = free_port()
        super().__init__("--metrics", f"{address}{self.metrics}", *options, **how)
        if self.leader:
            # The client of the handshake has gone.
            assert self.tells(num_alive_connections=0)

    def scraper(self):
        """Returns a connection of a scraper that has said nothing yet."""
        return socket.create_connection(("127.0.0.1", self.metrics), 10)

    def tells(self, **wanted):
        """Returns whether the figures are these soon; they are those after the last turn of the engine."""

        def is_now():
            found = figures(self.metrics)
            return all(found[name] == value for name, value in wanted.items())

        return wait_until(is_now, 5)


def state(port, path):
    """What is answered for /health or /live: the status and the line."""
    answer = asked(port, path)
    assert answer.headers["content-type"].startswith("text/plain"), answer
    assert re.fullmatch(rb"[ -~]+\n", answer.body), answer
    return answer.status, answer.body


# ---- the figures


def test_the_form_of_the_figures():
    with Metered() as server:
        answer = asked(server.metrics, "/metrics")
        assert answer.status == 200 and answer.headers["content-type"] == TYPE, answer
        found = figures_of(answer.body.decode("utf-8"))
        assert list(found) == [name for name, _, _ in FAMILIES], list(found)
        head = asked(server.metrics, "/metrics", "HEAD")
        assert (head.status, head.headers["content-type"]) == (200, TYPE), head
        # As Prometheus asks: it would take the answer in another form, too.
        more = b"User-Agent: Prometheus/2.42.0\r\nAccept: text/plain;version=0.0.4;q=0.5,*/*;q=0.1\r\n"
        more += b"Accept-Encoding: gzip\r\nX-Prometheus-Scrape-Timeout-Seconds: 10\r\n\r\n"
        figures_of(read(said(server.metrics, b"GET /metrics" + HEADERS + more)).body.decode("utf-8"))
        server.ends()


def load(server, client, session):
    """Twenty nodes, seven of them the session's, and fifty reads one after the other."""
    for number in range(20):
        rest = buffer(b"") + forwarded.OPEN_ACL + b"%c" % (number < 7) + b"\xff\xff\xff\xff"
        server.leader.informs(CREATE, buffer(b"/n%d" % number) + rest, session)
    for _ in range(50):
        assert server.answers(client)


def test_figures_after_a_load():
    with Metered("--max-per-address", "5") as server:
        # A fresh tree has four, since the root counts twice; and there is /a.
        assert server.tells(znode_count=5, ephemerals_count=0, watch_count=0, outstanding_requests=0)
        before = figures(server.metrics)
        with server.connection() as one, server.client() as two:
            session = forwarded.joined(one)
            load(server, two, session)
            watching(one, 30, 30)
            watching(two, 5, 5)
            # Two connects, two setWatches and the reads, each of which was waited for.
            frames = 2 + 2 + 50
            last = server.leader.last
            assert server.tells(
                packets_received=before["packets_received"] + frames,
                packets_sent=before["packets_sent"] + frames,
                num_alive_connections=2,
                outstanding_requests=0,
                znode_count=25,
                ephemerals_count=7,
                watch_count=35,
                global_sessions=before["global_sessions"] + 2,
                observer_serving=1,
                observer_last_zxid=server.leader.zxid(),
                observer_transactions_total=last,
                observer_log_transactions=last,
            ), figures(server.metrics)
            assert last == before["observer_transactions_total"] + 22, (last, before)
            found = figures(server.metrics)
            answers, turns = found["observer_answer_seconds"], found["observer_turn_seconds"]
            assert answers.count == before["observer_answer_seconds"].count + frames, (answers, before)
            # Each read takes a turn at least.
            assert turns.count >= before["observer_turn_seconds"].count + 50, (turns, before)
            assert answers.least_sum() <= answers.sum < 30, answers
            rejects_one_more(server)
        # What ends with the connections, and with a session.
        assert server.tells(num_alive_connections=0, watch_count=0, ephemerals_count=7), figures(server.metrics)
        server.leader.end(session)
        assert server.tells(ephemerals_count=0, znode_count=18, global_sessions=before["global_sessions"] + 1)
        server.ends()


def rejects_one_more(server):
    """Beside two connections, three are taken, and the next one is closed."""
    waiting = [server.connection() for _ in range(3)]
    assert server.tells(num_alive_connections=5, connection_rejected=0)
    assert is_closed(server.connection())
    assert server.tells(num_alive_connections=5, connection_rejected=1)
    for it in waiting:
        it.close()
    assert server.tells(num_alive_connections=2, connection_rejected=1)


def is_all_counted(found):
    """Whether each packet that came was answered, and the answer counted: a client may have it just before."""
    return found["packets_received"] == found["packets_sent"]


def test_figures_of_a_write_that_waits():
    with Metered() as server, server.client() as client:
        assert wait_until(lambda: is_all_counted(figures(server.metrics)), 5), figures(server.metrics)
        before = figures(server.metrics)["observer_answer_seconds"]
        client.sendall(forwarded.create(5, b"/new"))
        assert server.tells(outstanding_requests=1)
        asked_for = server.leader.asked()
        time.sleep(0.2)
        server.leader.refuses(asked_for, -110)
        assert forwarded.replied(client)[::2] == (5, -110)
        assert server.tells(outstanding_requests=0)
        found = figures(server.metrics)
        answers = found["observer_answer_seconds"]
        assert answers.count == before.count + 1 and answers.sum >= before.sum + 0.2, (before, answers)
        # It took more than 0.1 s.
        assert answers.buckets[:7] == before.buckets[:7], (before, answers)
        assert found["max_latency"] >= 200 and found["min_latency"] <= found["avg_latency"] <= found["max_latency"] + 1
        assert abs(found["avg_latency"] - 1000 * answers.sum / answers.count) < 0.0002, found
        server.ends()


def test_figures_are_those_of_mntr():
    with Metered() as server, server.client() as client:
        watching(client, 40, 20)
        server.leader.informs(CREATE, buffer(b"/x") + buffer(b"") + forwarded.OPEN_ACL + b"\1\xff\xff\xff\xff", 9)
        assert server.tells(watch_count=40, znode_count=6, ephemerals_count=1)
        told, found = words.figures(server), figures(server.metrics)
        for name in ("avg_latency", "max_latency", "min_latency", "outstanding_requests", "connection_rejected"):
            assert float(told[name]) == found[name], (name, told, found)
        for name in ("znode_count", "watch_count", "ephemerals_count"):
            assert int(told[name]) == found[name], (name, told, found)
        # The word and its answer.
        assert int(told["packets_received"]) == found["packets_received"], (told, found)
        server.ends()


def test_figures_of_time_and_memory():
    with Metered() as server:
        server.leader.pinged()
        before = time.monotonic()
        first = figures(server.metrics)
        between = time.monotonic()
        time.sleep(1)
        later = time.monotonic()
        second = figures(server.metrics)
        least, most = later - between - 0.01, time.monotonic() - before + 0.01
        assert least <= (second["uptime"] - first["uptime"]) / 1000 <= most, (first, second)
        silent = second["observer_leader_silence_seconds"] - first["observer_leader_silence_seconds"]
        assert least <= silent <= most, (first, second)
        server.leader.pinged()
        assert wait_until(lambda: figures(server.metrics)["observer_leader_silence_seconds"] < 0.9, 0.8)
        assert abs(second["process_resident_memory_bytes"] / 1e6 - server.memory()) < 8, (second, server.memory())
        server.ends()


def test_figures_of_descriptors():
    with Metered(limit=lambda: resource.setrlimit(resource.RLIMIT_NOFILE, words.limit_of(200))) as server:
        for count in (0, 10, 0):
            clients = [server.client() for _ in range(count)]
            assert server.tells(num_alive_connections=count)
            assert words.tells_descriptors(server, 200, lambda it: figures(it.metrics)), figures(server.metrics)
            for it in clients:
                it.close()
        server.ends()


def named(expression):
    """The metrics that an expression of PromQL names."""
    plain = re.sub(r"\{[^}]*\}|\[[^\]]*\]|\b(?:by|on|group_right) ?\([^)]*\)", " ", expression)
    return {it for it in re.findall(r"\b[a-z_]+\b(?!\s*\()", plain) if it not in ("or", "and", "on", "by")}


def test_figures_that_the_dashboard_and_the_alerts_name():
    with open(os.path.join(TOP, "contrib", "grafana.json"), encoding="utf-8") as it:
        panels = json.load(it)["panels"]
    with open(os.path.join(TOP, "contrib", "alerts.yml"), encoding="utf-8") as it:
        expressions = re.findall(r"^ +expr: (.+)$", it.read(), re.M)
    assert len(panels) >= 15 and len(expressions) == 4, (len(panels), expressions)
    places = {(it["gridPos"]["x"], it["gridPos"]["y"]) for it in panels}
    assert [it["id"] for it in panels] == list(range(1, len(places) + 1)), panels
    for panel in panels:
        assert panel["title"] and panel["description"] and panel["fieldConfig"]["defaults"]["unit"], panel
        expressions += [it["expr"] for it in panel["targets"]]
    with Metered() as server:
        text = asked(server.metrics, "/metrics").body.decode("utf-8")
        server.ends()
    # `up` is Prometheus' own.
    told = {"up"} | set(re.findall(r"^[a-z_]+", text, re.M))
    for it in expressions:
        assert named(it) and named(it) <= told, (it, named(it) - told)


# ---- its health


def test_health_before_a_leader_serves():
    with Metered(serves=False) as server:
        assert state(server.metrics, "/health") == NOT_SERVED and state(server.metrics, "/live") == OK
        assert figures(server.metrics)["observer_serving"] == 0
        server.handshake()
        assert wait_until(lambda: state(server.metrics, "/health") == OK, 5)
        assert server.tells(observer_serving=1) and state(server.metrics, "/live") == OK
        assert asked(server.metrics, "/health", "HEAD").status == asked(server.metrics, "/live", "HEAD").status == 200
        server.ends()


def without_a_leader():
    """A server that nobody leads is alive, for longer than a turn may be away."""
    port = free_port()
    with Following([Seat(is_open=False)], "--metrics", f"127.0.0.1:{port}"):
        until = time.monotonic() + 11.5
        while time.monotonic() < until:
            assert state(port, "/live") == OK and state(port, "/health") == NOT_SERVED
            time.sleep(0.25)
        assert figures(port)["observer_serving"] == 0


def falls_silent(port):
    """The leader says nothing more, and the server is unhealthy after its limit. Returns what is said of it, until the
    leader is given up."""
    began, reasons = time.monotonic(), set()
    while state(port, "/health") == OK:
        assert time.monotonic() - began < LIMIT + GRACE
    assert time.monotonic() - began > LIMIT - 0.15, time.monotonic() - began
    while (told := state(port, "/health")) != NOT_SERVED:
        assert time.monotonic() - began < LIMIT + GRACE, told
        reasons.add(told)
    assert state(port, "/live") == OK
    found = figures(port)
    assert found["observer_serving"] == 0 and found["observer_leader_silence_seconds"] >= LIMIT, found
    for status, told in reasons:
        assert status == 503 and int(SILENT.fullmatch(told)[1]) >= LIMIT * 1000, told
    return reasons


def beside_silent_leaders():
    """It is healthy beside a leader that PINGs, and tells of one that doesn't."""
    port, reasons = free_port(), set()
    with Following([Seat()], *LIMITS, "--metrics", f"127.0.0.1:{port}") as server:
        for epoch in range(1, 6):
            line = server.seats[0].accept()
            line.introduced()
            line.greets(epoch)
            line.sends(DIFF, 0)
            line.finishes()
            assert wait_until(lambda: state(port, "/health") == OK, LIMIT / 2)
            with Pinging(line):
                until = time.monotonic() + 2 * LIMIT
                while time.monotonic() < until:
                    assert state(port, "/health") == OK
                    assert figures(port)["observer_leader_silence_seconds"] < LIMIT
            reasons |= falls_silent(port)
            # It is told for the 0.2 s before the leader is given up, unless the machine has other work then.
            if reasons:
                return
    raise AssertionError("no silence was told")


def without_a_limit():
    """Beside a leader that may be silent for as long as it likes the server is healthy."""
    with Metered("--tick", "50", "--sync-limit", "0") as server:
        time.sleep(1)
        assert state(server.metrics, "/health") == OK
        server.ends()


def test_an_engine_that_stands_still():
    """Its thread is the program's first. The others go on, so a client's request comes in, and waits."""
    with Metered("--sync-limit", "0") as server, server.client() as client:
        before = time.monotonic()
        assert server.answers(client)
        # It is back from that turn, so it holds nothing that others wait for.
        time.sleep(0.1)
        with Held(server.program.pid):
            turns, held = figures(server.metrics)["observer_turn_seconds"].count, time.monotonic()
            client.sendall(GET)
            while (told := state(server.metrics, "/live")) == OK:
                assert time.monotonic() - held < LONGEST_TURN + LATE
                time.sleep(0.02)
            assert told == NO_TURN and time.monotonic() - before > LONGEST_TURN, (told, time.monotonic() - before)
            assert asked(server.metrics, "/live", "HEAD").status == 503
            assert figures(server.metrics)["observer_turn_seconds"].count == turns
            assert is_silent(client)
        assert got(client)
        assert wait_until(lambda: state(server.metrics, "/live") == OK, LATE)
        server.ends()


# ---- what else is asked


def test_requests_that_are_none():
    with Metered() as server:
        for path in ("/", "/metric", "/metrics/", "/health/x", "/METRICS"):
            assert asked(server.metrics, path).status == 404, path
        for method, path in (("POST", "/metrics"), ("DELETE", "/health"), ("PUT", "/live"), ("OPTIONS", "/metrics")):
            answer = asked(server.metrics, path, method)
            assert answer.status == 405 and answer.headers["allow"] == "GET, HEAD", (method, answer)
        body = b"POST /metrics" + HEADERS + b"Content-Length: 3\r\n\r\nabc"
        assert read(said(server.metrics, body)).status == 405
        # A connection is closed after its answer, whatever else was asked.
        assert read(said(server.metrics, 2 * (b"GET /live" + HEADERS + b"\r\n"))).body == b"ok\n"
        for content in (b"hello\r\n\r\n", b"GET /metrics\r\n\r\n", CONNECT + b"\r\n\r\n", b" / HTTP/1.1\r\n\r\n"):
            assert read(said(server.metrics, content)).status == 400, content
        assert figures(server.metrics)["observer_serving"] == 1
        server.ends()


def test_long_heads_are_refused():
    with Metered() as server:
        for size, is_taken in ((3500, True), (4096, False), (100_000, False), (4_000_000, False)):
            content = said(server.metrics, b"GET /metrics" + HEADERS + b"X: " + b"x" * size + b"\r\n\r\n")
            assert content.startswith(b"HTTP/1.1 200 ") == is_taken, (size, content[:100])
            # Its refusal may be lost with the rest of the head, which isn't read.
            assert is_taken or content == b"" or 400 <= read(content).status < 500, (size, content)
        content = said(server.metrics, b"GET /" + b"x" * 5000 + HEADERS + b"\r\n")
        assert content == b"" or 400 <= read(content).status < 500, content
        assert server.memory() < 300 and server.is_serving()
        server.ends()


# ---- slow ones


def is_left(connection, began):
    """The server leaves this scraper after its time, with no figures."""
    assert not everything(connection).startswith(b"HTTP/1.1 200 ")
    took = time.monotonic() - began
    assert PATIENCE - 0.2 < took < PATIENCE + LATE, took


def silent_scraper():
    """One that says nothing is left; the next ones wait meanwhile, and no client does."""
    with Metered() as server:
        with server.scraper() as silent:
            began, waiting = time.monotonic(), [server.scraper() for _ in range(5)]
            assert server.is_serving() and time.monotonic() - began < 0.5
            for it in waiting:
                it.sendall(b"GET /metrics" + HEADERS + b"\r\n")
            for it in waiting:
                assert figures_of(read(everything(it)).body.decode("utf-8"))["observer_serving"] == 1
                it.close()
            assert time.monotonic() - began < PATIENCE + LATE
            is_left(silent, began)
        server.ends()


def slow_scraper():
    """One that goes on byte by byte is left, too, if its head takes too long."""
    with Metered() as server:
        with server.scraper() as slow:
            began = time.monotonic()
            for byte in (b"GET /metrics" + HEADERS)[:40]:
                try:
                    slow.sendall(bytes([byte]))
                except ConnectionError:
                    break
                time.sleep(0.1)
            assert not everything(slow).startswith(b"HTTP/1.1 200 ")
            assert PATIENCE < time.monotonic() - began < 5
        # One that is slow, but not too slow.
        with server.scraper() as slow:
            content = b"GET /live" + HEADERS + b"\r\n"
            for at in range(0, len(content), 10):
                slow.sendall(content[at : at + 10])
                time.sleep(0.1)
            assert read(everything(slow)).body == b"ok\n"
        server.ends()


def test_health_and_slow_scrapers():
    at_once({
        "without a leader": without_a_leader,
        "beside silent leaders": beside_silent_leaders,
        "without a limit": without_a_limit,
        "a silent scraper": silent_scraper,
        "a slow scraper": slow_scraper,
    })


def placed(server):
    """Returns a client, which may find no place until the one before it is gone."""
    found = []

    def is_in():
        try:
            found.append(server.client())
        except (AssertionError, ConnectionError):
            pass
        return bool(found)

    assert wait_until(is_in, 5)
    return found[0]


def test_scrapers_that_come_and_go():
    with Metered("--max-clients", "1") as server, placed(server) as client:
        # None takes the one client's place.
        assert server.tells(num_alive_connections=1)
        rejected = figures(server.metrics)["connection_rejected"]
        base, threads = server.descriptors(), server.threads()
        for turn in range(60):
            scraper = server.scraper()
            scraper.sendall((b"GET /metrics" + HEADERS + b"\r\n")[: turn - 12])
            if turn % 2:
                reset(scraper)
            else:
                scraper.close()
            assert turn % 20 or figures(server.metrics)["num_alive_connections"] == 1
        assert figures(server.metrics)["connection_rejected"] == rejected
        assert wait_until(lambda: server.descriptors() <= base and server.threads() <= threads, 5)
        assert server.answers(client)
        server.ends()


def test_the_end_while_scrapers_hang():
    with Metered() as server:
        hanging = [server.scraper() for _ in range(3)]
        hanging[0].sendall(b"GET /metrics" + HEADERS)
        time.sleep(0.1)
        server.ends()
        for it in hanging:
            assert everything(it) == b""
            it.close()
    with Metered() as server:
        with server.scraper() as it:
            it.sendall(b"GET /met")
            server.program.send_signal(signal.SIGTERM)
            assert server.program.wait(1) == -signal.SIGTERM
    # It says nothing before its leader does.
    with Metered(serves=False) as server, server.scraper():
        server.ends()


# ---- where it is


def test_a_port_alone_is_this_machine_s():
    with Metered(address="") as server:
        assert state(server.metrics, "/live") == OK
        # Any other address of this machine.
        try:
            socket.create_connection(("127.0.0.2", server.metrics), 5).close()
        except ConnectionRefusedError:
            pass
        else:
            raise AssertionError("it listens at other addresses, too")
        server.ends()
