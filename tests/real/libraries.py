"""Client libraries at the observer: the C client (cli_mt), the Java client (ZooKeeperMain), and kazoo."""
import os
import re
import signal
import subprocess
import time

from kazoo.client import KazooClient

from lab import JARS, JAVA, Failed, until, zxid_of
from proxy import Proxy
from raw import Raw

C_CLIENT = "/usr/lib/zookeeper/bin/cli_mt"
READS = "/libraries"


class Shell:
    """A client's shell, which is given commands on standard input and whose output is gathered."""

    def __init__(self, words, folder, name):
        self.path = folder / f"{name}.out"
        with open(self.path, "wb") as out:
            how = {"stdin": subprocess.PIPE, "stdout": out, "stderr": subprocess.STDOUT, "start_new_session": True}
            self.ran = subprocess.Popen([str(it) for it in words], **how)

    def __enter__(self):
        return self

    def __exit__(self, *_):
        if self.ran.poll() is None:
            os.killpg(self.ran.pid, signal.SIGKILL)
        self.ran.stdin.close()
        self.ran.wait()

    def say(self, command):
        self.ran.stdin.write(f"{command}\n".encode())
        self.ran.stdin.flush()

    def output(self):
        return self.path.read_text(errors="replace")

    def waits(self, what, seconds=30):
        """Waits until this stands in the output."""
        try:
            until(f"{what!r}", lambda: what in self.output(), seconds)
        except Failed as why:
            raise Failed(f"{why}: {self.output()[-1500:]}") from None

    def ends(self):
        self.say("quit")
        self.ran.wait(20)
        return self.output()


def java(port, folder, name, *words):
    path = ":".join(str(JAVA / it) for it in JARS)
    quiet = "-Dorg.slf4j.simpleLogger.defaultLogLevel=warn"
    main = "org.apache.zookeeper.ZooKeeperMain"
    return Shell(["java", quiet, "-Xmx128m", "-cp", path, main, "-server", f"127.0.0.1:{port}", *words], folder, name)


def writer_of(bench):
    client = KazooClient(f"127.0.0.1:{bench.leader.client}", timeout=10)
    client.start(15)
    return client


def made(bench):
    """Makes what is read, once, and returns a client at the leader."""
    writer = writer_of(bench)
    writer.ensure_path(f"{READS}/b")
    writer.ensure_path(f"{READS}/a")
    writer.set(READS, b"data of this node")
    bench.observer.reaches(zxid_of(bench.leader.client))
    return writer


def without_noise(text):
    """Drops the lines of a shell's output that tell of its connection and its clock."""
    noise = re.compile(r"session|time = |Connecting|Watcher|127\.0\.0\.1|Exiting|log4j|^\s+at |EndOfStream|^\s*$", re.I)
    return [it for it in text.splitlines() if not noise.search(it)]


def c_client(bench):
    """cli_mt reads the same at both: get, exists, ls, ls2."""
    writer, outputs = made(bench), []
    for name, port in (("leader", bench.leader.client), ("observer", bench.observer.client)):
        with Shell([C_CLIENT, f"127.0.0.1:{port}"], bench.folder, f"cli-{name}") as shell:
            shell.waits("CONNECTED_STATE")
            for command in ("get {}", "exists {}", "exists {}/x", "ls {}", "ls2 {}"):
                shell.say(command.format(READS))
                time.sleep(0.2)
            outputs.append(without_noise(shell.ends()))
    assert outputs[0] == outputs[1], f"{outputs[1]} at the observer, {outputs[0]} at the leader"
    assert any("data of this node" in it for it in outputs[1]), outputs[1]
    writer.stop()


def c_client_watches(bench):
    """cli_mt leaves a watch by `wexists`, and is told; it makes a node, and is told that its watch there has fired."""
    writer = made(bench)
    with Shell([C_CLIENT, f"127.0.0.1:{bench.observer.client}"], bench.folder, "cli-watch") as shell:
        shell.waits("CONNECTED_STATE")
        shell.say(f"wexists {READS}/later")
        time.sleep(0.5)
        writer.create(f"{READS}/later", b"")
        shell.waits("CREATED_EVENT")
        shell.say(f"wexists {READS}/of-c")
        time.sleep(0.5)
        shell.say(f"create {READS}/of-c")
        shell.waits(f"name = {READS}/of-c")
        until("it is told of its node", lambda: shell.output().count("CREATED_EVENT") == 2)
        shell.ends()
    writer.sync("/")
    assert writer.exists(f"{READS}/of-c")
    writer.stop()


def java_client(bench):
    """ZooKeeperMain reads the same at both: get -s, ls -s, stat, getAcl, and a node that isn't there."""
    writer, outputs = made(bench), []
    for name, port in (("leader", bench.leader.client), ("observer", bench.observer.client)):
        with java(port, bench.folder, f"java-{name}") as shell:
            shell.waits("SyncConnected")
            for command in ("get -s {}", "ls -s {}", "stat {}/a", "getAcl {}", "get {}/x"):
                shell.say(command.format(READS))
            shell.waits("Node does not exist")
            outputs.append(without_noise(shell.ends()))
    assert outputs[0] == outputs[1], f"{outputs[1]} at the observer, {outputs[0]} at the leader"
    writer.stop()


def java_comes_back(bench):
    """After a cut ZooKeeperMain takes its session up, sets its watches again, and is told what it missed."""
    writer, proxy = made(bench), Proxy(bench.observer.client)
    try:
        with java(proxy.port, bench.folder, "java-cut") as shell:
            shell.waits("SyncConnected")
            shell.say(f"get -w {READS}/a")
            shell.say(f"stat -w {READS}/b")
            time.sleep(1)
            proxy.cut()
            writer.set(f"{READS}/a", b"missed")
            bench.observer.reaches(zxid_of(bench.leader.client))
            proxy.mend()
            shell.waits(f"NodeDataChanged path:{READS}/a")
            writer.set(f"{READS}/b", b"afterwards")
            shell.waits(f"NodeDataChanged path:{READS}/b")
            assert "state:Expired" not in shell.output(), shell.output()
            shell.ends()
        assert proxy.count > 1
    finally:
        proxy.close()
        writer.stop()


def java_writes(bench):
    """ZooKeeperMain syncs, makes nodes, sets one and sees it, deletes one; its ephemeral goes when it ends."""
    writer = made(bench)
    with java(bench.observer.client, bench.folder, "java-write") as shell:
        shell.waits("SyncConnected")
        shell.say(f"sync {READS}")
        shell.waits("Sync is OK")
        shell.say(f"create {READS}/of-java made")
        shell.waits(f"Created {READS}/of-java")
        shell.say(f"create -e {READS}/held")
        shell.waits(f"Created {READS}/held")
        shell.say(f"set {READS}/of-java data-after-the-set")
        shell.say(f"get {READS}/of-java")
        shell.waits("data-after-the-set")
        shell.say(f"delete {READS}/a")
        shell.say(f"get {READS}/a")
        shell.waits("Node does not exist")
        writer.sync("/")
        assert writer.get(f"{READS}/of-java")[0] == b"data-after-the-set"
        assert writer.exists(f"{READS}/held") and not writer.exists(f"{READS}/a")
        shell.ends()
    until("its ephemeral is gone", lambda: not writer.exists(f"{READS}/held"))
    writer.stop()


def kazoo_syncs(bench):
    """After a sync a client reads here what was written at the leader before it, in each of 100 rounds."""
    writer, client = made(bench), KazooClient(f"127.0.0.1:{bench.observer.client}", timeout=10)
    client.start(15)
    for round_number in range(100):
        data = b"%d" % round_number
        writer.set(f"{READS}/a", data)
        synced, read = client.sync_async(READS), client.get_async(f"{READS}/a")
        assert synced.get(10) == READS
        assert read.get(10)[0] == data
    for it in (client, writer):
        it.stop()
        it.close()


def kazoo_keeps_its_session(bench):
    """kazoo takes its session up after a cut, and ends it."""
    proxy = Proxy(bench.observer.client)
    client = KazooClient(f"127.0.0.1:{proxy.port}", timeout=10)
    try:
        client.start(15)
        session = client.client_id[0]
        proxy.cut()
        until("kazoo has seen the cut", lambda: not client.connected)
        proxy.mend()
        until("kazoo has come back", lambda: client.connected)
        assert client.client_id[0] == session
        client.get_children("/")
    finally:
        client.stop()
        client.close()
        proxy.close()
    Raw(bench.observer.client).leave()


CHECKS = [c_client, c_client_watches, java_client, java_comes_back, java_writes]
CHECKS += [kazoo_syncs, kazoo_keeps_its_session]
