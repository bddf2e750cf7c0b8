"""The commands of zkCli: each prints at the server under test what it prints at the leader, and does what it has to."""
import re
import time

import defaults
from lab import BRIEF, JARS, JAVA, ended, library, until
from libraries import Shell

ROOT = "/zkcli"
# A command of the shell's own, which no server sees: it tells that the commands before it are done.
MARK, MARKED = "printwatches", "printwatches is on"
SECONDS = 60
# How much later than the mark an event may be printed.
LATE = 0.3
# What differs from server to server, and from time to time.
DIFFERENT = (
    (re.compile(r"0x[0-9a-f]+"), "0x"),
    (re.compile(r"(?m)^([cm]time = ).*$"), r"\1"),
    (re.compile(r"(?m)^.*(Session|session|log4j|SLF4J|Welcome|JLine|Connecting).*\n"), ""),
    (re.compile(r"\[(.*)\]"), lambda found: f"[{', '.join(sorted(found[1].split(', ')))}]"),
)
# What a watch is told, which the shell prints by a thread of its own.
EVENT = re.compile(r"^WatchedEvent state:SyncConnected type:(\w+ path:.*)$", re.M)


class Cli(Shell):
    """ZooKeeperMain at a port."""

    def __init__(self, port, folder, name):
        path = ":".join(str(JAVA / it) for it in JARS)
        words = ["java", *BRIEF, "-Xmx128m", "-cp", path, "org.apache.zookeeper.ZooKeeperMain"]
        super().__init__([*words, "-waitforconnection", "-server", f"127.0.0.1:{port}"], folder, name)

    def does(self, command):
        """Gives a command, and returns what it prints, but for events."""
        before = len(self.output())
        self.say(command)
        self.say(MARK)
        until(f"{command} is done", lambda: MARKED in self.output()[before:], SECONDS)
        found = self.output()[before:].replace(MARKED, "").splitlines()
        return "\n".join(it for it in found if it and not it.startswith(("[zk: ", "WATCHER::", "WatchedEvent ")))

    def is_connected(self):
        return self.ran.poll() is None and "zookeeper" in self.does("ls /")


class Bench(defaults.Bench):
    """The ensemble, a shell at the leader, and one at the server under test."""

    def __init__(self, program, folder):
        super().__init__(program, folder)
        self.shells, self.count = {}, 0

    def shell(self, port):
        """Returns a shell at a port that is connected: the one that the check before has left, or a new one."""
        self.begin()
        if port not in self.shells or not self.shells[port].is_connected():
            if port in self.shells:
                self.shells[port].__exit__()
            self.count += 1
            self.shells[port] = Cli(port, self.folder, f"zkcli-{self.count}")
            until("the shell is connected", self.shells[port].is_connected, SECONDS)
        return self.shells[port]

    def both(self, name, *commands):
        """Gives commands to the shell at each of the two, where {} stands for a node of its own. Returns what each
        command prints at the server under test, and behind it the events."""
        printed = []
        for port, at in ((self.leader.client, "at-a"), (self.observer.client, "at-b")):
            printed.append(self.commands(self.shell(port), f"{ROOT}/{name}/{at}", commands))
        theirs, ours = printed
        for command, there, here in zip((*commands, "the shell"), theirs, ours):
            assert here == there, f"{command} prints {here!r} and at the leader {there!r}"
        return ours

    def commands(self, shell, path, commands):
        owner = library(self.leader.client)
        owner.ensure_path(path)
        ended(owner)
        shell.does(f"sync {path}")
        before, printed = len(shell.output()), []
        for command in commands:
            found = shell.does(command.replace("{}", path)).replace(path, "{}")
            for pattern, text in DIFFERENT:
                found = pattern.sub(text, found)
            printed.append(found if command != "whoami" else in_order(found))
        time.sleep(LATE)
        return printed + ["\n".join(EVENT.findall(shell.output()[before:].replace(path, "{}")))]

    def stop(self):
        for it in self.shells.values():
            it.__exit__()
        super().stop()


def has(printed, *parts):
    """Each of the commands has printed its part."""
    for found, part in zip(printed, parts):
        assert part in found, f"{part!r} isn't in {found!r}"


def create(bench):
    """create: alone, with data, with a list, -s, -e, -s -e, -c, of what is there, and without a parent."""
    commands = ("create {}/a", "create {}/b data", "create {}/c data world:anyone:cr", "create -s {}/s- data")
    commands += ("create -e {}/e", "create -s -e {}/s-", "create -c {}/container", "create -c {}/container/c data")
    commands += ("create {}/a", "create {}/x/y", "create {}/e/below", "get {}/b", "getAcl {}/c", "ls {}")
    made = ("a", "b", "c", "s-0000000003", "e", "s-0000000005", "container", "container/c")
    wanted = [f"Created {{}}/{it}" for it in made]
    wanted += ["Node already exists: {}/a", "Node does not exist: {}/x/y"]
    wanted += ["Ephemerals cannot have children: {}/e/below", "data", "'world,'anyone"]
    wanted += ["[a, b, c, container, e, s-0000000003, s-0000000005]"]
    has(bench.both("create", *commands), *wanted)


def create_ttl(bench):
    """create -t: it is refused, since TTL nodes are off by default, and the shell goes on."""
    has(bench.both("ttl", "create -t 100000 {}/t data", "create {}/afterwards"), "", "Created {}/afterwards")


def get(bench):
    """get, get -s, get -w, which is told, and of a node that isn't there."""
    commands = ("create {}/a first", "get {}/a", "get -s {}/a", "get -w {}/a", "set {}/a second", "get {}/a")
    printed = bench.both("get", *commands, "get {}/x")
    has(printed, "Created", "first", "dataLength = 5", "first", "", "second", "Node does not exist: {}/x")
    assert printed[-1] == "NodeDataChanged path:{}/a", printed[-1]


def ls(bench):
    """ls, ls -s, ls -R, ls -w, which is told."""
    commands = ("create {}/a", "create {}/a/b", "create {}/c", "ls {}", "ls -s {}", "ls -R {}", "ls -w {}")
    printed = bench.both("ls", *commands, "delete {}/c", "ls {}/x")[3:]
    has(printed, "[a, c]", "numChildren = 2", "{}\n{}/a\n{}/c\n{}/a/b", "[a, c]", "", "Node does not exist: {}/x")
    assert printed[-1] == "NodeChildrenChanged path:{}", printed[-1]


def set_data(bench):
    """set, set -s, set -v with the node's version and with another one."""
    commands = ("create {}/a", "set {}/a one", "set -s {}/a two", "set -v 2 {}/a three", "set -v 9 {}/a four")
    has(bench.both("set", *commands, "get {}/a")[2:], "dataVersion = 2", "", "version No is not valid : {}/a", "three")


def delete(bench):
    """delete, delete -v with the node's version and with another one, and of a node that has children."""
    commands = ("create {}/a", "create {}/a/b", "delete {}/a", "delete -v 7 {}/a/b", "delete -v 0 {}/a/b")
    printed = bench.both("delete", *commands, "delete {}/a", "delete {}/a", "ls {}")[2:]
    has(printed, "Node not empty: {}/a", "version No is not valid : {}/a/b", "", "", "Node does not exist: {}/a", "[]")


def deleteall(bench):
    """deleteall, at once and by batches, which are multis."""
    commands = ["create {}/a"] + [f"create {{}}/a/{it}" for it in range(7)] + ["create {}/a/0/b"]
    printed = bench.both("deleteall", *commands, "deleteall {}/a", "ls {}", *commands, "deleteall {}/a -b 3", "ls {}")
    assert printed[10] == printed[21] == "[]", printed


def stat(bench):
    """stat, stat -w, which is told, and of a node that isn't there."""
    commands = ("create -e {}/a data", "stat {}/a", "stat -w {}/a", "set {}/a more", "delete {}/a", "stat {}/a")
    printed = bench.both("stat", *commands)[1:]
    has(printed, "dataLength = 4", "numChildren = 0", "", "", "Node does not exist: {}/a")
    assert printed[-1] == "NodeDataChanged path:{}/a", printed[-1]


def acl(bench):
    """addauth, getAcl, getAcl -s, setAcl, setAcl -s, -v and -R; a client without the id may not read."""
    commands = ("addauth digest user:secret", "create {}/a data auth::cdrwa", "create {}/a/b", "getAcl {}/a")
    commands += ("getAcl -s {}/a", "get {}/a", "setAcl -R {}/a auth::cdrwa", "getAcl {}/a/b")
    commands += ("setAcl -s {}/a/b world:anyone:r,auth::a", "getAcl {}/a/b", "setAcl -v 7 {}/a world:anyone:r")
    printed = bench.both("acl", *commands)[3:]
    has(printed, "'digest,'user:", "aclVersion = 0", "data", "", ": cdrwa", "aclVersion = 2", "'world,'anyone")
    has(printed[7:], "version No is not valid : {}/a")
    for it in bench.shells.values():
        it.ends()
    printed = bench.both("acl", "get {}/a", "getAcl {}/a/b", "set {}/a/b x", "setAcl {}/a world:anyone:cdrwa")
    has(printed, "Insufficient permission : {}/a", "'digest,'user:x", "Insufficient", "Insufficient")


def sync(bench):
    """sync."""
    has(bench.both("sync", "sync {}", "sync {}/x"), "Sync is OK", "Sync is OK")


def get_ephemerals(bench):
    """getEphemerals: all of the session's own, and those below a path."""
    commands = ("create {}/kept", "create -e {}/b", "create -e {}/a", "getEphemerals {}", "getEphemerals {}/a")
    printed = bench.both("ephemerals", *commands, "delete {}/b", "getEphemerals {}/b", "getEphemerals")
    assert "[{}/a, {}/b]" in printed[3], printed[3]
    assert "{}/a" in printed[4] and "{}/b" not in printed[4] + printed[6], printed
    assert "{}/a" in printed[7] and "{}/kept" not in printed[7], printed


def get_all_children_number(bench):
    """getAllChildrenNumber: all nodes below, at any depth."""
    commands = ("create {}/a", "create {}/a/b", "create {}/a/b/c", "create {}/d", "getAllChildrenNumber {}")
    printed = bench.both("number", *commands, "getAllChildrenNumber {}/a/b/c", "getAllChildrenNumber {}/x")[4:]
    has(printed, "4", "0", "Node does not exist: {}/x")


def in_order(printed):
    """The ids that whoami prints, in an order: Java's servers keep them in a set, and tell them in any."""
    head, *ids = printed.splitlines()
    return "\n".join([head, *sorted(ids)])


def whoami(bench):
    """whoami: the address, and after addauth the user."""
    for it in bench.shells.values():
        it.ends()
    printed = bench.both("whoami", "whoami", "addauth digest alice:secret", "whoami")
    has(printed, "ip: 127.0.0.1", "", "digest: alice")
    assert "digest" not in printed[0], printed[0]


def add_watch(bench):
    """addWatch of both modes, of which each is told of every change, the recursive one also below the node."""
    commands = ("create {}/p", "create {}/r", "addWatch {}/r", "addWatch -m PERSISTENT {}/p", "set {}/p 1")
    commands += ("set {}/p 2", "create {}/p/child", "set {}/p/child x", "create {}/r/a", "create {}/r/a/b")
    told = bench.both("add-watch", *commands, "delete {}/r/a/b")[-1].splitlines()
    wanted = ["NodeDataChanged path:{}/p"] * 2 + ["NodeChildrenChanged path:{}/p", "NodeCreated path:{}/r/a"]
    assert told == [*wanted, "NodeCreated path:{}/r/a/b", "NodeDeleted path:{}/r/a/b"], told


def removewatches(bench):
    """removewatches -d, -c and -a: what is removed isn't told any more; where there is none it says so."""
    commands = ("create {}/a", "get -w {}/a", "ls -w {}/a", "removewatches {}/a -d", "set {}/a 1", "create {}/a/b")
    commands += ("ls -w {}/a", "removewatches {}/a -c", "create {}/a/c", "addWatch {}/a", "removewatches {}/a -a")
    printed = bench.both("remove", *commands, "set {}/a 2", "removewatches {}/a -a")
    assert "No such watcher for {}/a" in printed[12], printed[12]
    removed = ["DataWatchRemoved", "NodeChildrenChanged", "ChildWatchRemoved", "PersistentWatchRemoved"]
    assert [it.split()[0] for it in printed[-1].splitlines()] == removed, printed[-1]


def config(bench):
    """config, config -c, config -s, config -w: the server under test is listed with its client port."""
    printed = bench.both("config", "config", "config -c", "config -s", "config -w", "get /zookeeper/config")
    for found in (printed[0], printed[1], printed[4]):
        assert f"127.0.0.1:{bench.observer.client}" in found, found
    has(printed[2:], "dataVersion = -1")


def reconfig(bench):
    """reconfig is refused, since it is off by default, and the shell goes on."""
    printed = bench.both("reconfig", "reconfig -remove 3", "create {}/afterwards")
    has(printed, "", "Created {}/afterwards")
    assert "Committed" not in printed[0], printed[0]


def quota(bench):
    """setquota, listquota, delquota; what is counted isn't compared, since each server counts for itself."""
    commands = ("create {}/q data", "setquota -n 3 {}/q", "create {}/q/a", "delquota -n {}/q", "delquota {}/q")
    bench.both("quota", *commands)
    port = bench.observer.client
    commands = ("setquota -n 9 {}", "listquota {}", "listquota {}/x")
    printed = bench.commands(bench.shell(port), f"{ROOT}/listed", commands)
    has(printed, "", "Output quota for {} count=9", "does not exist")


def connect(bench):
    """close ends the session, with its ephemerals, and connect opens another one."""
    owner = library(bench.leader.client)
    shell = bench.shell(bench.observer.client)
    owner.ensure_path(f"{ROOT}/connect")
    shell.does(f"sync {ROOT}")
    assert "Created" in shell.does(f"create -e {ROOT}/connect/e")
    shell.does("close")
    until("the ephemeral is gone", lambda: not owner.exists(f"{ROOT}/connect/e"))
    shell.does(f"connect 127.0.0.1:{bench.observer.client}")
    until("the shell is connected", lambda: "[]" in shell.does(f"ls {ROOT}/connect"))
    ended(owner)


CHECKS = [create, create_ttl, get, ls, set_data, delete, deleteall, stat, acl, sync, get_ephemerals]
CHECKS += [get_all_children_number, whoami, add_watch, removewatches, config, reconfig, quota, connect]
