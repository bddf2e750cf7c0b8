#!/usr/bin/env python3
"""Draws files of ensembles by chance, and compares what `--check-config` tells of them with a reader in Python.

    tests/serve/drawn_config.py PROGRAM [--count N] [--seed S]      the files of N seeds, from S on
    tests/serve/drawn_config.py --show --seed S                     prints the files of a seed, and the options beside

A seed draws a zoo.cfg with its myid, at times its dynamicConfigFile, and options beside it: keys of all kinds, doubled
ones, servers, comments, joined lines; in some files what is wrong, or keys that are unknown. The reader is zoo_cfg.py.
Compared are the status, the lines that aren't followed, what the options say, and, of a file with faults, that one of
these is told, whichever. If program and reader differ, docs/OPERATING.md says which one is wrong.

Not drawn are other roles than `:observer` and `:participant` at the end of the addresses, a server's line that is there
twice word for word, colons and blanks in ports and hosts (but those of IPv6, and these in no brackets), a line of a
backslash alone, a CR without an LF, and what isn't UTF-8.

A file that differs is also printed without the lines that don't matter. The last line is `N passed, M failed`, where
each seed counts as one; the exit status is 0 if none failed. tests/serve/run.py tries 300 seeds.
"""
import argparse
import collections
import os
import random
import subprocess
import sys
import tempfile
from typing import Dict, List, NamedTuple, Optional, Tuple

sys.dont_write_bytecode = True
from server import Program  # noqa: E402
from zoo_cfg import LEADER_ONLY, PROMETHEUS, SILENT_PROVIDERS, WORDS, checked, untold  # noqa: E402

COUNT, SECONDS = 300, 20
FILE, DYNAMIC, MYID = "zoo.cfg", "zoo.cfg.dynamic", "data/myid"
OWN, SUPER = 101, "super:D/InIHSb7yEEbrWz8b9l71RjZJU="
# The texts of myid that are right, and those that are wrong, or a file that isn't there.
IDS, NO_IDS = (f"{OWN}\n", str(OWN), f" {OWN} \r\n", f"0{OWN}\n"), ("", "0\n", "256", "x\n", None)
# How many in a hundred files have something wrong, and unknown keys.
WRONG, UNKNOWN = 40, 25

HOSTS = ("zk1", "zk-0.zk.svc", "10.0.0.7", "[fe80::1]", "[::1]", "localhost")
CLIENTS = (";2181", ";0", ";0.0.0.0:2181", ";[::]:2182", ";zk1:02183", ";+2184", ";[zk1]:+2185")
ROLES = (":observer", ":Observer", ":OBSERVER", ": observer ")
VOTING = ("", "", ":participant", ":PARTICIPANT", ":")
ADDRESSES = ("127.0.0.1", "0.0.0.0", "localhost", "::1", "fe80::1", "zk1", "[::1]", "[fe80::1]", "[zk1]")
# Values that are right, and those that are wrong.
NUMBERS = {
    "tickTime": (("1", "2000", "3600000", "02000"), ("0", "", "3600001", "-1", "2000 ms", "x")),
    "initLimit": (("0", "10", "1000000", "+5", "+0010"), ("1000001", "", "++5", "+")),
    "syncLimit": (("0", "5", "1000000", "007"), ("1000001", "5.0", "x")),
    "minSessionTimeout": (("1", "2", "+2", "-1", "-01"), ("0", "-2", "2147483648", "x")),
    "maxSessionTimeout": (("9000000", "2147483647", "+72000000", "-1"), ("0", "-2", "2147483648", "")),
    "maxClientCnxns": (("0", "1", "60", "100000", "00", "-0", "-5", "+060"), ("", "many", "++1")),
    "maxCnxns": (("0", "1", "60", "100000", "000", "-1", "+7"), ("", "0x10", "-")),
    "clientPort": (("2181", "65535", "02181", "+2181"), ("65536", "", "-1", "client", "+")),
    "observerMasterPort": (
        ("1", "2191", "65535", "+2191", "02191", "0", "+0", "-0", "-1", "-2147483648"),
        ("65536", "", "-2147483649", "++2191", "+-1", "x", "2191,zk1:2191"),
    ),
}
IDLE = {
    "peerType": ("observer", "participant"), "standaloneEnabled": ("false", "true"), "electionAlg": ("3",),
    "quorumListenOnAllIPs": ("true",), "leaderServes": ("yes",), "version": ("100000000",), "syncEnabled": ("true",),
    "forceSync": ("no", "yes"), "fsync.warningthresholdms": ("20",), "txnLogSizeLimitInKb": ("-1",),
    "multiAddress.enabled": ("true",), "digest.enabled": ("true", "false"),
    "dataLogDir": ("/var/log/zk", "/a b/c:d=e"), "snapCount": ("100000", ""), "preAllocSize": ("65536",),
    "commitLogCount": ("500",), "snapSizeLimitInKb": ("4194304",), "group.1": ("1:2:3",), "weight.1": ("1",),
    "observer.x": ("1",), "autopurge.purgeInterval": ("1",), "autopurge.snapRetainCount": ("3",),
    "snapshot.compression.method": ("gz",), "admin.enableServer": ("false",), "admin.serverPort": ("8080",),
    "quorum.auth.kerberos.servicePrincipal": ("zk/_HOST",), "reconfigEnabled": ("false",),
    "localSessionsEnabled": ("false",), "sslQuorum": ("false",), "sessionRequireClientSASLAuth": ("false",),
    "quorum.auth.enableSasl": ("false",), "quorum.auth.learnerRequireSasl": ("false",),
}
NOT_HEEDED = {
    "skipACL": ("yes", "no"), "globalOutstandingLimit": ("1000",),
    "reconfigEnabled": ("true", "", "FALSE"), "metricsProvider.exportJvmInfo": ("true",),
    "metricsProvider.httpsPort": ("7001",), "metricsProvider.className": ("org.example.Provider", ""),
}
REFUSED = {
    "sslQuorum": ("true", "", "FALSE"), "secureClientPort": ("2281", ""), "secureClientPortAddress": ("::1",),
    "ssl.keyStore.location": ("/a",), "ssl.quorum.trustStore.type": ("JKS",), "authProvider.1": ("org.example.P",),
    "authProvider.sasl": ("false",), "enforce.auth.enabled": ("true",), "kerberos.removeHostFromPrincipal": ("true",),
    "requireClientAuthScheme": ("sasl",), "quorum.auth.enableSasl": ("true", "FALSE"),
    "quorum.auth.learnerRequireSasl": ("True", "no"), "quorum.auth.serverRequireSasl": ("", "FALSE"),
    "sessionRequireClientSASLAuth": ("true", "False"), "localSessionsEnabled": ("true", "FALSE"),
}
ESCAPED = {
    "dataLogDir": ("C\\:\\\\zk", "/a\\ b", "/a\\"), "snap\\u0043ount": ("1",), "ssl\\Quorum": ("false",),
    "a\\=b": ("c",), "tickTime": ("2000\\\\", "\\2000"), "noSuchKey": ("\\n",),
}
UNKNOWN_KEYS = (
    "noSuchKey", "TICKTIME", "ticktime", "tick.Time", "server", "servers.1", "clientport", "4lw.commands", "weights.1",
    "metricsprovider.httpPort", "x", "", "schlüssel",
)
NO_SERVERS = (
    "", "zk1", "zk1:2888", ":2888", "zk1;2181", ":observer:x", "zk1:x:3888", "zk1:65536:3888", ":2888:3888",
    "::1:2888:3888", "fe80::1:2888:3888:observer", "[::1:2888:3888", "zk1:2888:3888:leader", "zk1:2888:x:observer",
    "zk1:2888:3888:observer|zk2:2888:3888:participant", "zk1:2888:3888|", "|zk1:2888:3888", "zk1:2888:3888;;2181",
    "zk1:2888:3888;x", "zk1:2888:3888;::1:2181", "zk1:2888:3888;2181;2182", "zk1:2888:3888:observer:x",
)
NO_NUMBERS = ("0", "256", "x", "", "-1", "++7", "1.5", "99999999999999999999")
COMMENTS = (
    "# tickTime=5", "!tickTime=5", "#", "!", "#server.9=zk9:2888:3888", "# ends with \\", "! sslQuorum=true\\",
    "# größer", "## a", "",
)
BLANKS = ("", "", "", " ", "\t", "   ", "\f", " \t")
SIGNS = ("=", "=", "=", "=", ":", " = ", "= ", " =", " : ", ": ", "\t=\t", " ", "\t", "  \f ")


# ---- what a file says


class Made(NamedTuple):
    """What is made before it is spelled: entries, those of servers, each a key and a value, and the text of myid."""

    entries: List[Tuple[str, str]]
    servers: List[Tuple[str, str]]
    myid: Optional[str]


class Drawn(NamedTuple):
    """The files of a seed by their names, each as its lines, options with their values, of which one has none, and the
    files' encoding."""

    files: Dict[str, List[str]]
    options: Dict[str, Optional[str]]
    encoding: str

    def text(self, name):
        return "".join(self.files[name]) if name in self.files else None

    def words(self):
        return [word for option in self.options.items() for word in option if word is not None]


def server_value(chance, roles=None, clients=("", "", *CLIENTS)):
    """Draws a server's line: one address or several, its role at one of them or at several, and where it serves
    clients."""
    count, chosen, plus = chance.choice((1, 1, 1, 2, 3)), chance.choice(roles or VOTING), ("", "", "", "+", "0")
    addresses = []
    for at in range(count):
        ports = ":".join(chance.choice(plus) + str(chance.randint(1, 65535)) for _ in range(2))
        role = chosen if at == 0 or chance.randrange(2) else ""
        addresses.append(f"{chance.choice(HOSTS)}:{ports}{role}")
    chance.shuffle(addresses)
    return "|".join(addresses) + chance.choice(clients)


def drawn_servers(chance, has_port):
    """Draws the lines of servers. This one's is among them if the file has no other port for clients."""
    others = chance.sample([it for it in range(1, 256) if it != OWN], chance.choice((1, 1, 2, 3, 3, 5, 9)))
    found = [(f"server.{it}", server_value(chance, chance.choice((None, None, None, ROLES)))) for it in others]
    # One at least may lead.
    found.append((f"server.{chance.choice((250, 251, 255))}", server_value(chance)))
    if not has_port:
        found.append((f"server.{OWN}", server_value(chance, ROLES, CLIENTS)))
    elif chance.randrange(4):
        found.append((f"server.{OWN}", server_value(chance, ROLES)))
    chance.shuffle(found)
    return list(dict(found).items())


def drawn_whitelist(chance):
    parts = chance.choices([*WORDS, *WORDS, "mntrs", "SRVR", "hash", "", "all", "gtmk"], k=chance.randint(0, 8))
    parts += ["*"] * (chance.randrange(8) == 0)
    return chance.choice((",", ", ", " ,", ",\t")).join(chance.sample(parts, len(parts)))


def drawn_metrics(chance):
    found = [("metricsProvider.className", chance.choice((PROMETHEUS, PROMETHEUS, *SILENT_PROVIDERS)))]
    if chance.randrange(2):
        found.append(("metricsProvider.httpPort", chance.choice(("7000", "0", "65535"))))
    if chance.randrange(2):
        found.append(("metricsProvider.httpHost", chance.choice(ADDRESSES)))
    # Without a class the others say nothing.
    return found if chance.randrange(5) else found[1:]


def one_of(chance, table):
    key = chance.choice(list(table))
    return key, chance.choice(table[key])


def wrong_entry(chance):
    """Draws an entry with something wrong."""
    kind = chance.randrange(9)
    if kind < 3:
        return one_of(chance, REFUSED)
    if kind == 3:
        return one_of(chance, ESCAPED)
    if kind == 4:
        return one_of(chance, {key: wrong for key, (_, wrong) in NUMBERS.items()})
    if kind == 5:
        return f"server.{chance.randint(1, 100)}", chance.choice(NO_SERVERS)
    if kind == 6:
        return f"server.{chance.choice(NO_NUMBERS)}", server_value(chance)
    if kind == 7:
        return f"server.{OWN}", server_value(chance)
    return chance.choice((
        ("DigestAuthenticationProvider.superDigest", chance.choice(("super:test", "", SUPER[6:], SUPER + "="))),
        ("metricsProvider.httpPort", "x"), ("clientPortAddress", ""), ("dataDir", "none"),
    ))


def drawn_entries(chance, has_port):
    """Draws what the file says besides."""
    found = [("dataDir", "data")]
    if has_port:
        found.append(("clientPort", chance.choice(NUMBERS["clientPort"][0])))
    for key in ("tickTime", "initLimit", "syncLimit", "maxClientCnxns", "maxCnxns"):
        if chance.randrange(2):
            found.append((key, chance.choice(NUMBERS[key][0])))
    for key in ("minSessionTimeout", "maxSessionTimeout"):
        if chance.randrange(4) == 0:
            found.append((key, chance.choice(NUMBERS[key][0])))
    if chance.randrange(3) == 0:
        found.append(("clientPortAddress", chance.choice(ADDRESSES)))
    if chance.randrange(2):
        found.append(("observerMasterPort", chance.choice(NUMBERS["observerMasterPort"][0])))
    if chance.randrange(2):
        found.append(("4lw.commands.whitelist", drawn_whitelist(chance)))
    if chance.randrange(3) == 0:
        found.append(("DigestAuthenticationProvider.superDigest", SUPER))
    if chance.randrange(3) == 0:
        found += drawn_metrics(chance)
    found += [one_of(chance, IDLE) for _ in range(chance.choice((0, 1, 2, 5)))]
    found += [one_of(chance, NOT_HEEDED) for _ in range(chance.choice((0, 0, 1, 2)))]
    if chance.randrange(100) < UNKNOWN:
        keys = chance.choices(UNKNOWN_KEYS, k=chance.choice((1, 1, 2)))
        found += [(it, chance.choice(("", "1", "#1", "a b", "a=b", ": c"))) for it in keys]
    chance.shuffle(found)
    return found


def doubled(chance, entries):
    """Has some keys twice: a server with two different lines, others with any two of their values."""
    found = list(entries)
    for key, value in entries:
        if chance.randrange(12):
            continue
        other = chance.choice(NUMBERS[key][0]) if key in NUMBERS else value
        if key.startswith("server."):
            other = server_value(chance, ROLES if key == f"server.{OWN}" else None)
            if other == value:
                continue
        found.insert(chance.randrange(len(found) + 1), (key, other))
    return found


def drawn_options(chance):
    """Draws options that win over the file."""
    if chance.randrange(4):
        return {}
    found = {
        "--tick": "500", "--init-limit": "0", "--sync-limit": "7", "--max-per-address": "9", "--max-clients": "99",
        "--id": chance.choice((str(OWN), "9", "250")), "--client": chance.choice(("0", "[::1]:2181")),
        "--words": chance.choice(("all", "none", "ruok,mntr")), "--metrics": "127.0.0.1:0",
        "--super-digest": "x" + SUPER[5:], LEADER_ONLY: None,
    }
    found.update([chance.choice((("--leader", "zk9:2888"), ("--servers", "zk9:2888,[::9]:2889")))])
    return {it: found[it] for it in chance.sample(sorted(found), chance.choice((1, 1, 2, 3)))}


# ---- how it is spelled


def spelled(chance, entry, end):
    """Spells an entry, at times over several lines."""
    key, value = entry
    text = chance.choice(BLANKS) + key + chance.choice(SIGNS) + value
    if "\\" not in text:
        for _ in range(chance.choice((0, 0, 0, 0, 1, 2))):
            at = chance.randrange(len(text) + 1)
            if text[:at].strip():
                text = text[:at] + "\0" + text[at:]
    text = text.replace("\0", "\\" + end + chance.choice(BLANKS))
    return text + chance.choice(BLANKS) + end


def lines_of(chance, entries):
    """Spells a file: its entries with comments and empty lines between them, as lines with their ends."""
    ends = chance.choice((("\n",), ("\n",), ("\r\n",), ("\r",), ("\n", "\r\n"), ("\n", "\r\n", "\r")))
    found, comments = [], 5
    for entry in entries:
        end = chance.choice(ends)
        if chance.randrange(comments) == 0:
            found.append(chance.choice(BLANKS) + chance.choice(COMMENTS) + end)
        line = spelled(chance, entry, end)
        is_place = entry[0].startswith("server.") or entry[0].endswith(("Port", "Address", "Host"))
        goes_on = chance.randrange(40) == 0 and line.strip() and "\\" not in line and not is_place
        # The next line is joined to it, whatever that is: often what would be a comment.
        found.append(line.rstrip() + "\\" + end if goes_on else line)
        comments = 2 if goes_on else 5
    if found and chance.randrange(6) == 0:
        found[-1] = found[-1].rstrip("\r\n")
    return found


def with_wrong(chance, made):
    """Makes something wrong: with the myid, with a key that is missing, with the servers, or with an entry."""
    kind = chance.randrange(12)
    if kind == 0:
        return made._replace(myid=chance.choice(NO_IDS))
    if kind == 1:
        return made._replace(entries=made.entries[1:])
    if kind == 2:
        too_many = [(f"server.{it}", "a:1:2") for it in range(1, 66)]
        return made._replace(servers=chance.choice(([], too_many)))
    entry = wrong_entry(chance)
    into = made.servers if entry[0].startswith("server.") else made.entries
    into.insert(chance.randrange(len(into) + 1), entry)
    return made


def merged(chance, entries, servers):
    """Puts the servers, in their order, between the other entries."""
    found = list(entries)
    for place, server in zip(sorted(chance.choices(range(len(found) + 1), k=len(servers)))[::-1], servers[::-1]):
        found.insert(place, server)
    return found


def drawn(seed):
    """Returns what a seed draws."""
    chance = random.Random(seed)
    has_port = chance.randrange(5) > 0
    made = Made(drawn_entries(chance, has_port), drawn_servers(chance, has_port), chance.choice(IDS))
    for _ in range(chance.choice((1, 1, 2)) if chance.randrange(100) < WRONG else 0):
        made = with_wrong(chance, made)
    entries, servers, files = made.entries, made.servers, {}
    if chance.randrange(6) == 0:
        files[DYNAMIC] = lines_of(chance, doubled(chance, [*servers, ("version", "100000000")]))
        entries = merged(chance, entries, [("dynamicConfigFile", DYNAMIC)])
        # A line of the file itself doesn't count beside these.
        servers = [("server.7", "zk7:2888:3888")] * (chance.randrange(4) == 0)
    files[FILE] = lines_of(chance, doubled(chance, merged(chance, entries, servers)))
    if made.myid is not None:
        files[MYID] = [made.myid]
    options = drawn_options(chance)
    if made.myid in NO_IDS and chance.randrange(2):
        options["--id"] = str(OWN)
    return Drawn(files, options, chance.choice(("utf-8", "utf-8", "latin-1")))


# ---- beside the program


def told(program, room, one):
    """Writes the files into a folder, and returns the status and what the program tells of them."""
    os.makedirs(os.path.join(room, "data"), exist_ok=True)
    for name in (FILE, DYNAMIC, MYID):
        path = os.path.join(room, name)
        if name in one.files:
            with open(path, "w", encoding=one.encoding, newline="") as it:
                it.write(one.text(name))
        elif os.path.exists(path):
            os.remove(path)
    ran = subprocess.run(
        [program, "serve", *one.words(), "--check-config", FILE], cwd=room, stdin=subprocess.DEVNULL, capture_output=True,
        timeout=SECONDS, encoding="utf-8",
    )
    return ran.returncode, ran.stdout, ran.stderr


def differs(program, room, one):
    """Returns how the program and the reader differ, or None; and what the file is to the reader."""
    wanted = checked(FILE, one.options, one.text)
    status, out, errors = told(program, room, one)
    kind = "refused" if wanted.faults else "unknown" if wanted.unknown else "followed"
    missing = untold(wanted, status, out, errors)
    return missing and f"to be told is {missing}, and not status {status}:\n{out}{errors}", kind


def shrunk(program, room, one):
    """Leaves out each line without which the two still differ."""
    for name in (FILE, DYNAMIC):
        at = 0
        while at < len(one.files.get(name, ())):
            less = one._replace(files={**one.files, name: one.files[name][:at] + one.files[name][at + 1 :]})
            if differs(program, room, less)[0]:
                one = less
            else:
                at += 1
    return one


def show(one):
    for name, lines in one.files.items():
        print(f"  {name}:")
        for line in lines:
            print(f"    {line!r}")
    print(f"  {' '.join(one.words())}", flush=True)


def compare(program, seeds):
    """Compares the files of the seeds. Returns how many of each kind agree, and how many differ."""
    kinds, failed = collections.Counter(), 0
    with tempfile.TemporaryDirectory() as room:
        for seed in seeds:
            one = drawn(seed)
            wrong, kind = differs(program, room, one)
            if not wrong:
                kinds[kind] += 1
                continue
            failed += 1
            print(f"FAIL seed {seed}: {wrong}")
            if failed < 3:
                one = shrunk(program, room, one)
                print(f"  shrunk: {differs(program, room, one)[0]}")
                show(one)
    return kinds, failed


def test_drawn_files():
    kinds, failed = compare(Program.PROGRAM, range(1, COUNT + 1))
    assert not failed, f"{failed} of {COUNT} files differ"
    # The drawing reaches what it is for.
    assert all(kinds[it] >= COUNT // 10 for it in ("followed", "unknown", "refused")), kinds


def main():
    parser = argparse.ArgumentParser(description=__doc__, formatter_class=argparse.RawDescriptionHelpFormatter)
    parser.add_argument("program", metavar="PROGRAM", nargs="?", default=Program.PROGRAM)
    parser.add_argument("--count", type=int, default=COUNT)
    parser.add_argument("--seed", type=int, default=1)
    parser.add_argument("--show", action="store_true")
    options = parser.parse_args()
    if options.show:
        show(drawn(options.seed))
        return 0
    kinds, failed = compare(os.path.realpath(options.program), range(options.seed, options.seed + options.count))
    print(", ".join(f"{count} {kind}" for kind, count in sorted(kinds.items())))
    print(f"{sum(kinds.values())} passed, {failed} failed")
    return failed > 0


if __name__ == "__main__":
    sys.exit(main())
