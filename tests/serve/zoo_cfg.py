"""A reader of the ensemble's file: what `serve --check-config` has to tell of one, by docs/OPERATING.md.

It shares nothing with the program. A file has the form of Java's properties; what an option may be, and what holds
without it, is read from the page's table of options.
"""
import os
import re
from typing import Dict, FrozenSet, List, NamedTuple, Tuple

from server import TOP

PAGE = os.path.join(TOP, "docs", "OPERATING.md")
BLANKS = " \t\f"


# ---- the page's table of options


class Option(NamedTuple):
    """An option: what its value may be, and what holds without it."""

    may: str
    without: str

    def bounds(self):
        """The least and the greatest number that it may be."""
        least, most = re.fullmatch(r"(?:at least )?(\d+)(?: to (\d+))?", self.may).groups()
        return int(least), int(most) if most else 2**64 - 1


def table():
    """Returns the options by their words."""
    with open(PAGE, encoding="utf-8") as it:
        rows = re.findall(r"^\| `(--[\w-]+)[^|]*` \| [^|]* \| ([^|]*) \| ([^|]*) \|$", it.read(), re.M)
    return {word: Option(may.strip(), without.strip("` ")) for word, may, without in rows}


OPTIONS = table()
WORDS = OPTIONS["--words"].may.rpartition(" ")[2].split(",")


# ---- the form of a file


class Entry(NamedTuple):
    """A key and its value, and the number of the line at which they begin."""

    line: int
    key: str
    value: str


def logical_lines(text):
    """Yields each line with its number: without blanks in front, joined with the next where an odd number of
    backslashes ends it, and without comments."""
    number, front = 0, None
    for at, line in enumerate(re.split("\r\n|\r|\n", text), 1):
        line = line.lstrip(BLANKS)
        if front is None:
            if not line or line[0] in "#!":
                continue
            number, front = at, ""
        goes_on = (len(line) - len(line.rstrip("\\"))) % 2 == 1
        front += line[:-1] if goes_on else line
        if not goes_on:
            yield number, front
            front = None
    if front is not None:
        yield number, front


def entries_of(text):
    """Returns the entries: a key goes to the first sign or blank without a backslash, a value to the end."""
    form = re.compile(rf"((?:\\.|[^\\=:{BLANKS}])*)[{BLANKS}]*[=:]?[{BLANKS}]*(.*)", re.S)
    found = [(number, form.fullmatch(line)) for number, line in logical_lines(text)]
    return [Entry(number, it[1], it[2].strip(BLANKS)) for number, it in found]


# ---- the values of options


class Place(NamedTuple):
    host: str
    port: int


def number(text, least, most):
    """Returns a number of decimal digits within bounds, or None."""
    return int(text) if re.fullmatch("[0-9]+", text) and least <= int(text) <= most else None


def place(text):
    """Returns the place of HOST:PORT, where a host with colons is in brackets; None if the text is none."""
    found = re.fullmatch(r"(?:\[(.+)\]|([^:]+)):([0-9]+)", text)
    return Place(found[1] or found[2], int(found[3])) if found and int(found[3]) < 65536 else None


def address(text):
    """The same, but a port may be alone."""
    return place(text if ":" in text else f"127.0.0.1:{text}")


def places(text):
    """Returns the places between commas, or None if one of these is none, or there are too many."""
    found = [place(it) for it in text.split(",")]
    return None if None in found or len(found) > 64 else found


def words(text):
    """Returns the words between commas, or None if one of these is none."""
    parts = {"all": WORDS, "none": []}.get(text, text.split(","))
    return frozenset(parts) if set(parts) <= set(WORDS) else None


def digest(text):
    """Returns the user, who alone is shown, or None."""
    user, colon, hashed = text.partition(":")
    return user if user and colon and len(hashed) == 28 else None


KINDS = {
    "--leader": address, "--servers": places, "--client": address, "--metrics": address, "--words": words,
    "--super-digest": digest,
}


def value_of(option, text):
    """Returns what the text of an option says, or None if it may not be that."""
    return KINDS[option](text) if option in KINDS else number(text, *OPTIONS[option].bounds())


def plain(text):
    """Returns a number without the plus that Java takes in front."""
    return text[1:] if text.startswith("+") else text


def at(host, port):
    """Returns HOST:PORT. A host with colons gets brackets; one that has brackets loses them first."""
    host = re.sub(r"\[([^\]]*)\]", r"\1", host) if re.fullmatch(r"\[[^\]]*\]", host) else host
    return f"[{host}]:{plain(port)}" if ":" in host else f"{host}:{plain(port)}"


# ---- what keys say

TLS, SASL = "there is no TLS here", "there are no SASL"
ESCAPE, SESSIONS = "escapes aren't read", "there are no local sessions"
SERVER, VOTES = "server.N=", "this server votes"
PORT = "observerMasterPort=PORT"
# Keys, and how keys begin, that are refused whatever their value is; and those that are unless it is `false`.
REFUSED = {
    TLS: (("secureClientPort", "secureClientPortAddress"), ("ssl.",)),
    SASL: (("requireClientAuthScheme",), ("authProvider.", "enforce.auth.", "kerberos.")),
}
REFUSED_UNLESS_FALSE = {
    "sslQuorum": TLS,
    "quorum.auth.enableSasl": SASL,
    "quorum.auth.learnerRequireSasl": SASL,
    "quorum.auth.serverRequireSasl": SASL,
    "sessionRequireClientSASLAuth": SASL,
    "localSessionsEnabled": SESSIONS,
}

# The option of a key whose number it has, and what it is without the key.
BY_KEY = {
    "tickTime": ("--tick", "3000"),
    "initLimit": ("--init-limit", None),
    "syncLimit": ("--sync-limit", None),
    "minSessionTimeout": ("--min-session-timeout", None),
    "maxSessionTimeout": ("--max-session-timeout", None),
    "maxClientCnxns": ("--max-per-address", "60"),
    "maxCnxns": ("--max-clients", "0"),
}
# Of these, a number that isn't above 0 is any number, for which there is no option; of those, -1 is as without the key.
UNBOUNDED = ("maxClientCnxns", "maxCnxns")
BY_TICKS = {"--min-session-timeout": 2, "--max-session-timeout": 20}
SUPER, MASTER = "DigestAuthenticationProvider.superDigest", "observerMasterPort"
HEEDED = (
    *BY_KEY, SUPER, MASTER, "dynamicConfigFile", "dataDir", "clientPort", "clientPortAddress", "4lw.commands.whitelist",
    "metricsProvider.httpHost", "metricsProvider.httpPort",
)
PROMETHEUS = "org.apache.zookeeper.metrics.prometheus.PrometheusMetricsProvider"
# Providers that serve nothing, here as there.
SILENT_PROVIDERS = tuple(f"org.apache.zookeeper.metrics.impl.{it}MetricsProvider" for it in ("Default", "Null"))
NOT_HEEDED = (("skipACL", "globalOutstandingLimit"), ("metricsProvider.",))
# Those of voters, elections and files; and what is off.
IDLE = (
    (
        *REFUSED_UNLESS_FALSE, "peerType", "standaloneEnabled", "electionAlg", "quorumListenOnAllIPs", "leaderServes",
        "version", "syncEnabled", "forceSync", "fsync.warningthresholdms", "dataLogDir", "snapCount", "preAllocSize",
        "commitLogCount", "snapSizeLimitInKb", "txnLogSizeLimitInKb", "digest.enabled",
    ),
    ("group.", "weight.", "observer.", "multiAddress.", "autopurge.", "snapshot.", "admin.", "quorum.auth."),
)
# These options no key sets.
UNSET = (
    "--dialect", "--workers", "--batch", "--checkpoint", "--max-under-way", "--max-watches", "--unconnected",
)
SET = ("--servers", "--client", "--id", "--words", "--metrics", "--super-digest", *(option for option, _ in BY_KEY.values()))
# What stands on a command line alone, and is told by what it does.
LEADER_ONLY = "--leader-only"
# The last line of standard error, by the status.
LAST_WORDS = {2: "usage", 3: "cannot open"}


def is_among(key, keys):
    """Returns whether a key is one of the first, or begins as one of the second."""
    return key in keys[0] or key.startswith(keys[1])


def reasons(entry):
    """Yields why an entry is refused, whatever else the file has."""
    _, key, value = entry
    if "\\" in key + value:
        yield ESCAPE
    yield from (reason for reason, keys in REFUSED.items() if is_among(key, keys))
    if key in REFUSED_UNLESS_FALSE and value != "false":
        yield REFUSED_UNLESS_FALSE[key]
    if key == MASTER and master_port(value) is None:
        yield PORT


def master_port(text):
    """Returns the port at which followers serve observers, or 0 if the text says that they don't; None if it's wrong."""
    if re.fullmatch("-[0-9]+", text):
        return 0 if int(text) >= -(2**31) else None
    return number(plain(text), 0, 65535)


def meaning(entry):
    """Returns what is told of an entry that isn't refused, or None of one that is followed."""
    _, key, value = entry
    provider = key == "metricsProvider.className" and value in (PROMETHEUS, *SILENT_PROVIDERS)
    if key.startswith("server.") or key in HEEDED or provider:
        return None
    if is_among(key, NOT_HEEDED):
        return "isn't heeded"
    if key == "reconfigEnabled":
        return "means nothing here" if value == "false" else "isn't heeded"
    return "means nothing here" if is_among(key, IDLE) else "is unknown"


def whitelisted(text):
    """Returns the words of a whitelist that are answered here, as an option has them."""
    parts = [it.strip(BLANKS) for it in text.split(",")]
    return "all" if "*" in parts else ",".join(it for it in parts if it in WORDS) or "none"


def is_as_unset(key, text):
    """Returns whether a number says that its key is as without it."""
    found = re.fullmatch("(-?)([0-9]+)", text)
    if key in UNBOUNDED:
        return found and (int(found[2]) == 0 or found[1] and int(found[2]) <= 2**31)
    return key.endswith("SessionTimeout") and found and found[1] and int(found[2]) == 1


class Server(NamedTuple):
    """A line ADDRESSES[;CLIENT] of a server: what is wrong with it is said by `is_right` alone."""

    is_right: bool
    id: int
    is_observer: bool
    quorum: List[Tuple[str, str]]
    client: str


HOST = r"(\[[^\]]+\]|[^:\[][^:]*)"


def address_of(text):
    """Returns the host, the quorum port and the role of HOST:PORT:PORT[:ROLE], or None if the text is none."""
    found = re.fullmatch(HOST + r":(\+?[0-9]+):(\+?[0-9]+)(?::(.*))?", text, re.S)
    if not found or None in [number(plain(it), 0, 65535) for it in (found[2], found[3])]:
        return None
    role = found[4] and found[4].strip().lower()
    return (found[1], found[2], role) if role in (None, "", "observer", "participant") else None


def client_of(text):
    """Returns [HOST:]PORT as an option has it, or None if the text is none."""
    found = re.fullmatch(f"(?:{HOST}:)?" + r"(\+?[0-9]+)", text, re.S)
    is_port = found and number(plain(found[2]), 0, 65535) is not None
    return at(found[1] or "0.0.0.0", found[2]) if is_port else None


def server_of(entry):
    """Returns the server of a line."""
    front, _, client = entry.value.partition(";")
    own = number(plain(entry.key[len("server.") :]), 1, 255)
    addresses = [address_of(it) for it in front.split("|")]
    roles = {it[2] for it in addresses if it} - {None, ""}
    is_right = own is not None and None not in addresses and len(roles) < 2 and (not client or client_of(client))
    quorum = [it[:2] for it in addresses if it]
    return Server(bool(is_right), own, "observer" in roles, quorum, client_of(client) or "")


# ---- a file as a whole


class Checked(NamedTuple):
    """What has to be told of a file. If it has faults, one of these alone, each a status and how its line begins;
    else the lines that aren't followed, what is told of one of those with unknown keys, and what options say."""

    faults: FrozenSet[Tuple[int, str]]
    lines: List[str]
    unknown: List[str]
    options: Dict[str, object]


class Reading:
    """A file while it is read, with `options` over it. `read` returns the text of a file, or None if there is none."""

    def __init__(self, name, options, read):
        self.name, self.read = name, read
        self.is_leader_only = LEADER_ONLY in options
        self.options = {option: text for option, text in options.items() if option != LEADER_ONLY}
        self.faults, self.filed = set(), {}
        self.entries = self.entries_in(name)
        self.values = {it.key: it.value for it in self.entries}

    def entries_in(self, name):
        """Returns the entries of a file, of which some may be refused."""
        entries = entries_of(self.text_of(name))
        self.faults |= {(2, f"observer: {name}:{it.line}: {reason}") for it in entries for reason in reasons(it)}
        return entries

    def text_of(self, name):
        """Returns the text of a file. One that isn't there counts as empty, and as a fault."""
        text = self.read(name)
        if text is None:
            self.faults.add((3, f"observer: cannot open {name}: "))
        return text or ""

    def own_id(self):
        """Returns the id of this server, or None."""
        if "--id" not in self.options and "dataDir" in self.values:
            self.filed["--id"] = self.text_of(f"{self.values['dataDir']}/myid").strip()
        return value_of("--id", self.options.get("--id", self.filed.get("--id", "")))

    def read_servers(self, own):
        """Reads the lines of servers, of which each key's last counts. Returns where this one's serves clients."""
        name, entries = self.name, self.entries
        if "dynamicConfigFile" in self.values:
            name = self.values["dynamicConfigFile"]
            entries = self.entries_in(name)
        quorum, client, last = [], "", {it.key: it for it in entries}
        for it in [it for it in entries if it.key.startswith("server.") and it is last[it.key]]:
            found, wrong = server_of(it), f"observer: {name}:{it.line}: "
            if not found.is_right:
                self.faults.add((2, wrong + SERVER))
            elif found.id == own and not found.is_observer:
                self.faults.add((2, wrong + VOTES))
            elif found.id == own:
                client = found.client
            elif not found.is_observer:
                quorum += found.quorum
        # A follower's port goes before all quorum ports.
        master = None if self.is_leader_only else self.values.get(MASTER)
        masters = [at(host, master) for host, _ in quorum] if master and master_port(master) else []
        if quorum:
            self.filed["--servers"] = ",".join([*masters, *(at(*it) for it in quorum)])
        return client

    def read_values(self, client):
        """Reads what is in no line of a server. `client` is where this server's line has clients served."""
        values, filed = self.values, self.filed
        # A port of 0 is as without the key.
        if "clientPort" in values and number(plain(values["clientPort"]), 0, 0) is None:
            filed["--client"] = at(values.get("clientPortAddress", "0.0.0.0"), values["clientPort"])
        elif client:
            filed["--client"] = client
        for key, (option, default) in BY_KEY.items():
            value = values.get(key, default)
            if value is not None and not is_as_unset(key, plain(value)):
                filed[option] = plain(value)
        if SUPER in values:
            filed["--super-digest"] = values[SUPER]
        filed["--words"] = whitelisted(values.get("4lw.commands.whitelist", "srvr"))
        if values.get("metricsProvider.className") == PROMETHEUS:
            host = values.get("metricsProvider.httpHost", "0.0.0.0")
            filed["--metrics"] = at(host, values.get("metricsProvider.httpPort", "7000"))

    def check_options(self):
        """Returns what the options and, where there are none, the file set."""
        if "--leader" in self.options:
            self.filed.pop("--servers", None)
        for option, text in self.filed.items():
            if option not in self.options and value_of(option, text) is None:
                self.faults.add((2, f"observer: {self.name}: {option} {text}: "))
        found = {**self.filed, **self.options}
        for option, told in (("--id", "--id N"), ("--client", "--client [ADDRESS:]PORT")):
            if option not in found:
                self.faults.add((2, f"observer: {told} is missing"))
        if "--servers" not in found and "--leader" not in found:
            self.faults.add((2, "observer: --leader or --servers is missing"))
        return self.with_timeouts({option: value_of(option, text) for option, text in found.items()})

    def with_timeouts(self, values):
        """Returns the options with the bounds of timeouts, which are so many ticks if they aren't set."""
        if values["--tick"] is None:
            return values
        values = {**{option: ticks * values["--tick"] for option, ticks in BY_TICKS.items()}, **values}
        least, most = (values[option] for option in BY_TICKS)
        if least is not None and most is not None and least > most:
            front = "" if any(option in self.options for option in BY_TICKS) else f"{self.name}: "
            self.faults.add((2, f"observer: {front}--min-session-timeout {least} is above --max-session-timeout {most}"))
        return values

    def checked(self):
        self.read_values(self.read_servers(self.own_id()))
        options = self.check_options()
        told = [(it, meaning(it)) for it in self.entries]
        lines = [f"{self.name}:{it.line}: {it.key} {meant}" for it, meant in told if meant]
        unknown = [f"observer: {self.name}:{it.line}: unknown key" for it, meant in told if meant == "is unknown"]
        return Checked(frozenset(self.faults), lines, unknown, options)


def checked(name, options, read):
    """Returns what `--check-config` has to tell of a file beside these options."""
    return Reading(name, options, read).checked()


# ---- beside what is told


def untold(wanted, status, out, told):
    """Returns what has to be told of a file and isn't; None is nothing."""
    if wanted.faults:
        is_one = any(status == it and told.startswith(front) for it, front in wanted.faults)
        is_whole = not out and told.split("\n")[1:] == [LAST_WORDS.get(status), ""]
        return None if is_one and is_whole else f"one of {sorted(wanted.faults)}"
    *lines, options = out.rstrip("\n").split("\n")
    if lines != wanted.lines:
        return f"the lines {wanted.lines}"
    if wanted.unknown and (status != 2 or told not in [f"{it}\nusage\n" for it in wanted.unknown]):
        return f"one of {wanted.unknown}"
    if not wanted.unknown and (status or told):
        return "that nothing is wrong"
    return untold_option(wanted.options, options)


def untold_option(wanted, line):
    """The same of the line of options."""
    command, parts = line.split(" ")[:2], line.split(" ")[2:]
    found = dict(zip(parts[::2], parts[1::2]))
    if command != ["observer", "serve"] or len(parts) != 2 * len(found):
        return "the options"
    for option, text in found.items():
        is_known = option in OPTIONS and (option not in SET + UNSET or text == OPTIONS[option].without)
        if option not in wanted and not is_known:
            return f"no {option} {text}"
    for option, value in wanted.items():
        text = found.get(option, "")
        # Of a digest the user alone is shown.
        is_told = text == f"{value}:x" if option == "--super-digest" else value_of(option, text) == value
        if not is_told:
            return f"{option} with the value {value}"
    return None
