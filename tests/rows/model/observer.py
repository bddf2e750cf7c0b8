"""An observer: what it sends for the events of a script, line by line as a replay prints them."""
from clients import Clients, Connection
from dialects import Dialect
from jute import Fault
from learner import DOWN, SERVING, Learner


class Observer:
    def __init__(self, server=1, counter=0, epochs=(0, 0), timeouts=(4000, 40000), secret=b"", primed=False,
                 dialect=Dialect.ZK34, super_digest=None):
        self.out = []
        self.learner = Learner(server, (1, 1) if primed else epochs, dialect)
        self.clients = Clients(self.learner, counter, timeouts, secret, self.out, super_digest)
        if primed:
            self.learner.phase = SERVING
            it = self.clients.open[1] = Connection()
            it.session, it.timeout = self.clients.new_session(), timeouts[1]
            for tree in (self.learner.tree, self.learner.base):
                tree.sessions[it.session] = timeouts[1]

    # ---- the leader

    def leader_up(self):
        if self.learner.phase == DOWN:
            self.clients.to_leader(self.learner.met())

    def leader(self, content):
        if self.learner.phase == DOWN:
            return
        try:
            for effect in self.learner.items(content):
                self.told(effect)
        except Fault as fault:
            self.lost(fault)

    def told(self, effect):
        for content in effect.sent:
            self.clients.to_leader(content)
        if effect.ping:
            self.clients.pinged(effect.ping)
        elif effect.is_sync:
            self.clients.synced()
        elif effect.revalidated:
            self.clients.revalidated(*effect.revalidated)
        elif effect.txn:
            for kind, path in effect.outcome.triggers:
                self.clients.fire(kind, path)
            self.clients.applied(effect.txn, effect.outcome)

    def leader_end(self):
        if self.learner.phase != DOWN:
            self.lost(Fault(1) if self.learner.is_cut() else None)

    def lost(self, fault):
        """The leader is gone, or was closed for a fault."""
        if fault:
            self.out.append("L close " + fault.told())
        self.learner.left()
        self.clients.close_all()

    # ---- clients

    def client_up(self, number, address=None):
        """A connection opens, of a client with this address, where that is told. It counts in later dialects alone."""
        is_later = self.learner.dialect.is_later
        self.clients.open.setdefault(number, Connection(address if is_later else None))

    def client(self, number, content):
        self.clients.take(number, content)

    def client_end(self, number):
        self.clients.drop(number)

    # ---- the end

    def ended(self):
        return f"end zxid=0x{self.learner.last % 2**64:x} paths={len(self.learner.tree.nodes)}"


def prepared(script):
    """Returns the observer that a script's settings set up, and its events, each a word and what follows it. The script
    has no bad line."""
    settings, events = {}, []
    for line in script.split(b"\n"):
        line = line.decode()
        word, _, rest = line.partition(" ")
        if not line or line.startswith("#"):
            continue
        if word in ("server", "counter"):
            settings[word] = int(rest)
        elif word in ("epochs", "timeouts"):
            settings[word] = tuple(int(it) for it in rest.split(" "))
        elif word == "secret":
            settings["secret"] = bytes.fromhex(rest)
        elif word == "super":
            settings["super_digest"] = rest
        elif word == "primed":
            settings["primed"] = True
        elif word == "dialect":
            settings["dialect"] = Dialect(rest)
        else:
            events.append((word, rest))
    return Observer(**settings), events


def replayed(script):
    """Returns what a replay of a script prints, as bytes. The script has no bad line."""
    observer, events = prepared(script)
    for word, rest in events:
        play(observer, word, rest)
    return "\n".join([*observer.out, observer.ended(), ""]).encode()


def play(observer, word, rest):
    if word == "leader":
        if rest == "up":
            observer.leader_up()
        elif rest == "end":
            observer.leader_end()
        else:
            observer.leader(bytes.fromhex(rest))
    elif word == "client":
        number, _, rest = rest.partition(" ")
        if rest.startswith("up"):
            observer.client_up(int(number), rest.encode()[3:] or None)
        elif rest == "end":
            observer.client_end(int(number))
        else:
            observer.client(int(number), bytes.fromhex(rest))
    elif word == "expire":
        observer.clients.expire(int.from_bytes(bytes.fromhex(rest), "big", signed=True))
    elif word == "checkpoint":
        observer.learner.checkpoint()
    else:
        raise ValueError(f"{word} {rest}")
