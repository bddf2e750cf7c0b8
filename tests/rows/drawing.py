"""Scripts that are drawn by chance: `drawn(seed)` makes the script of a seed, always the same one. One of a later
dialect has what that adds, too.

A drawing throws the dice, and feeds an observer of the model with what it has drawn so far. So what is drawn next can
fit what the observer has come to: which zxid is next, which sessions live, what waits for the leader. Most scripts stay
legal for long in this way. What a script has to print is then told by another observer, which is fed with the script.
"""
import itertools
import random
from typing import List, NamedTuple

import drawn_bodies as bodies
import drawn_packets as packets
import drawn_requests as requests
from clients import digest_id, signed
from dialects import Dialect
from learner import DOWN, HELLO, IMAGE, REPLAY, SERVING, SYNCING
from observer import Observer, play

LEAST, MOST = 5, 60  # what is drawn for a script; each of these can be several lines
PHASES = (DOWN, HELLO, SYNCING, IMAGE, REPLAY, SERVING)
GREATEST_COUNTER = 72057594037927934

# What may come, and how often in each phase of the observer, beside the others of that phase. What can't come as things
# stand is drawn again.
TABLE = (
    (packets.leader_up, 40, 1, 1, 1, 1, 1),
    (packets.leader_end, 1, 1, 1, 1, 1, 5),
    (packets.step, 2, 50, 50, 50, 18, 0),
    (packets.transactions, 0, 0, 0, 0, 16, 40),
    (packets.proposals, 0, 0, 0, 0, 20, 1),
    (packets.commits, 0, 0, 0, 0, 24, 1),
    (packets.answers, 0, 0, 0, 0, 1, 50),
    (packets.sessions_made, 0, 0, 0, 0, 2, 60),
    (packets.session_closed, 0, 0, 0, 0, 2, 4),
    (packets.sync_done, 0, 0, 0, 0, 1, 15),
    (packets.ping, 0, 0, 0, 0, 1, 6),
    (packets.ignored, 0, 0, 0, 0, 2, 2),
    (packets.second_image, 0, 0, 0, 0, 2, 2),
    (packets.fault, 1, 6, 8, 8, 8, 5),
    (requests.connect, 3, 2, 2, 2, 3, 90),
    (requests.ask, 2, 2, 2, 2, 2, 110),
    (requests.meet, 0, 0, 0, 0, 0, 25),
    (requests.fault, 1, 1, 1, 1, 1, 4),
    (requests.word, 2, 1, 1, 1, 1, 4),
    (requests.client_end, 1, 1, 1, 1, 1, 3),
    (requests.expire, 1, 0, 0, 0, 0, 1),
    (requests.checkpoint, 1, 1, 1, 1, 1, 2),
    (requests.rest, 4, 4, 4, 4, 4, 10),
)
MAKERS = [row[0] for row in TABLE]
WEIGHTS = {phase: list(itertools.accumulate(row[at] for row in TABLE)) for at, phase in enumerate(PHASES, 1)}


class Atom(NamedTuple):
    """What a script can't be without in part: bytes of the leader or of a client, which share a line with those that
    have the same number, or a line that has none."""

    line: int
    start: str
    content: bytes = b""


class Script(NamedTuple):
    atoms: List[Atom]
    workers: int
    batch: int
    is_spaced: bool = False

    def text(self):
        lines = []
        for _, atoms in itertools.groupby(self.atoms, key=lambda it: it.line):
            atoms = list(atoms)
            content = b"".join(it.content for it in atoms)
            told = content.hex(" ", 4).upper() if self.is_spaced else content.hex()
            lines.append(f"{atoms[0].start} {told}" if content else atoms[0].start)
        return "\n".join([*lines, ""]).encode()


class Drawing:
    def __init__(self, seed, dialect):
        self.dice, self.dialect, self.is_later = random.Random(seed), dialect, dialect.is_later
        self.has_digests = self.is_later and self.chance(0.7)  # whether the leader writes them
        self.atoms, self.owed = [], {}  # `owed`: of who has sent a part of something, the rest
        paths = bodies.PATHS + bodies.LATER_PATHS if self.is_later else bodies.PATHS
        self.paths = bodies.paths_of(self.dice.sample(paths, self.number(3, 7)))
        self.hot = self.one(self.paths)  # where clients meet
        self.numbers = self.dice.sample((1, 2, 3, 4), self.one((1, 2, 3, 3, 4)))
        if self.chance(0.1):
            self.numbers = [1, 0, 10, 2**32 - 1]
        self.cutting, self.joining = self.one((0, 0.05, 0.3)), self.one((0, 0.5, 0.9))
        self.length, self.made = self.number(LEAST, MOST), 0
        self.xids, self.given = {}, []
        self.observer = Observer(**self.settings())
        self.clients, self.learner = self.observer.clients, self.observer.learner

    # ---- dice

    def chance(self, likely):
        return self.dice.random() < likely

    def one(self, choices):
        return self.dice.choice(choices)

    def number(self, least, most):
        return self.dice.randint(least, most)

    # ---- how things stand

    @property
    def tree(self):
        return self.learner.tree

    def sessions(self):
        """Sessions that may be named: those that live, those that lived or that a connect waits for, the one that is
        given out next, and some of other servers."""
        after = signed((self.learner.server << 56) + self.clients.counter + 1)
        waiting = [each.waits[0].values[0] for each in self.clients.open.values() if each.connects()]
        return sorted({*self.tree.sessions, *self.given, *waiting, after, *bodies.STRANGERS})

    def is_late(self):
        """Whether a fault may come, which ends much: the later the likelier."""
        return self.dice.random() < self.made / self.length

    # ---- what comes

    def settings(self):
        """Draws the settings. Returns them as an observer of the model takes them."""
        told = {}
        if self.chance(0.8):
            told["server"] = self.one((3, 3, 3, 1, 127, 128, 255))
        if self.chance(0.2):
            told["counter"] = self.one((0, 7, 2**55, GREATEST_COUNTER - 2, GREATEST_COUNTER))
        if self.chance(0.25):
            told["epochs"] = self.one(((1, 0), (1, 1), (5, 3), (2**31 - 1, 2**31 - 1), (0, 2)))
        if self.chance(0.25):
            told["timeouts"] = self.one(((1, 1), (4000, 9000), (10000, 2**31 - 1), (20000, 20000)))
        if self.chance(0.25):
            told["secret"] = self.one((b"\0", b"secret", bytes(64)))
        if self.chance(0.1):
            told["super_digest"] = digest_id(self.one(bodies.USERS))[1].decode()
        if self.chance(0.6):
            told["primed"] = True
        for name in self.dice.sample(sorted(told), len(told)):
            value = told[name]
            words = value if isinstance(value, tuple) else () if value is True else (value,)
            words = [it.hex() if isinstance(it, bytes) else str(it) for it in words]
            self.atoms.append(Atom(0, " ".join([name.removesuffix("_digest"), *words])))
        if self.is_later:
            told["dialect"] = self.dialect
            self.atoms.append(Atom(0, f"dialect {self.dialect.value}"))
        return told

    def happens(self, line):
        """A line without bytes."""
        word, _, rest = line.partition(" ")
        self.atoms.append(Atom(0, line))
        play(self.observer, word, rest)

    def comes(self, source, content):
        """Bytes of the leader or of a client come, sometimes only a part of them: then the rest is owed."""
        self.settle(source)
        if self.chance(self.cutting) and len(content) > 1:
            at = self.number(1, len(content) - 1)
            content, self.owed[source] = content[:at], content[at:]
        self.fed(source, content)

    def settle(self, source):
        """The rest of what a source has sent in part comes, so that what stands is clear again."""
        if source in self.owed:
            self.fed(source, self.owed.pop(source))

    def fed(self, source, content):
        self.atoms.append(Atom(0, source, content))
        word, _, number = source.partition(" ")
        if number:
            self.observer.client(int(number), content)
        else:
            self.observer.leader(content)

    def draw(self):
        """Draws what comes next. What can't come returns True, and something else is drawn."""
        while True:
            maker = self.dice.choices(MAKERS, cum_weights=WEIGHTS[self.learner.phase])[0]
            if not maker(self):
                self.made += 1
                return

    # ---- the script

    def lines(self):
        """Gives each atom its line: bytes of one source that follow each other are sometimes in one line."""
        found, line, before = [], 0, None
        for atom in self.atoms:
            if not atom.content or before != atom.start or not self.chance(self.joining):
                line += 1
            found.append(atom._replace(line=line))
            before = atom.start if atom.content else None
        return found

    def script(self):
        workers = self.number(1, 4) if self.chance(0.9) else self.one((5, 8, 16, 64))
        batch = self.one((1, 2, 3, 16, 256))
        return Script(self.lines(), workers, batch, self.chance(0.1))


def drawn(seed, dialect=Dialect.ZK34):
    it = Drawing(seed, dialect)
    while it.made < it.length:
        it.draw()
    return it.script()
