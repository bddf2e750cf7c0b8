"""The dialects in which a leader and clients speak: that of ZooKeeper 3.4, and that of 3.5 to 3.9."""
import enum


class Dialect(enum.Enum):
    """A dialect, by the word that a script names it with: 3.8 stands for all of 3.5 to 3.9."""

    ZK34 = "3.4"
    ZK38 = "3.8"

    @property
    def is_later(self):
        """Whether the dialect isn't that of 3.4."""
        return self is Dialect.ZK38
