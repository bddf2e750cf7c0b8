"""Watches of clients, and whom a trigger tells."""
from tree import CHILDREN, DELETED

PERSISTENT, RECURSIVE = 0, 1  # the modes of a watch that isn't used up

# The kinds of watches that a client may ask for: those of children, of data, both modes that aren't used up, or any.
OF_CHILDREN, OF_DATA, OF_ANY, OF_PERSISTENT, OF_RECURSIVE = WATCH_KINDS = (1, 2, 3, 4, 5)


class Watches:
    """The watches of all connections: those that are used up, of a node's data and of its children, each a path and a
    connection's number, and those that aren't, each with its mode too."""

    def __init__(self):
        self.own, self.child, self.lasting = set(), set(), set()

    def drop(self, number):
        """The connection goes."""
        for table in (self.own, self.child, self.lasting):
            table.difference_update([it for it in table if it[1] == number])

    def add_lasting(self, path, number, mode, has_both):
        """Adds a watch that isn't used up. A path may have both modes for a connection, or the later one alone."""
        if not has_both:
            self.lasting.discard((path, number, 1 - mode))
        self.lasting.add((path, number, mode))

    def of(self, path, number, kind):
        """Returns the watches of a kind that a connection has on a path, each with the table where it is."""
        all_kinds = (
            (OF_CHILDREN, self.child, (path, number)),
            (OF_DATA, self.own, (path, number)),
            (OF_PERSISTENT, self.lasting, (path, number, PERSISTENT)),
            (OF_RECURSIVE, self.lasting, (path, number, RECURSIVE)),
        )
        return [(table, watch) for each, table, watch in all_kinds if kind in (each, OF_ANY) and watch in table]

    def told(self, kind, path):
        """Returns the connections that a trigger tells, in order, each once; watches are used up. Of a deleted node
        those come last that watch its children alone."""
        lasting = {number for at, number, mode in self.lasting if covers(at, mode, path, kind)}
        first = lasting | {number for at, number in (self.child if kind == CHILDREN else self.own) if at == path}
        then = {number for at, number in self.child if at == path and kind == DELETED} - first
        if kind != CHILDREN:
            self.own = {it for it in self.own if it[0] != path}
        if kind in (CHILDREN, DELETED):
            self.child = {it for it in self.child if it[0] != path}
        return sorted(first) + sorted(then)

    def rows(self):
        """Each watch as a path and a connection. Both modes on a path count as one."""
        return sorted([*self.own, *self.child, *{it[:2] for it in self.lasting}])


def covers(at, mode, path, kind):
    """Whether a watch that isn't used up is told of a trigger: a recursive one of all nodes below, but not that
    children changed. Nothing is below an empty path."""
    if at == path:
        return mode == PERSISTENT or kind != CHILDREN
    return mode == RECURSIVE and kind != CHILDREN and at != b"" and path.startswith(at if at == b"/" else at + b"/")
