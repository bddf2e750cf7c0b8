"""A client that looks at frames: it keeps what comes, replies and events, in the order in which they come."""
import lab  # noqa: F401 (it makes the examples' modules known)
from client import EXISTS, GET_CHILDREN2, GET_DATA, Client
from jute import Stat, boolean, buffer, int32, int64, text, vector

SET_WATCHES, SET_WATCHES_XID = 101, -8


class Raw(Client):
    """A client whose replies and events lie in `order`; an event is an Event, a reply is its error."""

    def __init__(self, port, seen=0, **how):
        self.order = []
        super().__init__(port, seen, **how)

    def keep(self, event):
        self.events.append(event)
        self.order.append(event)

    def taken(self, seconds):
        found = super().taken(seconds)
        if found is not None and found.xid >= 0:
            self.order.append(found.error)
        return found

    def data(self, path, watch=False):
        """Returns the reply to a getData, and the data."""
        reply = self.call(GET_DATA, text(path) + boolean(watch))
        return reply, None if reply.error else reply.body.buffer()

    def stat(self, path, watch=False):
        """Returns a node's Stat, or None where there is no node."""
        reply = self.call(EXISTS, text(path) + boolean(watch))
        return None if reply.error else Stat.read(reply.body)

    def children(self, path, watch=False):
        reply = self.call(GET_CHILDREN2, text(path) + boolean(watch))
        return None if reply.error else reply.body.vector(reply.body.text)

    def set_watches(self, zxid, data=(), exist=(), child=()):
        """Sets watches again, as a client that comes back does. Returns the error."""
        lists = b"".join(vector(text(it) for it in paths) for paths in (data, exist, child))
        self.send(buffer(int32(SET_WATCHES_XID) + int32(SET_WATCHES) + int64(zxid) + lists))
        while True:
            found = self.taken(5)
            if found is None:
                raise TimeoutError("setWatches isn't answered")
            if found.xid == SET_WATCHES_XID:
                return found.error

    def told(self, count, seconds=10):
        """Waits for so many events, and returns all that have come, as pairs of name and path."""
        while len(self.events) < count:
            if self.taken(seconds) is None:
                break
        found, self.events = self.events, []
        return [(it.name, it.path) for it in found]

