"""The bytes of zookeeper.jute: what is read of a leader or of a client, and what is written."""
import struct

from dialects import Dialect

LENGTH_LIMIT, COUNT_LIMIT = 4_194_304, 1_048_576
WORDS = {
    1: "Short", 2: "BadLength", 3: "BadText", 4: "BadPath", 5: "BadTxnType", 6: "TrailingBytes", 7: "OutOfOrder",
    8: "CommitMismatch", 9: "CannotTruncate", 10: "BadImage", 11: "EpochTooSmall", 12: "UnexpectedPacket",
}


class Fault(Exception):
    """A fault by its number."""

    def __init__(self, number):
        super().__init__(number)
        self.number = number

    def told(self):
        return f"F{self.number} {WORDS[self.number]}"


class OutOfBytes(Exception):
    """More bytes are needed. Whether they may still come, the caller knows."""


class Reader:
    """Reads bytes from the front. The dialect is the leader's; what clients send is read alike in all of them."""

    def __init__(self, content, dialect=Dialect.ZK34):
        self.content, self.at, self.dialect = content, 0, dialect

    def bytes(self, count):
        if len(self.content) - self.at < count:
            raise OutOfBytes
        self.at += count
        return self.content[self.at - count : self.at]

    def numbers(self, form):
        return struct.unpack(">" + form, self.bytes(struct.calcsize(">" + form)))

    def int(self):
        return self.numbers("i")[0]

    def long(self):
        return self.numbers("q")[0]

    def bool(self):
        return self.bytes(1) != b"\0"

    def sized(self, limit):
        """Reads a length or a count; None is null."""
        found = self.int()
        if not -1 <= found <= limit:
            raise Fault(2)
        return None if found == -1 else found

    def buffer(self):
        length = self.sized(LENGTH_LIMIT)
        return None if length is None else self.bytes(length)

    def text(self):
        """Reads a text as its bytes. Java writes a character past U+FFFF as two halves of three bytes, each of which a
        later leader's text may have."""
        found = self.buffer()
        if found is not None:
            try:
                found.decode(errors="surrogatepass" if self.dialect.is_later else "strict")
            except UnicodeDecodeError:
                raise Fault(3) from None
        return found

    def vector(self, read):
        """Reads a list of elements; None is null."""
        count = self.sized(COUNT_LIMIT)
        return None if count is None else [read() for _ in range(count)]

    def id(self):
        return self.text() or b"", self.text() or b""

    def acl(self):
        return self.int(), self.id()

    def rest(self):
        return self.content[self.at :]

    def is_at_end(self):
        return self.at == len(self.content)


def whole(content, read, dialect):
    """Reads a record of the leader of which all bytes are there: what ends inside a field is Short."""
    try:
        return read(Reader(content, dialect))
    except OutOfBytes:
        raise Fault(1) from None


def readable(content, read):
    """Reads a record at the front of a client's bytes; None where it can't be read."""
    try:
        return read(Reader(content))
    except (OutOfBytes, Fault):
        return None


# ---- writing


def int32(*numbers):
    return struct.pack(f">{len(numbers)}i", *numbers)


def int64(*numbers):
    return struct.pack(f">{len(numbers)}q", *numbers)


def buffer(content):
    return int32(-1) if content is None else int32(len(content)) + content


def vector(elements):
    return int32(-1) if elements is None else int32(len(elements)) + b"".join(elements)


def id_bytes(shown):
    return buffer(shown[0]) + buffer(shown[1])


def acl_bytes(entry):
    return int32(entry[0]) + id_bytes(entry[1])


def packet(kind, zxid, content, ids):
    """A packet; content and ids may be null."""
    return int32(kind) + int64(zxid) + buffer(content) + vector(None if ids is None else [id_bytes(it) for it in ids])
