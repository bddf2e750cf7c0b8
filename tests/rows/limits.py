"""Rows about the longest data that a packet of the leader may carry."""
import struct

from records import CREATE, GET_DATA, INFORM, SET_DATA, buffer, client, create, leader, packet, reply, transaction

FIRST = 1 << 32  # the zxid of epoch 1 before its first transaction
LIMIT = 4_194_304  # of the bytes of a packet's data
NODE = b"/a"
# What a setData has besides the node's bytes: a transaction's header, the path and the two lengths, and the version.
BESIDES = 32 + 4 + len(NODE) + 4 + 4


def set_to(content):
    zxid = FIRST + 2
    body = buffer(NODE) + buffer(content) + struct.pack(">i", 1)
    return leader(packet(INFORM, zxid, transaction(zxid, SET_DATA, body)))


def longest_inform():
    """A packet whose data has as many bytes as it may, a setData of 4,194,258 bytes, is applied, and a client is shown
    them all. With one more byte it is F2, and the node stays as it was."""
    content = b"\xa5" * (LIMIT - BESIDES)
    made = leader(packet(INFORM, FIRST + 1, transaction(FIRST + 1, CREATE, create(NODE))))
    read = client(1, GET_DATA, buffer(NODE) + b"\0")
    stat = struct.pack(">qqqqiiiqiiq", FIRST + 1, FIRST + 2, 1000, 1000, 1, 0, 0, 0, len(content), 0, FIRST + 1)
    fits = [b"server 3", b"primed", made, set_to(content), read, b""]
    shown = [reply(1, FIRST + 2, 0, buffer(content) + stat), b"end zxid=0x100000002 paths=4", b""]
    over = [b"server 3", b"primed", made, set_to(content + b"\xa5"), b""]
    closed = [b"L close F2 BadLength", b"C 1 close", b"end zxid=0x100000001 paths=4", b""]
    return [
        ("limits-inform", b"\n".join(fits), b"\n".join(shown)),
        ("limits-inform-over", b"\n".join(over), b"\n".join(closed)),
    ]
