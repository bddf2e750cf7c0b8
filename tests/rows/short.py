"""A row about texts and data of around 30 bytes, up to which a value may be held without a block of memory."""
import struct

from records import (
    CREATE, GET_CHILDREN, GET_DATA, INFORM, SET_DATA, buffer, client, create, leader, packet, reply, transaction,
)

FIRST = 1 << 32  # the zxid of epoch 1 before its first transaction
LENGTHS = (0, 1, 29, 30, 31, 32, 62)


def path_of(length):
    """The path of so many bytes, of a child of the root."""
    return b"/" + b"n%d-" % length + b"p" * (length - 2 - len(b"%d-" % length))


def content_of(length):
    return bytes(range(1, length + 1))


def set_to(zxid, path, content, version):
    body = buffer(path) + buffer(content) + struct.pack(">i", version)
    return leader(packet(INFORM, zxid, transaction(zxid, SET_DATA, body)))


def short_and_long():
    """Nodes whose paths, and whose names, have from 29 to 32 bytes. The data of each is set to every length from every
    other one, and read each time; it is null at first. At last the root's children are listed."""
    paths = [path_of(length) for length in (29, 30, 31, 32)]
    script, wanted, zxid = [b"server 3", b"primed"], [], FIRST
    made = {}
    for path in paths:
        zxid += 1
        made[path] = zxid
        script.append(leader(packet(INFORM, zxid, transaction(zxid, CREATE, create(path, None)))))
    xid = 0
    for path in paths:
        steps = [length for first in LENGTHS for second in LENGTHS for length in (first, second)]
        for version, length in enumerate(steps, 1):
            zxid += 1
            xid += 1
            content = content_of(length)
            script += [set_to(zxid, path, content, version), client(xid, GET_DATA, buffer(path) + b"\0")]
            stat = struct.pack(">qqqqiiiqiiq", made[path], zxid, 1000, 1000, version, 0, 0, 0, length, 0, made[path])
            wanted.append(reply(xid, zxid, 0, buffer(content) + stat))
    xid += 1
    script.append(client(xid, GET_CHILDREN, buffer(b"/") + b"\0"))
    names = sorted([path[1:] for path in paths] + [b"zookeeper"])
    listed = struct.pack(">i", len(names)) + b"".join(buffer(name) for name in names)
    wanted += [reply(xid, zxid, 0, listed), b"end zxid=0x%x paths=%d" % (zxid, len(paths) + 3), b""]
    return "short-and-long", b"\n".join([*script, b""]), b"\n".join(wanted)
