"""What scripts that are drawn by chance have in their packets and frames: paths, lists of access rights, transactions,
images, and bytes that are damaged.

Each function takes the drawing (drawing.py), whose dice it throws and whose observer it asks how things stand.
"""
import struct

from records import CREATE, CREATE_SESSION, CLOSE_SESSION, ENTRY, ERROR, OPEN_ACL, SET_DATA, buffer

from clients import digest_id
from transactions import CHECK, CONTAINER, CREATE2, CREATE_CONTAINER, CREATE_TTL, DELETE, DELETE_CONTAINER, MULTI
from transactions import RECONFIG, SET_ACL, TTL, parent_of
from tree import Node, Tree

# The paths of which a script has some, and whom a list of access rights can name.
PATHS = (b"/a", b"/b", b"/a/b", b"/a/c", b"/ab", b"/a/b/c", b"/b/a", b"/a/b/d", b"/ab/c", b"/\xc3\xa9", b"/zookeeper/q",
         b"/zookeeper/quota/a")
LATER_PATHS = (b"/zookeeper/config", b"/zookeeper/config")
STANDING = (b"/", b"/zookeeper", b"/zookeeper/quota")
USERS = (b"ann:pw", b"bob:", b"eve")
ODD_IDS = ((b"ip", b"127.0.0.1"), (b"world", b"anyone"), (b"auth", b""), (b"world", b"ann"), (None, None))
# In later dialects: a character past U+FFFF as Java writes it, its second half alone, and addresses.
LATER_IDS = (
    (b"digest", b"\xed\xa0\xbd\xed\xb8\x80"), (b"digest", b"\xed\xb8\x80"), (b"ip", b"127.0.0.1"),
    (b"ip", b"127.255.0.0/8"), (b"ip", b"10.0.0.1/33"), (b"ip", b"0.0.0.0/0"),
)
# Neither a node's path nor one that a client may ask for; and two that name no node, but may be asked for.
NO_PATHS = (None, b"", b"a", b"/a\0b", b"/\xc0\xaf", b"/\xff")
ODD_PATHS = (b"/a/", b"//a")
CONTENTS = (None, b"", b"hi", b"hi", b"other", bytes(range(40)))
ERRORS = (-101, -103, -110, -111, -118, -112, -5, -2, 0, 1)
# Sessions of other servers, those with the high bit among them, and 0, which owns nothing.
STRANGERS = (0, 7, 9, (5 << 56) + 1, (200 << 56) + 1 - 2**64, -1)
# Owners that are no sessions, and the one above them.
OTHER_OWNERS = (CONTAINER, TTL | 60000, TTL, TTL + 2**40, CONTAINER + 1)
GREATEST = 2**31 - 1
PARTS = (CREATE, CREATE, DELETE, SET_DATA, SET_DATA, CHECK)
LATER_PARTS = (*PARTS, CREATE2, CREATE2, CREATE_CONTAINER, CREATE_TTL, DELETE_CONTAINER)
NULL_LIST = struct.pack(">i", -1)


def paths_of(chosen):
    """The paths of a script: those that are chosen and all above them, so that each can be made."""
    found = set()
    for path in chosen:
        while path not in STANDING:
            found.add(path)
            path = parent_of(path)
    return sorted(found)


def path(it):
    """A path that is read or changed: often the one at which clients meet, or one that has a node."""
    how = it.number(1, 10)
    if how <= 4:
        return it.hot
    standing = [each for each in it.paths if each in it.tree.nodes] if how <= 7 else ()
    return it.one(standing) if standing else it.one(STANDING[:2]) if how == 10 else it.one(it.paths)


def path_of_create(it):
    """Mostly a path without a node below one with a node, so that it can be made."""
    nodes = it.tree.nodes
    if it.hot not in nodes and parent_of(it.hot) in nodes and it.chance(0.5):
        return it.hot
    free = [each for each in it.paths if each not in nodes and parent_of(each) in nodes] if it.chance(0.7) else ()
    return it.one(free) if free else it.one(it.paths)


def path_of_delete(it):
    standing = [each for each in it.paths if each in it.tree.nodes] if it.chance(0.7) else ()
    return it.one(standing) if standing else it.one(it.paths)


def acl(it):
    """A list of access rights: for everybody, for one user or another, for nobody, empty or null."""
    if it.chance(0.5):
        return OPEN_ACL
    if it.chance(0.15):
        return struct.pack(">i", it.one((0, -1)))
    entries = [it.one((ENTRY, user_entry(it), user_entry(it), odd_entry(it))) for _ in range(it.number(1, 2))]
    return struct.pack(">i", len(entries)) + b"".join(entries)


def user_entry(it):
    scheme, text = digest_id(it.one(USERS))
    return struct.pack(">i", it.one((31, 1, 1, 2, 30))) + buffer(scheme) + buffer(text)


def odd_entry(it):
    scheme, text = it.one((*ODD_IDS, *LATER_IDS) if it.is_later else ODD_IDS)
    return struct.pack(">i", it.one((31, 30, 0, -1))) + buffer(scheme) + buffer(text)


def version(it):
    return it.one((-1, 0, 1, 2, 3, GREATEST, -GREATEST - 1)) if it.chance(0.2) else it.number(0, 9)


def parent_cversion(it, at):
    """The cversion that a create gives its parent: mostly the next one, or -1, which means it."""
    parent = it.tree.nodes.get(parent_of(at))
    if it.chance(0.5) or parent is None:
        return -1
    after = min(parent.cversion + 1, GREATEST)
    return it.one((after, after, after, after, parent.cversion, 0, 5, GREATEST, -7))


# ---- transactions


def create_body(it, is_part, at=None):
    at = at or path_of_create(it)
    body = buffer(at) + buffer(it.one(CONTENTS)) + acl(it) + struct.pack(">?", it.chance(0.3))
    if not (is_part or it.has_digests) and it.chance(0.1):
        return body  # as a create is written that has no parentCVersion
    return body + struct.pack(">i", parent_cversion(it, at))


def container_body(it, kind):
    """The body of a createContainer, or of a createTTL."""
    at = path_of_create(it)
    body = buffer(at) + buffer(it.one(CONTENTS)) + acl(it) + struct.pack(">i", parent_cversion(it, at))
    return body + struct.pack(">q", it.one((1, 60000, 2**40 - 1))) if kind == CREATE_TTL else body


def close_body(it):
    """What a later leader writes behind a closeSession: paths, which may lie, or nothing."""
    if it.chance(0.3):
        return b""
    paths = [path(it) for _ in range(it.one((0, 1, 1, 2)))]
    return struct.pack(">i", len(paths)) + b"".join(map(buffer, paths))


def error_part(it):
    """An error as a part of a multi; a later leader can leave the bytes of the operation behind its type."""
    if it.is_later and it.chance(0.3):
        return body_of(it, it.one(LATER_PARTS), True)
    return struct.pack(">i", it.one(ERRORS)) + (it.one((b"", b"more")) if it.is_later else b"")


def digest(it):
    """What a later leader writes behind a transaction."""
    return struct.pack(">iQ", 2, it.dice.getrandbits(64)) if it.has_digests else b""


def multi_body(it):
    kinds = [it.one(LATER_PARTS if it.is_later else PARTS) for _ in range(it.number(0, 4))]
    if it.chance(0.35):
        kinds.insert(it.number(0, len(kinds)), ERROR)
    if not kinds and it.chance(0.3):
        return struct.pack(">i", -1)
    parts = [struct.pack(">i", kind) + buffer(part_body(it, kind)) for kind in kinds]
    return struct.pack(">i", len(parts)) + b"".join(parts)


def part_body(it, kind):
    return error_part(it) if kind == ERROR else body_of(it, kind, True)


def body_of(it, kind, is_part=False):
    """The body of a transaction of this type."""
    if kind in (CREATE, CREATE2):
        return create_body(it, is_part or kind == CREATE2)
    if kind in (CREATE_CONTAINER, CREATE_TTL):
        return container_body(it, kind)
    if kind in (DELETE, DELETE_CONTAINER):
        return buffer(path_of_delete(it))
    if kind == RECONFIG:
        return buffer(LATER_PATHS[0] if it.chance(0.9) else path(it)) + buffer(b"server") + struct.pack(">i", -1)
    if kind == CLOSE_SESSION and it.is_later:
        return close_body(it)
    if kind == SET_DATA:
        return buffer(path(it)) + buffer(it.one(CONTENTS)) + struct.pack(">i", version(it))
    if kind == SET_ACL:
        return buffer(path(it)) + acl(it) + struct.pack(">i", version(it))
    if kind == CHECK:
        return buffer(path(it)) + struct.pack(">i", version(it))
    if kind == MULTI:
        return multi_body(it)
    if kind == CREATE_SESSION:
        return struct.pack(">i", it.one((4000, 10000, 40000, 1, 0, -5)))
    return b"" if kind == CLOSE_SESSION else struct.pack(">i", it.one(ERRORS))


# ---- images


def drawn_tree(it):
    """The tree of which a leader sends an image: the observer's own or a fresh one, and what was done to it since."""
    tree = it.tree.copy() if it.chance(0.6) and b"/" in it.tree.nodes else Tree.fresh(it.dialect)
    for each in it.paths:
        if it.chance(0.4) and parent_of(each) in tree.nodes and each not in tree.nodes:
            tree.put(each, drawn_node(it))
    for session in it.sessions():
        if it.chance(0.3):
            tree.sessions[session] = it.one((4000, 10000, 30000))
    return tree


def drawn_node(it):
    made, changed, time = it.number(1, 2**33), it.number(1, 2**33), it.number(0, 5000)
    owner = it.one(it.sessions()) if it.chance(0.3) else 0
    if it.is_later and it.chance(0.3):
        owner = it.one(OTHER_OWNERS)
    rights = None if it.chance(0.5) else [(it.one((31, 1, 2)), digest_id(it.one(USERS)))]
    stat = (made, changed, time, time, version(it), version(it), version(it), owner, it.number(1, 2**33))
    return Node(it.one(CONTENTS), rights, *stat)


def node_bytes(at, node, key):
    stat = (node.czxid, node.mzxid, node.ctime, node.mtime, node.version, node.cversion, node.aversion, node.owner)
    content = buffer(b"" if at == b"/" else at) + buffer(node.content) + struct.pack(">q", key)
    return content + struct.pack(">qqqqiiiqq", *stat, node.pzxid)


def acl_list(rights):
    entries = [struct.pack(">i", perms) + buffer(scheme) + buffer(text) for perms, (scheme, text) in rights]
    return struct.pack(">i", len(entries)) + b"".join(entries)


def image_of(it, tree):
    """The image of a tree. A node whose parent is gone isn't in it, as an image has each node below its parent."""
    paths = []
    for each in sorted(tree.nodes):
        if each == b"/" or parent_of(each) in paths:
            paths.append(each)
    sessions = sorted(tree.sessions.items())
    lists, keys = [], {}
    for each in paths:
        told = acl_list(tree.nodes[each].acl)
        if told != OPEN_ACL or it.chance(0.3):
            keys[each] = len(lists) + 1
            told = NULL_LIST if told == OPEN_ACL and it.chance(0.3) else told  # which mean the same
            lists.append(struct.pack(">q", keys[each]) + told)
    if it.is_later and lists and it.chance(0.3):
        lists.remove(it.one(lists))  # so that a node has none
    if it.chance(0.2):
        lists.append(struct.pack(">q", 0) + NULL_LIST)  # which no node has
    return b"".join([
        struct.pack(">i", len(sessions)), *[struct.pack(">qi", *entry) for entry in sessions],
        struct.pack(">i", len(lists)), *lists,
        *[node_bytes(each, tree.nodes[each], keys.get(each, -1)) for each in paths],
        buffer(b"/"), buffer(b"BenWasHere"),
    ])


# ---- damage


def damaged(it, content):
    """The bytes with one of them changed, gone or added, or with their end missing."""
    at = it.number(0, len(content) - 1)
    how = it.number(0, 5)
    if how == 0:
        return content[:at] + content[at + 1 :]
    if how == 1:
        return content[:at] + bytes([it.one((0, 1, 47, 255))]) + content[at:]
    if how == 2 and at:
        return content[:at]
    return content[:at] + bytes([it.one((0, 1, 2, 127, 128, 255, content[at] ^ 1))]) + content[at + 1 :]
