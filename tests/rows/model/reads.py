"""What reads show of a tree."""
from jute import Fault, acl_bytes, buffer, int32, vector
from tree import NO_NODE

EXISTS, GET_DATA, GET_ACL, GET_CHILDREN, GET_CHILDREN2 = 3, 4, 6, 8, 12
READS = (EXISTS, GET_DATA, GET_ACL, GET_CHILDREN, GET_CHILDREN2)
MULTI_READ, GET_EPHEMERALS, GET_ALL_CHILDREN_NUMBER = 22, 103, 104  # in later dialects alone
LATER_READS = (*READS, GET_ALL_CHILDREN_NUMBER)
UNWATCHED = (GET_ACL, GET_ALL_CHILDREN_NUMBER)  # the reads that can't leave a watch
READ, ADMIN = 1, 16
NO_AUTH = -102


def is_request_path(path):
    return path is not None and path[:1] == b"/" and b"\0" not in path


def allows(acl, perms, ids):
    """Whether an entry of a list grants one of these rights to everybody or to one of the ids; super has each."""
    if any(scheme == b"super" for scheme, _ in ids):
        return True
    return any(granted & perms and (who == (b"world", b"anyone") or is_shown(who, ids)) for granted, who in acl)


def is_shown(who, ids):
    """Whether an id is among those of a connection; one of scheme ip may mean many addresses, beside its own text."""
    scheme, text = who
    if who in ids:
        return True
    return scheme == b"ip" and any(each == b"ip" and is_address_in(address, text) for each, address in ids)


def is_address_in(address, text):
    """Whether an address is the one of the text, or has its first bits, where the text says how many count."""
    front, slash, bits = text.partition(b"/")
    count = int(bits) if bits.isdigit() else 33 if slash else 32
    wanted, found = address_number(front), address_number(address)
    return None not in (wanted, found) and count <= 32 and wanted >> 32 - count == found >> 32 - count


def address_number(text):
    """An address of four numbers, as one number; None where the text is no such address."""
    parts = text.split(b".")
    if len(parts) != 4 or not all(it.isdigit() and int(it) < 256 for it in parts):
        return None
    return int.from_bytes(bytes(int(it) for it in parts), "big")


def look(tree, kind, path, ids):
    """Returns the error and the body that a read shows to whom has shown these ids."""
    node = tree.nodes.get(path)
    if node is None:
        return NO_NODE, b""
    if not may_look(tree, kind, node, ids):
        return NO_AUTH, b""
    if kind == GET_ALL_CHILDREN_NUMBER:
        return 0, int32(count_below(tree, path))
    names = vector([buffer(it) for it in sorted(node.children)])
    bodies = {
        EXISTS: node.stat(),
        GET_DATA: buffer(node.content) + node.stat(),
        GET_ACL: vector([acl_bytes(entry) for entry in shown_acl(tree, node, ids)]) + node.stat(),
        GET_CHILDREN: names,
        GET_CHILDREN2: names + node.stat(),
    }
    return 0, bodies[kind]


def may_look(tree, kind, node, ids):
    """Whether a read of a node is granted. Later dialects ask for a right to read the list of rights, and an empty
    list, which only a node from an image can have for a while, grants nothing there."""
    is_later = tree.dialect.is_later
    if kind == EXISTS or kind == GET_ACL and not is_later:
        return True
    if not (node.acl or is_later):
        return True
    return allows(node.acl, READ | ADMIN if kind == GET_ACL else READ, ids)


def shown_acl(tree, node, ids):
    """The list of rights that a getACL shows. In later dialects only who may administrate the node sees digests."""
    if not tree.dialect.is_later or allows(node.acl, ADMIN, ids):
        return node.acl
    return [(perms, masked(who)) for perms, who in node.acl]


def masked(who):
    scheme, text = who
    user, colon, _ = text.partition(b":")
    return (scheme, user + b":x") if scheme == b"digest" and colon else who


def count_below(tree, path):
    """How many nodes are below a path, at any depth."""
    front = path if path == b"/" else path + b"/"
    return sum(it.startswith(front) and it != path for it in tree.nodes)


def ephemerals(tree, session, prefix):
    """The paths of the session's own ephemerals that begin with a text; a null one is at the front of all."""
    paths = sorted(path for owner, path in tree.pairs if owner == session)
    return vector([buffer(it) for it in paths if it.startswith(prefix or b"")])


def reads_in(reader):
    """Reads what a multiRead asks for, each a type and a path. Whether a watch is asked for doesn't count."""
    found = []
    while True:
        kind, is_end, _ = reader.int(), reader.bool(), reader.int()
        if is_end:
            return found
        if kind not in (GET_DATA, GET_CHILDREN):
            raise Fault(5)
        found.append((kind, reader.text()))
        reader.bool()
