"""Images of trees."""
from jute import Fault
from transactions import OPEN, is_path, parent_of
from tree import Node, Tree


def node_in(reader, path, lists, tree):
    """Reads a node. Where a later leader has written the table of lists before the node had its own, the node's list is
    empty until a create brings it."""
    content, key = reader.buffer(), reader.long()
    names = ("czxid", "mzxid", "ctime", "mtime", "version", "cversion", "aversion", "owner", "pzxid")
    stat = dict(zip(names, reader.numbers("qqqqiiiqq")))
    stands = path == b"" or parent_of(path) in tree.nodes
    is_unknown = key not in lists and not tree.dialect.is_later
    if not stands or (path or b"/") in tree.nodes or is_unknown or not path and tree.nodes:
        raise Fault(10)
    tree.put(path or b"/", Node(content, lists.get(key, []), **stat))


def nodes_in(reader, lists, tree):
    path = reader.text()
    if path == b"/":
        raise Fault(10)
    if path is None or path and not is_path(path):
        raise Fault(4)
    while path != b"/":
        node_in(reader, path, lists, tree)
        path = reader.text()
        if path != b"/" and not is_path(path):
            raise Fault(4)


def counted(reader):
    count = reader.sized(2**20)
    if count is None:
        raise Fault(2)
    return range(count)


def image_in(reader):
    """Reads the image of a tree."""
    tree, lists = Tree(reader.dialect), {}
    for _ in counted(reader):
        session, timeout = reader.numbers("qi")
        if session in tree.sessions:
            raise Fault(10)
        tree.sessions[session] = timeout
    for _ in counted(reader):
        key, acl = reader.long(), reader.vector(reader.acl)
        if key in lists:
            raise Fault(10)
        lists[key] = OPEN if acl is None else acl
    lists[-1] = OPEN
    nodes_in(reader, lists, tree)
    if reader.text() != b"BenWasHere":
        raise Fault(10)
    return tree
