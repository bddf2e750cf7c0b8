"""Four-letter words, and what answers them."""
from learner import SERVING

WORDS = (b"ruok", b"isro", b"srvr", b"mntr", b"wchs", b"wchp", b"wchc", b"dump")


def listed(session, ending, paths):
    """A session, and below it its paths."""
    return b"0x%x%s\n" % (session % 2**64, ending) + b"".join(b"\t%s\n" % it for it in sorted(paths))


def dumped(tree):
    """The sessions of a tree, and the ephemeral nodes of those that have some."""
    owned = {it: {path for owner, path in tree.pairs if owner == it} for it in sorted(tree.sessions)}
    text = b"SessionTracker dump:\nGlobal Sessions(%d):\n" % len(owned)
    text += b"".join(b"0x%x\t%dms\n" % (it % 2**64, tree.sessions[it]) for it in owned)
    owned = {session: paths for session, paths in owned.items() if paths}
    text += b"ephemeral nodes dump:\nSessions with Ephemerals (%d):\n" % len(owned)
    return text + b"".join(listed(session, b":", paths) for session, paths in owned.items())


def answer_to(word, learner, connections, watches):
    """The answer to a word. The connections are all that are open, by their numbers."""
    serving, tree = learner.phase == SERVING, learner.tree
    if word == b"ruok":
        return b"imok"
    if word == b"isro":
        return b"rw" if serving else b"null"
    if not serving:
        return b"not serving\n"
    served = sum(it.session is not None for it in connections.values())
    rows = watches.rows()
    paths = sorted({path for path, _ in rows})
    if word == b"srvr":
        return b"Connections: %d\nZxid: 0x%x\nMode: observer\nNode count: %d\n" % (
            served, learner.last, len(tree.nodes) + 1
        )
    if word == b"mntr":
        figures = (served, len(tree.nodes) + 1, len(rows), len(tree.pairs))
        return (
            b"zk_server_state\tobserver\nzk_num_alive_connections\t%d\nzk_znode_count\t%d\nzk_watch_count\t%d\n"
            b"zk_ephemerals_count\t%d\n" % figures
        )
    if word == b"wchs":
        figures = (len({number for _, number in rows}), len(paths), len(rows))
        return b"%d connections watching %d paths\nTotal watches:%d\n" % figures
    if word == b"dump":
        return dumped(tree)
    if word == b"wchc":
        watched = {}
        for path, number in rows:
            watched.setdefault(connections[number].session or 0, set()).add(path)
        return b"".join(listed(it, b"", watched[it]) for it in sorted(watched))
    text = b""
    for path in paths:
        sessions = {connections[number].session or 0 for at, number in rows if at == path}
        text += path + b"\n" + b"".join(b"\t0x%x\n" % (it % 2**64) for it in sorted(sessions))
    return text
