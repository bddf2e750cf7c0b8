"""What scripts that are drawn by chance reach: `marks_of(script)` tells which of the observer's behaviours one had.

The model's own functions are watched while it replays the script.
"""
import contextlib

import clients
import jute
import learner
import tree
import watches
from observer import replayed
from transactions import CLOSE_SESSION, CREATE, CREATE2, CREATE_CONTAINER, CREATE_SESSION, CREATE_TTL, DELETE
from transactions import DELETE_CONTAINER, ERROR, MULTI, RECONFIG, SET_ACL, SET_DATA

READS = {
    3: "exists", 4: "getData", 6: "getACL", 8: "getChildren", 12: "getChildren2", 104: "getAllChildrenNumber",
}
CHANGES = {
    CREATE: "create", DELETE: "delete", SET_DATA: "setData", SET_ACL: "setACL", CREATE2: "create2",
    CREATE_CONTAINER: "createContainer", CREATE_TTL: "createTTL", DELETE_CONTAINER: "deleteContainer",
    RECONFIG: "reconfig",
}


def of_sync(it, found):
    if found.kind == learner.TRUNC and any(txn.zxid > found.zxid for txn in it.log):
        return "TRUNC that takes something back"
    return {learner.DIFF: "DIFF", learner.TRUNC: "TRUNC", learner.SNAP: "SNAP"}.get(found.kind)


def of_image(it, _):
    return "image taken" if it.phase == learner.IMAGE else "image dropped"


def of_replay(it, found):
    names = {learner.PROPOSAL: "proposal", learner.COMMIT: "commit", learner.INFORM: "INFORM before UPTODATE"}
    return names.get(found.kind)


def of_serving(it, found):
    return {learner.PING: "leader's PING", learner.SYNC: "leader's SYNC"}.get(found.kind, "packet while serving")


def of_applied(it, txn, take=None):
    return "transaction below an image's zxid" if it.floor is not None and txn.zxid <= it.last else None


def of_txn(it, txn):
    if txn.kind == MULTI:
        return "multi with an error" if any(part.kind == ERROR for part in txn.body) else "multi"
    if txn.kind == CLOSE_SESSION and any(owner == txn.session for owner, _ in it.pairs):
        return "ephemerals that go with their session"
    return CHANGES.get(txn.kind, "other transaction")


def of_told(it, txn, outcome):
    number = it.owner(txn.session)
    write = it.open[number].oldest_write() if number is not None else None
    if txn.kind in (CREATE_SESSION, CLOSE_SESSION) or not write:
        return None
    if write.values[0] != txn.cxid or txn.kind not in (write.values[1], ERROR):
        return "transaction that answers nothing"
    return "write answered with an error" if outcome.error else "write answered"


def of_front(it, number, asked):
    return "held frame answered" if asked.waits and asked.waits[0].what == "held" else None


def of_request(it, number, asked, frame):
    kind = jute.Reader(frame).numbers("ii")[1]
    if asked.waits and kind not in clients.WRITES and kind not in (clients.SYNC, clients.AUTH):
        return "frame held"
    return None


def of_read(it, number, asked, xid, kind, body):
    return READS[kind]


def of_frame(it, number, asked, frame):
    return "frame behind a connect that waits" if asked.connects() else None


def of_fire(it, kind, path):
    if any(watches.covers(at, mode, path, kind) for at, _, mode in it.watches.lasting):
        return "lasting watch told"
    watched = [number for at, number in it.watches.own | it.watches.child if at == path]
    return "change told to several" if len(set(watched)) > 1 else None


def of_admit(it, number, asked, session, timeout, has_byte):
    if it.owner(session) is not None:
        return "session taken from an older connection"
    return None if asked.waits else "connection admitted"


def of_reply(it, number, xid, error, body=b"", zxid=None):
    return f"reply with {error}" if error < -1 else None


def of_connect(it, number, asked, frame):
    return "connect while nobody is served" if it.learner.phase != learner.SERVING else None


def of_pinged(it, found):
    return "PING answered with sessions" if it.touched else None


def of_revalidated(it, session, is_valid):
    if not any(each.waits_for(session, "revalidate") for each in it.open.values()):
        return "answer for a session that nobody waits for"
    return "session that comes is known" if is_valid else "session that comes isn't known"


def of_answer_write(it, number, asked, kind, txn, outcome):
    if kind == MULTI and txn.kind == MULTI:
        return "multi answered with an error" if outcome.error else "multi answered"
    is_moved = it.is_later and txn.kind == ERROR and txn.body == clients.SESSION_MOVED
    return "write of a session that has moved" if is_moved else None


def of_synced(it):
    return "sync answered" if it.syncs and it.syncs[0] is not None else "SYNC for nobody"


def named(name):
    return lambda *_, **__: name


# Each function of the model that is watched, and what makes a mark of its arguments; None is no mark.
WATCHED = (
    (learner.Learner, "in_syncing", of_sync),
    (learner.Learner, "image", of_image),
    (learner.Learner, "in_replay", of_replay),
    (learner.Learner, "in_serving", of_serving),
    (learner.Learner, "applied", of_applied),
    (tree.Tree, "apply", of_txn),
    (jute.Fault, "told", lambda it: f"fault F{it.number}"),
    (clients.Clients, "applied", of_told),
    (clients.Clients, "request", of_request),
    (clients.Clients, "frame", of_frame),
    (clients.Clients, "read", of_read),
    (clients.Clients, "fire", of_fire),
    (clients.Clients, "admit", of_admit),
    (clients.Clients, "connect", of_connect),
    (clients.Clients, "reply", of_reply),
    (clients.Clients, "pinged", of_pinged),
    (clients.Clients, "synced", of_synced),
    (clients.Clients, "event", named("watch fired")),
    (clients.Clients, "admit_waiting", named("session created")),
    (clients.Clients, "refuse", named("connect refused")),
    (clients.Clients, "ended", named("connection closed as its session ends")),
    (clients.Clients, "answer_front", of_front),
    (clients.Clients, "set_watches", named("setWatches")),
    (clients.Clients, "add_watch", named("addWatch")),
    (clients.Clients, "auth", named("auth")),
    (clients.Clients, "word", named("four-letter word")),
    (clients.Clients, "expire", named("expire")),
    (clients.Clients, "revalidated", of_revalidated),
    (clients.Clients, "answer_write", of_answer_write),
    (clients.Clients, "revalidate", named("session that comes")),
    (clients.Clients, "find_watches", named("checkWatches or removeWatches")),
    (clients.Clients, "set_watches2", named("setWatches2")),
    (clients.Clients, "multi_read", named("multiRead")),
    (clients.Clients, "own_ephemerals", named("getEphemerals")),
    (clients.Clients, "who_am_i", named("whoAmI")),
    (clients.Clients, "sasl", named("sasl")),
)


def watched(function, mark, marks):
    def told(*arguments, **options):
        marks.add(mark(*arguments, **options))
        return function(*arguments, **options)

    return told


@contextlib.contextmanager
def watching(marks):
    kept = [(owner, name, getattr(owner, name)) for owner, name, _ in WATCHED]
    try:
        for owner, name, mark in WATCHED:
            setattr(owner, name, watched(getattr(owner, name), mark, marks))
        yield
    finally:
        for owner, name, function in kept:
            setattr(owner, name, function)


def marks_of(script):
    """Returns the names of what a script reaches."""
    marks = set()
    with watching(marks):
        replayed(script)
    lines = script.split(b"\n")
    marks |= {"second leader"} if lines.count(b"leader up") > 1 else set()
    marks |= {"fault"} if any(str(mark).startswith("fault") for mark in marks) else set()
    marks |= {"checkpoint"} if b"checkpoint" in lines else set()
    return marks - {None}
