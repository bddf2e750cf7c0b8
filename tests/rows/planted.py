"""Mistakes that can be planted in the observer of model/, each one that a real observer could make: `in_place(mistake)`
puts one function of the model in another's place for a while."""
import contextlib
import struct
from typing import Callable, NamedTuple

from clients import Clients, Connection
from learner import Learner
from transactions import CREATE, CREATE2, ERROR, MULTI, parent_of
from tree import DELETED, Outcome, Tree
from watches import Watches


class Mistake(NamedTuple):
    """A function of the model, by its class and name, and what makes the wrong one of it."""

    name: str
    owner: type
    function: str
    wrong: Callable


def delete_leaves_watches(fire):
    def wrong(it, kind, path):
        kept = {each for each in it.watches.own if each[0] == path and kind == DELETED}
        fire(it, kind, path)
        it.watches.own |= kept

    return wrong


def misses_first_change(set_watches):
    def wrong(it, number, xid, body, *more):
        if len(body) >= 8:
            since = min(struct.unpack(">q", body[:8])[0] + 1, 2**63 - 1)
            body = struct.pack(">q", since) + body[8:]
        set_watches(it, number, xid, body, *more)

    return wrong


def does_not_wait_for_syncs(request):
    def wrong(it, number, each, frame):
        waits = each.waits
        if waits and all(found.what == "sync" for found in waits):
            each.waits = []
            request(it, number, each, frame)
            each.waits = waits + each.waits
        else:
            request(it, number, each, frame)

    return wrong


def goes_on_after_close(request):
    def wrong(it, number, each, frame):
        request(it, number, each, frame)
        each.is_leaving = False

    return wrong


def forgets_ids_in_between(auth):
    def wrong(it, number, each, xid, body):
        ids = each.ids
        auth(it, number, each, xid, body)
        if each.waits:
            each.ids = ids

    return wrong


def leaves_last_ephemeral(close_session):
    def wrong(it, txn):
        pairs = sorted(each for each in it.pairs if each[0] == txn.session)
        it.pairs -= set(pairs[1:][-1:])
        return close_session(it, txn)

    return wrong


def delete_leaves_pzxid(delete):
    def wrong(it, txn, path):
        parent = it.nodes.get(parent_of(path))
        before = parent and parent.pzxid
        told = delete(it, txn, path)
        if parent:
            parent.pzxid = before
        return told

    return wrong


def applies_front_of_failed(multi):
    def wrong(it, txn):
        kinds = [part.kind for part in txn.body]
        if ERROR in kinds:
            for part in txn.body[: kinds.index(ERROR)]:
                it.operation(txn, part.kind, part.body)
        return multi(it, txn)

    return wrong


def keeps_sessions_taken_back(truncate):
    def wrong(it, zxid):
        sessions = it.tree.sessions
        truncate(it, zxid)
        it.tree.sessions = {**sessions, **it.tree.sessions}

    return wrong


def lowers_last_zxid(applied):
    def wrong(it, txn, take=None):
        effect = applied(it, txn, take)
        it.last = txn.zxid
        return effect

    return wrong


MISTAKES = (
    Mistake("a delete doesn't use up the watches on the node's data", Clients, "fire", delete_leaves_watches),
    Mistake("a setWatches misses the first transaction since", Clients, "set_watches", misses_first_change),
    Mistake("a read isn't held after a sync", Clients, "request", does_not_wait_for_syncs),
    Mistake("a frame after a closeSession is served", Clients, "request", goes_on_after_close),
    Mistake("an id that is shown while a request waits is forgotten", Clients, "auth", forgets_ids_in_between),
    Mistake("the last of several ephemerals stays as its session ends", Tree, "close_session", leaves_last_ephemeral),
    Mistake("a delete leaves its parent's pzxid as it was", Tree, "delete", delete_leaves_pzxid),
    Mistake("a multi with an error part does what comes before it", Tree, "multi", applies_front_of_failed),
    Mistake("a TRUNC keeps the sessions that it takes back", Learner, "truncate", keeps_sessions_taken_back),
    Mistake("a transaction that an image has already lowers the last zxid", Learner, "applied", lowers_last_zxid),
)


# ---- in later dialects


def pzxid_falls(delete):
    def wrong(it, txn, path):
        told = delete(it, txn, path)
        parent = it.nodes.get(parent_of(path))
        if parent:
            parent.pzxid = txn.zxid
        return told

    return wrong


def missing_child_tells_no_parent(delete):
    def wrong(it, txn, path):
        parent = it.nodes.get(parent_of(path))
        before, is_there = parent and parent.pzxid, path in it.nodes
        told = delete(it, txn, path)
        if parent and not is_there:
            parent.pzxid = before
        return told

    return wrong


def cversion_falls(raise_cversion):
    def wrong(it, parent, told, zxid, is_taken):
        raise_cversion(it, parent, told, zxid, is_taken)
        if not is_taken and told != -1:
            parent.cversion, parent.pzxid = told, zxid

    return wrong


def list_stays_empty(mend_acl):
    return lambda it, body: None


def owns_all(put):
    def wrong(it, path, node):
        put(it, path, node)
        if node.owner:
            it.pairs.add((node.owner, path))

    return wrong


def stat_after_the_whole(multi):
    def wrong(it, txn):
        error, triggers, parts = multi(it, txn)
        late = [each.stat and it.stat_of_part(part) or each.stat for part, each in zip(txn.body, parts)]
        return Outcome(error, triggers, [each._replace(stat=stat) for each, stat in zip(parts, late)])

    return wrong


def forgets_create2(answer_write):
    def wrong(it, number, each, kind, txn, outcome):
        if txn.kind == MULTI:
            parts = [part._replace(kind=CREATE if part.kind == CREATE2 else part.kind) for part in txn.body]
            txn = txn._replace(body=parts)
        answer_write(it, number, each, kind, txn, outcome)

    return wrong


def answers_moved(answer_write):
    def wrong(it, number, each, kind, txn, outcome):
        if txn.kind == ERROR and txn.body == -118:
            it.reply(number, txn.cxid, -118, zxid=txn.zxid)
            it.answer_front(number, each)
        else:
            answer_write(it, number, each, kind, txn, outcome)

    return wrong


def admits_by_any_news(waits_for):
    return lambda it, session, what: it.connecting() == session


def keeps_waiting(close_waiting):
    return lambda it, session: None


def removed_watch_stays(of):
    def wrong(it, path, number, kind):
        found = of(it, path, number, kind)
        return [(set() if table is it.lasting else table, watch) for table, watch in found]

    return wrong


def later_mode_alone(add_lasting):
    return lambda it, path, number, mode, has_both: add_lasting(it, path, number, mode, False)


def tells_tree_timeouts(told_timeout):
    return lambda it, session: it.learner.tree.sessions[session]


LATER_MISTAKES = (
    Mistake("a delete lowers the parent's pzxid", Tree, "delete", pzxid_falls),
    Mistake("a delete of a node that isn't there leaves the parent", Tree, "delete", missing_child_tells_no_parent),
    Mistake("a create lowers the parent's cversion", Tree, "raise_cversion", cversion_falls),
    Mistake("a node without a list of rights isn't given one", Tree, "mend_acl", list_stays_empty),
    Mistake("a container is an ephemeral of its owner", Tree, "put", owns_all),
    Mistake("a multi's Stats are those after all parts", Tree, "multi", stat_after_the_whole),
    Mistake("a part that is a create2 is answered as a create", Clients, "answer_write", forgets_create2),
    Mistake("a session that has moved is answered", Clients, "answer_write", answers_moved),
    Mistake("a connect is answered by other news of its session", Connection, "waits_for", admits_by_any_news),
    Mistake("a connect waits on as its session ends, or comes again", Clients, "close_waiting", keeps_waiting),
    Mistake("a lasting watch that is removed stays", Watches, "of", removed_watch_stays),
    Mistake("a lasting watch takes the other mode's place", Watches, "add_lasting", later_mode_alone),
    Mistake("a PING is answered with the tree's timeouts", Clients, "told_timeout", tells_tree_timeouts),
)


def mistakes_in(dialect):
    """The mistakes that can be told in a dialect."""
    return (*MISTAKES, *LATER_MISTAKES) if dialect.is_later else MISTAKES


@contextlib.contextmanager
def in_place(mistake):
    right = getattr(mistake.owner, mistake.function)
    try:
        setattr(mistake.owner, mistake.function, mistake.wrong(right))
        yield
    finally:
        setattr(mistake.owner, mistake.function, right)
