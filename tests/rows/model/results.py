"""What replies to writes show, and the results of multis and of multiReads."""
from jute import buffer, int32
from reads import is_request_path, look
from transactions import CREATE, CREATE2, CREATE_CONTAINER, CREATE_TTL, DELETE, DELETE_CONTAINER, ERROR, MULTI
from transactions import RECONFIG, SET_ACL, SET_DATA

BAD_ARGUMENTS = -8
SHOW_STAT = (CREATE2, CREATE_CONTAINER, CREATE_TTL)  # the creates that are answered with a Stat


def result_header(kind, error, is_end=False):
    """The header of a part of a multi, or of a multi's end."""
    return int32(kind) + bytes([is_end]) + int32(error)


RESULTS_END = result_header(-1, -1, True)


def error_result(error):
    return result_header(-1, error) + int32(error)


def reply_to_write(kind, txn, outcome, tree):
    """Returns the error and the body of the reply to a write of this type. A multi that the leader could read is
    answered with its parts' results and without an error, also where it failed."""
    if kind == MULTI and txn.kind == MULTI:
        return 0, multi_results(txn.body, outcome.parts)
    if outcome.error or txn.kind == ERROR:
        return outcome.error, b""
    return 0, shown(kind, txn.body, tree)


def shown(kind, body, tree):
    """The body of the reply to a write that was done."""
    if kind == CREATE:
        return buffer(body.path)
    if kind in SHOW_STAT:
        return buffer(body.path) + stat_of(tree, body.path)
    if kind in (SET_DATA, SET_ACL):
        return stat_of(tree, body.path)
    if kind == RECONFIG:
        node = tree.nodes[body.path]
        return buffer(node.content) + node.stat()
    return b""


def stat_of(tree, path):
    return tree.nodes[path].stat()


def multi_results(parts, outcomes):
    """The results of a multi, each of the type that its part has in the transaction."""
    is_failed = any(it.kind == ERROR for it in parts)
    results = [
        error_result(outcome.error) if is_failed or outcome.error else result_of(part, outcome.stat)
        for part, outcome in zip(parts, outcomes)
    ]
    return b"".join(results) + RESULTS_END


def result_of(part, stat):
    """The result of a part that was done, with the Stat that its node had after it."""
    if part.kind == CREATE:
        return result_header(CREATE, 0) + buffer(part.body.path)
    if part.kind in SHOW_STAT:
        return result_header(CREATE2, 0) + buffer(part.body.path) + stat
    if part.kind == SET_DATA:
        return result_header(SET_DATA, 0) + stat
    return result_header(DELETE if part.kind == DELETE_CONTAINER else part.kind, 0)


def results_of_reads(tree, asked, ids):
    """The results of a multiRead. What can't be shown has its error in its place."""
    return b"".join(result_of_read(tree, kind, path, ids) for kind, path in asked) + RESULTS_END


def result_of_read(tree, kind, path, ids):
    error, shown = look(tree, kind, path, ids) if is_request_path(path) else (BAD_ARGUMENTS, b"")
    return error_result(error) if error else result_header(kind, 0) + shown
