"""A thread that a debugger would hold: it stands still, and the other threads of its process go on."""
import ctypes
import os

from server import Skipped

# Requests to ptrace, and a wait for a thread of any kind, as Linux numbers them.
SEIZE, INTERRUPT, DETACH, ANY_THREAD = 0x4206, 0x4207, 17, 0x40000000


def traced(request, thread):
    """Makes a request to ptrace about a thread, which the system may refuse."""
    ptrace = ctypes.CDLL(None, use_errno=True).ptrace
    ptrace.argtypes, ptrace.restype = [ctypes.c_long, ctypes.c_long, ctypes.c_void_p, ctypes.c_void_p], ctypes.c_long
    if ptrace(request, thread, None, None) < 0:
        number = ctypes.get_errno()
        raise OSError(number, os.strerror(number))


class Held:
    """A thread of a child process, by its id, held while the block lasts. The block stays in one thread of the test."""

    def __init__(self, thread):
        self.thread = thread

    def __enter__(self):
        try:
            traced(SEIZE, self.thread)
        except OSError as why:
            raise Skipped(f"a thread can't be held here: {why}") from why
        traced(INTERRUPT, self.thread)
        _, status = os.waitpid(self.thread, ANY_THREAD)
        assert os.WIFSTOPPED(status), status
        return self

    def __exit__(self, *_):
        traced(DETACH, self.thread)
