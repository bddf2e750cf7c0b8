"""The program within limits that the unit sets, as far as a process can set them for itself.

MemoryDenyWriteExecute is PR_SET_MDWE, as systemd sets it where the system has it. RestrictAddressFamilies is a filter
of system calls that fails socket() for all families but two. Both stay in force in the program that is started.
"""
import ctypes
import socket
import subprocess
import sys

from packed import Skipped, run
from server import Server

PR_SET_SECCOMP, PR_SET_NO_NEW_PRIVS, PR_SET_MDWE = 22, 38, 65
SECCOMP_MODE_FILTER, MDWE_REFUSE_EXEC_GAIN = 2, 1
SYS_SOCKET, EAFNOSUPPORT = 41, 97
LOAD, JUMP_IF_EQUAL, RETURN = 0x20, 0x15, 0x06
ALLOW, FAIL = 0x7FFF0000, 0x00050000
# Where the number of the call and its first argument stand in what a filter sees.
AT_NUMBER, AT_FIRST = 0, 16

PROBE = """
import mmap, socket
for family in (socket.AF_INET, socket.AF_INET6, socket.AF_UNIX, socket.AF_NETLINK):
    try:
        socket.socket(family).close()
        print("open")
    except OSError as why:
        print(why.errno)
try:
    mmap.mmap(-1, 4096, prot=mmap.PROT_READ | mmap.PROT_WRITE | mmap.PROT_EXEC)
    print("mapped")
except PermissionError:
    print("refused")
"""


class Instruction(ctypes.Structure):
    _fields_ = [("code", ctypes.c_ushort), ("yes", ctypes.c_ubyte), ("no", ctypes.c_ubyte), ("value", ctypes.c_uint)]


class Filter(ctypes.Structure):
    _fields_ = [("length", ctypes.c_ushort), ("instructions", ctypes.POINTER(Instruction))]


# Each jump tells how many of the following are passed over: to the last one, which allows the call.
INSTRUCTIONS = (
    (LOAD, 0, 0, AT_NUMBER),
    (JUMP_IF_EQUAL, 0, 4, SYS_SOCKET),
    (LOAD, 0, 0, AT_FIRST),
    (JUMP_IF_EQUAL, 2, 0, int(socket.AF_INET)),
    (JUMP_IF_EQUAL, 1, 0, int(socket.AF_INET6)),
    (RETURN, 0, 0, FAIL | EAFNOSUPPORT),
    (RETURN, 0, 0, ALLOW),
)
PROGRAM = (Instruction * len(INSTRUCTIONS))(*INSTRUCTIONS)
FILTER = Filter(len(INSTRUCTIONS), PROGRAM)
LIBRARY = ctypes.CDLL(None, use_errno=True)


def enter():
    """Takes the limits on, in a process that is about to become another program."""
    for words in (
        (PR_SET_MDWE, MDWE_REFUSE_EXEC_GAIN), (PR_SET_NO_NEW_PRIVS, 1),
        (PR_SET_SECCOMP, SECCOMP_MODE_FILTER, ctypes.byref(FILTER)),
    ):
        if LIBRARY.prctl(*words, *[0] * (5 - len(words))):
            raise OSError(ctypes.get_errno(), f"prctl {words[0]}")


def needs_limits():
    """Sees that the system has both limits, and that they refuse what they should."""
    try:
        out, _ = run(sys.executable, "-c", PROBE, preexec_fn=enter)
    except subprocess.SubprocessError as why:
        raise Skipped(f"this system has no such limits: {why}") from why
    assert out.split() == ["open", "open", str(EAFNOSUPPORT), str(EAFNOSUPPORT), "refused"], out


def test_it_serves_within_the_limits_of_the_unit(pack):
    needs_limits()
    for program in (pack.made().place("bin", "observer"), pack.place("bin", "observer.sh")):

        class Boxed(Server):
            PROGRAM = program

        with Boxed(limit=enter) as server:
            clients = [server.client() for _ in range(20)]
            assert all(server.answers(it) for it in clients), program
            for it in clients:
                it.close()
            server.ends(seconds=20)
        # Names of hosts are resolved within them.
        words = ["serve", "--leader", "localhost:1", "--client", "0", "--id", "9"]
        _, error = run(program, *words, status=3, preexec_fn=enter)
        assert "cannot connect to localhost:1: Connection refused" in error, error
