"""The passwords that ZooKeeper's servers make of sessions' ids: 16 bytes of java.util.Random."""
import struct

SEED, SCRAMBLER, ADDED, BITS = 0xB3415C00, 0x5DEECE66D, 11, 2**48 - 1


def java_password(session):
    state = (session ^ SEED ^ SCRAMBLER) & BITS
    password = b""
    for _ in range(4):
        state = (state * SCRAMBLER + ADDED) & BITS
        password += struct.pack("<I", state >> 16)
    return password
