"""Which of many numbers are tried."""
import zlib


def first_of(name, count, step):
    """Returns the first of `count` numbers from 0 on of which each step-th is tried. It depends on the name, so that
    things that begin alike are tried at different places, and by a step of 1 it is 0."""
    return zlib.crc32(name.encode()) % max(min(step, count), 1)
