"""`./observer get|ls|stat|words HOST:PORT ..`: asks a server what a node is, or a four-letter word.

The client is examples/client.py. A node is asked for in a session of its own, which is closed afterwards. It needs
neither the program nor the toolchain, and asks any server of ZooKeeper.
"""
import dataclasses
import os
import re
import struct
import sys

from common import TOP, say

sys.path.insert(0, os.path.join(TOP, "examples"))
from client import EXISTS, GET_CHILDREN2, GET_DATA, Client, Gone, answer_to_word  # noqa: E402
from jute import Stat, boolean, text  # noqa: E402

NO_NODE, BAD_COMMAND, NO_SERVER = 1, 2, 3
ADDRESS = re.compile(r"(?:\[([^\]]+)\]|([^:\[\]]+)):(\d+)")
KINDS = {"get": GET_DATA, "ls": GET_CHILDREN2, "stat": EXISTS}


def address_of(written):
    """Returns the host and the port of HOST:PORT, or None where it is none. An IPv6 address is in brackets."""
    found = ADDRESS.fullmatch(written)
    if found is None or not 0 < int(found[3]) < 65536:
        return None
    return found[1] or found[2], int(found[3])


def shown(command, body):
    """Returns what is written of a reply."""
    if command == "get":
        return body.buffer() or b""
    if command == "ls":
        return "".join(f"{name}\n" for name in sorted(body.vector(body.text) or [])).encode()
    stat = Stat.read(body)
    return "".join(f"{it.name} = {getattr(stat, it.name)}\n" for it in dataclasses.fields(stat)).encode()


def ask(command, host, port, path):
    """Asks for a node. Returns the exit status."""
    client = Client(port, host=host)
    reply = client.call(KINDS[command], text(path) + boolean(False))
    if reply.error:
        say(f"{path}: {reply.name()}")
        status = NO_NODE
    else:
        sys.stdout.buffer.write(shown(command, reply.body))
        status = 0
    try:
        client.leave()
    except Gone:
        pass  # The session ends by itself, after its timeout.
    return status


def ask_word(host, port, word):
    """Says a four-letter word. Returns the exit status."""
    answer = answer_to_word(port, word, host)
    if not answer:
        raise Gone(f"{host}:{port} doesn't answer {word}")
    sys.stdout.write(answer if answer.endswith("\n") else answer + "\n")
    return 0


def start(words):
    """Does the command, and returns its exit status: 1 if there is no such node, 3 if no server answers."""
    command, address = words[0], address_of(words[1]) if len(words) == 3 else None
    is_word = command == "words"
    if address is None or not (len(words[2].encode()) == 4 if is_word else words[2].startswith("/")):
        print(f"usage: ./observer {command} HOST:PORT {'WORD' if is_word else 'PATH'}", file=sys.stderr)
        return BAD_COMMAND
    try:
        return ask_word(*address, words[2]) if is_word else ask(command, *address, words[2])
    except (Gone, EOFError, struct.error) as why:
        say(str(why))
        return NO_SERVER
    finally:
        sys.stdout.flush()
