"""What the tools that build and start the program have in common: places, and what they say."""
import os
import sys

TOP = os.path.dirname(os.path.dirname(os.path.realpath(__file__)))
PROGRAM_CRATE = "replay_runner"
CRATE = os.path.join(TOP, "crates", PROGRAM_CRATE)
PROGRAM = os.path.join(CRATE, "out", PROGRAM_CRATE)
KEPT = os.path.join(TOP, "out", "observer")

# No exit status of the program itself, which are 0 to 6.
NOT_BUILT = 70


def say(text):
    print("observer: " + text, file=sys.stderr, flush=True)


def how_long(seconds):
    if seconds < 90:
        return f"{seconds:.0f} seconds"
    return f"{seconds / 60:.0f} minutes"
