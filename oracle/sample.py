"""What the oracle's scripts share: the program, the stored sample and its records, document 01's generator, and a count of what passed."""

import os
import subprocess
import sys

TOP = os.path.dirname(os.path.dirname(os.path.abspath(__file__)))

# What oracle/build makes.
OUT = os.path.join(TOP, "target", "oracle")
ORACLE = os.path.join(OUT, "oracle")

STORED = os.path.join(TOP, "oracle", "stored")
# The programs that read a stored file and print what the oracle prints for it, by its command.
PRINTS = {"choose": "choose", "choose_longest": "choose", "choose_too_long": "choose", "load": "load", "choose_second": "choose", "choose_second_too_long": "choose", "convert": "convert"}

# Each record, and how many generated inputs it has.
RECORDS = {
    "draw": 40,
    "numbers": 60,
    "dominance": 40,
    "fronts": 24,
    "reference": 40,
    "tables": 0,
    "association": 32,
    "kept": 32,
    "breeding": 40,
    "session": 10,
    "choose": 24,
    "water": 60,
    "load": 30,
    "editions": 24,
    "convert": 24,
    "association_second": 26,
    "kept_second": 16,
    "breeding_second": 6,
    "session_second": 8,
    "session_window": 10,
    "breeding_steps": 24,
    "session_steps": 4,
    "long": 0,
}

# The record that the replaying programs count a record of edition 2, of sessions with a window or of Float steps under.
COUNTED = {
    "association_second": "association",
    "kept_second": "kept",
    "breeding_second": "breeding",
    "session_second": "session",
    "session_window": "session",
    "breeding_steps": "breeding",
    "session_steps": "session",
}

# The programs that replay, and the records whose stored files each reads, joined.
FILES = ["choose", "load", "editions", "convert", "session_window"]
# Those of Float steps, for which the first program has no room.
STEPS = ["breeding_steps", "session_steps"]
REPLAYS = {
    "replay_main": [record for record in RECORDS if record not in FILES + STEPS + ["long"]],
    "replay_files_main": FILES + STEPS,
    "replay_long_main": ["long"],
}


def replayed(program):
    """What a program reads."""
    return os.path.join(TOP, "crates", program, "stdin")


# A step of the generator's state: times the one, plus the other, modulo 2^64.
MULTIPLIER = 6364136223846793005
INCREMENT = 1442695040888963407


def oracle(*arguments, given=b"", check=True):
    """What the oracle prints."""
    return subprocess.run([ORACLE, *arguments], input=given, stdout=subprocess.PIPE, check=check).stdout


class Tally:
    """Counts what passed, and tells what failed."""

    def __init__(self):
        self.passed = self.failed = 0

    def note(self, good, what):
        self.passed, self.failed = self.passed + good, self.failed + (not good)
        if not good:
            print("FAILED " + what)

    def end(self):
        print(f"{self.passed} passed, {self.failed} failed")
        sys.exit(self.failed != 0)
