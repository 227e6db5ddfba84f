"""The proved program `choose`: where it is, what it prints for a pool file, and its table read."""

import os
import re
import subprocess
from dataclasses import dataclass

from problem import Problem
from refusals import refusal

TOP = os.path.dirname(os.path.dirname(os.path.abspath(__file__)))
PROGRAM = os.path.join(TOP, "target", "bin", "choose")
MISSING = ("the program is not built: there is no target/bin/choose in this clone. Build it with `bash examples/run`, which proves it first "
           "with all that it stands on: the first time that takes long. The Rattle toolchain's rt must be on the path.")
HEADER = re.compile(r"plans ([0-9]+) kept ([0-9]+)")
LINE = re.compile(r"([0-9]+) ([0-9]+) ([0-9]+|-) ([0-9]+)")


@dataclass
class Row:
    """What the table says of a plan."""

    index: int
    front: int
    line: int  # None where no front was split
    place: int  # from 1, 0 if it was dropped


@dataclass
class Table:
    kept: int
    rows: list

    def in_order(self):
        """The rows of the kept plans, by place."""
        return sorted((row for row in self.rows if row.place), key=lambda row: row.place)

    def dropped(self):
        return [row for row in self.rows if not row.place]


def is_built():
    return os.access(PROGRAM, os.X_OK)


def choose(data):
    """What the program prints for a pool file's bytes."""
    if not is_built():
        raise Problem(MISSING)
    try:
        done = subprocess.run([PROGRAM], input=data, stdout=subprocess.PIPE, stderr=subprocess.PIPE, timeout=60)
    except (OSError, subprocess.TimeoutExpired) as error:
        raise Problem(f"{PROGRAM}: does not run ({error}).") from None
    if done.returncode != 0 or done.stderr:
        raise Problem(f"{PROGRAM}: ended with status {done.returncode}. {done.stderr.decode(errors='replace').strip()}")
    return done.stdout.decode("ascii", errors="replace")


def read_table(text, name):
    """The table of a text as the program prints it; a refusal is raised as its sentence."""
    refused = re.fullmatch(r"refused ([0-9]+)\n?", text)
    if refused:
        raise Problem(refusal(int(refused[1])))
    first, *others = text.splitlines() or [""]
    header = HEADER.fullmatch(first)
    if not header:
        raise Problem(f"{name}: line 1 is not 'plans N kept K'. Give the table as choose printed it.")
    rows = []
    for at, line in enumerate(others):
        found = LINE.fullmatch(line)
        if not found or int(found[1]) != at:
            raise Problem(f"{name}: line {at + 2} is not plan {at} with its front, line and place. Give the table as choose printed it.")
        rows.append(Row(at, int(found[2]), None if found[3] == "-" else int(found[3]), int(found[4])))
    if len(rows) != int(header[1]):
        raise Problem(f"{name}: line 1 tells of {header[1]} plans, and {len(rows)} follow.")
    return Table(int(header[2]), rows)
