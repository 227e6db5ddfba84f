"""Pool files: the bytes that `choose` reads, in their two editions."""

import struct
from dataclasses import dataclass, field

from problem import Problem
from refusals import MOST_BYTES, refusal

SECOND = 64
FLOAT, INT, CHOICE = range(3)
KINDS = ("float", "int", "choice")
MOST_INT = 2**53


@dataclass
class Plan:
    number: int
    values: list
    constraints: list
    settings: list = field(default_factory=list)  # of (parameter number, kind, value)


@dataclass
class Pool:
    divisions: int
    size: int
    seed: int
    marks: list  # of each objective: 0 minimise, 1 maximise
    plans: list
    edition: int = 2


# ---- written


def number_bytes(n):
    """Groups of seven bits, lowest first, the top bit set on all but the last byte."""
    out = bytearray()
    while n > 127:
        out.append(n & 127 | 128)
        n >>= 7
    out.append(n)
    return bytes(out)


def bits_of(x):
    return struct.unpack("<Q", struct.pack("<d", x))[0]


def setting_word(kind, value):
    """A Float is its bits, an Int n is 2n from zero up and -2n - 1 below, a choice its number."""
    if kind == FLOAT:
        return bits_of(value)
    if kind == INT:
        return 2 * value if value >= 0 else -2 * value - 1
    return value


def plan_numbers(plan):
    yield plan.number
    yield from map(bits_of, plan.values)
    yield len(plan.constraints)
    yield from map(bits_of, plan.constraints)
    yield len(plan.settings)
    for parameter, kind, value in plan.settings:
        yield from (parameter, kind, setting_word(kind, value))


def write_pool(pool):
    """The pool's file in the second edition."""
    numbers = [SECOND, len(pool.marks), pool.divisions, pool.size, len(pool.plans), pool.seed, *pool.marks]
    for plan in pool.plans:
        numbers += plan_numbers(plan)
    data = b"".join(map(number_bytes, numbers))
    if len(data) > MOST_BYTES:
        raise Problem(refusal(17, f"the file would have {len(data):,} bytes"))
    return data


# ---- read


class Reader:
    """Numbers one after the other."""

    def __init__(self, data):
        self.data = data
        self.at = 0
        self.edition = 2 if data[:1] == bytes([SECOND]) else 1

    def broken(self, why):
        return Problem(refusal(17 if self.edition == 2 else 1, why))

    def number(self):
        n = shift = 0
        while True:
            if self.at == len(self.data):
                raise self.broken(f"the file ends early, after {self.at:,} bytes")
            byte = self.data[self.at]
            self.at += 1
            n |= (byte & 127) << shift
            shift += 7
            if byte < 128:
                break
            if shift > 63:
                raise self.broken(f"the number that ends at byte {self.at:,} is too long")
        if (byte == 0 and shift > 7) or n >= 2**64:
            raise self.broken(f"the number that ends at byte {self.at:,} is not in its shortest form below 2^64")
        return n

    def real(self):
        return struct.unpack("<d", struct.pack("<Q", self.number()))[0]

    def setting(self):
        parameter, kind, word = self.number(), self.number(), self.number()
        if kind > CHOICE:
            raise self.broken(f"the setting that ends at byte {self.at:,} is of kind {kind}, where 0, 1 and 2 are known")
        if kind == INT and word > 2 * MOST_INT:
            raise self.broken(f"the whole number that ends at byte {self.at:,} is beyond 2^53")
        return parameter, kind, setting_of(kind, word)

    def plan(self, place, objectives):
        number = self.number() if self.edition == 2 else place
        values = [self.real() for _ in range(objectives)]
        constraints = [self.real() for _ in range(self.number())]
        settings = [self.setting() for _ in range(self.number())] if self.edition == 2 else []
        return Plan(number, values, constraints, settings)


def setting_of(kind, word):
    if kind == FLOAT:
        return struct.unpack("<d", struct.pack("<Q", word))[0]
    if kind == INT:
        return word // 2 if word % 2 == 0 else -(word + 1) // 2
    return word


def read_pool(data):
    """The pool of a file of either edition. Only its form is looked at."""
    reader = Reader(data)
    if len(data) > MOST_BYTES:
        raise reader.broken(f"the file has {len(data):,} bytes")
    if reader.edition == 2:
        reader.number()
    objectives, divisions, size, count, seed = (reader.number() for _ in range(5))
    marks = [reader.number() for _ in range(objectives)]
    plans = [reader.plan(place, objectives) for place in range(count)]
    if reader.at < len(data):
        raise reader.broken(f"the last plan ends at byte {reader.at:,}, and the file has {len(data):,}")
    return Pool(divisions, size, seed, marks, plans, reader.edition)
