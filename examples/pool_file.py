"""The form of a pool file in its two editions, for scripts that write some, and document 01's pool."""

import struct


def number(n):
    """Groups of seven bits, lowest first, top bit set on all but the last byte."""
    out = bytearray()
    while n > 127:
        out.append(n & 127 | 128)
        n >>= 7
    out.append(n)
    return bytes(out)


def bits(x):
    """A real as the number that its bits form."""
    return struct.unpack("<Q", struct.pack("<d", x))[0]


def real(x):
    return number(bits(x))


def header(divisions, size, seed, marks, plans):
    return b"".join(map(number, [len(marks), divisions, size, len(plans), seed] + marks))


def rows(row, constraints):
    return b"".join(map(real, row)) + number(len(constraints)) + b"".join(map(real, constraints))


def pool(divisions, size, seed, marks, plans):
    """A pool file; a plan is its row and its constraints."""
    return header(divisions, size, seed, marks, plans) + b"".join(rows(*plan) for plan in plans)


FLOAT, INT, CATEGORICAL = range(3)


def setting(parameter, kind, value):
    """A Float is its bits; an Int n is 2n from zero up and -2n - 1 below."""
    word = {FLOAT: bits, INT: lambda n: 2 * n if n >= 0 else -2 * n - 1}.get(kind, int)
    return number(parameter) + number(kind) + number(word(value))


def second(divisions, size, seed, marks, plans):
    """One of the second edition; a plan is its number, row, constraints and settings (parameter number, kind, value)."""
    out = number(64) + header(divisions, size, seed, marks, plans)
    for trial, row, constraints, settings in plans:
        out += number(trial) + rows(row, constraints) + number(len(settings)) + b"".join(setting(*s) for s in settings)
    return out


# document 01's three plans
PLANS = [((0.0, 0.0), []), ((1.0, 3.0), []), ((4.0, 1.0), [])]
PAPER = pool(1, 2, 5, [0, 0], PLANS)
