"""Reference lines: how many there are, in which order they are numbered, and how many divisions a number of plans asks for."""

import math

MOST_DIVISIONS = 199


def line_count(objectives, divisions):
    """How many ways there are to share so many parts among so many objectives."""
    return math.comb(divisions + objectives - 1, objectives - 1) if objectives else 0


def usual_divisions(objectives, plans):
    """The first number of divisions with a line for each plan to be kept, 12 where there is none: a session's rule."""
    fitting = (h for h in range(1, MOST_DIVISIONS + 1) if line_count(objectives, h) >= plans)
    return next(fitting, 12)


def shares(objectives, divisions):
    """Each line as its whole shares, in the order of the numbers: the first objective slowest, rising."""
    if objectives == 1:
        return [(divisions,)]
    return [(first,) + rest for first in range(divisions + 1) for rest in shares(objectives - 1, divisions - first)]
