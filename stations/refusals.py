"""The refusals that `choose` can print, as sentences with what to mend, and the same tests before anything is written."""

import math

from lines import line_count
from problem import Problem

MOST_BYTES = 65536
MOST_OBJECTIVES = 8
MOST_CONSTRAINTS = 16
MOST_SETTINGS = 24
MOST_PLANS = 1024
MOST_DIVISIONS = 199
MOST_LINES = 1024
BOUND = 2.0**1000

SENTENCES = {
    1: "the pool file breaks the first edition's form, ends early, runs on or is above 65,536 bytes. "
       "Write it anew from its sheet, or copy it again; of a sheet that is too long leave out rows.",
    2: "there are not 1 to 8 objectives, or a direction mark is neither 0 nor 1. Name 1 to 8 columns with --minimise and --maximise.",
    3: "the number of plans to keep is 0 or above 1,024. Give --keep a number from 1 to 1,024.",
    4: "the divisions are not 1 to 199, or there would be more than 1,024 reference lines. "
       "Give --divisions a smaller number, or leave it out; with many objectives keep fewer plans.",
    7: "there is no plan, or there are more than 1,024. Give a sheet of 1 to 1,024 trials, for instance each block by itself.",
    8: "a plan has another number of values than there are objectives, it has over 16 constraints, or one of its numbers is no number or beyond 2^1000. "
       "Name at most 16 constraints, and mend the cell.",
    10: "the answer had no room. This does not happen with the program of this repository: build it anew.",
    17: "the pool file breaks the second edition's form, ends early, runs on or is above 65,536 bytes. "
        "Write it anew from its sheet, or copy it again; of a sheet that is too long leave out rows, settings or constraints.",
}


def refusal(number, here=""):
    """A refusal's number and sentence, and what it is in this case."""
    known = SENTENCES.get(number, "the program turned the pool down for a reason that this tool does not know; see README.md, \"Limits and refusals\".")
    return f"refused {number}: {known}" + (f" Here: {here}." if here else "")


def bad_value(x):
    return math.isnan(x) or abs(x) > BOUND


def look_at(pool):
    """Raises the first refusal that `choose` would print for a pool of good form."""
    m = len(pool.marks)
    if not 1 <= m <= MOST_OBJECTIVES or any(mark > 1 for mark in pool.marks):
        raise Problem(refusal(2, f"{m} objectives are named"))
    if not 1 <= pool.size <= MOST_PLANS:
        raise Problem(refusal(3, f"{pool.size} plans are to be kept"))
    if not 1 <= pool.divisions <= MOST_DIVISIONS:
        raise Problem(refusal(4, f"there are {pool.divisions} divisions"))
    if line_count(m, pool.divisions) > MOST_LINES:
        raise Problem(refusal(4, f"{m} objectives and {pool.divisions} divisions make {line_count(m, pool.divisions):,} lines"))
    if not 1 <= len(pool.plans) <= MOST_PLANS:
        raise Problem(refusal(7, f"there are {len(pool.plans):,} plans"))
    for at, plan in enumerate(pool.plans):
        if len(plan.constraints) > MOST_CONSTRAINTS:
            raise Problem(refusal(8, f"plan {at} has {len(plan.constraints)} constraints"))
        if any(map(bad_value, plan.values + plan.constraints)):
            raise Problem(refusal(8, f"plan {at} has a number that is none or beyond 2^1000"))
