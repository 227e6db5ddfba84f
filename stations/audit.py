#!/usr/bin/env python3
"""Checks a printed table against its pool file, from these two alone.

usage: audit.py POOL TABLE

This file stands by itself: it shares no line with the tool beside it or with the program that printed the table, so that a reader who trusts neither can read it from
end to end and run it. It asks what the customer's third demand asks, by comparing every plan with every other:

    the kept plans are distinct, exactly as many as wanted, and no dropped plan dominates a kept one under the constraint rule. Where a front is split, the fronts
    before it are kept whole, and the sum of the squared final niche counts, over all reference lines, is the least: every other filling of the open places with
    different plans from the split front gives at least as large a sum. There, too, a line with a plan still waiting ends at most one below any line served from
    that front.

The line of each plan is taken from the table. Exit status: 0 where every check holds, 1 where one does not, 2 where the files cannot be read.
"""

import itertools
import math
import re
import struct
import sys
from collections import Counter

MOST_TOLD = 5
FEW_FILLINGS = 100_000

HOLDS, FAILS, LEFT = "holds", "FAILS", "left out"


class Unreadable(Exception):
    """Why there is nothing to check."""


class Check:
    """One check: what is asked, whether it holds, and what was found."""

    def __init__(self, asked, found="", faults=(), left=False):
        self.asked = asked
        self.found = found
        self.faults = list(faults)
        self.result = LEFT if left else FAILS if self.faults else HOLDS


# ---- the two files


def numbers_of(data):
    """The numbers of a pool file: groups of seven bits, lowest first, the top bit set on all but a number's last byte."""
    n = shift = 0
    for byte in data:
        n |= (byte & 127) << shift
        shift += 7
        if byte < 128:
            yield n
            n = shift = 0
    if shift:
        raise Unreadable("The pool file ends within a number.")


def real_of(n):
    if n >= 2**64:
        raise Unreadable("A number of the pool file is above 64 bits.")
    x = struct.unpack(">d", n.to_bytes(8, "big"))[0]
    if math.isnan(x) or abs(x) > 2.0**1000:
        raise Unreadable("A plan of the pool file has a number that is none or beyond 2^1000. No table can be printed for it.")
    return x


class Pool:
    """A pool file of either edition."""

    def __init__(self, data):
        numbers = numbers_of(data)
        try:
            self.read(numbers)
        except StopIteration:
            raise Unreadable("The pool file ends early.") from None
        if next(numbers, None) is not None:
            raise Unreadable("The pool file runs on behind its last plan.")

    def read(self, numbers):
        first = next(numbers)
        self.second = first == 64
        self.objectives = next(numbers) if self.second else first
        self.divisions, self.size, self.count, self.seed = [next(numbers) for _ in range(4)]
        if not (1 <= self.objectives <= 8 and 1 <= self.size <= 1024 and 1 <= self.count <= 1024 and 1 <= self.divisions <= 199):
            raise Unreadable("The pool file has counts that no table can be printed for.")
        self.maximised = [next(numbers) for _ in range(self.objectives)]
        self.trials, self.rows, self.constraints = [], [], []
        for place in range(self.count):
            self.trials.append(next(numbers) if self.second else None)
            values = [real_of(next(numbers)) for _ in range(self.objectives)]
            # maximised values are negated, so that less is better everywhere
            self.rows.append([-x if mark else x for x, mark in zip(values, self.maximised)])
            self.constraints.append([real_of(next(numbers)) for _ in range(next(numbers))])
            if self.second:
                for _ in range(3 * next(numbers)):
                    next(numbers)

    def called(self, plan):
        return f"plan {plan}" + (f" (trial {self.trials[plan]})" if self.second else "")


class Table:
    """What was printed: a line for each plan."""

    def __init__(self, data):
        lines = data.decode("ascii", "replace").replace("\r\n", "\n").split("\n")
        if lines[0].startswith("refused "):
            raise Unreadable(f"The table is a refusal ({lines[0]}): no plan is kept, and there is nothing to check.")
        header = re.fullmatch("plans ([0-9]+) kept ([0-9]+)", lines[0])
        if not header or lines[-1]:
            raise Unreadable("The table does not begin with 'plans N kept K' or does not end with a whole line.")
        self.told_plans, self.told_kept = int(header[1]), int(header[2])
        self.index, self.front, self.line, self.place = [], [], [], []
        for at, text in enumerate(lines[1:-1], 2):
            found = re.fullmatch("([0-9]+) ([0-9]+) ([0-9]+|-) ([0-9]+)", text)
            if not found:
                raise Unreadable(f"Line {at} of the table is not an index, a front, a line and a place.")
            self.index.append(int(found[1]))
            self.front.append(int(found[2]))
            self.line.append(None if found[3] == "-" else int(found[3]))
            self.place.append(int(found[4]))


# ---- the customer's words


def violation(constraints):
    """How far a plan breaks its constraints: the sum, left to right, of what is above 0."""
    total = 0.0
    for c in constraints:
        total += max(c, 0.0)
    return total


def feasible(constraints):
    return all(c <= 0 for c in constraints)


def better_row(a, b):
    """Nowhere worse, somewhere better."""
    return all(x <= y for x, y in zip(a, b)) and any(x < y for x, y in zip(a, b))


def dominations(pool):
    """Of each plan, the set of plans that dominate it under the constraint rule: a feasible plan beats an infeasible one, of two infeasible ones the smaller violation
    wins, two feasible ones compare their rows."""
    keeps = [feasible(c) for c in pool.constraints]
    amounts = [violation(c) for c in pool.constraints]

    def dominates(a, b):
        if keeps[a] and keeps[b]:
            return better_row(pool.rows[a], pool.rows[b])
        if keeps[a] or keeps[b]:
            return keeps[a]
        return amounts[a] < amounts[b]

    plans = range(pool.count)
    return [{a for a in plans if dominates(a, b)} for b in plans]


def fronts_of(above):
    """Front 0 is the undominated, each later front the undominated of the rest. The order is that of the kept list: front 0 by index; a later plan comes when the last
    plan of the front before that dominates it has come, those of one moment by index."""
    left = set(range(len(above)))
    fronts = []
    while left:
        front = [plan for plan in sorted(left) if not above[plan] & left]
        if fronts:
            came = {plan: at for at, plan in enumerate(fronts[-1])}
            front.sort(key=lambda plan: (max(came[other] for other in above[plan] if other in came), plan))
        fronts.append(front)
        left -= set(front)
    return fronts


class Split:
    """The fronts that fit whole, the front that is split, if one is, and how many places it fills."""

    def __init__(self, fronts, size):
        self.whole, self.front, self.open = [], [], 0
        for at, front in enumerate(fronts):
            if len(self.whole) + len(front) > size:
                if len(self.whole) < size:
                    self.number, self.front, self.open = at, front, size - len(self.whole)
                break
            self.whole += front
        self.later = set(itertools.chain(*fronts)) - set(self.whole) - set(self.front)


# ---- the checks


def some(faults):
    """Of many faults the first ones and a count."""
    more = len(faults) - MOST_TOLD
    return faults[:MOST_TOLD] + ([f"And {more} more of this kind."] if more > 0 else [])


def counted(number, what):
    return f"{number:,} {what}" + ("" if number == 1 else "s")


def listed(pool, plans):
    plans = list(plans)
    told = ", ".join(pool.called(plan) for plan in plans[:MOST_TOLD])
    return told + (f" and {len(plans) - MOST_TOLD} more" if len(plans) > MOST_TOLD else "")


def check_lines_of_table(pool, table):
    faults = []
    if table.told_plans != pool.count:
        faults.append(f"The table's first line tells of {table.told_plans} plans, and the pool has {pool.count}.")
    if table.index != list(range(pool.count)):
        faults.append(f"The table has {len(table.index)} lines of plans, and they are not those of plan 0 to {pool.count - 1} in turn.")
    return Check("The table has a line for each plan of the pool, in its order.", counted(pool.count, "plan"), faults)


def check_count(pool, table, kept):
    wanted = min(pool.size, pool.count)
    faults = []
    if table.told_kept != pool.size:
        faults.append(f"The table's first line tells of {table.told_kept} kept plans, and {pool.size} are wanted.")
    if len(kept) != wanted:
        faults.append(f"{len(kept)} plans have a place, and {wanted} should.")
    return Check("Exactly as many plans are kept as are wanted.", f"{wanted} of {pool.count}", faults)


def check_places(pool, table, kept):
    wanted = min(pool.size, pool.count)
    holders = {}
    for plan in kept:
        holders.setdefault(table.place[plan], []).append(plan)
    faults = [f"Place {place} is given {len(plans)} times: to {listed(pool, plans)}." for place, plans in sorted(holders.items()) if len(plans) > 1]
    faults += [f"Place {place} is given to no plan." for place in range(1, wanted + 1) if place not in holders]
    faults += [f"Place {place} of {listed(pool, plans)} is beyond {wanted}." for place, plans in sorted(holders.items()) if place > wanted]
    return Check("The kept plans are distinct: each place is given once.", f"places 1 to {wanted}", some(faults))


def check_dominations(pool, table, kept, dropped, above):
    faults = []
    for plan in kept:
        for other in sorted(above[plan] & dropped):
            faults.append(f"{pool.called(other).capitalize()} is dropped and dominates {pool.called(plan)}, which is kept at place {table.place[plan]}.")
    pairs = counted(len(kept) * len(dropped), "pair")
    return Check("No dropped plan dominates a kept one under the constraint rule.", f"{pairs} of a kept and a dropped plan compared", some(faults))


def check_fronts(pool, table, fronts):
    faults = []
    for at, front in enumerate(fronts):
        for plan in front:
            if table.front[plan] != at:
                faults.append(f"{pool.called(plan).capitalize()} is of front {at}, and the table says {table.front[plan]}.")
    return Check("Each plan's front is the one worked out by comparing every plan with every other.", counted(len(fronts), "front"), some(faults))


def check_whole(pool, table, split):
    faults = [f"{pool.called(plan).capitalize()} is dropped, and its front {table.front[plan]} has to be kept whole." for plan in split.whole if not table.place[plan]]
    faults += [f"{pool.called(plan).capitalize()} of front {table.front[plan]} is kept at place {table.place[plan]}, behind the last front that is kept."
               for plan in sorted(split.later) if table.place[plan]]
    ending = f"front {split.number} is split, {split.open} of its {len(split.front)} plans kept" if split.front else "no front is split"
    found = f"{counted(len(split.whole), 'plan')} in whole fronts; {ending}"
    return Check("The fronts before the split one are kept whole, and no plan of a later front is kept.", found, some(faults))


def check_order(pool, table, split):
    faults = [f"{pool.called(plan).capitalize()} should be at place {place}, and the table says {table.place[plan]}."
              for place, plan in enumerate(split.whole, 1) if table.place[plan] != place]
    return Check("The whole fronts come first, front by front, each in the kept list's order.", f"places 1 to {len(split.whole)}" if split.whole else "no whole front", some(faults))


def check_lines(pool, table, split):
    count = math.comb(pool.divisions + pool.objectives - 1, pool.objectives - 1)
    if split.front:
        faults = [f"{pool.called(plan).capitalize()} has no line below {count}." for plan, line in enumerate(table.line) if line is None or line >= count]
        return Check("Each plan has one of the reference lines.", counted(count, "line"), some(faults))
    faults = [f"{pool.called(plan).capitalize()} has a line." for plan, line in enumerate(table.line) if line is not None]
    return Check("No front is split, so no plan has a line.", "", some(faults))


def squares(counts):
    return sum(n * n for n in counts.values())


def check_balance(pool, table, split, counts):
    """An exchange of a kept plan of line a for a waiting one of line b changes the sum by 2 (count of b - count of a + 1). It falls where a has over one plan more than
    b, and nowhere else. Squares are convex: where no single exchange lowers the sum, no filling is lower."""
    served = {table.line[plan] for plan in split.front if table.place[plan]}
    waiting = {}
    for plan in split.front:
        if not table.place[plan]:
            waiting.setdefault(table.line[plan], []).append(plan)
    faults = []
    for a in sorted(served):
        for b, plans in sorted(waiting.items()):
            if counts[a] > counts[b] + 1:
                given = [plan for plan in split.front if table.place[plan] and table.line[plan] == a]
                faults.append(f"Line {a} ends with {counts[a]} plans, {listed(pool, given)} among them, while line {b} has {counts[b]} and {listed(pool, plans)} waiting.")
    asked = "A line with a plan still waiting ends at most one below any line served from the split front, so that no exchange lowers the sum of squares."
    return Check(asked, f"{counted(len(served), 'line')} served, {len(waiting)} with plans waiting", some(faults))


def least_by_emptiest(table, split, before):
    """The sum where each open place goes to the line that has fewest plans, of those with one waiting."""
    waiting = Counter(table.line[plan] for plan in split.front)
    counts = Counter(before)
    for _ in range(split.open):
        line = min((line for line in waiting if waiting[line]), key=lambda line: counts[line])
        waiting[line] -= 1
        counts[line] += 1
    return squares(counts)


def check_least(table, split, before, counts):
    own, least = squares(counts), least_by_emptiest(table, split, before)
    faults = [f"The sum is {own}, and filling the emptiest line first gives {least}."] if own != least else []
    return Check("The sum of the squared niche counts is the one that filling the emptiest line first gives.", f"{own}", faults)


def check_all_fillings(pool, table, split, before, counts):
    asked = "Every other filling of the open places gives at least as large a sum: all tried."
    number = math.comb(len(split.front), split.open)
    if number > FEW_FILLINGS:
        told = f"{number:,}" if number < 10**15 else f"10^{len(str(number)) - 1} or more"
        return Check(asked, f"there are {told}; the two checks above decide it", left=True)
    own = squares(counts)
    best, filling = own, None
    for plans in itertools.combinations(split.front, split.open):
        tried = Counter(before)
        tried.update(table.line[plan] for plan in plans)
        if squares(tried) < best:
            best, filling = squares(tried), plans
    faults = [f"The sum is {own}, and keeping {listed(pool, filling)} of the split front gives {best}."] if filling else []
    return Check(asked, f"{counted(number, 'filling')}, none below {best}", faults)


def check_filling(pool, table, split, kept):
    """The checks of the split front's places."""
    if any(table.line[plan] is None for plan in split.front + list(kept)):
        return [Check("The split front's places are filled with the least sum of squared niche counts.", "a plan has no line", left=True)]
    if sum(table.place[plan] > 0 for plan in split.front) != split.open:
        return [Check("The split front's places are filled with the least sum of squared niche counts.", f"not {split.open} plans of the split front are kept", left=True)]
    before = Counter(table.line[plan] for plan in split.whole)
    counts = before + Counter(table.line[plan] for plan in split.front if table.place[plan])
    return [check_balance(pool, table, split, counts), check_least(table, split, before, counts), check_all_fillings(pool, table, split, before, counts)]


class Audit:
    """The checks of a table against its pool, and what has to be said beside them."""

    def __init__(self, checks, notes):
        self.checks = checks
        self.notes = notes
        self.holds = all(check.result != FAILS for check in checks)

    def told(self):
        """The checks as a text."""
        lines = []
        for check in self.checks:
            lines.append(f"{check.result:8}  {check.asked}" + (f" ({check.found})" if check.found else ""))
            lines += [" " * 10 + fault for fault in check.faults]
        made = sum(check.result != LEFT for check in self.checks)
        failed = sum(check.result == FAILS for check in self.checks)
        verdict = f"All {made} checks hold." if self.holds else f"{failed} of {made} checks fail: the table does not hold."
        return "\n".join(lines + self.notes + [verdict]) + "\n"


TAKEN = ("Taken from the table and not worked out here: the reference line of each plan. Not looked at: which of several fillings with the least sum was drawn, "
         "and the order of the split front's plans, since both rest on the draws.")
NOT_TAKEN = "Nothing is taken from the table but what is checked."


def notes_of(pool, split):
    notes = [TAKEN if split.front else NOT_TAKEN]
    if pool.count < pool.size:
        notes.append(f"The pool has {counted(pool.count, 'plan')} for {pool.size} places. The demand speaks of pools of at least the size wanted: of this one it is checked "
                     "that every plan is kept. The places that are left are filled with plans drawn again, which the table does not list.")
    return notes


def audit(pool_data, table_data):
    """The audit of a table's bytes against a pool file's."""
    pool, table = Pool(pool_data), Table(table_data)
    first = check_lines_of_table(pool, table)
    if first.faults:
        return Audit([first], ["Nothing else is looked at: the table is not of this pool."])
    kept = [plan for plan in range(pool.count) if table.place[plan]]
    dropped = set(range(pool.count)) - set(kept)
    above = dominations(pool)
    fronts = fronts_of(above)
    split = Split(fronts, pool.size)
    checks = [
        first,
        check_count(pool, table, kept),
        check_places(pool, table, kept),
        check_dominations(pool, table, kept, dropped, above),
        check_fronts(pool, table, fronts),
        check_whole(pool, table, split),
        check_order(pool, table, split),
        check_lines(pool, table, split),
    ]
    if split.front:
        checks += check_filling(pool, table, split, kept)
    return Audit(checks, notes_of(pool, split))


def main(arguments):
    if len(arguments) != 2:
        print("usage: audit.py POOL TABLE", file=sys.stderr)
        return 2
    contents = []
    try:
        for path in arguments:
            with open(path, "rb") as file:
                contents.append(file.read())
        found = audit(*contents)
    except (OSError, Unreadable) as error:
        print(error, file=sys.stderr)
        return 2
    sys.stdout.write(found.told())
    return 0 if found.holds else 1


if __name__ == "__main__":
    sys.exit(main(sys.argv[1:]))
