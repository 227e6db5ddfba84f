"""The table for a person: the kept plans in order, and the dropped ones on request."""

from problem import plain
from sheet import value_texts

WAY = ("less is better", "more is better")


def broken(plan, names):
    """The headings of the constraints that a plan breaks."""
    return [names.constraints[at] for at, constraint in enumerate(plan.constraints) if constraint > 0]


def aligned(heads, rows, right):
    """Lines of columns, each as wide as its widest cell; `right` says which stand at the right."""
    widths = [max(len(line[at]) for line in heads + rows) for at in range(len(right))]
    lines = []
    for line in heads + rows:
        cells = [cell.rjust(width) if at_right else cell.ljust(width) for cell, width, at_right in zip(line, widths, right)]
        lines.append("  ".join(cells).rstrip())
    return lines


def plan_lines(rows, pool, names, with_place):
    """A line for each row of the table, below the headings."""
    breaking = any(broken(pool.plans[row.index], names) for row in rows)
    heads = [["place"] if with_place else [], [""] if with_place else []]
    heads[0] += ["plan", *map(plain, names.objectives), "front", "line", "index"] + (["breaks"] if breaking else [])
    heads[1] += ["", *(WAY[mark] for mark in pool.marks), "", "", ""] + ([""] if breaking else [])
    values = value_texts(pool)
    lines = []
    for row in rows:
        plan = pool.plans[row.index]
        line = [str(row.place)] if with_place else []
        line += [plain(names.labels[row.index]), *values[row.index], str(row.front), "-" if row.line is None else str(row.line), str(row.index)]
        lines.append(line + ([plain(", ".join(broken(plan, names)))] if breaking else []))
    right = ([True] if with_place else []) + [False] + [True] * (len(pool.marks) + 3) + ([False] if breaking else [])
    return aligned(heads, lines, right)


def listing(table, pool, names, with_dropped):
    """The whole text."""
    kept = table.in_order()
    lines = [f"Of {len(table.rows)} plans {len(kept)} are kept, in this order:", "", *plan_lines(kept, pool, names, True)]
    if table.kept > len(kept):
        lines += ["", f"The list has {table.kept} places and the pool {len(kept)} plans: plans drawn again fill the other {table.kept - len(kept)}."]
    dropped = table.dropped()
    if with_dropped and dropped:
        lines += ["", f"Dropped are {len(dropped)}:", "", *plan_lines(dropped, pool, names, False)]
    return "\n".join(lines) + "\n"
