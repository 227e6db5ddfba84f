"""From a sheet to a pool and its names, and from a pool back to a sheet."""

from dataclasses import dataclass, field

from lines import usual_divisions
from names import Names, digest, keyed, parameters, setting_text
from pool_file import CHOICE, FLOAT, INT, MOST_INT, Plan, Pool, write_pool
from problem import Problem
from refusals import MOST_SETTINGS, look_at
from sheet import number_text, quoted, real, text, whole, write_sheet

MOST_WORD = 2**64 - 1


@dataclass
class Parts:
    """What the columns are, by their headings; a limit is a heading and a number."""

    minimise: list = field(default_factory=list)
    maximise: list = field(default_factory=list)
    constraint: list = field(default_factory=list)
    at_most: list = field(default_factory=list)
    at_least: list = field(default_factory=list)
    float: list = field(default_factory=list)
    int: list = field(default_factory=list)
    choice: list = field(default_factory=list)
    label: str = ""
    number: str = ""


def look_for_two_parts(parts):
    """A column has one part, but that a limit may be set on an objective too."""
    whole_parts = [*parts.minimise, *parts.maximise, *parts.constraint, *parts.float, *parts.int, *parts.choice]
    named = whole_parts + [heading for heading in (parts.label, parts.number) if heading]
    for heading in named:
        if named.count(heading) > 1:
            raise Problem(f"the column {quoted(heading)} is named twice. Give each column one part.")
    for heading in {heading for heading, _ in parts.at_most + parts.at_least} & set(parts.constraint):
        raise Problem(f"the column {quoted(heading)} is named as a constraint and with a limit. Give it one of the two.")
    for limits in (parts.at_most, parts.at_least):
        headings = [heading for heading, _ in limits]
        for heading in headings:
            if headings.count(heading) > 1:
                raise Problem(f"the column {quoted(heading)} has two limits of one kind. Give it one.")


def limit_of(option, heading, given):
    try:
        return real(given.strip())
    except ValueError as error:
        raise Problem(f"the limit of {option} {quoted(heading)}: {error}") from None


def objectives_of(sheet, parts):
    """(column, heading, mark), in the order of the columns."""
    named = [(heading, 0) for heading in parts.minimise] + [(heading, 1) for heading in parts.maximise]
    return sorted((sheet.find(heading), heading, mark) for heading, mark in named)


def constraints_of(sheet, parts):
    """(column, heading, how a cell's number becomes the constraint's), in the order of the columns. A constraint above 0 is broken.

    The difference of two doubles has the right sign, and is 0 only where they are equal: what is broken is told without error."""
    found = [(sheet.find(heading), 0, heading, lambda x: x) for heading in parts.constraint]
    for heading, given in parts.at_most:
        limit = limit_of("--at-most", heading, given)
        found.append((sheet.find(heading), 1, f"{heading} over {number_text(limit)}", lambda x, limit=limit: x - limit))
    for heading, given in parts.at_least:
        limit = limit_of("--at-least", heading, given)
        found.append((sheet.find(heading), 2, f"{heading} short of {number_text(limit)}", lambda x, limit=limit: limit - x))
    return [(column, heading, change) for column, _, heading, change in sorted(found, key=lambda c: c[:2])]


def settings_of(sheet, parts):
    """(column, heading, kind), in the order of the columns."""
    kinds = ((FLOAT, parts.float), (INT, parts.int), (CHOICE, parts.choice))
    return sorted((sheet.find(heading), heading, kind) for kind, headings in kinds for heading in headings)


def read_choices(sheet, column):
    """A column of choices as numbers, and their texts: whole numbers are themselves, others are numbered as they first come."""
    cells = sheet.read(column, text)
    if all(cell.isascii() and cell.isdigit() for cell in cells):
        return sheet.read(column, whole(0, MOST_WORD)), None
    texts = list(dict.fromkeys(cells))
    return [texts.index(cell) for cell in cells], texts


def read_setting(sheet, column, kind):
    """A column of settings, and the texts of its choices."""
    if kind == FLOAT:
        return sheet.read(column, real), None
    if kind == INT:
        return sheet.read(column, whole(-MOST_INT, MOST_INT)), None
    return read_choices(sheet, column)


def gathered(problems, reading):
    """What a reading answers; what it raises is put to the problems."""
    try:
        return reading()
    except Problem as problem:
        problems.extend(problem.sentences)
        return None


def plans_of(numbers, values, limits, settings, set_to):
    """A plan for each row, from its columns."""
    plans = []
    for at, number in enumerate(numbers):
        named = [(parameter, kind, set_to[parameter][0][at]) for parameter, (_, _, kind) in enumerate(settings)]
        plans.append(Plan(number, [column[at] for column in values], [column[at] for column in limits], named))
    return plans


def pool_of(sheet, parts, keep, divisions, seed, title):
    """The pool of a sheet, its file's bytes and its names."""
    look_for_two_parts(parts)
    objectives, constraints, settings = objectives_of(sheet, parts), constraints_of(sheet, parts), settings_of(sheet, parts)
    if len(settings) > MOST_SETTINGS:
        raise Problem(f"there are {len(settings)} settings, and a plan has at most {MOST_SETTINGS}. Name fewer.")
    label = sheet.find(parts.label) if parts.label else None
    number = sheet.find(parts.number) if parts.number else None

    wrong = []
    values = [gathered(wrong, lambda: sheet.read(column, real)) for column, _, _ in objectives]
    limits = [gathered(wrong, lambda: list(map(change, sheet.read(column, real)))) for column, _, change in constraints]
    set_to = [gathered(wrong, lambda: read_setting(sheet, column, kind)) for column, _, kind in settings]
    numbers = range(len(sheet.rows)) if number is None else gathered(wrong, lambda: sheet.read(number, whole(0, MOST_WORD)))
    labels = [f"row {row}" for row, _ in sheet.rows] if label is None else gathered(wrong, lambda: sheet.read(label, text))
    if wrong:
        raise Problem(*dict.fromkeys(wrong))

    if divisions is None:
        divisions = usual_divisions(len(objectives), keep)
    pool = Pool(divisions, keep, seed, [mark for _, _, mark in objectives], plans_of(numbers, values, limits, settings, set_to))
    # too long a file first, as choose looks at it
    data = write_pool(pool)
    look_at(pool)
    names = Names(
        pool=digest(data),
        title=title,
        label=parts.label,
        number=parts.number,
        labels=labels,
        objectives=[heading for _, heading, _ in objectives],
        constraints=[heading for _, heading, _ in constraints],
        settings=[heading for _, heading, _ in settings],
        choices=[texts for _, texts in set_to],
    )
    return pool, data, names


# ---- back


def show(pool, names):
    """The pool as a CSV's text: labels and numbers where they have a heading, objectives, constraints, settings."""
    keys = parameters(pool)
    first = [heading for heading in (names.label, names.number) if heading]
    headings = [*first, *names.objectives, *names.constraints, *names.settings]
    rows = []
    for at, plan in enumerate(pool.plans):
        own = keyed(plan)
        blank = [""] * (len(names.constraints) - len(plan.constraints))
        given = [setting_text(key[1], own[key], names.choices[place], number_text) if key in own else "" for place, key in enumerate(keys)]
        row = ([names.labels[at]] if names.label else []) + ([plan.number] if names.number else [])
        rows.append([*row, *map(number_text, plan.values), *map(number_text, plan.constraints), *blank, *given])
    return write_sheet(headings, rows)
