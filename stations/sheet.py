"""A sheet of trials: a CSV with a heading row, read without a guess. What is wrong is told by row and column as a spreadsheet counts them."""

import csv
import difflib
import io
import re

from problem import Problem, plain, raise_all
from refusals import bad_value

# float() takes more than a number as a spreadsheet writes it: nan, inf, 1_000, digits of other scripts
NUMBER = re.compile(r"[+-]?([0-9]+(\.[0-9]*)?|\.[0-9]+)([eE][+-]?[0-9]+)?")
WHOLE = re.compile(r"[+-]?[0-9]+")
DECIMAL_COMMA = re.compile(r"[+-]?[0-9]+,[0-9]+")
LONGEST_QUOTE = 40


def letters(column):
    """The name that a spreadsheet gives a column: A, B, .., Z, AA, .."""
    name = ""
    column += 1
    while column:
        column, rest = divmod(column - 1, 26)
        name = chr(ord("A") + rest) + name
    return name


def quoted(text):
    text = plain(text)
    return f"'{text if len(text) <= LONGEST_QUOTE else text[:LONGEST_QUOTE] + '..'}'"


class Sheet:
    """Headings, and rows of cells, each with its number in the spreadsheet (the heading row is 1)."""

    def __init__(self, name, headings, rows):
        self.name = name
        self.headings = headings
        self.rows = rows

    def place(self, row, column):
        return f"{self.name}: row {row}, column {letters(column)} ({plain(self.headings[column])})"

    def find(self, heading):
        """The column of a heading."""
        if heading in self.headings:
            return self.headings.index(heading)
        near = difflib.get_close_matches(heading, self.headings, 1)
        hint = f"Did you mean {quoted(near[0])}?" if near else "The columns are: " + ", ".join(quoted(h) for h in self.headings if h) + "."
        raise Problem(f"{self.name}: row 1 has no column {quoted(heading)}. {hint}")

    def read(self, column, reading):
        """Each cell of a column by a function that answers a value or raises ValueError; every cell that fails is told."""
        values, wrong = [], []
        for row, cells in self.rows:
            try:
                values.append(reading(cells[column]))
            except ValueError as error:
                wrong.append(f"{self.place(row, column)}: {error}")
        raise_all(wrong)
        return values


# ---- cells


def real(cell):
    """The double nearest to the cell's number. This is the one place where a cell becomes one."""
    if not NUMBER.fullmatch(cell):
        raise ValueError(no_number(cell))
    x = float(cell)
    if bad_value(x):
        raise ValueError(f"{quoted(cell)} is beyond 2^1000, which is refusal 8. Mend the cell.")
    return x


def no_number(cell):
    if not cell:
        return "the cell is empty, and a number is needed. Fill it in, or leave the row out."
    if DECIMAL_COMMA.fullmatch(cell):
        return f"{quoted(cell)} is no number. Write the decimal point as '.', not ','."
    return f"{quoted(cell)} is no number. Write it like 12, 0.5 or 3.2e-4, without unit or separator."


def whole(low, high):
    """A reading of whole numbers from low to high."""

    def reading(cell):
        if not WHOLE.fullmatch(cell):
            raise ValueError(f"{quoted(cell)} is no whole number." if cell else "the cell is empty, and a whole number is needed.")
        # more digits than any number in the range has
        if len(cell) > 40 or not low <= int(cell) <= high:
            raise ValueError(f"{quoted(cell)} is not from {low} to {high}.")
        return int(cell)

    return reading


def text(cell):
    if not cell:
        raise ValueError("the cell is empty, and a text is needed.")
    return cell


# ---- the file


def decoded(name, data):
    """The text of a CSV in UTF-8, with or without the mark that some spreadsheets put first."""
    try:
        return data.decode("utf-8-sig")
    except UnicodeDecodeError as error:
        raise Problem(f"{name}: byte {error.start + 1:,} is not UTF-8. Save the sheet as 'CSV UTF-8'.") from None


def records(name, content, separator):
    """The records of a CSV, their cells without spaces around them."""
    reader = csv.reader(io.StringIO(content, newline=""), delimiter=separator, strict=True)
    found = []
    try:
        for cells in reader:
            found.append([cell.strip() for cell in cells])
    except csv.Error as error:
        raise Problem(f"{name}: row {len(found) + 1} is no row of a CSV ({error}). Look at its quotation marks.") from None
    return found


def headings_of(name, first, separator):
    """The heading row; columns without a heading at its end are left out."""
    while first and not first[-1]:
        first = first[:-1]
    if not first:
        raise Problem(f"{name}: row 1 has no headings. The first row must name the columns.")
    other = next((mark for mark in ";\t," if mark != separator and mark in first[0]), None)
    if len(first) == 1 and other:
        mark = "a tab" if other == "\t" else f"'{other}'"
        raise Problem(f"{name}: row 1 has one column, with {mark} in its heading. If that parts the columns, say --separator {'tab' if other == chr(9) else repr(other)}.")
    for column, heading in enumerate(first):
        if heading and heading in first[:column]:
            raise Problem(f"{name}: row 1 has the heading {quoted(heading)} twice, in columns {letters(first.index(heading))} and {letters(column)}. Rename one.")
    return first


def fitted(name, row, cells, width):
    """A row's cells, as many as there are headings."""
    if len(cells) < width or any(cells[width:]):
        raise Problem(f"{name}: row {row} has {len(cells)} cells, and the heading row has {width}. Look for a missing or a superfluous separator.")
    return cells[:width]


def read_sheet(name, data, separator=","):
    """The sheet of a CSV file's bytes. Rows with no text in them are passed over."""
    found = records(name, decoded(name, data), separator)
    if not any(any(cells) for cells in found):
        raise Problem(f"{name}: the file is empty. It must have a heading row and a row for each trial.")
    headings = headings_of(name, found[0], separator)
    rows = [(row, fitted(name, row, cells, len(headings))) for row, cells in enumerate(found[1:], 2) if any(cells)]
    if not rows:
        raise Problem(f"{name}: there is no trial below the heading row.")
    return Sheet(name, headings, rows)


# ---- written


def number_text(x):
    """The shortest text that is read as this number again."""
    short = repr(x)
    return short[:-2] if short.endswith(".0") else short


def column_texts(values):
    """The same for a column that a person reads: with as many decimals throughout, where no number needs an exponent."""
    texts = list(map(number_text, values))
    if not all(NUMBER.fullmatch(text) and "e" not in text for text in texts):
        return texts
    decimals = max((len(text.partition(".")[2]) for text in texts), default=0)
    return [text + "." * (decimals > 0 and "." not in text) + "0" * (decimals - len(text.partition(".")[2])) for text in texts]


def value_texts(pool):
    """The values of each plan of a pool as a person reads them."""
    columns = [column_texts([plan.values[at] for plan in pool.plans]) for at in range(len(pool.marks))]
    return [[column[plan] for column in columns] for plan in range(len(pool.plans))]


def write_sheet(headings, rows):
    """A CSV's text."""
    out = io.StringIO()
    writer = csv.writer(out, lineterminator="\n")
    writer.writerow(headings)
    writer.writerows(rows)
    return out.getvalue()
