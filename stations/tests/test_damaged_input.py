"""What is wrong is told with row and column, or with its refusal's number, and nothing is written."""

import math
import os
import shutil

from common import COLUMNS, EXAMPLES, STATIONS, TRIALS, Case, choose, read

import pool_file
from problem import Problem
from refusals import look_at

PARTS = ["--minimise", "water", "--maximise", "yield", "--keep", "1"]


class Cells(Case):
    def complaint(self, content, *more):
        self.put("a.csv", content)
        self.put("a.pool", b"an older file")
        pool = self.refused("pool", "a.csv", *PARTS, *more)
        self.assertEqual(self.refused("table", "a.csv", *PARTS, *more), pool)
        return pool

    def test_a_cell_that_is_no_number(self):
        for cell in ("dry", "nan", "inf", "-Infinity", "1_000", "0x10", "1 000", "12 l", "--1", "1e", ".", "\N{ARABIC-INDIC DIGIT FIVE}", "\N{FULLWIDTH DIGIT ONE}", "=A1"):
            told = self.complaint(f"plan,water,yield\nN1,1,2\nN2,{cell},4\n")
            self.assertIn("a.csv: row 3, column B (water): ", told)
            self.assertIn("is no number", told)

    def test_a_decimal_comma(self):
        self.assertIn("row 2, column C (yield): '1,5' is no number. Write the decimal point as '.'", self.complaint('plan,water,yield\nN1,1,"1,5"\n'))

    def test_an_empty_cell(self):
        self.assertIn("row 2, column C (yield): the cell is empty", self.complaint("plan,water,yield\nN1,1, \n"))

    def test_a_number_beyond_the_limit(self):
        for cell in ("1e400", "-1e302", repr(math.nextafter(2.0**1000, math.inf))):
            self.assertIn("row 2, column B (water)", self.complaint(f"plan,water,yield\nN1,{cell},2\n"))
            self.assertIn("refusal 8", self.complaint(f"plan,water,yield\nN1,{cell},2\n"))

    def test_every_bad_cell_is_told_and_of_very_many_the_first(self):
        told = self.complaint("water,yield\n1,x\ny,2\nz,\n")
        self.assertEqual(len(told.splitlines()), 4)
        self.assertIn("and 80 more", self.complaint("water,yield\n" + "x,1\n" * 100))

    def test_rows_are_counted_as_a_spreadsheet_counts_them(self):
        self.assertIn("row 5, column A (water)", self.complaint('water,yield,note\n1,2,"two\nlines"\n\n,,\nx,2,\n'))

    def test_columns_past_z(self):
        headings = ",".join(f"c{n}" for n in range(27))
        self.assertIn("row 2, column AB (water)", self.complaint(f"{headings},water,yield\n{'1,' * 27}x,2\n"))

    def test_a_missing_column(self):
        told = self.complaint("plan,watr,yield\nN1,1,2\n")
        self.assertIn("row 1 has no column 'water'. Did you mean 'watr'?", told)
        self.assertIn("The columns are: 'a', 'b'.", self.complaint("a,b\n1,2\n"))

    def test_a_heading_twice(self):
        self.assertIn("row 1 has the heading 'water' twice, in columns A and C", self.complaint("water,yield,water\n1,2,3\n"))

    def test_an_empty_file(self):
        for content in ("", "\n\n", "\N{ZERO WIDTH NO-BREAK SPACE}", ",,,\n,,,\n"):
            self.assertIn("a.csv: the file is empty", self.complaint(content))

    def test_no_heading_row(self):
        self.assertIn("row 1 has no headings", self.complaint("\nwater,yield\n1,2\n"))

    def test_no_trials(self):
        self.assertIn("no trial below the heading row", self.complaint("water,yield\n\n"))

    def test_rows_of_another_length(self):
        self.assertIn("row 3 has 1 cells, and the heading row has 2", self.complaint("water,yield\n1,2\n3\n"))
        self.assertIn("row 2 has 3 cells, and the heading row has 2", self.complaint("water,yield\n1,2,3\n"))

    def test_quotation_marks_that_do_not_close(self):
        self.assertIn("row 2 is no row of a CSV", self.complaint('water,yield\n"1,2\n'))
        self.assertIn("row 3 is no row of a CSV", self.complaint('water,yield\n1,2\n"1"3,2\n'))

    def test_bytes_that_are_no_text(self):
        self.assertIn("byte 16 is not UTF-8", self.complaint(b"water,yield\n1,2\xff\n"))

    def test_another_separator(self):
        self.assertIn("--separator ';'", self.complaint("water;yield\n1;2\n"))
        self.assertIn("--separator tab", self.complaint("water\tyield\n1\t2\n"))

    def test_settings_and_numbers(self):
        self.assertIn("row 2, column C (n): '1.5' is no whole number", self.complaint("water,yield,n\n1,2,1.5\n", "--int", "n"))
        self.assertIn("row 2, column C (n): '9007199254740993' is not from", self.complaint("water,yield,n\n1,2,9007199254740993\n", "--int", "n"))
        self.assertIn("row 2, column C (n): '-1' is not from 0", self.complaint("water,yield,n\n1,2,-1\n", "--number", "n"))
        self.assertIn("row 2, column C (n): '18446744073709551616' is not from 0", self.complaint("water,yield,n\n1,2,18446744073709551616\n", "--number", "n"))
        self.assertIn("row 2, column C (n): the cell is empty", self.complaint("water,yield,n\n1,2,\n", "--choice", "n"))
        self.assertIn("row 2, column C (n): the cell is empty", self.complaint("water,yield,n\n1,2,\n", "--label", "n"))

    def test_a_column_with_two_parts(self):
        self.assertIn("'water' is named twice", self.complaint("water,yield\n1,2\n", "--maximise", "water"))
        self.assertIn("'yield' is named twice", self.complaint("water,yield\n1,2\n", "--float", "yield"))
        self.assertIn("two limits", self.complaint("water,yield\n1,2\n", "--at-most", "water", "3", "--at-most", "water", "4"))

    def test_a_limit_that_is_no_number(self):
        self.assertIn("the limit of --at-most 'water': 'nan' is no number", self.complaint("water,yield\n1,2\n", "--at-most", "water", "nan"))


class Refusals(Case):
    """The refusals of `choose` come as sentences beside their numbers, before anything is written."""

    def complaint(self, rows, *arguments):
        self.put("a.csv", rows)
        return self.refused("table", "a.csv", *arguments)

    def test_objectives(self):
        self.assertIn("refused 2: ", self.complaint("x\n1\n", "--keep", "1"))
        nine = [f"c{n}" for n in range(9)]
        self.assertIn("Here: 9 objectives", self.complaint(",".join(nine) + "\n" + ",".join("123456789") + "\n", "--keep", "1", "--minimise", *nine))

    def test_size(self):
        for keep in ("0", "1025"):
            self.assertIn("refused 3: ", self.complaint("x\n1\n", "--minimise", "x", "--keep", keep))

    def test_divisions(self):
        for divisions in ("0", "200"):
            self.assertIn("refused 4: ", self.complaint("x\n1\n", "--minimise", "x", "--keep", "1", "--divisions", divisions))
        self.assertIn("3 objectives and 199 divisions make 20,100 lines", self.complaint("x,y,z\n1,2,3\n", "--minimise", "x", "y", "z", "--keep", "1", "--divisions", "199"))

    def test_plans(self):
        self.assertIn("refused 7: ", self.complaint("x\n" + "1\n" * 1025, "--minimise", "x", "--keep", "1"))

    def test_constraints(self):
        names = [f"c{n}" for n in range(17)]
        self.assertIn("Here: plan 0 has 17 constraints", self.complaint("x," + ",".join(names) + "\n" + "1," * 17 + "1\n", "--minimise", "x", "--keep", "1", "--constraint", *names))

    def test_settings(self):
        names = [f"c{n}" for n in range(25)]
        self.assertIn("25 settings", self.complaint("x," + ",".join(names) + "\n" + "1," * 25 + "1\n", "--minimise", "x", "--keep", "1", "--float", *names))

    def test_a_file_too_long(self):
        names = [f"c{n}" for n in range(8)]
        told = self.complaint(",".join(names) + "\n" + (",".join(["0.1"] * 8) + "\n") * 1000, "--keep", "1", "--minimise", *names)
        self.assertIn("refused 17: ", told)
        self.assertIn("the file would have", told)

    def test_the_example_pools_meet_the_number_that_choose_prints(self):
        for name in sorted(os.listdir(EXAMPLES)):
            if name.endswith(".pool"):
                printed = read(os.path.join(EXAMPLES, name[:-5] + ".txt")).decode()
                self.assertEqual(refusal_of(read(os.path.join(EXAMPLES, name))), printed.strip() if printed.startswith("refused") else "", name)

    def test_other_pools_meet_it_too(self):
        plan = ([1.0, 2.0], [])
        for divisions, size, marks, plans in [(1, 0, [0, 0], [plan]), (1, 1025, [0, 0], [plan]), (0, 1, [0, 0], [plan]), (200, 1, [0, 0], [plan]), (199, 1, [0, 0], [plan]),
                                              (1, 1, [0, 0], []), (1, 1, [], [([], [])]), (1, 1, [0, 2], [plan]), (1, 1, [0, 0], [([1.0, float("nan")], [])]),
                                              (1, 1, [0, 0], [([1.0, 1e302], [])]), (1, 1, [0, 0], [([1.0, 2.0], [0.0] * 17)]), (1, 1, [0, 0], [([1.0, 2.0], [0.0] * 16)]),
                                              (45, 1, [0, 0, 0], [([1.0, 2.0, 3.0], [])]), (44, 1, [0, 0, 0], [([1.0, 2.0, 3.0], [])])]:
            pool = pool_file.Pool(divisions, size, 5, marks, [pool_file.Plan(at, *rows) for at, rows in enumerate(plans)])
            data = pool_file.write_pool(pool)
            printed = choose(data).decode().strip()
            self.assertEqual(refusal_of(data), printed if printed.startswith("refused") else "")

    def test_pool_files_broken_anywhere(self):
        for name in ("paper", "paper-second", "tried"):
            whole = read(os.path.join(EXAMPLES, name + ".pool"))
            number = "refused 1" if name == "paper" else "refused 17"
            cuts = range(1 if number == "refused 17" else 0, len(whole), 1 + len(whole) // 60)
            for broken in [whole[:cut] for cut in cuts] + [whole + b"\0", whole[:-1] + b"\x80\x00"]:
                self.assertEqual(refusal_of(broken), number)
                self.assertEqual(choose(broken).decode().strip(), number)
        self.put("cut.pool", read(os.path.join(EXAMPLES, "tried.pool"))[:-1])
        self.assertIn("refused 17: ", self.refused("show", "cut.pool"))
        self.assertIn("the file ends early", self.refused("show", "cut.pool"))


def refusal_of(data):
    """The refusal that the tool meets for a pool file, 'refused N', or nothing."""
    try:
        look_at(pool_file.read_pool(data))
    except Problem as problem:
        return problem.sentences[0].split(":")[0]
    return ""


class CommandLine(Case):
    def test_a_file_that_is_not_there(self):
        self.assertIn("none.csv: cannot be read", self.refused("table", "none.csv", *PARTS))
        self.assertIn("none.pool: cannot be read", self.refused("show", "none.pool"))

    def test_a_folder_that_is_not_there(self):
        self.assertIn("none/a.pool: cannot be written", self.refused("table", TRIALS, *COLUMNS, "--to", "none/a"))

    def test_nothing_is_written_where_one_of_the_files_cannot_be(self):
        os.mkdir(self.path("held"))
        os.mkdir(self.path("held/a.names.json"))
        status, _, complaint = self.plans("table", TRIALS, *COLUMNS, "--to", "held/a")
        self.assertEqual((status, os.listdir(self.path("held"))), (2, ["a.names.json"]))
        self.assertIn("is a folder", complaint)

    def test_no_command_and_no_sheet(self):
        self.assertIn("plans --help", self.refused())
        self.assertIn("plans table --help", self.refused("table", "--keep", "3"))
        self.assertIn("'many' is not a whole number", self.refused("table", "a.csv", "--keep", "many"))

    def test_a_clone_where_choose_is_not_built(self):
        tool = self.path("clone/stations")
        shutil.copytree(STATIONS, tool)
        status, out, complaint = self.program(tool, "table", TRIALS, *COLUMNS, "--to", "a")
        self.assertEqual((status, out, os.listdir(self.folder)), (2, "", ["clone"]))
        self.assertIn("bash examples/run", complaint)
        self.assertEqual(self.program(tool, "pool", TRIALS, *COLUMNS, "--to", "a")[0], 0)
        self.assertEqual(sorted(os.listdir(self.folder)), ["a.names.json", "a.pool", "clone"])
