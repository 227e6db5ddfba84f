"""CSV to pool file and back: no number, label or setting changes on the way."""

import csv
import io
import os
import random
import struct

from common import COLUMNS, EXAMPLES, TRIALS, Case, read

# each in the shortest text that is read as it
CANONICAL = '''\
label,number,water,yield,salt,turns,steps,mulch
N1,18446744073709551615,0.1,-3,-0.5,0.125,-7,straw
"a, ""b""",0,5e-324,2,0,1e+300,9007199254740992,bark
\N{GREEK SMALL LETTER ALPHA},7,-0,1e-07,3.25,-0,-9007199254740992,straw
'''
PARTS = ["--label", "label", "--number", "number", "--minimise", "water", "--maximise", "yield", "--constraint", "salt", "--float", "turns", "--int", "steps",
         "--choice", "mulch", "--keep", "2"]


def bits(text):
    return struct.pack("<d", float(text))


class RoundTrips(Case):
    def test_a_canonical_sheet_comes_back_byte_for_byte(self):
        self.put("a.csv", CANONICAL)
        self.done("pool", "a.csv", *PARTS)
        self.assertEqual(self.done("show", "a.pool"), CANONICAL)
        self.done("show", "a.pool", "--to", "b.csv")
        self.assertEqual(read(self.path("b.csv")).decode(), CANONICAL)

    def test_the_sample_comes_back_number_for_number(self):
        self.done("pool", TRIALS, *COLUMNS, "--to", "a")
        shown = list(csv.DictReader(io.StringIO(self.done("show", "a.pool"))))
        with open(TRIALS, newline="") as file:
            given = list(csv.DictReader(file))
        self.assertEqual(len(shown), 48)
        for old, new in zip(given, shown):
            for heading in ("water (l/tree)", "cost (EUR/ha)", "yield (kg/tree)", "valve (turns)"):
                self.assertEqual(bits(old[heading]), bits(new[heading]))
            for heading in ("plan", "trial", "run (h)", "mulch"):
                self.assertEqual(old[heading], new[heading])
            self.assertEqual(float(new["far end (m) short of 10"]), 10 - float(old["far end (m)"]))
            self.assertEqual(float(new["salt (dS/m) over 2.4"]), float(old["salt (dS/m)"]) - 2.4)

    def test_what_is_shown_makes_the_same_pool_file(self):
        self.done("pool", TRIALS, *COLUMNS, "--to", "a")
        self.done("show", "a.pool", "--to", "b.csv")
        again = [*COLUMNS[:9], "--constraint", "far end (m) short of 10", "salt (dS/m) over 2.4", *COLUMNS[15:]]
        self.done("pool", "b.csv", *again)
        self.assertEqual(read(self.path("a.pool")), read(self.path("b.pool")))

    def test_any_double_comes_back(self):
        draw = random.Random(1)
        numbers = [0.0, -0.0, 5e-324, 2.2250738585072014e-308, 2.0**1000, -(2.0**1000), 0.1, 1 / 3]
        while len(numbers) < 900:
            x = struct.unpack("<d", struct.pack("<Q", draw.getrandbits(64)))[0]
            if abs(x) <= 2.0**1000:
                numbers.append(x)
        self.put("a.csv", "x\n" + "".join(f"{x!r}\n" for x in numbers))
        self.done("pool", "a.csv", "--minimise", "x", "--keep", "5")
        shown = self.done("show", "a.pool").split("\n")[1:-1]
        self.assertEqual([bits(text) for text in shown], [struct.pack("<d", x) for x in numbers])

    def test_a_pool_of_the_first_edition_becomes_what_the_converter_makes_of_it(self):
        self.done("show", os.path.join(EXAMPLES, "stations.pool"), "--to", "a.csv")
        self.done("pool", "a.csv", "--minimise", "minimise 1", "minimise 2", "--maximise", "maximise 3", "--constraint", "constraint 1", "constraint 2",
                  "--keep", "20", "--divisions", "4", "--seed", "2024")
        self.assertEqual(read(self.path("a.pool")), read(os.path.join(EXAMPLES, "stations.turned")))

    def test_a_pool_of_the_second_edition_is_shown_with_numbers_and_settings(self):
        shown = self.done("show", os.path.join(EXAMPLES, "tried.pool"))
        self.assertEqual(shown.split("\n")[0], "number,minimise 1,minimise 2,maximise 3,constraint 1,constraint 2,float 1,int 2,choice 5")
        self.assertEqual(len(shown.split("\n")), 50)
        self.assertTrue(shown.split("\n")[2].startswith("203,"))

    def test_names_of_another_pool_are_passed_over(self):
        self.put("a.csv", CANONICAL)
        self.done("pool", "a.csv", *PARTS)
        self.put("a.pool", read(os.path.join(EXAMPLES, "paper.pool")))
        status, out, complaint = self.plans("show", "a.pool")
        self.assertEqual((status, out), (0, "minimise 1,minimise 2\n0,0\n1,3\n4,1\n"))
        self.assertIn("another pool file", complaint)

    def test_broken_names_are_told(self):
        self.put("a.csv", CANONICAL)
        self.done("pool", "a.csv", *PARTS)
        whole = read(self.path("a.names.json"))
        for broken in (b"", b"[]", b"{}", whole[:-20], whole.replace(b'"objectives": [', b'"objectives": ["x", '), whole.replace(b'"straw"', b"7")):
            self.put("a.names.json", broken)
            self.assertIn("a.names.json", self.refused("show", "a.pool"))


class AsSpreadsheetsWrite(Case):
    """Forms of one sheet, which all give one pool file."""

    def same(self, content, *more):
        self.put("a.csv", "plan,water,yield\nN1,1.5,2\nN2,3,4\n")
        parts = ["--label", "plan", "--minimise", "water", "--maximise", "yield", "--keep", "1"]
        self.done("pool", "a.csv", *parts)
        self.put("b.csv", content)
        self.done("pool", "b.csv", *parts, *more)
        self.assertEqual(read(self.path("a.pool")), read(self.path("b.pool")))
        self.assertEqual(self.done("show", "a.pool"), self.done("show", "b.pool"))

    def test_a_byte_order_mark(self):
        self.same("\N{ZERO WIDTH NO-BREAK SPACE}plan,water,yield\nN1,1.5,2\nN2,3,4\n")

    def test_lines_that_end_as_on_windows(self):
        self.same("plan,water,yield\r\nN1,1.5,2\r\nN2,3,4\r\n")

    def test_lines_that_end_as_on_old_macintoshes(self):
        self.same("plan,water,yield\rN1,1.5,2\rN2,3,4\r")

    def test_no_newline_at_the_end(self):
        self.same("plan,water,yield\nN1,1.5,2\nN2,3,4")

    def test_blank_rows(self):
        self.same("plan,water,yield\nN1,1.5,2\n,,\nN2,3,4\n\n,,\n\n")

    def test_quoted_cells(self):
        self.same('"plan","water","yield"\n"N1","1.5","2"\n"N2","3","4"\n')

    def test_spaces_and_other_forms_of_a_number(self):
        self.same("plan, water ,yield\nN1, 15e-1 ,+2.0\nN2,3.,004\n")

    def test_columns_without_heading_at_the_end(self):
        self.same("plan,water,yield,,\nN1,1.5,2,,\nN2,3,4,,\n")

    def test_columns_that_are_not_named(self):
        self.same("date,plan,water,note,yield\n2025-03-03,N1,1.5,\"wet, cold\",2\n2025-03-04,N2,3,,4\n")

    def test_semicolons(self):
        self.same("plan;water;yield\nN1;1.5;2\nN2;3;4\n", "--separator", ";")

    def test_tabs(self):
        self.same("plan\twater\tyield\nN1\t1.5\t2\nN2\t3\t4\n", "--separator", "tab")
