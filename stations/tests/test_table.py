"""The table for a person says what choose printed, with labels and headings."""

import os

from common import COLUMNS, STATIONS, TRIALS, Case, choose, read

import lines


class Tables(Case):
    def test_the_kept_plans_in_order(self):
        out = self.done("table", TRIALS, *COLUMNS, "--to", "a")
        pool, printed = read(self.path("a.pool")), read(self.path("a.table"))
        self.assertEqual(choose(pool), printed)
        rows = [line.split() for line in printed.decode().splitlines()[1:]]
        kept = sorted((row for row in rows if row[3] != "0"), key=lambda row: int(row[3]))
        shown = [line.split() for line in out.splitlines() if line.strip()[:1].isdigit()]
        self.assertEqual(len(shown), 16)
        sheet = [line.split(",") for line in read(TRIALS).decode().splitlines()[1:]]
        for cells, (index, front, line, place) in zip(shown, kept):
            trial = sheet[int(index)]
            self.assertEqual((cells[0], cells[1]), (place, trial[1]))
            self.assertEqual([float(x) for x in cells[2:5]], [float(x) for x in trial[6:9]])
            self.assertEqual(cells[5:], [front, line, index])
        for heading in ("water (l/tree)", "cost (EUR/ha)", "yield (kg/tree)", "less is better", "more is better", "front", "line", "place"):
            self.assertIn(heading, out)

    def test_the_dropped_ones_on_request(self):
        without = self.done("table", TRIALS, *COLUMNS, "--to", "a")
        self.assertNotIn("Dropped", without)
        out = self.done("table", TRIALS, *COLUMNS, "--to", "a", "--dropped")
        self.assertIn("Dropped are 32:", out)
        self.assertIn("far end (m) short of 10", out)
        self.assertEqual(len(out.splitlines()) - len(without.splitlines()), 32 + 5)

    def test_files_are_named_after_the_sheet(self):
        self.put("mine.csv", read(TRIALS))
        self.done("table", "mine.csv", *COLUMNS)
        self.assertEqual(sorted(self.files()), ["mine.csv", "mine.names.json", "mine.pool", "mine.table"])

    def test_it_runs_as_a_program_from_anywhere(self):
        self.put("mine.csv", read(TRIALS))
        status, out, complaint = self.program(STATIONS, "table", "mine.csv", *COLUMNS)
        self.assertEqual((status, complaint), (0, ""))
        self.assertIn("Of 48 plans 16 are kept", out)
        self.assertFalse(os.path.exists(os.path.join(STATIONS, "__pycache__")))

    def test_labels_of_any_script_in_any_locale(self):
        self.put("a.csv", "p,x\n\N{GREEK SMALL LETTER ALPHA}\N{CYRILLIC SMALL LETTER ZHE},1\n")
        os.environ["PYTHONIOENCODING"] = "ascii"
        self.addCleanup(os.environ.pop, "PYTHONIOENCODING")
        status, out, complaint = self.program(STATIONS, "table", "a.csv", "--label", "p", "--minimise", "x", "--keep", "1")
        self.assertEqual((status, complaint), (0, ""))
        self.assertIn("\N{GREEK SMALL LETTER ALPHA}\N{CYRILLIC SMALL LETTER ZHE}", out)

    def test_a_pool_smaller_than_the_size(self):
        self.put("a.csv", "x,y\n1,2\n2,1\n3,3\n")
        out = self.done("table", "a.csv", "--minimise", "x", "y", "--keep", "8")
        self.assertIn("Of 3 plans 3 are kept", out)
        self.assertIn("plans drawn again fill the other 5", out)

    def test_plans_without_label_are_called_by_their_row(self):
        self.put("a.csv", "x,y\n1,2\n,\n2,1\n3,3\n")
        out = self.done("table", "a.csv", "--minimise", "x", "y", "--keep", "2")
        self.assertIn("row 2", out)
        self.assertIn("row 4", out)

    def test_a_label_cannot_steer_the_terminal(self):
        self.put("a.csv", 'p,x\n"a\x1b[31m\nb",1\n')
        out = self.done("table", "a.csv", "--label", "p", "--minimise", "x", "--keep", "1")
        self.assertNotIn("\x1b", out)
        self.assertIn("a\N{REPLACEMENT CHARACTER}[31m\N{REPLACEMENT CHARACTER}b", out)

    def test_a_limit_is_kept_at_the_limit(self):
        self.put("a.csv", "x,p\n1,10\n0,9.999999999999998\n")
        out = self.done("table", "a.csv", "--minimise", "x", "--at-least", "p", "10", "--keep", "1", "--dropped")
        self.assertIn("    1  row 2  ", out)
        self.assertIn("p short of 10", out)


class Lines(Case):
    def test_their_order_and_count_are_the_scope_papers(self):
        self.assertEqual(lines.shares(3, 2), [(0, 0, 2), (0, 1, 1), (0, 2, 0), (1, 0, 1), (1, 1, 0), (2, 0, 0)])
        self.assertEqual(lines.shares(1, 7), [(7,)])
        for objectives in range(1, 7):
            self.assertEqual(len(lines.shares(objectives, 4)), lines.line_count(objectives, 4))

    def test_divisions_follow_from_the_number_of_plans(self):
        self.assertEqual((lines.usual_divisions(2, 200), lines.usual_divisions(2, 201), lines.usual_divisions(3, 100)), (199, 12, 13))
