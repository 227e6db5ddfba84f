"""The audit passes what choose prints and finds each way in which a table can be spoilt."""

import ast
import itertools
import os
import random
import subprocess
import sys

from common import COLUMNS, EXAMPLES, STATIONS, TOP, TRIALS, Case, choose, read

import audit
import pool_file


def written(table):
    """A table's bytes from its head and rows (index, front, line, place)."""
    (plans, kept), rows = table
    return f"plans {plans} kept {kept}\n{''.join(' '.join(map(str, row)) + chr(10) for row in rows)}".encode()


def parted(data):
    first, *others = data.decode().splitlines()
    return [int(first.split()[1]), int(first.split()[3])], [[int(cell) if cell != "-" else cell for cell in line.split()] for line in others]


def random_pool(draw):
    """A pool with few different values, so that plans tie, and with broken constraints."""
    objectives = draw.randint(1, 4)
    values = draw.choice([3, 6, 1000])
    plans = []
    for number in range(draw.randint(1, 24)):
        row = [float(draw.randint(0, values)) for _ in range(objectives)]
        limits = [draw.choice([-1.0, 0.0, 0.5, 1.5]) for _ in range(draw.choice([0, 0, 1, 2]))]
        plans.append(pool_file.Plan(number, row, limits))
    return pool_file.Pool(draw.randint(1, 5), draw.randint(1, 20), draw.getrandbits(64), [draw.randint(0, 1) for _ in range(objectives)], plans)


class Holds(Case):
    def test_every_example(self):
        audited = 0
        for name in sorted(os.listdir(EXAMPLES)):
            table = os.path.join(EXAMPLES, name[:-5] + ".txt")
            if name.endswith(".pool") and not read(table).startswith(b"refused"):
                self.assertIn("checks hold.", self.done("audit", os.path.join(EXAMPLES, name), table))
                audited += 1
        self.assertGreaterEqual(audited, 8)

    def test_the_longest_file(self):
        crate = os.path.join(TOP, "crates", "choose_longest")
        self.assertTrue(audit.audit(read(os.path.join(crate, "stdin")), read(os.path.join(crate, "stdout"))).holds)

    def test_random_pools(self):
        draw = random.Random(11)
        splits = 0
        for _ in range(300):
            data = pool_file.write_pool(random_pool(draw))
            found = audit.audit(data, choose(data))
            self.assertTrue(found.holds, found.told())
            splits += len(found.checks) == 11
        self.assertGreater(splits, 80)

    def test_a_table_with_lines_that_end_as_on_windows(self):
        paper = read(os.path.join(EXAMPLES, "paper.txt")).replace(b"\n", b"\r\n")
        self.assertTrue(audit.audit(read(os.path.join(EXAMPLES, "paper.pool")), paper).holds)

    def test_it_says_what_it_takes_from_the_table(self):
        paper = [os.path.join(EXAMPLES, "paper" + ending) for ending in (".pool", ".txt")]
        self.assertIn("Taken from the table and not worked out here: the reference line", self.done("audit", *paper))
        padded = [os.path.join(EXAMPLES, "padded" + ending) for ending in (".pool", ".txt")]
        self.assertIn("The pool has 3 plans for 8 places.", self.done("audit", *padded))

    def test_it_stands_by_itself(self):
        path = os.path.join(STATIONS, "audit.py")
        named = set()
        for node in ast.walk(ast.parse(read(path))):
            if isinstance(node, ast.Import):
                named |= {name.name for name in node.names}
            elif isinstance(node, ast.ImportFrom):
                named.add(node.module)
        self.assertEqual(named, {"itertools", "math", "re", "struct", "sys", "collections"})
        self.put("audit.py", read(path))
        paper = [os.path.join(EXAMPLES, "paper" + ending) for ending in (".pool", ".txt")]
        done = subprocess.run([sys.executable, "-B", "-I", "audit.py", *paper], stdout=subprocess.PIPE)
        self.assertEqual((done.returncode, done.stdout.decode().splitlines()[-1]), (0, "All 11 checks hold."))


class Spoilt(Case):
    """Six tables of the sample, each spoilt in one way."""

    def setUp(self):
        super().setUp()
        self.done("table", TRIALS, *COLUMNS, "--to", "a")
        self.data = read(self.path("a.pool"))
        self.head, self.rows = parted(read(self.path("a.table")))
        self.pool = audit.Pool(self.data)
        self.above = audit.dominations(self.pool)
        fronts = audit.fronts_of(self.above)
        self.split = audit.Split(fronts, self.pool.size)
        self.kept = [row[0] for row in self.rows if row[3]]
        self.assertTrue(self.split.whole and self.split.front)

    def place(self, plan):
        return self.rows[plan][3]

    def exchange(self, kept, dropped):
        self.rows[dropped][3], self.rows[kept][3] = self.place(kept), 0

    def found(self, *sentences):
        """The audit finds the table spoilt, and says so in these words."""
        self.put("spoilt.table", written((self.head, self.rows)))
        status, out, complaint = self.plans("audit", "a.pool", "spoilt.table")
        self.assertEqual((status, complaint), (1, ""), out)
        self.assertIn("the table does not hold.", out)
        for sentence in sentences:
            self.assertIn(sentence, out)
        # and no page is made of it
        before = self.files()
        self.assertEqual(self.plans("report", "a.pool", "spoilt.table")[0], 1)
        self.assertEqual(self.files(), before)

    def called(self, plan):
        return f"plan {plan} (trial {201 + plan})"

    def test_a_kept_plan_exchanged_with_a_dominated_one(self):
        kept, dropped = next((k, d) for k in self.kept for d in range(48) if k in self.above[d] and not self.place(d))
        place = self.place(kept)
        self.exchange(kept, dropped)
        self.found("FAILS     No dropped plan dominates a kept one",
                   f"{self.called(kept).capitalize()} is dropped and dominates {self.called(dropped)}, which is kept at place {place}.")

    def test_a_place_twice(self):
        first, second = self.kept[2], self.kept[5]
        place = self.place(second)
        self.rows[first][3] = place
        self.found("FAILS     The kept plans are distinct", f"Place {place} is given 2 times: to {self.called(first)}, {self.called(second)}.", "is given to no plan.")

    def test_one_too_few(self):
        last = next(plan for plan in self.kept if self.place(plan) == 16)
        self.rows[last][3] = 0
        self.found("FAILS     Exactly as many plans are kept as are wanted.", "15 plans have a place, and 16 should.", "Place 16 is given to no plan.")
        self.head[1] = 15
        self.found("The table's first line tells of 15 kept plans, and 16 are wanted.")

    def test_the_split_front_in_listed_order(self):
        places = range(len(self.split.whole) + 1, 17)
        for plan in self.split.front:
            self.rows[plan][3] = 0
        for place, plan in zip(places, self.split.front):
            self.rows[plan][3] = place
        self.found("FAILS     A line with a plan still waiting", "FAILS     The sum of the squared niche counts", "FAILS     Every other filling of the open places", "waiting.")

    def test_a_front_broken(self):
        # a plan of the first front gives way to one of the split front that it does not dominate
        kept, dropped = next((k, d) for k in self.split.whole for d in self.split.front if not self.place(d) and k not in self.above[d])
        self.exchange(kept, dropped)
        self.found("FAILS     The fronts before the split one are kept whole", f"{self.called(kept).capitalize()} is dropped, and its front 0 has to be kept whole.")

    def test_a_line_overfull(self):
        line = {plan: self.rows[plan][2] for plan in range(48)}
        counts = audit.Counter(line[plan] for plan in self.kept)
        waiting = [plan for plan in self.split.front if not self.place(plan)]
        dropped = max(waiting, key=lambda plan: counts[line[plan]])
        kept = min((plan for plan in self.split.front if self.place(plan)), key=lambda plan: counts[line[plan]])
        self.exchange(kept, dropped)
        self.found("FAILS     A line with a plan still waiting", f"Line {line[dropped]} ends with {counts[line[dropped]] + 1} plans, ",
                   f"while line {line[kept]} has {counts[line[kept]] - 1} and {self.called(kept)} waiting.")

    def test_fronts_lines_and_order(self):
        plan = self.kept[0]
        self.rows[plan][1] = 3
        self.found(f"{self.called(plan).capitalize()} is of front 0, and the table says 3.")
        self.rows[plan][1] = 0
        self.rows[plan][2] = 21
        self.found(f"{self.called(plan).capitalize()} has no line below 21.")
        self.rows[plan][2] = "-"
        self.found(f"{self.called(plan).capitalize()} has no line below 21.", "left out  The split front's places")
        self.head, self.rows = parted(read(self.path("a.table")))
        first, second = self.split.whole[:2]
        self.rows[first][3], self.rows[second][3] = 2, 1
        self.found(f"{self.called(first).capitalize()} should be at place 1, and the table says 2.")

    def test_a_table_of_another_pool(self):
        self.rows.pop()
        self.found("FAILS     The table has a line for each plan", "The table has 47 lines of plans")
        self.head[0] = 47
        self.found("The table's first line tells of 47 plans, and the pool has 48.")


class Balance(Case):
    def test_the_balance_argument_agrees_with_all_fillings(self):
        """Of random fillings of random pools, those in balance are exactly those with the least sum."""
        draw = random.Random(13)
        seen = {True: 0, False: 0}
        while min(seen.values()) < 150:
            data = pool_file.write_pool(random_pool(draw))
            head, rows = parted(choose(data))
            pool = audit.Pool(data)
            split = audit.Split(audit.fronts_of(audit.dominations(pool)), pool.size)
            if not split.front:
                continue
            for plan in split.front:
                rows[plan][3] = 0
            for place, plan in enumerate(draw.sample(split.front, split.open), len(split.whole) + 1):
                rows[plan][3] = place
            balance, least, tried = audit.audit(data, written((head, rows))).checks[-3:]
            self.assertEqual({balance.result, least.result}, {tried.result})
            seen[tried.result == audit.HOLDS] += 1

    def test_fronts_against_the_definition_by_removal(self):
        """Fronts worked out once more, by taking plans away one front at a time with no set of dominators kept."""
        draw = random.Random(17)
        for _ in range(60):
            pool = audit.Pool(pool_file.write_pool(random_pool(draw)))
            above = audit.dominations(pool)
            for a, b in itertools.permutations(range(pool.count), 2):
                self.assertFalse(a in above[b] and b in above[a])
            left = list(range(pool.count))
            for front in audit.fronts_of(above):
                undominated = [plan for plan in left if all(other not in above[plan] for other in left)]
                self.assertEqual(sorted(front), undominated)
                left = [plan for plan in left if plan not in undominated]
            self.assertEqual(left, [])


class Unreadable(Case):
    def test_files_that_cannot_be_audited(self):
        pool = read(os.path.join(EXAMPLES, "tried.pool"))
        table = read(os.path.join(EXAMPLES, "tried.txt"))
        self.put("a.pool", pool)
        for content in (b"", b"refused 8\n", b"plans 48\n", table[:-1], table.replace(b"\n3 ", b"\n3 x"), b"\xff" + table):
            self.put("a.table", content)
            self.refused("audit", "a.pool", "a.table")
        self.put("a.table", table)
        for cut in range(0, len(pool), 7):
            self.put("a.pool", pool[:cut])
            self.refused("audit", "a.pool", "a.table")
        for content in (pool + b"\0", pool[:-1] + b"\x80"):
            self.put("a.pool", content)
            self.refused("audit", "a.pool", "a.table")
