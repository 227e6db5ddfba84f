"""The page: it needs nothing but itself, tells kept from dropped by shape, and says what is claimed. Where Chromium is installed, it is looked at there."""

import html.parser
import os
import random
import re
import shutil
import struct
import sys
import unittest

import browser
from common import COLUMNS, STATIONS, TRIALS, Case, read

EMPTY = {"meta", "path", "rect", "circle"}


class Tags(html.parser.HTMLParser):
    """Counts tags, and sees that each that opens closes."""

    def __init__(self, content):
        super().__init__()
        self.open, self.counts, self.text = [], {}, []
        self.feed(content)
        self.close()
        assert not self.open, self.open

    def handle_starttag(self, tag, attributes):
        self.counts[tag] = self.counts.get(tag, 0) + 1
        if tag not in EMPTY:
            self.open.append(tag)

    def handle_startendtag(self, tag, attributes):
        self.counts[tag] = self.counts.get(tag, 0) + 1

    def handle_endtag(self, tag):
        assert self.open.pop() == tag

    def handle_data(self, data):
        self.text.append(data)


def sheet_of(objectives, plans=40, seed=3):
    """A CSV of trials with so many objectives and one constraint."""
    draw = random.Random(seed)
    headings = ["plan", *(f"objective no. {n + 1} (unit)" for n in range(objectives)), "limit"]
    rows = [[f"P{at}", *(f"{draw.uniform(0, 10 ** (n + 1)):.3f}" for n in range(objectives)), f"{draw.uniform(-3, 1):.2f}"] for at in range(plans)]
    return "\n".join(",".join(row) for row in [headings, *rows]) + "\n", headings[1:-1]


class Page(Case):
    def page(self, content, *arguments):
        """The page of a sheet."""
        self.put("a.csv", content)
        self.done("table", "a.csv", *arguments)
        self.done("report", "a.pool", "a.table")
        return read(self.path("a.html")).decode()

    def of_objectives(self, number, keep=9, **more):
        content, headings = sheet_of(number, **more)
        return self.page(content, "--label", "plan", "--minimise", *headings, "--constraint", "limit", "--keep", str(keep))

    def sample(self):
        return self.page(read(TRIALS), *COLUMNS)


class Contents(Page):
    def test_it_needs_nothing_but_itself(self):
        page = self.sample()
        for never in ("http", "//", "<script", "<link", "<img", "<iframe", "src=", "href=", "@import", "javascript"):
            self.assertNotIn(never, page)
        self.assertEqual(set(re.findall(r"url\([^)]*\)", page)), {"url(#hatch)"})

    def test_every_tag_closes_and_every_plan_is_there(self):
        page = self.sample()
        tags = Tags(page)
        # three pairs of objectives, a circle for each kept plan and a cross or a triangle for each dropped one, and one of each in the legend
        self.assertEqual(tags.counts["circle"], 3 * 16 + 1)
        self.assertEqual(page.count('class="dropped"'), 3 * 25 + 1)
        self.assertEqual(page.count('class="breaks"'), 3 * 7 + 1)
        for row in read(TRIALS).decode().splitlines()[1:]:
            self.assertIn(f"<td class=text>{row.split(',')[1]}</td>", page)

    def test_what_it_says(self):
        text = re.sub(r"\s+", " ", "".join(Tags(self.sample()).text))
        for said in ("16 of 48 plans kept", "Kept are exactly 16 plans, each once", "None of the 32 dropped plans is better than a kept one",
                     "The fronts before front 1 (11 plans) are kept whole. Front 1 has 18 plans for 5 open places: it is split.", "gives 38, and no other choice of 5",
                     "theorem demand3", "Not proved is what stands around the program", "printed the same table", "Taken from the table and not worked out here", "seed 0"):
            self.assertIn(said, text)

    def test_niche_counts_are_those_of_the_table(self):
        page = self.sample()
        rows = [line.split() for line in read(self.path("a.table")).decode().splitlines()[1:]]
        section = page[page.index("Plans on each reference line"):page.index("Dropped plans")]
        shown = [re.findall(r"<td>([^<]*)</td>", row) for row in re.findall(r"<tr>.*?</tr>", section)][1:]
        lines = sorted({int(row[2]) for row in rows if row[3] != "0" or row[1] == "1"})
        self.assertEqual([int(row[0]) for row in shown], lines)
        for cells in shown:
            self.assertEqual(int(cells[-2]), sum(row[2] == cells[0] and row[3] != "0" for row in rows))
            self.assertEqual(int(cells[-1]), sum(row[2] == cells[0] and row[3] == "0" and row[1] == "1" for row in rows))

    def test_texts_are_escaped(self):
        bad = "<script>alert(1)</script>&\"'"
        cell = bad.replace('"', '""')
        page = self.page(f'"p","{cell}",y\n"{cell}",1,2\nb,2,1\n', "--label", "p", "--minimise", bad, "y", "--keep", "1", "--title", bad)
        self.assertNotIn("<script", page)
        self.assertIn("&lt;script&gt;", page)
        Tags(page)

    def test_any_number_of_objectives(self):
        for number in range(1, 9):
            for page in (self.of_objectives(number), self.of_objectives(number, keep=60), self.of_objectives(number, plans=1, keep=1)):
                Tags(page)

    def test_values_at_the_limits_of_a_double(self):
        for values in (("-1e300", "1e300"), ("5e-324", "0"), ("-0", "0"), ("1", "1"), ("1e16", "10000000000000002"), (repr(2.0**1000), repr(-(2.0**1000)))):
            page = self.page("x,y\n" + "".join(f"{value},{at}\n" for at, value in enumerate(values)), "--minimise", "x", "y", "--keep", "1")
            Tags(page)
            self.assertNotIn("nan", page)
            self.assertNotIn("inf", page.lower().replace("infeasible", ""))

    def test_the_same_table_gives_the_same_page(self):
        self.assertEqual(self.sample(), self.sample())

    def test_a_table_that_choose_did_not_print(self):
        self.sample()
        rows = read(self.path("a.table")).decode().splitlines()
        # two kept plans of the split front exchange their places: the audit cannot tell, since that rests on the draws
        first, second = [at for at, row in enumerate(rows[1:], 1) if int(row.split()[3]) >= 15]
        places = [rows[at].split()[3] for at in (first, second)]
        for at, place in ((first, places[1]), (second, places[0])):
            rows[at] = " ".join(rows[at].split()[:3] + [place])
        self.put("b.table", "\n".join(rows) + "\n")
        self.done("audit", "a.pool", "b.table")
        self.assertIn("is not what choose prints", self.refused("report", "a.pool", "b.table"))

    def test_where_choose_is_not_built_the_page_says_so(self):
        self.sample()
        tool = self.path("clone/stations")
        shutil.copytree(STATIONS, tool)
        self.assertEqual(self.program(tool, "report", "a.pool", "a.table", "--to", "b.html")[0], 0)
        self.assertIn("was not at hand", read(self.path("b.html")).decode())


@unittest.skipIf(browser.CHROMIUM is None, "no Chromium is installed: the page was not looked at in a browser")
class InABrowser(Page):
    def fine(self, width=browser.WIDTH):
        found = browser.measured(self.path("a.html"), width)
        self.assertEqual((found["overlaps"], found["outside"], found["wide"]), ([], [], False))
        return found

    def test_the_measure_finds_faults(self):
        page = self.sample()
        circle = re.search(r'<circle class="kept" cx="([0-9.]+)" cy="([0-9.]+)"', page)
        for added, kind in (('<text x="560" y="200">one</text><text x="565" y="203">two</text>', "overlaps"), ('<text x="930" y="200">too far right</text>', "outside"),
                            (f'<text x="{circle[1]}" y="{circle[2]}">on a mark</text>', "covered")):
            self.put("b.html", page.replace("</svg><figcaption>", added + "</svg><figcaption>"))
            self.assertEqual(len(browser.measured(self.path("b.html"))[kind]), 1, kind)
        self.put("b.html", page.replace("</h1>", '</h1><div style="width:5000px">wide</div>'))
        self.assertTrue(browser.measured(self.path("b.html"))["wide"])

    def test_the_sample(self):
        self.sample()
        found = self.fine()
        self.assertEqual((found["kept"], found["covered"]), (3 * 16 + 1, []))
        self.fine(width=600)
        browser.picture(self.path("a.html"), self.path("a.png"), found["height"])
        width, height = struct.unpack(">II", read(self.path("a.png"))[16:24])
        self.assertEqual((width, height), (browser.WIDTH, found["height"]))
        # a page of one colour has a few kilobytes
        self.assertGreater(os.path.getsize(self.path("a.png")), 100_000)
        self.assertIn(browser.printed(self.path("a.html"), self.path("a.pdf")), range(3, 7))

    def test_other_numbers_of_objectives(self):
        for number in (1, 2, 6, 8):
            self.of_objectives(number)
            self.fine()


if browser.CHROMIUM is None:
    print("No Chromium is installed: the page is not looked at in a browser. On Debian: apt-get install chromium", file=sys.stderr)
