"""One page about a table: picture, plans, lines, what is claimed and what is proved. It needs nothing but itself: no script, no network."""

from collections import Counter

from lines import line_count, shares
from listing import WAY, broken
from names import keyed, parameters, setting_text
from picture import BREAKS, DROPPED, KEPT, KEPT_BREAKS, Mark, escaped, picture
from sheet import number_text, value_texts

STYLE = """
:root { --ink: #1c2430; --soft: #5a6675; --rule: #cfd6de; --kept: #0a4f7a; --dropped: #b3541e; --breaks: #6d6d6d; }
* { box-sizing: border-box; }
body { margin: 0 auto; padding: 2rem 1.5rem 3rem; max-width: 62rem; color: var(--ink); background: #fff; font: 16px/1.5 "Segoe UI", "Helvetica Neue", "DejaVu Sans", Arial, sans-serif; }
h1 { margin: 0 0 .3rem; font-size: 1.8rem; line-height: 1.2; overflow-wrap: anywhere; }
h2 { margin: 2.2rem 0 .5rem; padding-top: .6rem; border-top: 2px solid var(--ink); font-size: 1.2rem; }
p { margin: .5rem 0; max-width: 48rem; }
ul { margin: .5rem 0; padding-left: 1.3rem; max-width: 48rem; }
li { margin: .25rem 0; }
code { font: .9em "DejaVu Sans Mono", Menlo, Consolas, monospace; overflow-wrap: anywhere; }
.summary { color: var(--soft); }
figure { margin: 1rem 0 0; }
figcaption { color: var(--soft); font-size: .9rem; }
svg { display: block; width: 100%; height: auto; font: 13px "Segoe UI", "Helvetica Neue", "DejaVu Sans", Arial, sans-serif; fill: var(--ink); }
svg .frame { fill: none; stroke: var(--soft); }
svg .grid { stroke: #e4e8ed; fill: none; }
svg .axis { stroke: var(--ink); fill: none; }
svg .heading { font-weight: 600; }
svg .better { fill: var(--soft); font-size: 12px; }
svg .kept { fill: var(--kept); stroke: #fff; stroke-width: 1.2; }
svg .kept-breaks { fill: var(--kept); stroke: #fff; }
svg .dropped { fill: none; stroke: var(--dropped); stroke-width: 1.7; }
svg .breaks { fill: #fff; stroke: var(--breaks); stroke-width: 1.4; }
svg .place { font-size: 12px; font-weight: 700; fill: var(--kept); paint-order: stroke; stroke: #fff; stroke-width: 3px; }
svg .tick { font-size: 12px; paint-order: stroke; stroke: #fff; stroke-width: 4px; }
svg .lead { stroke: var(--kept); stroke-width: .7; fill: none; }
svg .plan { fill: none; }
svg .kept-line, svg .kept-breaks-line { stroke: var(--kept); stroke-width: 1.8; }
svg .dropped-line { stroke: var(--dropped); stroke-width: .9; stroke-dasharray: 6 3; }
svg .breaks-line { stroke: var(--breaks); stroke-width: .9; stroke-dasharray: 1.5 3.5; }
.wide { overflow-x: auto; }
table { border-collapse: collapse; font-size: .88rem; font-variant-numeric: tabular-nums; }
th, td { padding: .2rem .55rem; text-align: right; border-bottom: 1px solid var(--rule); vertical-align: top; }
th { vertical-align: bottom; border-bottom: 2px solid var(--ink); font-weight: 600; }
th small { display: block; color: var(--soft); font-weight: 400; white-space: nowrap; }
td.text, th.text { text-align: left; }
tbody tr:nth-child(even) { background: #f5f7f9; }
td.bar svg { width: 240px; }
td.bar { padding-top: 0; padding-bottom: 0; vertical-align: middle; }
.bar-whole { fill: var(--kept); }
.bar-split { fill: url(#hatch); stroke: var(--kept); }
.bar-waits { fill: #fff; stroke: var(--dropped); stroke-dasharray: 3 2; }
.key svg { display: inline-block; width: 26px; height: 12px; vertical-align: -1px; }
.checks td { text-align: left; vertical-align: top; }
.checks td:first-child { font-weight: 700; white-space: nowrap; }
@page { size: A4; margin: 14mm; }
@media print {
  body { padding: 0; max-width: none; font-size: 10.5pt; }
  h2 { break-after: avoid; margin-top: 1.4rem; }
  figure, tr, li { break-inside: avoid; }
  thead { display: table-header-group; }
  .wide { overflow: visible; }
  figure > svg { width: 88%; }
  table { font-size: 8.5pt; }
  th, td { padding: .1rem .4rem; }
  * { -webkit-print-color-adjust: exact; print-color-adjust: exact; }
}
"""

HATCH = ('<svg width="0" height="0" style="position:absolute" aria-hidden="true"><defs><pattern id="hatch" width="5" height="5" patternUnits="userSpaceOnUse" '
         'patternTransform="rotate(45)"><rect width="5" height="5" fill="#fff"/><rect width="2" height="5" fill="#0a4f7a"/></pattern></defs></svg>')
BAR_WIDTH = 240


def counted(number, what):
    return f"{number:,} {what}" + ("" if number == 1 else "s")


def joined(texts):
    return texts[0] if len(texts) == 1 else ", ".join(texts[:-1]) + " and " + texts[-1]


class Facts:
    """What the page tells of a table, counted once."""

    def __init__(self, pool, table):
        self.kept = table.in_order()
        self.dropped = table.dropped()
        self.padded = table.kept - len(self.kept)
        self.lines = line_count(len(pool.marks), pool.divisions)
        sizes = Counter(row.front for row in table.rows)
        taken = Counter(row.front for row in self.kept)
        self.whole = [front for front in sorted(sizes) if taken[front] == sizes[front]]
        # the front of which some plans are kept and some dropped
        self.split = next((front for front in sorted(sizes) if 0 < taken[front] < sizes[front]), None)
        self.split_size, self.split_kept = sizes[self.split], taken[self.split]
        self.whole_plans = sum(sizes[front] for front in self.whole)
        self.from_whole = Counter(row.line for row in self.kept if row.front != self.split)
        self.from_split = Counter(row.line for row in self.kept if row.front == self.split)
        self.waiting = Counter(row.line for row in self.dropped if row.front == self.split)
        self.squares = sum(n * n for n in (self.from_whole + self.from_split).values())


# ---- tables


def cell(text, kind="td", left=False):
    return f'<{kind}{" class=text" if left else ""}>{text}</{kind}>'


def table_of(heads, rows, classes=""):
    """A table; a head and each cell is its HTML and whether it stands at the left."""
    head = "".join(cell(text, "th", left) for text, left in heads)
    body = "".join("<tr>" + "".join(cell(text, left=left) for text, left in row) + "</tr>" for row in rows)
    return f'<div class="wide"><table{f" class={classes}" if classes else ""}><thead><tr>{head}</tr></thead><tbody>{body}</tbody></table></div>'


def plan_table(rows, pool, names, with_place):
    """Plans with their values, settings, front and line."""
    keys = parameters(pool)
    breaking = any(broken(pool.plans[row.index], names) for row in rows)
    heads = ([("place", False)] if with_place else []) + [(escaped(names.label or "plan"), True)]
    heads += [(escaped(names.number), False)] if names.number else []
    heads += [(f"{escaped(heading)}<small>{WAY[mark]}</small>", False) for heading, mark in zip(names.objectives, pool.marks)]
    heads += [(f"{escaped(heading)}<small>setting</small>", False) for heading in names.settings]
    heads += [("front", False), ("line", False), ("index", False)] + ([("breaks", True)] if breaking else [])
    values = value_texts(pool)
    lines = []
    for row in rows:
        plan = pool.plans[row.index]
        own = keyed(plan)
        line = ([(str(row.place), False)] if with_place else []) + [(escaped(names.labels[row.index]), True)]
        line += [(str(plan.number), False)] if names.number else []
        line += [(text, False) for text in values[row.index]]
        line += [(escaped(setting_text(key[1], own[key], names.choices[at], number_text)) if key in own else "", False) for at, key in enumerate(keys)]
        line += [(str(row.front), False), ("-" if row.line is None else str(row.line), False), (str(row.index), False)]
        lines.append(line + ([(escaped(", ".join(broken(plan, names))), True)] if breaking else []))
    return table_of(heads, lines)


# ---- picture


def kind_of(row, breaks):
    if row.place:
        return KEPT_BREAKS if breaks else KEPT
    return BREAKS if breaks else DROPPED


def marks_of(pool, names, table):
    marks = []
    for row in table.rows:
        plan = pool.plans[row.index]
        values = ", ".join(f"{heading} {number_text(x)}" for heading, x in zip(names.objectives, plan.values))
        state = f"kept at place {row.place}" if row.place else "dropped"
        breaks = broken(plan, names)
        about = f"{names.labels[row.index]}: {values}; front {row.front}, {state}" + (f"; breaks {', '.join(breaks)}" if breaks else "")
        marks.append(Mark(kind_of(row, bool(breaks)), row.place, plan.values, about))
    return marks


def figure(pool, names, table):
    drawn = picture(marks_of(pool, names, table), names.objectives, pool.marks)
    caption = "Each plan by its measured values."
    if len(pool.marks) > 3:
        caption = "Each plan is a line across the objectives, the better end of each on top. Kept: solid, with dots; dropped: dashed; dropped and breaking a constraint: dotted."
    if 'class="place"' in drawn:
        caption += " A number at a kept plan is its place in the list below" + ("." if len(pool.marks) > 3 else "; where plans crowd, some go without.")
    return f"<figure>{drawn}<figcaption>{caption}</figcaption></figure>"


# ---- lines


def bar(parts, unit):
    """Counts beside each other, each in its own pattern."""
    x, out = 1.0, []
    for kind, count in parts:
        if count:
            out.append(f'<rect class="bar-{kind}" x="{x:.1f}" y="2" width="{count * unit:.1f}" height="12"/>')
            x += count * unit + 2
    return f'<svg viewBox="0 0 {BAR_WIDTH} 16" aria-hidden="true">{"".join(out)}</svg>'


def key(kind):
    return f'<span class="key"><svg viewBox="0 0 26 12" aria-hidden="true"><rect class="bar-{kind}" x="1" y="1" width="24" height="10"/></svg></span>'


def line_section(pool, names, facts):
    """How many plans each reference line has."""
    if facts.split is None:
        return "<p>No front was split, so no plan needed a reference line, and the table has none.</p>"
    all_shares = shares(len(pool.marks), pool.divisions)
    lines = sorted(facts.from_whole.keys() | facts.from_split.keys() | facts.waiting.keys())
    most = max(facts.from_whole[line] + facts.from_split[line] + facts.waiting[line] for line in lines)
    unit = min(16.0, (BAR_WIDTH - 8) / most)
    heads = [("line", False)] + [(f"{escaped(heading)}<small>share given away</small>", False) for heading in names.objectives]
    heads += [("kept", False), ("waiting", False), ("", True)]
    rows = []
    for line in lines:
        whole, split, waits = facts.from_whole[line], facts.from_split[line], facts.waiting[line]
        parts = [(f"{share}/{pool.divisions}" if share else "0", False) for share in all_shares[line]]
        rows.append([(str(line), False), *parts, (str(whole + split), False), (str(waits), False), (bar([("whole", whole), ("split", split), ("waits", waits)], unit), True)])
    body = table_of(heads, rows).replace("<td class=text><svg", '<td class="bar"><svg')
    others = facts.lines - len(lines)
    rest = f" The other {counted(others, 'line')} {'has' if others == 1 else 'have'} none of either." if others else ""
    return (f"<p>Each plan belongs to the nearest of {counted(facts.lines, 'reference line')}. A line says how what is given away is shared among the objectives: a plan near a "
            f"line with 0 for an objective gives away little of it. {key('whole')} kept with a whole front, {key('split')} kept from the split front, {key('waits')} "
            f"dropped from the split front, still waiting.{rest}</p>{body}")


# ---- words


def claims(pool, names, facts):
    """What the table claims, in plain words and this table's numbers."""
    better = (f"Better means: nowhere worse and somewhere better, of {joined([escaped(heading) for heading in names.objectives])}." if len(names.objectives) > 1
              else f"Better means: a better value of {escaped(names.objectives[0])}.")
    if names.constraints:
        better += " A plan that keeps all constraints is better than one that breaks any; of two that break some, the one that breaks them by less in sum."
    if facts.padded:
        return [f"The pool has {counted(len(facts.kept), 'plan')} and the list {len(facts.kept) + facts.padded} places. Every plan is kept, the better fronts first; the places "
                "left are filled with plans drawn again, which the table does not list. The demand that is proved below speaks of pools of at least the size wanted."]
    out = [f"Kept are exactly {counted(len(facts.kept), 'plan')}, each once, in the order shown.",
           f"None of the {counted(len(facts.dropped), 'dropped plan')} is better than a kept one. {better}" if facts.dropped else "No plan is dropped."]
    if facts.split is None:
        if facts.dropped:
            out.append("The plans are sorted into fronts: front 0 has those that no plan is better than, each next front those that no plan of the rest is better than. "
                       "The first fronts fill the list exactly, each kept whole.")
        return out
    before = f"The fronts before front {facts.split} ({counted(facts.whole_plans, 'plan')}) are kept whole. " if facts.whole_plans else ""
    out.append("The plans are sorted into fronts: front 0 has those that no plan is better than, each next front those that no plan of the rest is better than. "
               f"{before}Front {facts.split} has {counted(facts.split_size, 'plan')} for {counted(facts.split_kept, 'open place')}: it is split.")
    out.append(f"These {counted(facts.split_kept, 'place')} are shared out as evenly over the reference lines as can be: squaring the number of kept plans of each line and adding up "
               f"gives {facts.squares}, and no other choice of {facts.split_kept} from front {facts.split} gives less.")
    return out


NOT_CLAIMED = ("It does not claim that the measurements are right, or that a dropped plan is a bad one: a dropped plan of the split front may be as good as one "
               "that was kept, and gave way so that the kept ones differ more.")
PROVED = ("That the table which the program <code>choose</code> works out holds to these claims is proved, for every pool file that it accepts with at least as many plans as are wanted: "
          "theorem <code>demand3</code> in <code>crates/demand3_laws/proofs/Accepted.antt</code>, of the record <code>Demand3</code> in "
          "<code>crates/model/specs/Demand3.antt</code>, which the call's promise <code>Chooses</code> carries. What a reader still has to believe, the checker and the compiler "
          "first, stands in <code>README.md</code> under \"What is assumed\". Not proved is what stands around the program: how the spreadsheet was read, this page, and the "
          "check below.")
AGAIN = "The program was run again on the pool file when this page was written, and printed the same table."
NOT_AGAIN = "The program was not at hand when this page was written, so that the table was taken as it was given; the proof speaks of tables that the program printed."


def items(texts):
    return "<ul>" + "".join(f"<li>{text}</li>" for text in texts) + "</ul>"


def check_table(found):
    rows = [[(check.result, True), (escaped(check.asked) + (f" <small>({escaped(check.found)})</small>" if check.found else ""), True)] for check in found.checks]
    return table_of([("result", True), ("what was asked", True)], rows, "checks") + "".join(f"<p>{escaped(note)}</p>" for note in found.notes)


def page(pool, names, table, found, title, repeated):
    """The page's HTML."""
    facts = Facts(pool, table)
    goals = joined([f"{'more' if mark else 'less'} {escaped(heading)}" for heading, mark in zip(names.objectives, pool.marks)])
    limits = f", under {counted(len(names.constraints), 'constraint')}" if names.constraints else ""
    dropped = f"<h2>Dropped plans</h2>{plan_table(facts.dropped, pool, names, False)}" if facts.dropped else ""
    return f"""<!DOCTYPE html>
<html lang="en">
<head>
<meta charset="utf-8">
<meta name="viewport" content="width=device-width, initial-scale=1">
<title>{escaped(title)}: kept plans</title>
<style>{STYLE}</style>
</head>
<body>
{HATCH}
<h1>{escaped(title)}</h1>
<p class="summary">{len(facts.kept)} of {counted(len(table.rows), 'plan')} kept. Wanted: {goals}{limits}.</p>
{figure(pool, names, table)}
<h2>Kept plans, in order</h2>
{plan_table(facts.kept, pool, names, True)}
<h2>What the table claims</h2>
{items(claims(pool, names, facts))}
<p>{NOT_CLAIMED}</p>
<h2>Plans on each reference line</h2>
{line_section(pool, names, facts)}
{dropped}
<h2>What is proved, and what was checked</h2>
<p>{PROVED}</p>
<p>{AGAIN if repeated else NOT_AGAIN}</p>
<p>Beside the proof, table and pool file were compared by brute force, by a program that shares nothing with the one that chose (<code>stations/audit.py</code>):</p>
{check_table(found)}
<h2>To do it again</h2>
<p>The pool file has the SHA-256 digest <code>{names.pool}</code>: {counted(len(table.rows), 'plan')}, {counted(len(pool.marks), 'objective')}, {counted(pool.size, 'place')},
{counted(pool.divisions, 'division')} ({counted(facts.lines, 'line')}), seed {pool.seed}. <code>target/bin/choose</code> prints the table for it.</p>
</body>
</html>
"""
