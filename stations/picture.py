"""The picture of a pool: kept and dropped plans, told apart by shape and line as well as by colour. Hand-written SVG."""

import html
import math
from dataclasses import dataclass

WIDTH = 940
FONT = 13
LETTER = 0.56 * FONT  # what a letter takes, about
MOST_NUMBERED = 60  # of more kept plans none is numbered: there is no room for it
KEPT, DROPPED, BREAKS, KEPT_BREAKS = "kept", "dropped", "breaks", "kept-breaks"
MEANING = {
    KEPT: "kept",
    DROPPED: "dropped",
    BREAKS: "dropped; breaks a constraint",
    KEPT_BREAKS: "kept, though it breaks a constraint",
}
# dropped first, so that kept plans lie on top
DRAWN = (BREAKS, DROPPED, KEPT_BREAKS, KEPT)


@dataclass
class Mark:
    """A plan as it is drawn."""

    kind: str
    place: int  # 0 if it was dropped
    values: list
    about: str  # shown where a pointer rests on it


def escaped(text):
    return html.escape("".join(c if c.isprintable() else "\N{REPLACEMENT CHARACTER}" for c in text))


def shortened(text, width):
    """The text, cut where it is wider than so many pixels."""
    most = max(4, int(width / LETTER))
    return text if len(text) <= most else text[:most - 1] + "\N{HORIZONTAL ELLIPSIS}"


# ---- axes


def step_of(span, wanted):
    """A round step that parts a span into about so many."""
    raw = span / wanted
    power = 10.0 ** math.floor(math.log10(raw))
    return next(power * times for times in (1, 2, 2.5, 5, 10) if power * times >= raw * 0.999)


def tick_text(x, step):
    size = max(abs(x), step)
    if not 1e-4 <= step or size >= 1e6:
        return f"{x:.3g}"
    decimals = max(0, -math.floor(math.log10(step)))
    while decimals < 8 and abs(round(step, decimals) - step) > step * 1e-6:
        decimals += 1
    return f"{x + 0.0:.{decimals}f}"


class Axis:
    """The range of an objective, with a little room at both ends, and its ticks."""

    def __init__(self, heading, values, maximised=None, wanted=5):
        low, high = min(values), max(values)
        # halves, since the difference of the greatest numbers may be none
        room = (high / 2 - low / 2) * 0.12 or abs(high) * 0.05 or 0.5
        self.heading = heading
        self.maximised = maximised
        self.low, self.high = low - room, high + room
        step = step_of(self.high - self.low, wanted)
        first = math.ceil(self.low / step)
        count = math.floor(self.high / step) - first + 1
        self.ticks = [(first + at) * step for at in range(min(count, 20))]
        self.texts = [tick_text(0.0 if abs(tick) < step / 2 else tick, step) for tick in self.ticks]

    def part(self, x):
        """Where a value lies, from 0 to 1."""
        return (x - self.low) / (self.high - self.low)

    def better(self):
        return "" if self.maximised is None else ", more is better" if self.maximised else ", less is better"


# ---- marks


def shape(kind, x, y):
    if kind == DROPPED:
        return f'<path class="dropped" d="M{x - 4:.1f} {y - 4:.1f}l8 8m0 -8l-8 8"/>'
    if kind in (BREAKS, KEPT_BREAKS):
        return f'<path class="{kind}" d="M{x:.1f} {y - 6:.1f}l5.6 9.6h-11.2z"/>'
    return f'<circle class="kept" cx="{x:.1f}" cy="{y:.1f}" r="5.5"/>'


def words(x, y, text, more=""):
    return f'<text x="{x:.1f}" y="{y:.1f}"{" " + more if more else ""}>{escaped(text)}</text>'


def overlap(a, b):
    return a[0] < b[2] and b[0] < a[2] and a[1] < b[3] and b[1] < a[3]


def around(x, y, width, height):
    """Boxes about a point, in the order in which they are tried."""
    for distance in (8, 14, 21):
        for dx, dy in ((1, -0.6), (1, 0.6), (-1, -0.6), (-1, 0.6), (0, -1), (0, 1), (1, 0), (-1, 0)):
            middle_x, middle_y = x + dx * (distance + width / 2), y + dy * (distance + height / 2)
            yield middle_x - width / 2, middle_y - height / 2, middle_x + width / 2, middle_y + height / 2


def place_labels(points, frame):
    """A box for the number of each kept plan, clear of marks and other numbers and within the frame; none where there is no room."""
    boxes = []
    if sum(mark.place > 0 for mark, _, _ in points) > MOST_NUMBERED:
        return boxes
    taken = [(x - 6.5, y - 6.5, x + 6.5, y + 6.5) for _, x, y in points]
    for mark, x, y in points:
        if not mark.place:
            continue
        width = 8 * len(str(mark.place)) + 1
        free = (box for box in around(x, y, width, 12) if frame[0] <= box[0] and box[2] <= frame[2] and frame[1] <= box[1] and box[3] <= frame[3]
                and not any(overlap(box, other) for other in taken))
        box = next(free, None)
        if box:
            taken.append(box)
            boxes.append((mark, x, y, box))
    return boxes


# ---- scatter


def grid(across, up, left, top, width, height):
    """A frame with its ticks and headings."""
    out = [f'<rect class="frame" x="{left}" y="{top}" width="{width}" height="{height}"/>']
    bottom = top + height
    for tick, text in zip(across.ticks, across.texts):
        x = left + width * across.part(tick)
        out.append(f'<path class="grid" d="M{x:.1f} {top}v{height}"/>' + words(x, bottom + 17, text, 'text-anchor="middle"'))
    for tick, text in zip(up.ticks, up.texts):
        y = bottom - height * up.part(tick)
        out.append(f'<path class="grid" d="M{left} {y:.1f}h{width}"/>' + words(left - 6, y + 4, text, 'text-anchor="end"'))
    out.append(words(left + width / 2, bottom + 37, shortened(across.heading, width - 110) + across.better(), 'text-anchor="middle" class="heading"'))
    middle = top + height / 2
    turned = f'text-anchor="middle" class="heading" transform="rotate(-90 {left - 50} {middle})"'
    out.append(words(left - 50, middle, shortened(up.heading, height - 110) + up.better(), turned))
    return out


def panel(marks, across, up, columns, left, top, width, height):
    """One scatter picture; `columns` are the places of its two values."""
    out = grid(across, up, left, top, width, height)
    points = []
    for kind in DRAWN:
        for mark in marks:
            if mark.kind == kind:
                x = left + width * across.part(mark.values[columns[0]])
                y = top + height * (1 - up.part(mark.values[columns[1]]))
                points.append((mark, x, y))
    for mark, x, y, box in place_labels(points, (left, top, left + width, top + height)):
        label_x, label_y = (box[0] + box[2]) / 2, (box[1] + box[3]) / 2
        if math.hypot(label_x - x, label_y - y) > 22:
            out.append(f'<path class="lead" d="M{x:.1f} {y:.1f}L{label_x:.1f} {label_y:.1f}"/>')
        points.append((mark, label_x, label_y, True))
    for mark, x, y, *label in points:
        if label:
            out.append(words(x, y + 4, str(mark.place), 'text-anchor="middle" class="place"'))
        else:
            out.append(f"<g><title>{escaped(mark.about)}</title>{shape(mark.kind, x, y)}</g>")
    return out


def sample_line(kind, x, y):
    """A short piece of a plan's line, as the parallel axes have it."""
    return f'<path class="plan {kind}-line" d="M{x - 14:.1f} {y:.1f}h28"/>' + (shape(kind, x, y) if kind in (KEPT, KEPT_BREAKS) else "")


def legend(marks, left, top, sample=shape):
    """What the marks mean, of those that occur."""
    out = []
    for kind in (KEPT, KEPT_BREAKS, DROPPED, BREAKS):
        count = sum(mark.kind == kind for mark in marks)
        if count:
            out.append(sample(kind, left + 14, top) + words(left + 36, top + 4.5, f"{MEANING[kind]} ({count})"))
            top += 24
    return out


def framed(parts, height, about):
    return f'<svg viewBox="0 0 {WIDTH} {height}" role="img" aria-label="{escaped(about)}">' + "".join(parts) + "</svg>"


def scatter(marks, axes, columns, about):
    parts = panel(marks, axes[columns[0]], axes[columns[1]], columns, 76, 10, 560, 400)
    return framed(parts + legend(marks, 664, 30), 460, about)


def pairs(marks, axes, about):
    """Each objective with each other; the legend stands where no pair does."""
    parts = panel(marks, axes[0], axes[1], (0, 1), 76, 10, 380, 300)
    parts += panel(marks, axes[0], axes[2], (0, 2), 76, 372, 380, 300)
    parts += panel(marks, axes[1], axes[2], (1, 2), 546, 372, 380, 300)
    return framed(parts + legend(marks, 546, 40), 720, about)


# ---- parallel coordinates


def wrapped(text, width):
    """A heading in at most two lines of about so many pixels."""
    most = max(4, int(width / LETTER))
    lines = [""]
    for word in text.split():
        if lines[-1] and len(lines[-1]) + 1 + len(word) > most and len(lines) < 2:
            lines.append(word)
        else:
            lines[-1] = (lines[-1] + " " + word).strip()
    return [shortened(line, width) for line in lines]


def spread(wanted, low, high, gap):
    """Heights as near as may be to those wanted, in rising order and no closer than the gap."""
    out = []
    for y in wanted:
        out.append(max(y, out[-1] + gap) if out else max(y, low))
    limit = high
    for at in range(len(out) - 1, -1, -1):
        out[at] = min(out[at], limit)
        limit = out[at] - gap
    return out


def parallel(marks, axes, about):
    """An upright axis for each objective, the better end on top; a plan is a line across them."""
    left, right, top, height = 70, WIDTH - 80, 64, 380
    bottom, gap = top + height, (right - left) / (len(axes) - 1)

    def at(axis, value):
        part = axes[axis].part(value)
        return left + gap * axis, bottom - height * (part if axes[axis].maximised else 1 - part)

    out = []
    for kind in DRAWN:
        for mark in marks:
            if mark.kind == kind:
                points = [at(axis, value) for axis, value in enumerate(mark.values)]
                path = "M" + "L".join(f"{x:.1f} {y:.1f}" for x, y in points)
                dots = "".join(shape(kind, x, y) for x, y in points) if mark.place else ""
                out.append(f'<g><title>{escaped(mark.about)}</title><path class="plan {kind}-line" d="{path}"/>{dots}</g>')
    for place, axis in enumerate(axes):
        x = left + gap * place
        out.append(f'<path class="axis" d="M{x:.1f} {top}V{bottom}"/>')
        for tick, text in zip(axis.ticks, axis.texts):
            y = at(place, tick)[1]
            out.append(f'<path class="axis" d="M{x - 4:.1f} {y:.1f}h4"/>' + words(x - 9, y + 4, text, 'text-anchor="end" class="tick"'))
        lines = wrapped(axis.heading, gap - 10) + [axis.better()[2:]]
        for line, text in enumerate(lines):
            out.append(words(x, top - 12 - 15 * (len(lines) - 1 - line), text, f'text-anchor="middle" class="{"better" if line == len(lines) - 1 else "heading"}"'))
    kept = sorted((at(len(axes) - 1, mark.values[-1])[1], mark.place) for mark in marks if mark.place)
    if len(kept) * 13 <= height:  # fewer than 30
        for y, (wanted, place) in zip(spread([y for y, _ in kept], top, bottom, 13), kept):
            out.append(f'<path class="lead" d="M{right + 7:.1f} {wanted:.1f}L{right + 24:.1f} {y:.1f}"/>' + words(right + 28, y + 4, str(place), 'class="place"'))
    rows = len({mark.kind for mark in marks})
    return framed(out + legend(marks, left, bottom + 30, sample_line), bottom + 30 + 24 * rows, about)


def picture(marks, headings, directions):
    """The picture of plans with any number of objectives."""
    kept = sum(mark.place > 0 for mark in marks)
    about = f"{len(marks)} plans by {', '.join(headings)}: {kept} kept, {len(marks) - kept} dropped. The tables below have every number."
    axes = [Axis(heading, [mark.values[at] for mark in marks], direction) for at, (heading, direction) in enumerate(zip(headings, directions))]
    if len(axes) == 1:
        # by the order of the sheet
        turned = [Mark(mark.kind, mark.place, [at, mark.values[0]], mark.about) for at, mark in enumerate(marks)]
        return scatter(turned, [Axis("index of the plan", range(len(marks))), axes[0]], (0, 1), about)
    if len(axes) == 2:
        return scatter(marks, axes, (0, 1), about)
    if len(axes) == 3:
        return pairs(marks, axes, about)
    return parallel(marks, axes, about)
