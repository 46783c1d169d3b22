"""Shapes of the page's drawings: time from left to right, what they are of at the left."""

import html
import math
import time

from .gathering import MANY

WIDTH, LEFT, RIGHT = 1000, 190, 985
# where the word for the times of an axis ends, left of its first mark
UTC_END = 125
# colours that those can tell apart who don't see red and green (after Okabe and Ito); white is read on the first one alone, black on all others
COLOURS = ("#0072b2", "#e69f00", "#009e73", "#cc79a7", "#56b4e9", "#d55e00", "#f0e442")
LIGHT_TEXT_ON = COLOURS[:1]
# colours that the style gives, by whether the reader's screen is dark
OWN_COLOUR, NOT_READY_COLOUR, LINE_COLOUR, ALARM_COLOUR, ERROR_COLOUR = "var(--own)", "var(--wait)", "var(--line)", "var(--alarm)", "var(--error)"
LEVELS = 5
# how far a line may pass by a point that it leaves out, in units of a drawing
THIN = 0.4
SECOND_US, MINUTE_US, DAY_US = 1_000_000, 60_000_000, 86_400_000_000
# from one mark of an axis to the next: parts of a second, seconds, minutes, hours, days, and then as many of these as it takes
STEPS_US = (
    *(digit * 10**power for power in range(6) for digit in (1, 2, 5)), *(seconds * SECOND_US for seconds in (1, 2, 5, 10, 15, 30)),
    *(minutes * MINUTE_US for minutes in (1, 2, 5, 10, 15, 30, 60, 120, 180, 360, 720)), *(days * DAY_US for days in (1, 2, 7, 30, 365, 3650, 36500)),
)
# below a drawing there is room for so many times of day, and for so many with parts of a second
MOST_MARKS, MOST_LONG_MARKS = 10, 5
# half of what a character of a mark takes
HALF_CHARACTER = 3.6


def text(value):
    """Any text or bytes as text of a page: what can't be printed is named, and nothing is taken for a tag or a quote."""
    if isinstance(value, bytes):
        value = value.decode("ascii", "backslashreplace")
    shown = "".join(c if c.isprintable() else c.encode("unicode_escape").decode() for c in str(value))
    return html.escape(shown, quote=True)


def lasting(microseconds):
    """How long something lasts, in two units at most."""
    tenths = (microseconds + 50_000) // 100_000
    seconds = tenths // 10
    if seconds < 60:
        return f"{tenths / 10:g} s"
    if seconds < 3600:
        return f"{seconds // 60} min {seconds % 60} s"
    return f"{seconds // 3600:,} h {seconds % 3600 // 60} min"


def counted(number, word):
    return f"{number:,} {word}{'' if number == 1 else 's'}"


class Scale:
    """Where a moment stands in a drawing, and what it is called: its time of day in UTC, by the recording's own clock."""

    def __init__(self, begin, end):
        self.begin, self.length = begin, max(1, end - begin)
        self.has_days = begin // DAY_US != end // DAY_US

    def x(self, moment):
        return LEFT + (RIGHT - LEFT) * (moment - self.begin) / self.length

    def at(self, moment):
        """The time of day to the thousandth, with its date where the recording is of several days."""
        return f"{stamp(moment, '%Y-%m-%d %H:%M:%S' if self.has_days else '%H:%M:%S')}.{moment % SECOND_US // 1000:03d}"

    def marks(self):
        """The moments that stand below a drawing, round ones, with their words."""
        step = next(step for step in STEPS_US if self.length / step <= (MOST_MARKS if step >= SECOND_US else MOST_LONG_MARKS))
        first = -(-self.begin // step) * step
        return [(moment, words_of_mark(moment, step, self.has_days)) for moment in range(first, self.begin + self.length + 1, step)]


def stamp(moment, form):
    return time.strftime(form, time.gmtime(moment // SECOND_US))


def words_of_mark(moment, step, has_days):
    """A round time of day, as long as the step between two needs; a day by its date, at its beginning."""
    if step >= DAY_US or has_days and moment % DAY_US == 0:
        return stamp(moment, "%Y-%m-%d")
    if step >= MINUTE_US:
        return stamp(moment, "%H:%M")
    digits = "" if step >= SECOND_US else f".{moment % SECOND_US:06d}"[: 8 - len(str(step))]
    return stamp(moment, "%H:%M:%S") + digits


class Palette:
    """A colour for each of the things that are drawn, in the order in which they came."""

    def __init__(self):
        self.places = {}

    def colour(self, key):
        if key == MANY:
            return "url(#hatch)"
        return COLOURS[self.places.setdefault(key, len(self.places)) % len(COLOURS)]


def drawing(title, height, scale, body):
    """A drawing over time with its axis below."""
    marks = "".join(mark_drawn(scale.x(moment), height, words) for moment, words in scale.marks())
    axis = f'<line class="axis" x1="{LEFT}" x2="{RIGHT}" y1="{height}" y2="{height}"/><text class="small" x="{UTC_END}" y="{height + 14}" text-anchor="end">UTC</text>'
    cursor = f'<line class="cursor" x1="-9" x2="-9" y1="0" y2="{height}"/>'
    return wide(title, f'<svg class="time" viewBox="0 0 {WIDTH} {height + 20}" role="img" aria-label="{text(title)}">{marks}{body}{axis}{cursor}</svg>')


def mark_drawn(x, height, words):
    """A line through a drawing, and what it stands for below, which doesn't leave the drawing at the right."""
    words_x = min(x, WIDTH - HALF_CHARACTER * len(words))
    line = f'<line class="grid" x1="{x:.1f}" x2="{x:.1f}" y1="0" y2="{height}"/>'
    return f'{line}<text class="small" x="{words_x:.1f}" y="{height + 14}" text-anchor="middle">{words}</text>'


def wide(title, body):
    """What may be wider than a small screen: a box that scrolls, by the keyboard too."""
    return f'<div class="wide" tabindex="0" role="region" aria-label="{text(title)}">{body}</div>'


def label(y, words, kind="label"):
    return f'<text class="{kind}" x="{LEFT - 10}" y="{y:.1f}" text-anchor="end">{text(words)}</text>'


def bar(scale, begin, end, y, colour, title, inside=""):
    """A bar with what it is of; inside stands where it fits."""
    x, width = scale.x(begin), max(1.5, scale.x(end) - scale.x(begin))
    words = ""
    if inside and 7 * len(inside) + 14 < width:
        kind = "light" if colour in LIGHT_TEXT_ON else "own" if colour in (OWN_COLOUR, NOT_READY_COLOUR) else "dark"
        words = f'<text class="inside {kind}" x="{x + 8:.1f}" y="{y + 12}">{text(inside)}</text>'
    return f'<rect class="bar" x="{x:.1f}" y="{y}" width="{width:.1f}" height="16" style="fill:{colour}"><title>{text(title)}</title></rect>{words}'


def columns(scale, series, foot, height, colour, most=None):
    """Counts over time as columns on a foot, one path for all; the greatest one, or one of so many, is as high as there is room."""
    most = most or max(series.cells.values())
    width = max(1.2, (RIGHT - LEFT) * series.width / scale.length - 0.3)
    parts = []
    for place, count in sorted(series.cells.items()):
        x, tall = scale.x(series.moment_of(place)), max(2.0, height * count / most)
        parts.append(f"M{x:.1f} {foot}v-{tall:.1f}h{min(width, max(1.2, RIGHT - x)):.1f}v{tall:.1f}z")
    return f'<path style="fill:{colour}" d="{"".join(parts)}"/>'


def strip(scale, series, foot, height, most, colour):
    """Counts over time in a few steps of height, equal neighbours as one, so that a steady device is a few numbers."""
    runs = []
    for place, count in sorted(series.cells.items()):
        level = -(-LEVELS * count // most)
        if runs and runs[-1][1] == place and runs[-1][2] == level:
            runs[-1][1] = place + 1
        else:
            runs.append([place, place + 1, level])
    parts = []
    for begin, end, level in runs:
        left = scale.x(series.moment_of(begin))
        across, tall = max(1.2, min(RIGHT, scale.x(series.moment_of(end))) - left), height * level / LEVELS
        parts.append(f"M{left:.1f} {foot}v-{tall:.0f}h{across:.1f}v{tall:.0f}z")
    return f'<path style="fill:{colour}" d="{"".join(parts)}"/>'


def thinned(points, off=THIN):
    """The points of a line without those that it passes by so little that nobody sees it: each that is left out lies no further off."""
    kept, before = [points[0]], points[0]
    least, most = -math.inf, math.inf
    for x, y in points[1:]:
        across, up = x - kept[-1][0], y - kept[-1][1]
        if across <= 0 or not least <= up / across <= most:
            if before is not kept[-1]:
                kept.append(before)
            across, up = x - before[0], y - before[1]
            least, most = -math.inf, math.inf
        if across > 0:
            least, most = max(least, (up - off) / across), min(most, (up + off) / across)
        before = (x, y)
    return kept if before is kept[-1] else [*kept, before]


def line_of(points):
    """A path through points; one alone is a dot."""
    found = thinned(points) if len(points) > 1 else [points[0], (points[0][0] + 0.1, points[0][1])]
    return "M" + "L".join(f"{x:.1f} {y:.1f}" for x, y in found)


# what happened to an address: the shape that marks it, around the middle of its bar
SHAPES = {
    "claimed": '<circle r="4" class="hollow"/>',
    "claimed again": '<path d="M0 3v8"/>',
    "taken over": '<path d="M-5-14h10l-5 9z"/>',
    "claimed in vain": '<path d="M-5-14h10l-5 9z" class="hollow"/>',
    "left": '<path d="M-4-4l8 8m0-8l-8 8" stroke-width="2"/>',
    "can't claim": '<path d="M-4-4l8 8m0-8l-8 8" stroke-width="2"/>',
    "claimed with the gateway's own NAME": '<path d="M0-6l6 6l-6 6l-6-6z" class="hollow"/>',
}


def mark(x, y, what, title):
    return f'<g class="mark" transform="translate({x:.1f} {y})">{SHAPES[what]}<title>{text(title)}</title></g>'


def key_of(what):
    top = -16 if "-14" in SHAPES[what] else 0 if "v8" in SHAPES[what] else -7
    return f'<span class="key"><svg viewBox="-7 {top} 14 14"><g class="mark">{SHAPES[what]}</g></svg> {text(what)}</span>'


def table(heads, rows, kind=""):
    """Rows of cells that are text of a page already."""
    head = "".join(f'<th scope="col">{name}' for name in heads)
    body = "".join("<tr>" + "".join(f"<td>{cell}" for cell in row) for row in rows)
    return wide(heads[0], f'<table class="{kind}"><thead><tr>{head}<tbody>{body}</table>')


def section(title, words, body):
    return f'<section id="{anchor(title)}"><h2>{title}</h2><p>{words}</p>{body}</section>'


def anchor(title):
    return title.lower().replace(" ", "-")


def folded(summary, body):
    return f"<details><summary>{summary}</summary>{body}</details>"


def rows_folded(heads, rows, shown, kind=""):
    """A table of which the rows behind the first ones are folded, and none is left out."""
    more = folded(f"and {len(rows) - shown} more", table(heads, rows[shown:], kind)) if len(rows) > shown else ""
    return table(heads, rows[:shown], kind) + more
