"""The page of a recording, section by section."""

import math
import os
import re

from .drawing import (
    ALARM_COLOUR, LEFT, LINE_COLOUR, NOT_READY_COLOUR, OWN_COLOUR, RIGHT, SHAPES, WIDTH, Palette, Scale, anchor, bar, columns, drawing, folded, key_of, label,
    lasting, line_of, mark, rows_folded, section, stamp, table, text, wide)
from .gathering import MANY
from .glance import glance
from .legs import where_it_went
from .recording import CURVES, RATES
from .rules import known_rules
from .sources import beside_each_other, rows_unsaid, worth_a_look
from .speakers import the_bus, who_spoke
from .style import SCRIPT, STYLE

SHOWN_ROWS = 40
# the rules by which messages, and groups of lines, end before they are whole
ENDS = (
    ("messages that ended unfinished", (11, 14, 16, 17, 19, 21)),
    ("frames of a wrong length, which end an open message", (13, 18)),
    ("lines and groups of lines out of order or too late", (40, 42)),
)


# ---- who was there


def shown_name(name):
    return name if isinstance(name, str) else f"{name:016X}"


def bar_of_holder(addresses, span, scale, end, y, palette):
    is_own = span.value == addresses.own_name
    words = f"{shown_name(span.value)}, from {scale.at(span.begin)}" + ("" if span.end is None else f" to {scale.at(span.end)}")
    colour = NOT_READY_COLOUR if is_own else palette.colour(span.value)
    return bar(scale, span.begin, end if span.end is None else span.end, y, colour, words, "" if is_own else shown_name(span.value))


def bar_of_readiness(span, scale, end, y):
    words = f"the gateway is ready to send, from {scale.at(span.begin)}"
    return bar(scale, span.begin, end if span.end is None else span.end, y, OWN_COLOUR, words, "the gateway, ready to send")


def marks_of(what, series, scale, y):
    return "".join(mark(scale.x(one.moment), y + 8, what, title_of(what, one, scale)) for one in series.in_order())


def title_of(what, one, scale):
    return f"{what} at {scale.at(one.moment)}: {shown_name(one.name)}" + (f", {one.times} times soon after each other" if one.times > 1 else "")


def row_of_address(addresses, address, scale, end, y, palette):
    """The name of an address, its bars and its marks."""
    bars = [bar_of_holder(addresses, span, scale, end, y, palette) for span in addresses.spans[address].list]
    bars += [bar_of_readiness(span, scale, end, y) for span in addresses.ready.list if span.value == address]
    marks = [marks_of(what, addresses.marks[address, what], scale, y) for what in SHAPES if (address, what) in addresses.marks]
    return label(y + 12, f"address {address}") + "".join(bars) + "".join(marks)


def who_was_there(recording, scale):
    addresses, palette = recording.addresses, Palette()
    rows = [address for address in sorted(addresses.spans) if addresses.spans[address].list]
    drawn = "".join(row_of_address(addresses, address, scale, recording.end, 20 + 27 * place, palette) for place, address in enumerate(rows))
    key = "".join(key_of(what) for what in SHAPES if any(kind == what and address in rows for address, kind in addresses.marks))
    events = [(scale.at(moment), address, text(what), f"<code>{shown_name(name)}</code>") for moment, address, what, name in addresses.events]
    more = f"<p>and {addresses.more_events} more</p>" if addresses.more_events else ""
    return section(
        "Who was there",
        "For each address the NAME that held it, worked out from the claims. The gateway's own is light until it may send, and dark from then on.",
        drawing("who held each address", 20 + 27 * len(rows), scale, drawn) + f'<p class="keys">{key}</p>'
        + folded("As a table", table(("At", "Address", "What", "NAME"), events) + more),
    )


# ---- who was heard


def bar_of_device(words, span, scale, y, palette):
    device = span.value
    if device == MANY:
        return bar(scale, span.begin, span.end, y, palette.colour(MANY), MANY, MANY)
    inside = device.label.removeprefix("address ") + (f", {device.rank_text}" if device.rank_text else "")
    title = f"{words}: {device.label} {device.name} {device.rank_text}, from {scale.at(span.begin)} to {scale.at(span.end)}"
    return bar(scale, span.begin, span.end, y, palette.colour((device.label, device.name)), title, inside)


def mark_of_change(change, scale, y):
    moment, better, last = change
    title = f"taken at {scale.at(moment)}: {better} was said last at {scale.at(last)}"
    return mark(scale.x(moment), y + 8, "taken over", title)


def strip_drawn(words, strip, scale, y, palette):
    bars = [bar_of_device(words, span, scale, y, palette) for span in strip.spans.list]
    return label(y + 12, words) + "".join(bars) + "".join(mark_of_change(change, scale, y) for change in strip.worse.in_order())


def rows_of_strip(words, strip, scale):
    return [
        (text(words), text(span.value.label), f"<code>{span.value.name}</code>", text(span.value.rank_text), scale.at(span.begin), scale.at(span.end))
        for span in strip.spans.list
        if span.value != MANY
    ]


def missing_drawn(words, spans, scale, y):
    bars = (bar(scale, span.begin, span.end, y, ALARM_COLOUR, f"{words}: {span.value} from {scale.at(span.begin)} to {scale.at(span.end)}", span.value) for span in spans.list)
    return label(y + 12, words) + "".join(bars)


def rows_missing(recording, scale):
    """When rows under watch weren't said, as the gateway told it."""
    found = [(recording.rows.words[row], spans) for row, spans in sorted(recording.missing.items()) if spans.list]
    if not found:
        return ""
    drawn = "".join(missing_drawn(words, spans, scale, 16 + 26 * place) for place, (words, spans) in enumerate(found))
    rows = [(text(words), scale.at(span.begin), scale.at(span.end)) for words, spans in found for span in spans.list]
    return "<h3>Rows under watch that weren't said</h3>" + drawing("when rows under watch weren't said", 16 + 26 * len(found), scale, drawn) + folded(
        "As a table", table(("Row", "Missing from", "To"), rows))


def who_was_heard(recording, scale):
    palette, strips = Palette(), sorted(recording.strips.items())
    beside = rows_missing(recording, scale) + rows_unsaid(recording) + where_it_went(recording, scale) + worth_a_look(recording, scale) + beside_each_other(recording, scale)
    if not strips:
        return section("Who was heard", "Nothing was said of any row.", beside)
    drawn = "".join(strip_drawn(words, strip, scale, 16 + 26 * place, palette) for place, (words, strip) in enumerate(strips))
    rows = [row for words, strip in strips for row in rows_of_strip(words, strip, scale)]
    return section(
        "Who was heard",
        "For each row the device that was said, with its rank where the configuration lists devices for it; of others the smaller NAME comes first. "
        "No bar where nothing was said for the row's timeout. A triangle stands where a worse device was taken, since the better one had fallen silent "
        "or lost its address.",
        drawing("which device was said in each row", 16 + 26 * len(strips), scale, drawn)
        + folded("As a table", table(("Row", "Device", "NAME", "Rank", "First said", "Last said"), rows)) + beside,
    )


# ---- what was said


def lines_between(points, gap_us, turns):
    """Points in runs: nothing was missing, and no angle went round, between two of one run."""
    runs = []
    for point in points:
        before = runs[-1][-1] if runs else None
        if before is None or point.is_apart or point.begin - before.end > gap_us or (turns and abs(point.first - before.last) > 180):
            runs.append([])
        runs[-1].append(point)
    return runs


def path_of(run, scale, height_of):
    """One run as a path: from point to point, and within each its least and its most."""
    parts = []
    for point in run:
        parts.append((scale.x(point.begin), height_of(point.first)))
        if (point.least, point.most) not in ((point.first, point.last), (point.last, point.first)):
            middle = scale.x((point.begin + point.end) // 2)
            parts.extend([(middle, height_of(point.least)), (middle, height_of(point.most))])
        if point.end > point.begin:
            parts.append((scale.x(point.end), height_of(point.last)))
    return line_of(parts)


def curve_drawn(recording, scale, curve):
    points = recording.curves[curve.title].in_order()
    least, most = min(point.least for point in points), max(point.most for point in points)

    def height_of(value):
        # a value that is always the same stands in the middle
        part = 0.5 if least == most else (value - least) / (most - least)
        return 10 + 70 * (part if curve.downwards else 1 - part)

    runs = lines_between(points, recording.ranks.timeout_us(curve.row), curve.turns)
    path = "".join(path_of(run, scale, height_of) for run in runs)
    ends = (least, most) if curve.downwards else (most, least)
    words = label(43, curve.title, "label strong") + label(58, curve.unit)
    words += label(73, f"always {least:g}", "small") if least == most else label(15, f"{ends[0]:g}", "small") + label(84, f"{ends[1]:g}", "small")
    frame = f'<rect class="frame" x="{LEFT}" y="4" width="{RIGHT - LEFT}" height="82"/>'
    return drawing(curve.title, 90, scale, frame + words + f'<path class="curve" d="{path}"/>')


def track_drawn(recording, row):
    """Where the boat was, north above; a line only from one place to the next one said."""
    points = recording.tracks[row].in_order()
    north, east = [place[0] for _, place, _ in points], [place[1] for _, place, _ in points]
    shrink = max(0.01, math.cos(math.radians(sum(north) / len(north))))
    span = max(max(north) - min(north), (max(east) - min(east)) * shrink) or 0.0001
    middle = (max(north) + min(north)) / 2, (max(east) + min(east)) / 2
    parts, before, gap = [], None, recording.ranks.timeout_us(row)
    for moment, (latitude, longitude), is_apart in points:
        x, y = 587 + 240 * (longitude - middle[1]) * shrink / span, 140 - 240 * (latitude - middle[0]) / span
        is_gap = before is None or is_apart or moment - before[0] > max(gap, 2 * recording.tracks[row].width) or abs(longitude - before[1]) > 180
        parts.append(f"{'M' if is_gap else 'L'}{x:.1f} {y:.1f}" + ("h.1" if is_gap else ""))
        before = (moment, longitude)
    words = label(140, "position", "label strong") + label(155, "north above")
    words += label(25, f"{degrees(max(north), 'N', 'S')}", "small") + label(262, f"{degrees(min(north), 'N', 'S')}", "small")
    foot = f'<text class="small" x="{LEFT}" y="286">{degrees(min(east), "E", "W")} to {degrees(max(east), "E", "W")}</text>'
    foot += f'<text class="small" x="{RIGHT}" y="286" text-anchor="end">{60 * span:.3g} nautical miles from the least to the most; a ring at the first place</text>'
    start = re.match(r"M([\d.-]+) ([\d.-]+)", parts[0])
    ring = f'<circle class="ring" cx="{start.group(1)}" cy="{start.group(2)}" r="5"/>'
    frame = f'<rect class="frame" x="{LEFT}" y="4" width="{RIGHT - LEFT}" height="266"/>'
    body = f'{frame}{words}{foot}<path class="curve" d="{"".join(parts)}"/>{ring}'
    return wide("position", f'<svg viewBox="0 0 {WIDTH} 292" role="img" aria-label="position">{body}</svg>')


def degrees(value, positive, negative):
    tenths = round(abs(value) * 600_000)
    return f"{tenths // 600_000}° {tenths % 600_000 / 10_000:07.4f}' {positive if value >= 0 else negative}"


def what_was_said(recording, scale):
    drawn = [curve_drawn(recording, scale, curve) for curve in CURVES if curve.title in recording.curves]
    drawn += [track_drawn(recording, row) for row in ("position", "gnss") if row in recording.tracks][:1]
    if not drawn:
        return section("What was said", "No sentence with a value that can be drawn went out.", "")
    words = "Values of the sentences that went out. Where none was said for the row's timeout, or one without a value, the line is broken."
    return section("What was said", words, "".join(drawn))


# ---- what was refused


def rules_drawn(recording, scale, known):
    parts, y = [], 8
    for rule, _ in recording.rules.most_common():
        if rule in recording.rule_series:
            parts.append(label(y + 16, f"{rule}, {known[rule][0]}" if rule in known else f"rule {rule}"))
            parts.append(columns(scale, recording.rule_series[rule], y + 20, 18, ALARM_COLOUR))
            y += 27
    return drawing("reports of each rule over time", y, scale, "".join(parts)) if parts else ""


def rule_row(recording, rule, count, known):
    name, cause, cure = known.get(rule, ("", "docs/reports.md tells", ""))
    devices = "<br>".join(f"{text(device)}: {times}" for device, times in recording.rule_devices[rule].most(5))
    lines = ", ".join(f'<a href="#line-{number}">{number}</a>' for number in recording.rule_lines[rule])
    return (rule, text(name), count, devices, text(cause), text(cure), lines)


def what_was_refused(recording, scale):
    if not recording.rules:
        return section("What was refused", "Nothing.", "")
    known = known_rules()
    drawn = rules_drawn(recording, scale, known) if scale is not None else ""
    worst = table(("Device", "Reports"), [(text(device), count) for device, count in recording.devices.most(10)], "devices")
    rows = [rule_row(recording, rule, count, known) for rule, count in recording.rules.most_common()]
    lines = "".join(f'<li id="line-{number}" value="{number}"><code>{text(line)}</code></li>' for number, line in sorted(recording.excerpt.items()))
    return section(
        "What was refused",
        "Reports of each rule over time, the most frequent first; then who they are about, the worst first.",
        drawn + worst + table(("Rule", "Name", "Times", "About", "Cause", "What to do", "First at lines"), rows, "rules")
        + f'<h3>These lines of the recording</h3><ol class="lines">{lines}</ol>',
    )


# ---- how much


def rates_drawn(recording, scale):
    parts, y = [], 6
    for what in RATES:
        series = recording.rates.series(what)
        if series.cells:
            most = max(series.cells.values()) * 1_000_000 / series.width
            parts.append(label(y + 22, what))
            parts.append(label(y + 36, f"at most {most:.4g} a second", "small"))
            parts.append(columns(scale, series, y + 40, 36, LINE_COLOUR))
            y += 50
    return drawing("frames, datagrams and reports over time", y, scale, "".join(parts)) if parts else ""


def heard_row(key, count):
    """A source, a destination and a sentence, or all others together."""
    return (*map(text, key[:2]), f"<code>{text(key[2])}</code>", count) if isinstance(key, tuple) else (text(key), "", "", count)


def how_much(recording, scale):
    names = ("lines of the recording", "frames from the bus", "error frames", "datagrams from the network", "sentences from the network", "ticks",
             "lines that were refused", "empty lines", "frames to the bus", "datagrams to the network", "sentences to the network", "messages said to the network")
    counts = [(name, recording.counts[name]) for name in names]
    counts.append(("reports", sum(recording.rules.values())))
    for name, rules in ENDS:
        counts.append((f"{name} (rules {', '.join(map(str, rules))})", sum(recording.rules[rule] for rule in rules)))
    sentences = [(f"<code>{text(name)}</code>", count) for name, count in recording.sentences.all()]
    heard = [heard_row(key, count) for key, count in recording.heard_sources.all()]
    body = rates_drawn(recording, scale) if scale is not None else ""
    body += table(("What", "How many"), counts, "counts")
    body += folded("Sentences that went out", rows_folded(("Sentence", "How many"), sentences, SHOWN_ROWS)) if sentences else ""
    body += folded("Sentences that came from the network", rows_folded(("Source", "Destination", "Sentence", "How many"), heard, SHOWN_ROWS)) if heard else ""
    return section("How much", "Frames, datagrams and reports, by the second or longer.", body)


# ---- all of it

def summary(recording):
    if recording.begin is None:
        return "Nothing happened: the recording has no frame, no datagram and no tick."
    length, begin = lasting(recording.end - recording.begin), stamp(recording.begin, "%Y-%m-%d %H:%M:%S")
    return f"{recording.counts['lines of the recording']} lines over {length}, from {begin}. All times are those of the recording's own clock, in UTC."


# what fills bars of changes that are too quick to draw
HATCH = (
    '<svg width="0" height="0" style="position:absolute;width:0" aria-hidden="true"><pattern id="hatch" width="6" height="6" patternUnits="userSpaceOnUse" '
    'patternTransform="rotate(45)"><rect width="6" height="6" fill="#ddd"/><rect width="2" height="6" fill="#777"/></pattern></svg>'
)
SECTIONS = ("Who spoke", "What was on the bus", "Who was there", "Who was heard", "What was said", "What was refused", "How much")


def page(recording, capture, config):
    scale = None if recording.begin is None else Scale(recording.begin, recording.end)
    parts = (who_spoke, the_bus, who_was_there, who_was_heard, what_was_said) if scale is not None else (who_spoke,)
    body = "".join(part(recording, scale) for part in (*parts, what_was_refused, how_much))
    times = "" if scale is None else f' data-begin="{scale.begin / 1000}" data-seconds="{scale.length / 1_000_000}" data-days="{scale.has_days:d}"'
    title = f"{text(os.path.basename(capture))}, by {text(os.path.basename(config))}"
    links = "".join(f'<a href="#{anchor(name)}">{name}</a>' for name in SECTIONS if f'id="{anchor(name)}"' in body)
    return (
        '<!DOCTYPE html>\n<html lang="en">\n<head>\n<meta charset="utf-8">\n<meta name="viewport" content="width=device-width">\n'
        f'<link rel="icon" href="data:,">\n<title>{title}</title>\n<style>{STYLE}</style>\n</head>\n<body{times}>\n'
        f'{HATCH}<h1>{title}</h1>\n<p>{summary(recording)}</p>\n{glance(recording, scale)}<nav aria-label="sections">{links}</nav>\n'
        f'{body}\n<output id="moment"></output>\n<script>{SCRIPT}</script>\n</body>\n</html>\n'
    )
