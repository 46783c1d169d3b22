"""What each source of a row or of one of its values said: why it wasn't taken, where it stood still or jumped, and how far it lay from the others."""

from bus_names import maker_of

from .drawing import LEFT, RIGHT, Palette, counted, drawing, label, lasting, line_of, rows_folded, table, text
from .speakers import claimed_addresses, rounded

MOST_DRAWN, SHOWN_ROWS = 8, 40
FRAME_TOP, FRAME_BOTTOM = 4, 118


def height_in(least, most):
    """Where a value stands in a frame; one that is always the same stands in the middle."""
    if least == most:
        least, most = least - 1, most + 1
    return lambda value: FRAME_BOTTOM - 6 - (FRAME_BOTTOM - FRAME_TOP - 12) * (value - least) / (most - least)


def source_drawn(points, palette, address, scale, height_of, turns_at):
    """One source as lines from point to point, apart where an angle goes round."""
    runs, before = [], None
    for point in points:
        for moment, value in ((point.begin, point.first), (point.end, point.last)):
            if before is None or turns_at is not None and abs(value - before) > turns_at:
                runs.append([])
            if not runs[-1] or scale.x(moment) > runs[-1][-1][0]:
                runs[-1].append((scale.x(moment), height_of(value)))
            before = value
    path = "".join(map(line_of, runs))
    return f'<path class="curve" style="stroke:{palette.colour(address)}" d="{path}"><title>address {address}</title></path>'


def is_drawn(beside):
    return beside.points is not None and bool(beside.points.cells)


def quantity_drawn(quantity, sources, scale, palette):
    """What each source said of a quantity: in the column at the left its greatest and least value, and the colour of each source."""
    drawn = {address: beside.points.in_order() for address, beside in sorted(sources.items()) if is_drawn(beside)}
    values = [value for points in drawn.values() for point in points for value in (point.first, point.last)]
    height_of = height_in(min(values), max(values))
    parts = [f'<rect class="frame" x="{LEFT}" y="{FRAME_TOP}" width="{RIGHT - LEFT}" height="{FRAME_BOTTOM - FRAME_TOP}"/>']
    parts += [label(14, f"{max(values):.6g}", "small"), label(30, quantity.words, "label strong"), label(44, quantity.unit, "small")]
    parts.append(label(FRAME_BOTTOM, f"{min(values):.6g}", "small"))
    for place, (address, points) in enumerate(drawn.items()):
        y = 59 + 14 * place
        parts.append(f'<line class="curve" style="stroke:{palette.colour(address)}" x1="72" x2="92" y1="{y - 4}" y2="{y - 4}"/>' + label(y, f"address {address}"))
        parts.append(source_drawn(points, palette, address, scale, height_of, 180 if quantity.unit == "degrees" else None))
    return drawing(f"{quantity.words}, as each source said it", FRAME_BOTTOM + 4, scale, "".join(parts))


def maker_at(recording, address):
    name = recording.addresses.holders.get(address)
    return "" if name is None else text(maker_of(name))


def source_row(recording, quantity, address, beside, scale):
    taken = "taken" if beside.taken == beside.times else f"{100 * beside.taken / beside.times:.0f} % taken" if beside.taken else "never taken"
    mean = f"{rounded(beside.sum / beside.compared)} {quantity.unit}" if beside.compared else ""
    most = f"{rounded(beside.most)} {quantity.unit} at {scale.at(beside.most_at)}" if beside.compared else ""
    return text(quantity.words), f"address {address}", maker_at(recording, address), beside.times, taken, mean, most


def beside_each_other(recording, scale):
    """Nothing where each quantity has one source."""
    several, palette = recording.compared.of_several(), Palette()
    if not several:
        return ""
    drawn = [quantity_drawn(quantity, sources, scale, palette) for quantity, sources in several if any(map(is_drawn, sources.values()))]
    rows = [source_row(recording, quantity, address, beside, scale) for quantity, sources in several for address, beside in sorted(sources.items())]
    heads = ("Quantity", "Source", "Maker", "Messages", "Of these", "Mean distance from the one said", "Greatest distance")
    return (
        "<h3>Several sources of one quantity</h3><p>What each of them said, at most four drawn, and how far those that weren't taken lay from the value "
        "that was said last.</p>"
        + "".join(drawn[:MOST_DRAWN]) + rows_folded(heads, rows, SHOWN_ROWS, "sources")
    )


def words_of_rows(recording, rows):
    return text("; ".join(recording.rows.words[row] for row in rows))


def rows_unsaid(recording):
    """The rows that nobody said, with what came of them and why none of it was taken."""
    found = recording.unsaid.not_taken(claimed_addresses(recording.addresses))
    rows = [(words_of_rows(recording, one.rows), f"{one.messages:,}", text(one.why())) for one in found]
    not_there = words_of_rows(recording, recording.unsaid.not_there())
    told = table(("Row", "Messages", "Why none was taken"), rows) if rows else ""
    told += f"<p>No message came of {not_there}.</p>" if not_there else ""
    return f"<h3>Rows that nobody said</h3>{told}" if told else ""


def motion_in_words(moved, scale):
    """How often and how far a value jumped, and where and for how long it stood still: the words behind its source, of each as far as it did."""
    quantity, motion, stood = moved.quantity, moved.motion, moved.stood
    if motion.jumps:
        yield f"jumped {counted(motion.jumps, 'time')}, at most by {rounded(motion.farthest)} {quantity.unit}, at {scale.at(motion.farthest_at)}"
    if stood is not None:
        place = "in one place" if isinstance(stood.value, tuple) else f"at {round(stood.value, 2) + 0:g} {quantity.unit}"
        yield f"stood {place} for {lasting(stood.length())} from {scale.at(stood.begin)}, in {counted(stood.messages, 'message')}"


def worth_a_look(recording, scale):
    """Nothing where no value stood still or jumped."""
    rows = [
        (text(moved.quantity.words), f"address {moved.address}", maker_at(recording, moved.address), text("; ".join(motion_in_words(moved, scale))))
        for moved in recording.compared.worth_a_look()
    ]
    if not rows:
        return ""
    words = (
        "A value that is the same for five minutes may be that of a sensor that hangs. One that moves further within a second than a boat can "
        "may have lost its signal."
    )
    return f"<h3>Values that stood still or jumped</h3><p>{words}</p>" + rows_folded(("Quantity", "Source", "Maker", "What it did"), rows, SHOWN_ROWS)
