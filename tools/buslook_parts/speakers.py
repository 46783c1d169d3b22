"""The sections of the page that say what was on the bus: who spoke, how much, and each message with its pace."""

from bus_names import function_of, maker_of, message_of
from onboard.bus_load import BITS_A_SECOND
from onboard.identifiers import name_text

from .drawing import ALARM_COLOUR, ERROR_COLOUR, LEFT, LINE_COLOUR, RIGHT, columns, drawing, folded, label, lasting, rows_folded, section, strip, table, text

ROW, TALL = 34, 16
MOST_NAMES, MOST_WORDS, MOST_SMALL_WORDS = 3, 24, 27
SHOWN_MESSAGES = 40
# the shares of the bus, in percent, of which one is the top of the drawing
TOPS = (10, 25, 50, 100)
# a gap that is worth a look: so many times the usual time between two, and longer than this
GAP_TIMES, GAP_US = 5, 1_000_000


def names_at(addresses, address):
    """The NAMEs that an address had, in their order."""
    return list(dict.fromkeys(span.value for span in addresses.spans[address].list if isinstance(span.value, int)))


def claimed_addresses(addresses):
    """The addresses that were ever held by a NAME."""
    return {address for address in addresses.spans if names_at(addresses, address)}


def cut(words, most):
    return words if len(words) <= most else words[: most - 1] + "…"


def who(recording, address):
    """An address in two short lines: what it is, and what kind of device."""
    names, product = names_at(recording.addresses, address), recording.bus.speakers[address].product
    if not names:
        return f"{address}", "never claimed"
    model = product["model"] if product and product["model"] else maker_of(names[-1])
    return f"{address} {model}", function_of(names[-1])


def speaker_drawn(recording, address, y, scale):
    strips, speaker = recording.bus.strips, recording.bus.speakers[address]
    words, kind = who(recording, address)
    both = [(strips.series((address, is_claimed)), colour) for is_claimed, colour in ((True, LINE_COLOUR), (False, ALARM_COLOUR))]
    most = max(max(series.cells.values(), default=0) for series, _ in both)
    colour_of_kind = "small" if names_at(recording.addresses, address) else "small alarm"
    parts = [label(y + 13, cut(words, MOST_WORDS), "label strong"), label(y + 27, cut(kind, MOST_SMALL_WORDS), colour_of_kind)]
    parts += [strip(scale, series, y + 26, TALL, most, colour) for series, colour in both if series.cells]
    for silence in speaker.silences.in_order():
        left, right = scale.x(silence.begin), scale.x(silence.end)
        times = f", {silence.times} times" if silence.times > 1 else ""
        title = text(f"address {address} silent from {scale.at(silence.begin)} to {scale.at(silence.end)}{times}")
        parts.append(f'<rect class="silent" x="{left:.1f}" y="{y + 9}" width="{max(2, right - left):.1f}" height="{TALL + 2}"><title>{title}</title></rect>')
    return "".join(parts)


def errors_drawn(recording, scale):
    """The row of error frames, above all others."""
    series = recording.bus.strips.series("errors")
    if not series.cells:
        return []
    kinds = ", ".join(kind for kind, _ in recording.errors.most(3))
    return [label(13, "error frames", "label strong"), label(27, cut(kinds, MOST_SMALL_WORDS), "small"), columns(scale, series, 26, TALL, ERROR_COLOUR)]


def speakers_drawn(recording, scale):
    parts = errors_drawn(recording, scale)
    first = 1 if parts else 0
    order = sorted(recording.bus.speakers)
    for place, address in enumerate(order, first):
        parts.append(speaker_drawn(recording, address, ROW * place, scale))
    return drawing("the frames of each address over time", ROW * (len(order) + first) + 4, scale, "".join(parts))


def speaker_row(recording, address, scale):
    speaker, names = recording.bus.speakers[address], names_at(recording.addresses, address)
    earlier = f"<br>and {len(names) - MOST_NAMES} before" if len(names) > MOST_NAMES else ""
    shown = "<br>".join(f"<code>{name_text(name)}</code>" for name in names[-MOST_NAMES:]) + earlier
    product = {} if speaker.product is None else speaker.product
    products = ", ".join(text(product[part]) for part in ("model", "software", "serial") if product.get(part))
    longest = speaker.longest
    silence = "" if longest is None else f"{lasting(longest.end - longest.begin)} from {scale.at(longest.begin)}"
    claimed = shown or '<span class="never">never claimed</span>'
    unclaimed = f"<b>{speaker.unclaimed}</b>" if speaker.unclaimed else "0"
    makers = (text(maker_of(names[-1])), text(function_of(names[-1]))) if names else ("", "")
    return address, claimed, *makers, products, speaker.frames, unclaimed, scale.at(speaker.first), scale.at(speaker.last), silence


def who_spoke(recording, scale):
    kinds = [(text(kind), count) for kind, count in recording.errors.all()]
    errors = folded("Error frames by their kind", table(("Kind", "How many"), kinds)) if kinds else ""
    if scale is None or not recording.bus.speakers:
        return section("Who spoke", "No frame came from a device.", errors)
    bus = recording.bus
    heads = ("Address", "NAME", "Maker", "Function", "Product", "Frames", "Unclaimed", "First", "Last", "Longest silence")
    rows = [speaker_row(recording, address, scale) for address in sorted(bus.speakers)]
    return section(
        "Who spoke",
        "For each address its frames over time, the higher the more, blue from a device that has claimed its address and orange from one that hasn't. "
        "A dashed box is a silence: five seconds and more without a frame, and ten times as long as is usual for it. "
        "Makers and functions are those of the NAME, and products with their software and serial numbers what PGN 126996 said.",
        speakers_drawn(recording, scale) + table(heads, rows, "speakers") + errors,
    )


def pace_of(message):
    """How often a message came."""
    if message.count < 2 or message.last == message.first:
        return "once" if message.count == 1 else ""
    pace = (message.count - 1) * 1_000_000 / (message.last - message.first)
    return f"{rounded(pace)} a second" if pace >= 0.95 else f"each {rounded(1 / pace)} s"


def rounded(number):
    """Three digits that say something, and no exponent."""
    return f"{float(f'{number:.3g}'):.10g}"


def gap_of(message, scale):
    if message.count < 2:
        return ""
    words = f"{rounded(message.gap / 1_000_000)} s from {scale.at(message.gap_at)}"
    usual = (message.last - message.first - message.gap) / max(1, message.count - 2)
    return f"<b>{words}</b>" if message.gap > max(GAP_US, GAP_TIMES * usual) and message.count > 3 else words


def message_row(source, pgn, message, scale):
    count = f"{message.count} in {message.frames} frames" if message.is_fast else message.count
    return source, pgn, text(message_of(pgn)), count, pace_of(message), gap_of(message, scale)


def load_drawn(recording, scale):
    """The load over time, below a line at a round share of the bus."""
    series = recording.bus.loads.series("bits")
    whole = series.width * BITS_A_SECOND / 1_000_000
    most = 100 * max(series.cells.values()) / whole
    top = next((share for share in TOPS if most <= share), TOPS[-1])
    words = label(28, "load of the bus", "label strong") + label(43, f"at most {most:.3g} %", "small")
    words += label(14, f"{top} %", "small") + label(66, "0", "small")
    line = f'<line class="axis" x1="{LEFT}" x2="{RIGHT}" y1="10" y2="10"/>'
    share = columns(scale, series, 66, 56, LINE_COLOUR, whole * top / 100)
    return drawing(f"load of the bus, at most {most:.3g} percent", 66, scale, words + line + share)


def the_bus(recording, scale):
    bus = recording.bus
    if not bus.messages:
        return ""
    rows = [message_row(source, pgn, message, scale) for source, pgn, message in bus.messages_in_order()]
    heads = ("From", "PGN", "Message", "How many", "How often", "Greatest gap")
    others = f"<p>and {bus.others} frames of other messages, of which there are too many to tell</p>" if bus.others else ""
    return section(
        "What was on the bus",
        "The share of 250 kbit/s that all frames took, by the second or longer, stuff bits as a sample of each message has them; "
        "then each message of each device, with the greatest time between two of them. A fast packet is one message, however many frames it has. "
        "Bold is a gap of more than a second and five times the usual one.",
        load_drawn(recording, scale) + rows_folded(heads, rows, SHOWN_MESSAGES, "messages") + others,
    )
