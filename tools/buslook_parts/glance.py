"""What is worth a look first, in words at the top of the page."""

from .drawing import anchor, counted, lasting, text
from .legs import at_navigation
from .sources import motion_in_words, words_of_rows
from .speakers import claimed_addresses
from .unsaid import by_reasons, few

# of each kind of thing so many stand there
MOST_SILENCES, MOST_MISSING, MOST_REASONS, MOST_MOTIONS = 3, 8, 8, 4


def glance(recording, scale):
    """A list of lines, each of which leads to its section."""
    lines = []
    if recording.counts["error frames"]:
        kinds = ", ".join(f"{text(kind)} {counted(count, 'time')}" for kind, count in recording.errors.most(3))
        lines.append(("Who spoke", f"{counted(recording.counts['error frames'], 'error frame')}: {kinds}"))
    if scale is not None:
        lines += at_the_bus(recording, scale)
        lines += [("Who was heard", line) for line in at_watched_rows(recording, scale) + at_rows(recording) + at_navigation(recording) + at_values(recording, scale)]
    if recording.rules:
        rules = few([rule for rule, _ in recording.rules.most_common()], "")
        lines.append(("What was refused", f"{counted(sum(recording.rules.values()), 'report')}, of rule {rules}"))
    return "<ul>" + "".join(f'<li><a href="#{anchor(title)}">{words}</a>' for title, words in lines) + "</ul>" if lines else ""


def at_the_bus(recording, scale):
    bus, lines = recording.bus, []
    never = sorted(set(bus.speakers) - claimed_addresses(recording.addresses))
    if never:
        lines.append(("Who spoke", f"{few(never)} spoke and never claimed"))
    silences = sorted(((speaker.longest, address) for address, speaker in bus.speakers.items() if speaker.longest), key=lambda one: -one[0].seconds())
    for silence, address in silences[:MOST_SILENCES]:
        lines.append(("Who spoke", f"address {address} said nothing for {lasting(silence.end - silence.begin)} from {scale.at(silence.begin)}"))
    if len(bus.interfaces) > 1:
        names = text(b", ".join(sorted(bus.interfaces)))
        lines.append(("What was on the bus", f"frames of the interfaces {names} are taken for those of one bus: look at each alone"))
    return lines


def at_watched_rows(recording, scale):
    """Rows under watch that weren't said, the one that was missing longest first."""
    found = [(max(spans.list, key=lambda span: span.end - span.begin), row) for row, spans in recording.missing.items() if spans.list]
    found = sorted(found, key=lambda one: (one[0].begin - one[0].end, one[1]))
    lines = [f"{text(recording.rows.words[row])} is under watch, and was missing for {lasting(span.end - span.begin)} from {scale.at(span.begin)}" for span, row in found]
    return lines[:MOST_MISSING] + ([f"and {counted(len(lines) - MOST_MISSING, 'more row')} under watch that {'was' if len(lines) - MOST_MISSING == 1 else 'were'} missing"] if len(lines) > MOST_MISSING else [])


def at_rows(recording):
    """The rows that nobody said: those of the same reasons in one line, and last those of which nothing came."""
    found = by_reasons(recording.unsaid.not_taken(claimed_addresses(recording.addresses)))
    lines = [f"{words_of_rows(recording, one.rows)}: {counted(one.messages, 'message')}, none taken: {text(one.why())}" for one in found[:MOST_REASONS]]
    lines += [f"and {counted(len(found) - MOST_REASONS, 'more row')} that nobody said"] if len(found) > MOST_REASONS else []
    not_there = words_of_rows(recording, recording.unsaid.not_there())
    return lines + ([f"nobody says {not_there}"] if not_there and recording.bus.speakers else [])


def at_values(recording, scale):
    """Values that jumped, the most often first, and values that stood still, the longest first."""
    found = sorted(recording.compared.worth_a_look(), key=lambda one: (-one.motion.jumps, -one.stood_us()))
    lines = [f"{text(one.quantity.words)} of address {one.address} {text(words)}" for one in found for words in motion_in_words(one, scale)]
    return lines[:MOST_MOTIONS] + ([f"and {counted(len(lines) - MOST_MOTIONS, 'more value')} that stood still or jumped"] if len(lines) > MOST_MOTIONS else [])
