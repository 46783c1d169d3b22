"""What a gateway with `nav.group` makes of a bus of plotters, line by line, worked out from the whole history at each event.

Nothing is kept for later but the messages themselves, so this shares no idea with the program. Besides the lines of the navigation it has all that the
gateway writes of such a bus: its claims, its reports, the row's own XTE, and plain sentences.
"""

import functools
import operator
from typing import NamedTuple

from plotters_heard import ALL, CLAIM, ERROR, FIRST_OWN, LEAST_CLAIM, LEG, OWN_NAME, Heard

SFI, ROW_GROUP, GROUP, PLAIN_GROUP = "II0001", "NAVD", "NAVG", "PLAN"
HEADER = b"UdPbC\0"
MOST_COUNT = 999
MILLISECOND = 1_000
TRUE, MAGNETIC = 0, 1
TERMINATED = 1
# the fractions of a tenth of a degree, a thousandth and a tenth of a mile, a hundredth of a knot, and a ten-thousandth of a minute
DEGREES, MILES, TENTHS_OF_MILES, KNOTS, MINUTES = (180000000000000, 3141592653589793), (5, 926), (1, 18520), (900, 463), (3, 50)
TURN, DEGREE, FULL_MINUTE = 3_600, 600_000, 10_000
MOST_ERROR, MOST_DISTANCE = 9_990, 9_999
LONGEST_ERROR, LONGEST_LATITUDE, LONGEST_LONGITUDE, LONGEST_SPEED = 18_520_000, 900_000_000, 1_800_000_000, 32_764
MOST_BEARING, MOST_NUMBER, MOST_U32 = 62_832, 99_999, 2**32 - 4


def number(payload, first, width, least, most):
    """A field of a message; none if it isn't available, for which its three largest values stand and what is out of its range."""
    value = int.from_bytes(payload[first : first + width], "little", signed=least < 0)
    return value if least <= value <= most else None


def error_of(payload):
    """How far the boat is off the line, in centimetres, above 0 if it has to steer to port."""
    return number(payload, 2, 4, -LONGEST_ERROR, LONGEST_ERROR)


class Course(NamedTuple):
    """What a leg says, with the error that belongs to it."""

    error: int
    is_magnetic: bool
    has_passed: bool
    has_entered: bool
    distance: int
    leg_bearing: int
    bearing: int
    origin: int
    destination: int
    latitude: int
    longitude: int
    speed: int


def course_of(payload, error):
    flags = payload[5]
    most_bearing = MOST_BEARING if flags & 3 in (TRUE, MAGNETIC) else -1
    return Course(
        error, flags & 3 == MAGNETIC, flags >> 2 & 3 == 1, flags >> 4 & 3 == 1, number(payload, 1, 4, 0, MOST_U32),
        number(payload, 12, 2, 0, most_bearing), number(payload, 14, 2, 0, most_bearing), number(payload, 16, 4, 0, MOST_NUMBER),
        number(payload, 20, 4, 0, MOST_NUMBER), number(payload, 24, 4, -LONGEST_LATITUDE, LONGEST_LATITUDE),
        number(payload, 28, 4, -LONGEST_LONGITUDE, LONGEST_LONGITUDE), number(payload, 32, 2, -LONGEST_SPEED, LONGEST_SPEED))


# ---- texts


def rounded(raw, fraction):
    """The nearest whole number of a raw value times a fraction; a tie goes away from zero."""
    above, below = fraction
    nearest = (2 * abs(raw) * above + below) // (2 * below)
    return -nearest if raw < 0 else nearest


def decimal(count, places):
    digits = str(abs(count)).rjust(places + 1, "0")
    return f"{'-' if count < 0 else ''}{digits[:-places]}.{digits[-places:]}"


def bearing_text(raw):
    return "" if raw is None else decimal(rounded(raw, DEGREES) % TURN, 1)


def error_texts(raw, most):
    """The error and the side to steer to; the side follows the rounded value."""
    if raw is None:
        return "", ""
    thousandths = rounded(raw, MILES)
    return decimal(min(abs(thousandths), most), 3), "L" if thousandths >= 0 else "R"


def coordinate(raw, digits, letters):
    count = rounded(raw, MINUTES)
    degrees, rest = divmod(abs(count), DEGREE)
    minutes, parts = divmod(rest, FULL_MINUTE)
    return f"{degrees:0{digits}d}{minutes:02d}.{parts:04d}", letters[count < 0]


def position_texts(course):
    if course.latitude is None or course.longitude is None:
        return ["", "", "", ""]
    return [*coordinate(course.latitude, 2, "NS"), *coordinate(course.longitude, 3, "EW")]


def letter(is_so):
    return "A" if is_so else "V"


def has_all(*values):
    return all(value is not None for value in values)


def shown(value):
    return "" if value is None else str(value)


def rmb(talker, course):
    is_good = has_all(course.error, course.distance, course.bearing, course.latitude, course.longitude)
    distance = "" if course.distance is None else decimal(min(rounded(course.distance, TENTHS_OF_MILES), MOST_DISTANCE), 1)
    speed = "" if course.speed is None else decimal(rounded(course.speed, KNOTS), 2)
    return [talker + "RMB", letter(is_good), *error_texts(course.error, MOST_ERROR), shown(course.origin), shown(course.destination), *position_texts(course),
            distance, bearing_text(course.bearing), speed, letter(course.has_entered or course.has_passed), "A" if is_good else "N"]


def apb(talker, course):
    is_good = has_all(course.error, course.leg_bearing, course.bearing)
    north, bearing = "M" if course.is_magnetic else "T", bearing_text(course.bearing)
    return [talker + "APB", letter(is_good), letter(is_good), *error_texts(course.error, MOST_ERROR), "N", letter(course.has_entered),
            letter(course.has_passed), bearing_text(course.leg_bearing), north, shown(course.destination), bearing, north, bearing, north,
            "A" if is_good else "N"]


def xte(talker, error):
    is_good = error is not None
    return [talker + "XTE", letter(is_good), letter(is_good), *error_texts(error, LONGEST_ERROR), "N", "A" if is_good else "N"]


def checksum(text):
    return f"{functools.reduce(operator.xor, text.encode(), 0):02X}"


def sentence(fields):
    body = ",".join(fields)
    return f"${body}*{checksum(body)}\r\n"


def course_sentences(talker, course):
    fields = [] if course.is_magnetic else [rmb(talker, course)]
    return [sentence(each) for each in (*fields, apb(talker, course), xte(talker, course.error))]


def moment_text(moment):
    return f"({moment // 10**6}.{moment % 10**6:06d})"


def datagram(moment, group, text):
    """The line of a datagram; a plain one has no header, and no TAG blocks."""
    header = b"" if group == PLAIN_GROUP else HEADER
    return f"{moment_text(moment)} udp0 {group}#{(header + text.encode()).hex().upper()}"


class Counted:
    """The lines of a transmission group, each with its count."""

    def __init__(self, group):
        self.group, self.lines = group, 0

    def datagram(self, moment, sentences):
        text = ""
        for each in sentences:
            block = f"s:{SFI},n:{self.lines % MOST_COUNT + 1}"
            text += f"\\{block}*{checksum(block)}\\{each}"
            self.lines += 1
        return datagram(moment, self.group, text)


# ---- events


class Model:
    """The gateway's output of a bus, event by event."""

    def __init__(self, settings):
        self.settings, self.heard = settings, Heard(settings)
        self.row, self.navigation = Counted(ROW_GROUP), Counted(GROUP)

    def lines_of(self, events):
        """All that it writes."""
        lines = [f"{moment_text(events[0].moment)} can0 {frame}" for frame in (claim_of(FIRST_OWN), f"18EAFF{FIRST_OWN:02X}#00EE00")]
        for event in events:
            lines += self.take(event)
        return lines

    def take(self, event):
        heard = self.heard
        if heard.now is not None and event.moment < heard.now:
            return [f"{moment_text(heard.now)} rule 3"]
        heard.now = event.moment
        late = [self.rule(16, source, LEG) for source in heard.packets.expired(event.moment)]
        if event.identifier is None:
            lines = late
        elif event.pgn == CLAIM:
            lines = self.claim(event, late)
        elif event.source == heard.claims.own:
            lines = [self.rule(24, event.source, event.pgn), *late]
        else:
            lines = self.error(event, late) if event.pgn == ERROR else late + self.leg(event) if event.pgn == LEG else late
        heard.index += 1
        return lines

    def rule(self, rule, source, pgn):
        return f"{moment_text(self.heard.now)} rule {rule} src={source} pgn={pgn}"

    def claim(self, event, late):
        """The gateway's own claim comes first, then the messages that a claim ends."""
        name = int.from_bytes(event.data[:LEAST_CLAIM], "little")
        if len(event.data) < LEAST_CLAIM or event.source == ALL:
            return [self.rule(25, event.source, CLAIM), *late]
        if name == OWN_NAME:
            return [f"{moment_text(event.moment)} rule 23 addr={event.source}", *late]
        changed = self.heard.claims.take(self.heard.index, event.source, name)
        own = [] if changed.claimed is None else [f"{moment_text(event.moment)} can0 {claim_of(changed.claimed)}"]
        ended = [address for address in (changed.left, changed.won) if self.heard.packets.open.pop(address, None) is not None]
        return own + late + [self.rule(17, address, LEG) for address in ended]

    def error(self, event, late):
        """An error, which is the row's as well: XTE on the group of rows, and not on the plain one."""
        name = self.heard.claims.name(event.source)
        if name is None:
            return [self.rule(10, event.source, ERROR), *late]
        is_selected = self.row_is_taken_from(event.source, name)
        if not self.heard.error(event):
            return [self.rule(22, event.source, ERROR), *late]
        return ([self.row.datagram(event.moment, [sentence(xte("II", error_of(event.data)))])] if is_selected else []) + late

    def row_is_taken_from(self, source, name):
        """Whether the row takes what this device says now, before it is said."""
        wanted, said, heard = self.settings.row, {}, self.heard
        for error in heard.errors:
            if heard.holds(error):
                said[error.source] = error
        fresh = (one for one in said.values() if error_of(one.payload) is not None and heard.now - one.moment <= MILLISECOND * wanted.timeout_ms)
        rank, ranks = self.settings.rank(wanted, name), [self.settings.rank(wanted, one.name) for one in fresh if one.source != source]
        return rank is not None and not any(other is not None and other < rank for other in ranks)

    def leg(self, event):
        name = self.heard.claims.name(event.source)
        if name is None:
            return [self.rule(10, event.source, LEG)]
        others = self.fresh_beside(event.source)
        rules, leg = self.heard.leg(event)
        lines = [self.rule(rule, event.source, LEG) for rule in rules]
        if leg is None or not self.is_said(leg, others):
            return lines
        sentences = course_sentences(self.settings.talker, course_of(leg.payload, self.error_beside(leg)))
        lines.append(self.navigation.datagram(event.moment, sentences))
        return lines + ([datagram(event.moment, PLAIN_GROUP, "".join(sentences))] if self.settings.is_plain else [])

    # ---- the choice of a plotter, and the error that belongs to a leg

    def fresh_beside(self, source):
        """The ranks of the other plotters whose last leg counts: they have their address, and said a bearing not long ago."""
        wanted, heard = self.settings.navigation, self.heard
        last = {leg.source: leg for leg in heard.legs if heard.holds(leg) and leg.source != source}
        fresh = (leg for leg in last.values() if is_usable(leg) and heard.now - leg.moment <= MILLISECOND * wanted.timeout_ms)
        ranks = (self.settings.rank(wanted, leg.name) for leg in fresh)
        return [rank for rank in ranks if rank is not None]

    def is_said(self, leg, others):
        rank = self.settings.rank(self.settings.navigation, leg.name)
        if rank is None or any(other < rank for other in others):
            return False
        return len(self.stretch(leg)) > 1 if is_usable(leg) else not others

    def stretch(self, leg):
        """The legs of this plotter, the last ones in a row, that have the goal of this one; it is the last of them."""
        legs, found = self.heard.legs_of(leg.source), []
        while legs and goal(legs[-1]) == goal(leg):
            found.insert(0, legs.pop())
        return found

    def error_beside(self, leg):
        """The last error of this plotter since the first leg of the stretch, if it isn't too old and has a value."""
        first = self.stretch(leg)[0]
        errors = [error for error in self.heard.errors if error.source == leg.source and first.index < error.index < leg.index]
        if not errors or leg.moment - errors[-1].moment > MILLISECOND * self.settings.navigation.timeout_ms:
            return None
        return None if errors[-1].payload[1] >> 6 == TERMINATED else error_of(errors[-1].payload)


def claim_of(address):
    return f"18EEFF{address:02X}#{OWN_NAME.to_bytes(8, 'little').hex().upper()}"


def goal(leg):
    """What the plotter goes to: both numbers, and the position of the destination."""
    return leg.payload[16:32]


def is_usable(leg):
    return course_of(leg.payload, None).bearing is not None
