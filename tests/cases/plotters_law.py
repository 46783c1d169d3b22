"""The law of navigation, checked on datagrams as they stand: all that is in one is of one device, of the leg that it is on, and fresh.

Values are compared as numbers with those of the frames, so that this shares no text and no rounding with plotters_model.py.
"""

import math
import re
import struct
from typing import NamedTuple, Optional

from plotters_heard import ALL, CLAIM, ERROR, LEAST_CLAIM, LEG, OWN_NAME, Heard, Message

LINE = re.compile(r"\((\d+)\.(\d{6})\) udp0 (NAVG|PLAN)#([0-9A-F]*)")
SENTENCE = re.compile(r"(\\s:II0001,n:(\d+)\*([0-9A-F]{2})\\)?\$([^*]*)\*([0-9A-F]{2})")
HEADER = b"UdPbC\0"
COUNTS = 999
RMB_FIELDS = ("status", "error", "side", "origin", "destination", "latitude", "north", "longitude", "east", "distance", "bearing", "speed", "arrival", "mode")
APB_FIELDS = ("status", "second status", "error", "side", "unit", "circle", "passed", "leg bearing", "leg letter", "destination", "bearing", "letter",
              "heading to steer", "heading letter", "mode")
XTE_FIELDS = ("status", "second status", "error", "side", "unit", "mode")
FIELDS = {"RMB": RMB_FIELDS, "APB": APB_FIELDS, "XTE": XTE_FIELDS}
NEEDED = {"RMB": ("error", "distance", "bearing", "latitude", "longitude"), "APB": ("error", "leg bearing", "bearing"), "XTE": ("error",)}
MOST_ERROR, MOST_DISTANCE = 9.99, 999.9
CENTIMETRES_OF_A_MILE, KNOTS = 185_200, 3_600 / 185_200
LOST_IN_DOUBLES = 1e-7


class Told(NamedTuple):
    """A leg when it is complete, what its device said before under the same claim, and the other plotters that count then, by their ranks."""

    leg: Message
    legs: list
    errors: list
    rank: Optional[tuple]
    others: list


class Datagram(NamedTuple):
    """A datagram of navigation: its moment, and its sentences by formatter, each as its fields."""

    moment: int
    sentences: dict


def tellings(settings, events):
    """Each leg of a bus, with what its device said before."""
    heard = Heard(settings)
    for event in events:
        if heard.now is not None and event.moment < heard.now:
            continue
        heard.now = event.moment
        heard.packets.expired(event.moment)
        told = taken(settings, heard, event)
        if told is not None:
            yield told
        heard.index += 1


def taken(settings, heard, event):
    """Takes an event; the leg that it completes, with all that goes with it."""
    if event.identifier is None or event.pgn == CLAIM:
        if event.identifier is not None and len(event.data) >= LEAST_CLAIM and event.source != ALL:
            claimed(heard, event)
        return None
    if heard.claims.name(event.source) is None:
        return None
    if event.pgn == ERROR:
        heard.error(event)
    _, leg = heard.leg(event) if event.pgn == LEG else ([], None)
    if leg is None:
        return None
    own = [[one for one in said if one.source == leg.source and heard.holds(one)] for said in (heard.legs[:-1], heard.errors)]
    return Told(leg, *own, settings.rank(settings.navigation, leg.name), list(others_that_count(settings, heard, leg)))


def claimed(heard, event):
    name = int.from_bytes(event.data, "little")
    if name != OWN_NAME:
        changed = heard.claims.take(heard.index, event.source, name)
        for address in (changed.left, changed.won):
            heard.packets.open.pop(address, None)


def others_that_count(settings, heard, leg):
    """The ranks of other plotters whose last leg has a bearing and is fresh."""
    last = {one.source: one for one in heard.legs if heard.holds(one) and one.source != leg.source}
    for one in last.values():
        rank = settings.rank(settings.navigation, one.name)
        if rank is not None and said_of(one)["bearing"] is not None and leg.moment - one.moment <= 1_000 * settings.navigation.timeout_ms:
            yield rank


# ---- what a leg and an error say, in the units of sentences


def said_of(leg):
    """What a leg says; none is what it doesn't say."""
    distance, flags, leg_bearing, bearing, origin, destination, latitude, longitude, speed = struct.unpack_from("<xIB6xHHIIiih", leg.payload)
    is_known = flags & 2 == 0
    return {
        "distance": distance / CENTIMETRES_OF_A_MILE if distance < 0xFFFFFFFD else None,
        "leg bearing": math.degrees(leg_bearing / 10_000) if is_known and leg_bearing <= 62_832 else None,
        "bearing": math.degrees(bearing / 10_000) if is_known and bearing <= 62_832 else None,
        "origin": origin if origin < 100_000 else None,
        "destination": destination if destination < 100_000 else None,
        "latitude": latitude / 1e7 if abs(latitude) <= 900_000_000 else None,
        "longitude": longitude / 1e7 if abs(longitude) <= 1_800_000_000 else None,
        "speed": speed * KNOTS if abs(speed) <= 32_764 else None,
        "passed": "A" if flags >> 2 & 3 == 1 else "V",
        "circle": "A" if flags >> 4 & 3 == 1 else "V",
        "letter": "M" if flags & 3 == 1 else "T",
    }


def miles_of(error):
    """How many miles the boat is off the line, above 0 if it has to steer to port; none where that isn't said."""
    flags, distance = struct.unpack_from("<xBi", error.payload)
    return None if flags >> 6 == 1 or abs(distance) > 18_520_000 else distance / CENTIMETRES_OF_A_MILE


# ---- what a datagram breaks


def read_line(line):
    """The moment of a datagram's line and its sentences, each with its count, or why it has no form."""
    seconds, micros, group, digits = LINE.fullmatch(line).groups()
    text = bytes.fromhex(digits)
    if group == "NAVG":
        if not text.startswith(HEADER):
            return None, [], "a datagram without its header"
        text = text[len(HEADER) :]
    found = []
    for each in text.decode("ascii").split("\r\n")[:-1]:
        match = SENTENCE.fullmatch(each)
        if match is None or (match.group(1) is None) != (group == "PLAN"):
            return None, [], f"a line of another form: {each}"
        if sum_of(match.group(4)) != match.group(5) or match.group(1) and sum_of(match.group(1)[1:-4]) != match.group(3):
            return None, [], f"a wrong sum: {each}"
        found.append((match.group(4), match.group(2)))
    return int(seconds) * 10**6 + int(micros), found, None


def sum_of(text):
    total = 0
    for byte in text.encode():
        total ^= byte
    return f"{total:02X}"


def is_near(text, value, half, turn=None):
    """Whether a text is a value within half of its last place."""
    apart = abs(float(text) - value)
    return (apart if turn is None else min(apart, turn - apart)) <= half + LOST_IN_DOUBLES


def degrees_of(text, letter, digits, is_below):
    """The degrees of a latitude or a longitude."""
    degrees = int(text[:digits]) + float(text[digits:]) / 60
    return -degrees if letter == is_below else degrees


def same_value(field, text, fields, said):
    """Whether a field of a sentence is what the leg says."""
    value = said[{"heading to steer": "bearing", "leg letter": "letter", "heading letter": "letter"}.get(field, field)]
    if field in ("latitude", "longitude") and None in (said["latitude"], said["longitude"]):
        value = None
    if value is None or text == "":
        return value is None and text == ""
    if field == "latitude":
        return abs(degrees_of(text, fields["north"], 2, "S") - value) <= 0.00005 / 60 + LOST_IN_DOUBLES
    if field == "longitude":
        return abs(degrees_of(text, fields["east"], 3, "W") - value) <= 0.00005 / 60 + LOST_IN_DOUBLES
    if field in ("leg bearing", "bearing", "heading to steer"):
        return is_near(text, value, 0.05, 360)
    if field == "distance":
        return is_near(text, min(value, MOST_DISTANCE), 0.05)
    return is_near(text, value, 0.005) if field == "speed" else text == str(value)


def whys_of_values(datagram, told):
    """Values of a datagram that aren't the leg's, and statuses that stand beside none."""
    said = said_of(told.leg)
    said["arrival"] = "A" if "A" in (said["passed"], said["circle"]) else "V"
    if ("RMB" in datagram.sentences) == (said["letter"] == "M"):
        yield "RMB says true bearings: it belongs beside these alone"
    for formatter, values in datagram.sentences.items():
        fields = dict(zip(FIELDS[formatter], values))
        for field, text in fields.items():
            if field in said or field in ("heading to steer", "leg letter", "heading letter"):
                if not same_value(field, text, fields, said):
                    yield f"{formatter} has another {field} than the leg: {text!r}"
        is_whole = all(fields[field] for field in NEEDED[formatter])
        if {fields["status"], fields.get("second status", fields["status"])} != {"A" if is_whole else "V"} or fields["mode"] != ("A" if is_whole else "N"):
            yield f"{formatter} has a status that its values don't bear out"


def whys_of_error(datagram, told, timeout_ms):
    """Errors of a datagram that aren't the leg's own."""
    shown = {formatter: dict(zip(FIELDS[formatter], values)) for formatter, values in datagram.sentences.items()}
    if len({(fields["error"] != "", fields["side"]) for fields in shown.values()}) > 1:
        yield "one sentence has an error, and another one hasn't"
    if not shown["XTE"]["error"]:
        return
    if not told.errors:
        yield "the error isn't one of this device under this claim"
        return
    error, first = told.errors[-1], first_of_stretch(told)
    miles = miles_of(error)
    if error.index < first.index:
        yield "the error is from before the plotter went to this destination"
    if told.leg.moment - error.moment > 1_000 * timeout_ms:
        yield "the error is too old"
    if miles is None:
        yield "the device said no error"
        return
    for formatter, fields in shown.items():
        if not is_near(fields["error"], abs(miles) if formatter == "XTE" else min(abs(miles), MOST_ERROR), 0.0005):
            yield f"{formatter} has another error than the device: {fields['error']}"
        if fields["side"] != ("L" if miles >= 0 or abs(miles) < 0.0005 else "R"):
            yield f"{formatter} has the error on the other side"


def first_of_stretch(told):
    first = told.leg
    for before in reversed(told.legs):
        if before.payload[16:32] != told.leg.payload[16:32]:
            break
        first = before
    return first


def whys_of_choice(told):
    """Why nothing may be said of a leg."""
    if told.rank is None or any(rank < told.rank for rank in told.others):
        yield "a better plotter says where it goes, or this one isn't taken"
    if said_of(told.leg)["bearing"] is None:
        if told.others:
            yield "the plotter is idle, beside another one that isn't"
    elif not told.legs or told.legs[-1].payload[16:32] != told.leg.payload[16:32]:
        yield "the destination wasn't named by two legs in a row of this device"


def why_not(datagram, told, timeout_ms):
    """The first thing of a datagram that the law forbids; nothing if it has none."""
    whys = (*whys_of_choice(told), *whys_of_error(datagram, told, timeout_ms), *whys_of_values(datagram, told))
    return next(iter(whys), None)


class Law:
    """Checks the navigation of an output line by line, and counts it."""

    def __init__(self, settings, events):
        self.settings, self.told, self.lines = settings, {}, 0
        for told in tellings(settings, events):
            self.told.setdefault(told.leg.moment, []).append(told)
        self.plain, self.source = [], None
        self.good = self.bad = self.changes = 0

    def broken_by(self, lines):
        """The first thing that isn't lawful, or nothing."""
        for line in lines:
            if LINE.fullmatch(line):
                why = self.take(line)
                if why is not None:
                    return f"{line.split(' ')[0]} {why}"
        return "plain sentences are missing" if self.plain else None

    def take(self, line):
        moment, found, why = read_line(line)
        if why is not None:
            return why
        if " PLAN#" in line:
            due, self.plain = self.plain, []
            return None if [text for text, _ in found] == due else "plain sentences are others than those of the navigation"
        counts = [str((self.lines + place) % COUNTS + 1) for place in range(len(found))]
        if [count for _, count in found] != counts or self.plain:
            return "its lines are counted otherwise, or were not said plain"
        self.lines += len(found)
        self.plain = [text for text, _ in found] if self.settings.is_plain else []
        return self.why_of_sentences(moment, [text.split(",") for text, _ in found])

    def why_of_sentences(self, moment, sentences):
        named = [(fields[0][2:], fields[1:]) for fields in sentences]
        formatters = [formatter for formatter, _ in named]
        if formatters not in (["RMB", "APB", "XTE"], ["APB", "XTE"]) or any(fields[0][:2] != self.settings.talker for fields in sentences):
            return f"it has other sentences: {formatters}"
        if any(len(fields) != len(FIELDS[formatter]) for formatter, fields in named):
            return "a sentence has more or fewer fields"
        return self.why_of_datagram(Datagram(moment, dict(named)))

    def why_of_datagram(self, datagram):
        """It has to be lawful for one of the legs that are complete at its moment, each of which is said once."""
        told = self.told.get(datagram.moment, [])
        whys = [why_not(datagram, one, self.settings.navigation.timeout_ms) for one in told]
        if None not in whys:
            return whys[0] if whys else "no leg is complete at its moment"
        one = told.pop(whys.index(None))
        self.changes += self.source not in (None, one.leg.name)
        self.source = one.leg.name
        if "RMB" in datagram.sentences:
            is_good = datagram.sentences["RMB"][0] == "A"
            self.good, self.bad = self.good + is_good, self.bad + (not is_good)
        return None
