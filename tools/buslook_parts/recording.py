"""What a recording holds, read off its frames and what the program wrote of each of its lines."""

import collections
import re

from configuration.keys import Page, is_matched
from onboard.candump import NoFrame, read_line
from onboard.error_frames import kinds_of
from onboard.fast_packets import Joiner, Message, is_fast
from onboard.identifiers import ADDRESS_CLAIM, ALL, NULL_ADDRESS, name_of, name_text, parts_of

from .bus import Bus
from .gathering import MOST_MARKS, Counts, Mark, Point, Series, Spans, Strip, Tally, first_of, sum_of
from .navigation import COURSE, DISTANCE, DISTANCE_FIELD, NAVIGATION, Followed, course_of
from .navigation import TIMEOUT_MS as PLOTTER_TIMEOUT_MS
from .program import ITEM, SHOWN_FRAME, Frame
from .quantities import Compared
from .rows import Rows
from .rules import rule_named
from .unsaid import Unsaid

READY_AFTER_US = 250_000
MOST_EVENTS = 200
LINES_OF_A_RULE = 5
Curve = collections.namedtuple("Curve", "title unit row formatter field turns downwards")
# of the heading group, which says no row
COMPUTED_BY = "HDT"
COMPUTED = Curve("heading, true, computed", "degrees", None, "", 1, True, False)
# of the group of navigation, which says no row either
TO_GO = Curve("distance to the destination", "nautical miles", NAVIGATION, "", DISTANCE_FIELD, False, False)
CURVES = [
    Curve("heading, true", "degrees", "heading_true", "HDT", 1, True, False),
    COMPUTED,
    Curve("heading, magnetic", "degrees", "heading_magnetic", "HDG", 1, True, False),
    Curve("rudder, first", "degrees", "rudder_first", "RSA", 1, False, False),
    Curve("rudder, second", "degrees", "rudder_second", "RSA", 3, False, False),
    Curve("speed through water", "knots", "water_speed", "VHW", 5, False, False),
    Curve("speed over ground", "knots", "course_speed", "VTG", 5, False, False),
    Curve("depth below transducer", "metres", "depth", "DPT", 1, False, True),
    Curve("wind speed, apparent", "knots", "wind_apparent", "MWV", 3, False, False),
    Curve("wind angle, apparent", "degrees", "wind_apparent", "MWV", 1, True, False),
    Curve("wind speed, true", "knots", "wind_true", "MWV", 3, False, False),
    Curve("wind angle, true", "degrees", "wind_true", "MWV", 1, True, False),
    Curve("wind direction", "degrees", "wind_north", "MWD", 1, True, False),
    TO_GO,
]
CURVES_OF = collections.defaultdict(list)
for one in CURVES:
    CURVES_OF[one.formatter].append(one)
MOST_RATES = 400
RATES = ("frames from the bus", "frames to the bus", "datagrams from the network", "datagrams to the network", "reports")
TIMEOUT_MS = 5000
# a message of several frames begins with a frame 0 (fast packet), or with an RTS or BAM of the transport protocol (ISO 11783-3)
CONNECTION_MANAGEMENT, BEGINNINGS = 60416, (16, 32)
MOST_BEGINNINGS = 1024
MISSING = "not said"
# a line of a datagram that the gateway sends: its TAG block and its sentence
SENT_LINE = re.compile(rb"\\[^\\]*\\([$!][^\r\n]*)\r\n")


Device = collections.namedtuple("Device", "label name rank rank_text")


class Addresses:
    """Who holds which address, by the claims: of two NAMEs the smaller one has it (ISO 11783-5)."""

    def __init__(self, config):
        self.own_name = int(config["gateway"]["name"], 16)
        self.own = config["gateway"]["address"]
        self.holders, self.places = {}, {}
        self.spans = collections.defaultdict(Spans)
        self.ready, self.ready_at = Spans(), None
        self.marks = {}
        self.events, self.more_events = [], 0
        for preset in config.get("preset", []):
            self.holders[preset["address"]] = int(preset["name"], 16)
            self.places[int(preset["name"], 16)] = preset["address"]

    def start(self, moment):
        self.begin = moment
        for address, name in self.holders.items():
            self.spans[address].change(moment, name)
            self.tell(moment, address, "known before its claim", name)
        self.move(moment, self.own)

    def tell(self, moment, address, what, name):
        if what != "claimed again":
            if len(self.events) < MOST_EVENTS:
                self.events.append((moment, address, what, name))
            else:
                self.more_events += 1
        key = (address, what)
        if key not in self.marks:
            self.marks[key] = Series(self.begin, Mark.joined, most=MOST_MARKS)
        self.marks[key].add(moment, Mark(moment, name, 1))

    def leave(self, moment, address, name, what):
        del self.holders[address], self.places[name]
        self.spans[address].change(moment, None)
        self.tell(moment, address, what, name)

    def take(self, moment, address, name, what):
        self.holders[address], self.places[name] = name, address
        self.spans[address].change(moment, name)
        self.tell(moment, address, what, name)

    def holder_of(self, address):
        return self.own_name if address == self.own else self.holders.get(address)

    def claim(self, moment, address, name):
        if name == self.own_name:
            return self.tell(moment, address, "claimed with the gateway's own NAME", name)
        left = self.places.get(name)
        if left is not None and left != address:
            self.leave(moment, left, name, "left")
        if address == NULL_ADDRESS:
            return None
        holder = self.holder_of(address)
        if holder is None:
            return self.take(moment, address, name, "claimed")
        if holder == name:
            return self.tell(moment, address, "claimed again", name)
        if holder < name:
            return self.tell(moment, address, "claimed in vain", name)
        self.places.pop(holder, None)
        return self.take(moment, address, name, "taken over")

    def move(self, moment, address):
        """The gateway has an address from now on, or none."""
        if self.spans[self.own].value() == self.own_name:
            self.spans[self.own].change(moment, None)
        self.own, self.ready_at = address, None
        self.ready.change(moment, None)
        if address == NULL_ADDRESS:
            return self.tell(moment, address, "can't claim", self.own_name)
        self.spans[address].change(moment, self.own_name)
        self.ready_at = moment + READY_AFTER_US
        return self.tell(moment, address, "claimed", self.own_name)

    def reach(self, moment):
        if self.ready_at is not None and moment >= self.ready_at:
            self.ready.change(self.ready_at, self.own)
            self.ready_at = None


class Ranks:
    """The places of devices in the lists of the configuration."""

    def __init__(self, config):
        self.rows = {**config.get("row", {}), NAVIGATION: {"timeout_ms": PLOTTER_TIMEOUT_MS, **config.get("nav", {})}}
        self.network = config.get("net", {}).get("sources", [])

    def timeout_us(self, row):
        return 1000 * self.rows.get(row, {}).get("timeout_ms", TIMEOUT_MS)

    def of_device(self, row, address, name):
        """Ranks are compared by the place of the first pattern that matches, then by NAME."""
        patterns = self.rows.get(row, {}).get("sources", [])
        shown, number = ("", 0) if name is None else (name_text(name), name)
        for place, pattern in enumerate(patterns, 1):
            if name is not None and is_matched(pattern, name):
                return Device(f"address {address}", shown, (place, number), f"rank {place}")
        return Device(f"address {address}", shown, (len(patterns) + 1, number), "not listed" if patterns else "")

    def of_network(self, sources):
        if len(sources) != 1:
            return Device("several", "", None, "")
        (source,) = sources
        place = self.network.index(source) + 1 if source in self.network else 0
        return Device(source, "", (place, 0), f"rank {place}" if place else "")


def degrees_of(text, digits, letter):
    value = int(text[:digits]) + float(text[digits:]) / 60
    return -value if letter in "SW" else value


class Recording:
    """All that the page says, gathered line by line."""

    def __init__(self, config):
        page = Page()
        self.addresses, self.ranks, self.rows, self.unsaid = Addresses(config), Ranks(config), Rows(page), Unsaid(config, page.rows)
        self.joiner = Joiner()
        # the transmission group of further quantities, whose sentences say no row
        self.further_group = config.get("further", {}).get("group")
        # that of joined headings, whose HDG a row has said already
        self.heading_group = config.get("heading", {}).get("group")
        # that of plotters, whose XTE is another one than the row's
        self.followed, self.says_navigation = Followed(config), False
        self.begin = self.end = None
        self.bus = self.compared = self.rates = None
        self.counts, self.rules = collections.Counter(), collections.Counter()
        self.sentences, self.heard_sources, self.devices, self.errors = Tally(), Tally(), Tally(), Tally()
        self.rule_series, self.rule_lines, self.rule_devices = {}, collections.defaultdict(list), collections.defaultdict(Tally)
        self.excerpt, self.beginnings = {}, collections.OrderedDict()
        # the rule that tells that the end of a message never came
        self.expired = rule_named("expired")
        self.curves, self.is_apart, self.tracks, self.strips = {}, set(), {}, {}
        # of each row under watch when it wasn't said, as the gateway told it
        self.missing, self.row_watched = {}, rule_named("row watched")

    def take(self, number, line, moment, frame, items, emits):
        """A line by its number, the moment that is reached with it, its frame or what `show` says of it, and what `replay` gives."""
        self.counts["lines of the recording"] += 1
        if frame is not None or (items and not items[0].startswith(b"rule ")):
            self.reach(moment)
        elif items:
            self.counts["lines that were refused"] += 1
            self.error(line)
        elif line in (b"", b"\r"):
            self.counts["empty lines"] += 1
            return
        is_passed_over = any(match.group(3) == b"3" for match in emits)
        parts = None if frame is None else parts_of(frame.identifier)
        if frame is not None:
            self.frame(parts, frame, is_passed_over)
        elif items == [b"tick"]:
            self.counts["ticks"] += 1
        elif items and not items[0].startswith(b"rule "):
            self.datagram(items)
        self.says_navigation = False
        rows_said = self.emitted(number, line, items, parts, emits)
        if frame is not None and not is_passed_over:
            self.row_frame(moment, frame, parts, rows_said)
            self.plotter_frame(frame, parts, emits)
            self.begins(number, line, parts, frame)

    def reach(self, moment):
        if self.begin is None:
            self.begin = moment
            self.bus, self.compared, self.rates = Bus(moment), Compared(moment, self.ranks), Counts(moment, 1_000_000, MOST_RATES)
            self.addresses.start(moment)
        self.end = moment
        self.addresses.reach(moment)

    # what the line is

    def frame(self, parts, frame, is_passed_over):
        self.count("frames from the bus")
        source = parts.source
        if parts.pgn == ADDRESS_CLAIM and len(frame.data) == 16 and source != ALL and not is_passed_over:
            self.addresses.claim(self.end, source, name_of(bytes.fromhex(frame.data.decode())))
        is_claimed = source in self.addresses.holders or source in (self.addresses.own, NULL_ADDRESS)
        self.bus.frame(self.end, frame, parts.pgn, source, is_claimed)

    def row_frame(self, moment, frame, parts, rows_said):
        """A frame, and the rows that were said at it, which by the transport protocol may be of another PGN."""
        message = None
        if parts.pgn in self.unsaid.sources:
            self.unsaid.frame(frame, parts)
            message = self.joiner.message_of(frame.read()) if is_fast(parts.pgn) else Message(parts, bytes.fromhex(frame.data.decode()))
        if message is None:
            self.unsaid.said |= rows_said
            return
        rows_empty = self.compared.message(moment, message, rows_said)
        self.unsaid.message(message, self.addresses.holder_of(parts.source), rows_said, rows_empty)

    def plotter_frame(self, frame, parts, emits):
        """A frame in which a plotter says where it goes, if that is asked for, and the reports that it gave."""
        if self.followed.navigation.is_of_plotter(parts.pgn):
            is_refused = any(match.group(3) is not None and b"pgn=%d" % parts.pgn in (match.group(4) or b"") for match in emits)
            self.followed.take(frame.read(), self.addresses.holder_of(parts.source), self.says_navigation, is_refused)

    def error(self, line):
        """A line that is refused may be an error frame, which tells what is wrong with the cable."""
        try:
            read = read_line(line)
        except NoFrame:
            return
        if read.frame.is_error:
            self.counts["error frames"] += 1
            for kind in kinds_of(read.frame):
                self.errors.add(kind)
            if self.bus is not None:
                self.bus.error(self.end)

    def datagram(self, items):
        self.count("datagrams from the network")
        for item in map(ITEM.fullmatch, items):
            if item is not None:
                self.counts["sentences from the network"] += 1
                self.heard_sources.add((item.group(2).decode(), item.group(3), item.group(4).split(b",")[0]))

    def begins(self, number, line, parts, frame):
        """Keeps where a message of several frames began, for the rule that tells that its end never came."""
        key, data = None, frame.data
        if parts.pgn == CONNECTION_MANAGEMENT and len(data) == 16 and int(data[:2], 16) in BEGINNINGS:
            key = parts.source, int.from_bytes(bytes.fromhex(data[10:].decode()), "little")
        elif is_fast(parts.pgn) and frame.begins_fast_packet():
            key = parts.source, parts.pgn
        if key is not None:
            self.beginnings[key] = number, excerpt_of(line)
            self.beginnings.move_to_end(key)
            if len(self.beginnings) > MOST_BEGINNINGS:
                self.beginnings.popitem(last=False)

    def count(self, what):
        self.counts[what] += 1
        if self.begin is not None:
            self.rates.at(self.end)[what] += 1

    # what `replay` gave at it

    def emitted(self, number, line, items, parts, emits):
        """The rows that were said of what was written at a line."""
        rows_said, says_further = set(), False
        for match in emits:
            if match.group(3) is not None:
                self.reported(number, line, items, int(match.group(3)), (match.group(4) or b"").decode())
            elif match.group(5) is not None:
                self.sent_to_bus(parts_of(int(match.group(5), 16)), bytes.fromhex(match.group(6).decode()), items)
            else:
                group = match.group(7).decode()
                says_further |= group == self.further_group
                self.sent_to_network(group, bytes.fromhex(match.group(8).decode()), parts, rows_said)
        # each of several further quantities of a message has a datagram
        self.counts["messages said to the network"] += says_further + self.says_navigation
        return rows_said

    def reported(self, number, line, items, rule, detail):
        self.rules[rule] += 1
        self.count("reports")
        words = words_in(detail)
        if rule == self.row_watched:
            self.missing.setdefault(words["row"], Spans()).change(self.end, MISSING if words["said"] == "no" else None)
        device = device_of(detail, items)
        self.rule_devices[rule].add(device)
        self.devices.add(device)
        if self.begin is not None:
            if rule not in self.rule_series:
                self.rule_series[rule] = Series(self.begin, sum_of)
            self.rule_series[rule].add(self.end, 1)
        if len(self.rule_lines[rule]) < LINES_OF_A_RULE:
            self.quoted(rule, *self.told_at(number, line, rule, detail))

    def told_at(self, number, line, rule, detail):
        """The line that a report leads to: the one at which it came, or the one at which a message began whose end never came."""
        words = words_in(detail)
        began = self.beginnings.get((int(words["src"]), int(words["pgn"]))) if rule == self.expired and "src" in words else None
        return began or (number, excerpt_of(line))

    def quoted(self, rule, number, shown):
        if number not in self.rule_lines[rule]:
            self.rule_lines[rule].append(number)
            self.excerpt[number] = shown

    def sent_to_bus(self, parts, data, items):
        self.count("frames to the bus")
        self.unsaid.sent_frame(parts.pgn, data)
        if parts.pgn == ADDRESS_CLAIM:
            if parts.source != self.addresses.own:
                self.addresses.move(self.end, parts.source)
        elif parts.pgn in self.rows.to_bus:
            sources = {item.group(2).decode() for item in map(ITEM.fullmatch, items) if item is not None}
            words, rows = self.rows.to_bus[parts.pgn]
            if sources:
                self.strip(f"{words}, to the bus", max(map(self.ranks.timeout_us, rows))).say(self.end, self.ranks.of_network(sources))

    def sent_to_network(self, group, datagram, parts, rows_said):
        """A datagram for a transmission group, by the frame that it comes of; the rows that it says are added to those that are."""
        self.count("datagrams to the network")
        sentences = [sentence.decode() for sentence in SENT_LINE.findall(datagram)]
        is_further, is_joined, is_navigation = (group == other for other in (self.further_group, self.heading_group, self.followed.navigation.group))
        self.says_navigation |= is_navigation
        is_of_rows = not (is_further or is_joined or is_navigation)
        self.counts["messages said to the network"] += is_of_rows and any(sentence[3:6] in self.rows.formatters for sentence in sentences)
        for sentence in sentences:
            self.counts["sentences to the network"] += 1
            self.sentences.add(sentence.split(",")[0])
            fields, source = sentence.split("*")[0].split(","), None if parts is None else parts.source
            if is_further:
                self.said_further(fields, source)
            elif is_joined:
                self.said_joined(fields, source)
            elif is_navigation:
                self.said_navigation(fields, source)
            else:
                rows_said.add(self.said(fields, source))

    def strip(self, label, timeout_us):
        if label not in self.strips:
            self.strips[label] = Strip(self.begin, timeout_us)
        return self.strips[label]

    def said_further(self, fields, source):
        """A further quantity that went out, under the words of its sentence: its last letters, and a transducer's name or an engine's number."""
        formatter = fields[0][3:]
        what = {"XDR": fields[4:5], "RPM": fields[2:3]}.get(formatter, [])
        if source is not None:
            self.strip(" ".join([formatter, *what]), TIMEOUT_MS * 1000).say(self.end, Device(f"address {source}", "", None, ""))

    def said_joined(self, fields, source):
        """A sentence of the heading group that went out; of HDG and HDM the row has the heading."""
        if fields[0][3:] == COMPUTED_BY:
            self.valued(COMPUTED, fields[COMPUTED.field])
            if source is not None and fields[COMPUTED.field]:
                device = self.ranks.of_device("heading_magnetic", source, self.addresses.holders.get(source))
                self.strip(COMPUTED.title, self.ranks.timeout_us("heading_magnetic")).say(self.end, device)

    def said_navigation(self, fields, source):
        """A sentence of the group of navigation that went out; what XTE says is in APB too."""
        if fields[0][3:] == DISTANCE:
            self.valued(TO_GO, fields[TO_GO.field])
        elif fields[0][3:] == COURSE and source is not None:
            device = self.ranks.of_device(NAVIGATION, source, self.addresses.holders.get(source))
            self.strip(NAVIGATION, self.ranks.timeout_us(NAVIGATION)).say(self.end, device)
            self.followed.say(self.end, device, course_of(fields))

    def said(self, fields, source):
        """A sentence that went out, and the row that it says."""
        formatter, row = fields[0][3:], self.rows.said_by(fields)
        if source is not None and formatter == "VDM":
            self.strip("ships around", TIMEOUT_MS * 1000).say(self.end, Device(f"address {source}", "", None, ""))
        if source is not None and row is not None:
            device = self.ranks.of_device(row, source, self.addresses.holders.get(source))
            self.strip(self.rows.words[row], self.ranks.timeout_us(row)).say(self.end, device)
        for curve in CURVES_OF.get(formatter, ()):
            # a rudder's sentence without a value doesn't tell which rudder it is of, so it parts both
            if curve.row == row or row is None:
                self.valued(curve, fields[curve.field])
        if row in ("position", "gnss"):
            self.placed(row, fields[1:5] if row == "position" else fields[2:6])
        return row

    def valued(self, curve, text):
        if not text:
            self.is_apart.add(curve.title)
            return
        value = float(text)
        if curve.title not in self.curves:
            self.curves[curve.title] = Series(self.begin, Point.joined)
        self.curves[curve.title].add(self.end, Point(self.end, self.end, value, value, value, value, curve.title in self.is_apart))
        self.is_apart.discard(curve.title)

    def placed(self, row, fields):
        if not fields[0]:
            self.is_apart.add(row)
            return
        place = degrees_of(fields[0], 2, fields[1]), degrees_of(fields[2], 3, fields[3])
        if row not in self.tracks:
            self.tracks[row] = Series(self.begin, first_of)
        self.tracks[row].add(self.end, (self.end, place, row in self.is_apart))
        self.is_apart.discard(row)

    def close(self):
        """The end of the recording."""
        if self.bus is not None:
            self.bus.end(self.end)
            for spans in self.missing.values():
                spans.end(self.end)


def frame_of(line, items):
    """The frame of a line that `show` says is one, however it is written."""
    if not items or SHOWN_FRAME.fullmatch(items[0]) is None:
        return None
    _, interface, rest = line.split(b" ", 2)
    identifier, data = rest.split(b" ")[0].rstrip(b"\r").split(b"#")
    return Frame(interface, int(identifier, 16), data)


def excerpt_of(line):
    return line[:160] + (b" ..." if len(line) > 160 else b"")


def words_in(detail):
    """What a report names, by its keys."""
    return dict(word.split("=", 1) for word in detail.split(" ") if "=" in word)


def device_of(detail, items):
    """Whom a report is about; of a line of a datagram its source, where `show` tells it."""
    words = words_in(detail)
    if "src" in words or "addr" in words:
        return f"address {words.get('src', words.get('addr'))}"
    if "sfi" in words:
        return words["sfi"]
    if "own" in words:
        return "the gateway"
    if "row" in words:
        return f"row {words['row']}"
    if "at" in words:
        for item in map(ITEM.fullmatch, items):
            if item is not None and item.group(1).decode() == words["at"]:
                return item.group(2).decode()
        return "the network"
    return "the recording"
