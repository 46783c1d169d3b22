"""What a run does, gathered event by event: values, devices, reports and counts. All of it has a limit, so that memory doesn't grow."""

import collections
from typing import NamedTuple

from bus_names import function_of, maker_of
from buslook_parts.bus import PRODUCT_TEXTS, TEXT_BYTES, Message, text_of
from buslook_parts.navigation import COURSE, DISTANCE, DISTANCE_FIELD, NAVIGATION, Navigation, course_of
from buslook_parts.navigation import TIMEOUT_MS as PLOTTER_TIMEOUT_MS
from buslook_parts.program import Frame
from buslook_parts.recording import SENT_LINE, TIMEOUT_MS
from buslook_parts.rows import Rows
from buslook_parts.unsaid import NEVER_CLAIMED, UNCLAIMED
from configuration.keys import Page
from onboard.fast_packets import Joiner
from onboard.identifiers import ADDRESS_CLAIM, ALL, NULL_ADDRESS, PRODUCT_INFORMATION, name_of, name_text, parts_of

from .holders import BACK, MISSED, SOURCE, Change, Changes, Holders
from .sent import Sent
from .values import further_of, value_of, values_of

SECOND_US = 1_000_000
# rates are of so many seconds; the line of a value of so many cells, each of so many seconds
RATE_SECONDS, LINE_CELLS, CELL_SECONDS = 10, 60, 10
MOST_MESSAGES, MOST_REPORTS, MOST_GROUPS = 3000, 200, 32
OWN_ADDRESS, SOURCE_CHANGED, ROW_WATCHED = 9, 28, 29
# rule 3: the event was earlier than the last one, and had no other effect
MOMENT_BACK = b"3"
OTHERS = "others"
# the words of the optional part that joins several rows, and of the one of ships around
JOINED, SHIPS = "RMC", "ships around"
# the words of the true heading that the gateway computes, and its sentence in the heading group
COMPUTED, COMPUTED_BY = "heading, true, computed", "HDT"
# without its key
BEAT_SECONDS = 60


class Rate:
    """How much came in each of the last seconds."""

    __slots__ = ("total", "cells")

    def __init__(self):
        self.total, self.cells = 0, collections.deque(maxlen=RATE_SECONDS + 1)

    def add(self, second, count=1):
        self.total += count
        if self.cells and self.cells[-1][0] == second:
            self.cells[-1][1] += count
        else:
            self.cells.append([second, count])

    def a_second(self, second):
        """The mean of the seconds before this one."""
        return sum(count for at, count in self.cells if second - RATE_SECONDS <= at < second) / RATE_SECONDS


class Said:
    """A row or a further quantity: what was said last, when, and of whom."""

    def __init__(self, name, words, timeout_us, is_watched):
        self.name, self.words, self.timeout_us, self.is_watched = name, words, timeout_us, is_watched
        # whether the gateway said last that it misses the row
        self.is_missed = False
        self.moment, self.values, self.source, self.count = None, [], None, 0
        self.line = collections.deque(maxlen=LINE_CELLS)

    def say(self, moment, values, source):
        self.moment, self.values, self.source, self.count = moment, values, source, self.count + 1
        number = values[0].number if values else None
        cell = moment // (CELL_SECONDS * SECOND_US)
        if self.line and self.line[-1][0] == cell:
            self.line[-1][1] = number
        else:
            self.line.append([cell, number])


class Speaker:
    """A device on the bus, by its address."""

    __slots__ = ("rate", "moment", "product")

    def __init__(self):
        self.rate, self.moment, self.product = Rate(), None, ""


class Plotter(NamedTuple):
    """What came of a plotter's last message: when it was, where it leads or why nothing was said of it, and which of the two."""

    moment: int
    words: str
    leads: bool


class Carried:
    """A row that the gateway sent to the bus: the values of the last message, when it was, and the sources of the datagram that it came of."""

    __slots__ = ("words", "moment", "values", "source", "count")

    def __init__(self, words):
        self.words, self.count = words, 0

    def carry(self, moment, values, source):
        self.moment, self.values, self.source, self.count = moment, values, source, self.count + 1


class Reported:
    """A rule and whom it is about: how often, and when last."""

    __slots__ = ("rule", "sender", "count", "moment")

    def __init__(self, rule, sender):
        self.rule, self.sender, self.count, self.moment = rule, sender, 0, 0


class Gathered:
    """All that is known of a run."""

    def __init__(self, config):
        page = Page()
        self.changes = Changes()
        self.rows_of_page, self.addresses, self.sent = Rows(page), Holders(config, self.changes), Sent(page.rows)
        tables = config.get("row", {}), config.get("further", {})
        self.rows = {row.name: self._said(row.name, row.words, tables[0]) for row in page.rows}
        self.further_group = tables[1].get("group")
        self.heading_group = config.get("heading", {}).get("group")
        # where plotters lead; what was said of it at this event, by sentences
        self.navigation, self.plotters, self.led = Navigation(config), {}, {}
        self.plotter_timeout_us = 1000 * config.get("nav", {}).get("timeout_ms", PLOTTER_TIMEOUT_MS)
        self.beat_seconds = beat_seconds_of(config.get("heartbeat", {}))
        self.further = {name: self._said(name, name.replace("_", " "), tables[1]) for name in page.quantities}
        # if rows are under watch, these alone have to be there
        if any("watch_ms" in keys for keys in tables[0].values()):
            for said in self.rows.values():
                said.is_watched = "watch_ms" in tables[0].get(said.name, {})
        # what is said of several rows, and of ships, whose source is none of a row
        self.others = {}
        # when it began, the last event, and the last frame or datagram
        self.begin = self.moment = self.heard = None
        # of frames from the bus, and of those to it
        self.speakers, self.messages, self.joiner, self.joiner_out = {}, {}, Joiner(), Joiner()
        self.bits, self.frames, self.frames_out = Rate(), Rate(), Rate()
        self.datagrams, self.datagrams_out, self.sent_groups = Rate(), Rate(), collections.Counter()
        self.to_bus, self.reported, self.rules = {}, {}, collections.Counter()
        self.failures = collections.Counter()

    @staticmethod
    def _said(name, words, table):
        keys = table.get(name, {})
        return Said(name, words, 1000 * keys.get("timeout_ms", TIMEOUT_MS), bool(keys.get("sources")))

    def reach(self, moment):
        if self.begin is None:
            self.begin = moment
            self.addresses.start(moment)
        self.moment = moment
        self.addresses.reach(moment)

    def event(self, moment, frame, datagram, emits):
        """An event: its frame or its datagram, if it is one, and what `replay` gives at it."""
        self.reach(max(moment, self.moment or 0))
        second = self.moment // SECOND_US
        source, is_passed_over, self.led = None, False, {}
        if frame is not None or datagram is not None:
            self.heard = self.moment
        if frame is not None:
            parts = parts_of(frame.identifier)
            source = parts.source
            is_passed_over = any(match.group(3) == MOMENT_BACK for match in emits)
            self._frame(second, frame, parts, is_passed_over)
        elif datagram is not None:
            self.datagrams.add(second)
        for match in emits:
            if match.group(3) is not None:
                self._report(int(match.group(3)), (match.group(4) or b"").decode(), datagram)
            elif match.group(5) is not None:
                self._sent_frame(second, Frame(b"can0", int(match.group(5), 16), match.group(6)), datagram)
            else:
                self._sent(second, match.group(7).decode(), bytes.fromhex(match.group(8).decode()), source)
        if frame is not None and not is_passed_over and self.navigation.is_of_plotter(parts.pgn):
            self._plotter(frame, parts, emits)

    def _plotter(self, frame, parts, emits):
        """A frame in which a plotter says where it goes, with the sentences that were said of it, and the reports that it gave."""
        is_refused = any(match.group(3) is not None and b"pgn=%d" % parts.pgn in (match.group(4) or b"") for match in emits)
        told = self.navigation.take(frame.read(), self.addresses.holder_of(parts.source), COURSE in self.led, is_refused)
        if self.led:
            self._other(NAVIGATION, self.plotter_timeout_us).say(self.moment, course_values(self.led), parts.source)
        if told is not None:
            why = NEVER_CLAIMED if told.why == UNCLAIMED else told.why
            self.plotters[parts.source] = Plotter(self.moment, why or course_of(self.led[COURSE]).words(), why is None)

    def _frame(self, second, frame, parts, is_passed_over):
        speaker = self.speakers.get(parts.source)
        if speaker is None:
            speaker = self.speakers[parts.source] = Speaker()
        speaker.rate.add(second)
        speaker.moment = self.moment
        self.frames.add(second)
        self._count_bits(second, frame, parts.pgn)
        if parts.pgn == ADDRESS_CLAIM and len(frame.data) == 16 and parts.source != ALL and not is_passed_over:
            self.addresses.claim(self.moment, parts.source, name_of(bytes.fromhex(frame.data.decode())))
        elif parts.pgn == PRODUCT_INFORMATION:
            self._product(speaker, self.joiner.message_of(frame.read()))

    def _count_bits(self, second, frame, pgn):
        key = frame.identifier & 0x3FFFFFF
        message = self.messages.get(key)
        if message is None:
            message = Message(pgn, self.moment)
            if len(self.messages) < MOST_MESSAGES:
                self.messages[key] = message
        message.frames += 1
        self.bits.add(second, message.bits(frame.identifier, frame.data))

    @staticmethod
    def _product(speaker, message):
        if message is not None and len(message.data) >= PRODUCT_TEXTS[-1][1] + TEXT_BYTES:
            first = dict(PRODUCT_TEXTS)["model"]
            speaker.product = text_of(message.data[first : first + TEXT_BYTES])

    # what the gateway did

    def _sent(self, second, group, datagram, source):
        self.datagrams_out.add(second)
        self.count_group(group)
        for sentence in SENT_LINE.findall(datagram):
            fields = sentence.decode().split("*")[0].split(",")
            if group == self.further_group:
                for quantity, values in further_of(fields).items():
                    self.further[quantity].say(self.moment, values, source)
            elif group == self.heading_group:
                self._said_joined(fields, source)
            elif group == self.navigation.group:
                self.led[fields[0][3:]] = fields
            else:
                self._said_row(fields, source)

    def count_group(self, group):
        if group in self.sent_groups or len(self.sent_groups) < MOST_GROUPS:
            self.sent_groups[group] += 1

    def _said_joined(self, fields, source):
        """A sentence of the heading group; of HDG and HDM the row has the heading."""
        if fields[0][3:] == COMPUTED_BY:
            self._other(COMPUTED).say(self.moment, values_of("heading_true", fields), source)

    def _said_row(self, fields, source):
        formatter, row = fields[0][3:], self.rows_of_page.said_by(fields)
        if row is not None:
            values = values_of(row, fields)
            if values is not None:
                self.rows[row].say(self.moment, values, source)
        elif formatter == "VDM":
            self._other(SHIPS).say(self.moment, [], source)
        elif formatter == "RMC":
            self._other(JOINED).say(self.moment, [], None)

    def _other(self, words, timeout_us=1000 * TIMEOUT_MS):
        if words not in self.others:
            self.others[words] = Said(words, words, timeout_us, False)
        return self.others[words]

    def _sent_frame(self, second, frame, datagram):
        parts = parts_of(frame.identifier)
        self.frames_out.add(second)
        self._count_bits(second, frame, parts.pgn)
        if parts.pgn == ADDRESS_CLAIM:
            self._own_address(parts.source)
        elif datagram is not None and parts.pgn in self.rows_of_page.to_bus:
            message = self.joiner_out.message_of(frame.read())
            if message is not None:
                self._carry(message, datagram)

    def _own_address(self, address):
        if address != self.addresses.own:
            self.addresses.move(self.moment, address)

    def _carry(self, message, datagram):
        """A reading of the network that the gateway sent to the bus."""
        row, values = self.sent.of(message)
        senders = senders_in(datagram)
        carried = self.to_bus.setdefault(row, Carried(self.rows[row].words))
        carried.carry(self.moment, values, senders[0] if len(senders) == 1 else "several")

    def _report(self, rule, detail, datagram):
        self.rules[rule] += 1
        words = dict(word.split("=", 1) for word in detail.split(" ") if "=" in word)
        if rule == OWN_ADDRESS:
            self._own_address(NULL_ADDRESS if words["own"] == "none" else int(words["own"]))
        elif rule == ROW_WATCHED:
            self.rows[words["row"]].is_missed = words["said"] == "no"
            self.changes.add(self.moment, Change(MISSED if words["said"] == "no" else BACK, words["row"], None, None))
        elif rule == SOURCE_CHANGED:
            address = int(words["src"])
            self.changes.add(self.moment, Change(SOURCE, words["row"], address, self.addresses.holder_of(address)))
        else:
            self.refuse(rule, sender_of(words, datagram))

    def link_report(self, rule, detail):
        """A report that `replay` has none of: of a send or receive that failed, or of a text that was no frame."""
        words = dict(word.split("=", 1) for word in detail.split(" ") if "=" in word)
        link = words.get("link", "")
        self.rules[rule] += 1
        self.failures[rule, link] += 1
        self.refuse(rule, f"link {link}")

    def refuse(self, rule, sender):
        key = (rule, sender)
        if key not in self.reported:
            if len(self.reported) >= MOST_REPORTS:
                key = (rule, OTHERS)
            self.reported.setdefault(key, Reported(*key))
        reported = self.reported[key]
        reported.count, reported.moment = reported.count + 1, self.moment or 0

    def device(self, address):
        """Who has an address, as it is shown."""
        return {"address": address, **named(self.addresses.holder_of(address))}


def course_values(led):
    """What a pilot is told, by the sentences: the error, the bearing of the destination and its distance; none that it doesn't follow."""
    course = course_of(led[COURSE])
    if not course.is_good:
        return []
    bearing = value_of("to go", course.bearing, "degrees" if course.letter == "T" else "degrees magnetic")
    distance = led[DISTANCE][DISTANCE_FIELD] if DISTANCE in led else ""
    return [*values_of("cross_track", led["XTE"]), bearing, *([value_of("to go", distance, "nautical miles")] if distance else [])]


def named(name):
    """A device by its NAME, if it has one."""
    if name is None:
        return {"name": "", "maker": "", "function": "", "claimed": False}
    return {"name": name_text(name), "maker": maker_of(name), "function": function_of(name), "claimed": True}


def beat_seconds_of(keys):
    """How often at least a run writes something, if it has heartbeats."""
    found = [keys.get("every_s", BEAT_SECONDS)] if "group" in keys else []
    return min([*found, *([keys["bus_every_s"]] if "bus_every_s" in keys else [])], default=None)


def sender_of(words, datagram):
    """Whom a report is about."""
    if "src" in words or "addr" in words:
        return f"address {words.get('src', words.get('addr'))}"
    if "sfi" in words:
        return words["sfi"]
    if "at" in words and datagram is not None:
        senders = senders_in(datagram[int(words["at"]) :].split(b"\n")[0])
        return senders[0] if senders else "the network"
    return "the network" if datagram is not None else "the bus"


def senders_in(text):
    """The identifiers of sources in TAG blocks, each once."""
    found = []
    for block in text.split(b"\\")[1::2]:
        for parameter in block.split(b"*")[0].split(b","):
            if parameter[:2] in (b"s:", b"S:"):
                sender = parameter[2:18].decode("ascii", "backslashreplace")
                if sender not in found:
                    found.append(sender)
    return found
