"""Random buses of two plotters, by a seed: what a gateway is set to, and what comes to it.

Each plotter says where it goes and how far off the line it is, at its own pace and in changing orders. It changes its waypoint, is idle for a time, falls
silent, and loses, repeats or cuts frames. Devices take their addresses, leave them or have none. Moments lie at the very ends of timeouts more often than
chance would have it.
"""

import heapq
import itertools
import random
import struct
from typing import NamedTuple

from plotters_heard import ALL, CLAIM, ERROR, LATEST_US, LEG, NOBODY, OWN_NAME, Event

START, EVENTS = 1_700_000_000_000_000, 500
FIRST, SECOND = 0xC0788C00FFC00005, 0xC0788C00FFC00006
# NAMEs of devices that take addresses: smaller than all, smaller than both plotters', and greater
STRANGERS = (0x80328200FFC00002, 0xC0788C00FFC00004, 0xC0788C00FFC00009)
ADDRESSES, OTHER_ADDRESSES, UNCLAIMED = (23, 24), (25, 26, 200, 253), (99, NOBODY, ALL)
SECONDS = 1_000_000
# which devices a setting may list: the plotters, strangers, all of one class, and none of them
PATTERNS = ("C0788C00FFC00005", "C0788C00FFC00006", "unique=5", "unique=6", "unique=4", "class=60", "class=25", "unique=77")
MOST_SLOTS = 16
TRUE_BITS, PASSED_BITS, ENTERED_BITS = 0, 1 << 2, 1 << 4
U32, U16, ABSENT_I32 = 2**32 - 1, 2**16 - 1, 2**31 - 1
# what a plotter says in a round
ROUNDS = (("leg",), ("error", "leg"), ("leg", "error"), ("leg", "error"), ("error", "leg", "error"), ("error",), ("leg", "error", "leg"))
ENDS_OF_ERRORS = (463, -463, 92, -92, -93, 0, 18_520_000, -18_520_000, 18_520_001, ABSENT_I32, -(2**31))


class Chosen(NamedTuple):
    """From which devices something is taken: the best pattern first, others or not, and for how long a message counts."""

    sources: tuple = ()
    others: bool = True
    timeout_ms: int = 2500

    def keys(self):
        listed = ", ".join(f'"{pattern}"' for pattern in self.sources)
        return f"sources = [{listed}]\nothers = {str(self.others).lower()}\ntimeout_ms = {self.timeout_ms}\n"


def is_matched(pattern, name):
    """Whether a NAME is of a pattern: a whole NAME, or one of the two fields that the buses here use."""
    fields = {"unique": name & (1 << 21) - 1, "class": name >> 49 & 0x7F}
    field, _, number = pattern.partition("=")
    return fields[field] == int(number) if number else int(pattern, 16) == name


class Settings(NamedTuple):
    """What the gateway is set to."""

    navigation: Chosen = Chosen()
    row: Chosen = Chosen(timeout_ms=5000)
    ignored: tuple = ()
    slots: int = MOST_SLOTS
    talker: str = "GP"
    is_plain: bool = False
    presets: tuple = ((23, FIRST), (24, SECOND))

    def rank(self, chosen, name):
        """The place of a device among those that something is taken from, the best one first; none if it isn't taken from it."""
        if any(is_matched(pattern, name) for pattern in self.ignored):
            return None
        place = next((place for place, pattern in enumerate(chosen.sources) if is_matched(pattern, name)), None)
        if place is None:
            return (len(chosen.sources), name) if chosen.others else None
        return place, name

    def text(self):
        """The configuration."""
        ignored = ", ".join(f'"{pattern}"' for pattern in self.ignored)
        presets = "".join(f'[[preset]]\naddress = {address}\nname = "{name:016X}"\n' for address, name in self.presets)
        plain = '[plain]\ngroup = "PLAN"\n' if self.is_plain else ""
        return (f'[gateway]\nname = "{OWN_NAME:016X}"\naddress = 251\nsfi = "II0001"\n{presets}[bus]\nignore = [{ignored}]\n'
                f"[row.cross_track]\n{self.row.keys()}{plain}"
                f'[nav]\ngroup = "NAVG"\nslots = {self.slots}\ntalker = "{self.talker}"\n{self.navigation.keys()}')


def random_choice(chance, timeouts):
    sources = tuple(chance.sample(PATTERNS, chance.choice((0, 0, 1, 2, 3))))
    return Chosen(sources, chance.random() < (0.6 if sources else 0.95), chance.choice(timeouts))


def random_settings(chance):
    navigation = random_choice(chance, (100, 500, 1000, 2500, 2500, 2500, 60000))
    row = navigation if chance.random() < 0.3 else random_choice(chance, (100, 2500, 5000))
    ignored = (chance.choice(PATTERNS[:5]),) if chance.random() < 0.1 else ()
    presets = ((23, FIRST), (24, SECOND)) if chance.random() < 0.7 else ((23, FIRST),) if chance.random() < 0.5 else ()
    slots = chance.choice((1, 2, 2, 3, MOST_SLOTS, MOST_SLOTS))
    return Settings(navigation, row, ignored, slots, chance.choice(("GP", "EC", "II")), chance.random() < 0.5, presets)


# ---- messages


class Goal(NamedTuple):
    """What a plotter goes to."""

    origin: int
    destination: int
    latitude: int
    longitude: int


def random_goal(chance):
    number = chance.choice((0, 3, 4, 7, 99_999, 100_000, U32, chance.randrange(100_000)))
    latitude = chance.choice((576_460_750, 0, -1, -8, -9, 900_000_000, -900_000_000, 900_000_001, ABSENT_I32, chance.randint(-(10**9), 10**9)))
    longitude = chance.choice((144_115_183, 0, -1, 1_800_000_000, -1_800_000_000, ABSENT_I32 - 2, chance.randint(-18 * 10**8, 18 * 10**8)))
    if chance.random() < 0.6:
        latitude, longitude = chance.randint(-(9 * 10**8), 9 * 10**8), chance.randint(-18 * 10**8, 18 * 10**8)
    return Goal(number, chance.choice((number, 5, chance.randrange(100_000))), latitude, longitude)


def leg_payload(goal, distance=2_285_368, flags=TRUE_BITS, leg_bearing=15_708, bearing=16_057, speed=514, arrival=b"\xff" * 6):
    """A message of PGN 129284."""
    return (struct.pack("<BIB", 0xFF, distance, flags) + arrival + struct.pack("<HHII", leg_bearing, bearing, goal.origin, goal.destination)
            + struct.pack("<iih", goal.latitude, goal.longitude, speed))


def random_leg(chance, goal, is_navigating):
    bearing = chance.choice((0, 62_832, 17, chance.randrange(62_833), chance.randrange(62_833), chance.randrange(62_833)))
    if not is_navigating:
        bearing = chance.choice((U16, U16 - 2, 62_833))
    distance = chance.choice((9_260, 9_259, 27_780, 0, 18_520_000, U32 - 3, U32 - 2, chance.randrange(10**7), chance.randrange(10**7)))
    leg_bearing = chance.choice((62_832, U16, chance.randrange(62_833), chance.randrange(62_833)))
    speed = chance.choice((0, 514, -514, 32_764, -32_764, 32_765, -32_768, -1, chance.randint(-3_000, 3_000)))
    reference = chance.choice((0, 0, 0, 0, 0, 0, 1, 1, 2, 3)) if chance.random() < 0.6 else 0
    flags = reference | chance.choice((0, 0, PASSED_BITS, 3 << 2)) | chance.choice((0, 0, ENTERED_BITS, 2 << 4)) | chance.randrange(4) << 6
    payload = leg_payload(goal, distance, flags, leg_bearing, bearing, speed, chance.randbytes(6))
    if chance.random() < 0.05:
        return payload[: chance.choice((33, 33, 32, 6, 5, 1))]
    return payload + (bytes(chance.randrange(1, 30)) if chance.random() < 0.05 else b"")


def frames_of(payload, sequence):
    """The frames of a fast packet."""
    pieces = [bytes([len(payload)]) + payload[:6]] + [payload[place : place + 7] for place in range(6, len(payload), 7)]
    return [(bytes([sequence << 5 | number]) + piece).ljust(8, b"\xff") for number, piece in enumerate(pieces)]


def spoiled(chance, frames):
    """The frames with a fault among them, as buses and adapters make it: one that is lost, comes twice, comes early, is cut, or is of another message."""
    place, kind = chance.randrange(len(frames)), chance.choice(("lost", "twice", "swapped", "cut", "other", "empty", "again"))
    before, one, after = frames[:place], frames[place], frames[place + 1 :]
    if kind == "lost":
        return before + after
    if kind == "twice":
        return [*before, one, one, *after]
    if kind == "swapped":
        return [*before, *after[:1], one, *after[1:]]
    if kind == "cut":
        return [*before, one[: chance.randrange(1, 8)], *after]
    if kind == "other":
        return [*before, bytes([one[0] ^ 1 << chance.randrange(8)]) + one[1:], *after]
    return [*before, b"", *after] if kind == "empty" else frames + frames[: chance.randrange(1, 3)]


def random_error(chance, error):
    """A frame of PGN 129283, most often with the error that a plotter has now."""
    value = chance.choice((*[error] * 4, *ENDS_OF_ERRORS, chance.randint(-400_000, 400_000)))
    terminated = chance.choice((0, 0, 0, 0, 0, 0, 0, 0, 1, 2, 3)) << 6
    data = struct.pack("<BBi", 0xFF, terminated | chance.choice((0x30, 0x3F, 0x00)), value) + b"\xff\xff"
    return data[: chance.choice((5, 3, 0))] if chance.random() < 0.03 else data[: chance.choice((8, 8, 8, 7, 6))]


def identifier(pgn, source):
    """Priority 3, or 6 for a claim, which goes to all."""
    return 6 << 26 | (pgn | ALL) << 8 | source if pgn == CLAIM else 3 << 26 | pgn << 8 | source


# ---- the bus


class Plotter:
    """A plotter that speaks in rounds, each of a leg and of errors before, between and behind its frames."""

    def __init__(self, bus, name, address):
        self.bus, self.name, self.address = bus, name, address
        self.goal, self.is_navigating, self.error, self.sequence = random_goal(bus.chance), True, 18_520, 0
        self.last_leg = self.last_error = START

    def round(self, moment):
        chance = self.bus.chance
        self.change(chance)
        for step in chance.choice(ROUNDS):
            moment += chance.choice((0, 1, 500, 10_000, 100_000))
            moment = self.say_error(moment) if step == "error" else self.say_leg(moment)
        pause = chance.choice((50_000, 200_000, 500_000, 1 * SECONDS, 1 * SECONDS))
        if chance.random() < 0.06:
            pause = chance.choice((2, 3, 6, 61)) * SECONDS
        self.bus.at(moment + pause + chance.randrange(-5, 6), self.round)

    def change(self, chance):
        """The next waypoint, the end or the beginning of a route, or another error."""
        if chance.random() < 0.12:
            self.goal = random_goal(chance)
        elif chance.random() < 0.05:
            self.goal = self.goal._replace(origin=self.goal.origin ^ 1)
        if chance.random() < (0.06 if self.is_navigating else 0.25):
            self.is_navigating = not self.is_navigating
        if chance.random() < 0.5:
            self.error = chance.randint(-40_000, 40_000)

    def say_error(self, moment):
        self.last_error = moment
        self.bus.frame(moment, ERROR, self.address, random_error(self.bus.chance, self.error))
        return moment

    def say_leg(self, moment):
        """The frames of a leg; at times with an error between them, or so that the last one comes when something ends."""
        chance = self.bus.chance
        frames = frames_of(random_leg(chance, self.goal, self.is_navigating), self.sequence)
        self.sequence = self.sequence if chance.random() < 0.1 else (self.sequence + 1) % 8
        frames = spoiled(chance, frames) if chance.random() < 0.12 else frames
        moments = list(itertools.accumulate(self.gaps(len(frames)), initial=moment))
        later = self.bus.end_of_a_time(self, moments[-1]) - moments[-1] if chance.random() < 0.2 else 0
        for place, (at, data) in enumerate(zip(moments[1:], frames)):
            self.bus.frame(at + later, LEG, self.address, data)
            if place and chance.random() < 0.04:
                self.say_error(at + later - 1)
        self.last_leg = moments[-1] + later
        return self.last_leg

    def gaps(self, frames):
        """How long before each frame of a message nothing of it comes; at times as long as it may, or longer."""
        gaps = [self.bus.chance.choice((1_000, 1_000, 1_000, 40_000)) for _ in range(frames)]
        if frames > 1 and self.bus.chance.random() < 0.06:
            gaps[self.bus.chance.randrange(1, frames)] = LATEST_US + self.bus.chance.choice((-1, 0, 1))
        return gaps


class Bus:
    """Makes the events of a seed: what each device does is due at a moment, the earliest first."""

    def __init__(self, seed):
        self.chance = random.Random(seed)
        self.settings, self.events, self.due, self.order = random_settings(self.chance), [], [], itertools.count()
        self.plotters = [Plotter(self, name, address) for name, address in zip((FIRST, SECOND), ADDRESSES)]
        for plotter in self.plotters:
            if (plotter.address, plotter.name) not in self.settings.presets:
                self.claim(START + self.chance.randrange(SECONDS), plotter.name, plotter.address)
            self.at(START + self.chance.randrange(SECONDS), plotter.round)
        self.at(START + self.chance.randrange(5 * SECONDS), self.claims)
        self.at(START + self.chance.randrange(2 * SECONDS), self.others)

    def at(self, moment, what):
        heapq.heappush(self.due, (moment, next(self.order), what))

    def frame(self, moment, pgn, source, data):
        self.at(moment, lambda now: self.events.append(Event(now, identifier(pgn, source), data)))

    def claim(self, moment, name, address):
        self.frame(moment, CLAIM, address, name.to_bytes(8, "little"))

    def run(self):
        while len(self.events) < EVENTS:
            moment, _, what = heapq.heappop(self.due)
            what(moment)
        return self.settings, self.events

    def end_of_a_time(self, plotter, moment):
        """A moment at which an error or a plotter stops to count, or one beside it; else this one."""
        timeout = 1_000 * self.settings.navigation.timeout_ms
        times = [plotter.last_error, *(other.last_leg for other in self.plotters if other is not plotter)]
        later = [time + timeout + self.chance.choice((-1, 0, 1)) for time in times if moment <= time + timeout - 1 <= moment + 5 * SECONDS]
        return self.chance.choice(later) if later else moment

    def claims(self, moment):
        """What claims do to the addresses of the plotters, or to that of the gateway."""
        chance, plotter = self.chance, self.chance.choice(self.plotters)
        kind = chance.choice(("again", "taken", "taken", "defended", "moves", "none", "swapped", "gateway", "broken"))
        if kind == "again":
            self.claim(moment, plotter.name, plotter.address)
        elif kind == "taken":
            self.take(moment, plotter)
        elif kind == "defended":
            self.claim(moment, STRANGERS[2], plotter.address)
        elif kind == "moves":
            plotter.address = chance.choice(OTHER_ADDRESSES + ADDRESSES)
            self.claim(moment, plotter.name, plotter.address)
        elif kind == "none":
            self.claim(moment, plotter.name, NOBODY)
            self.claim(moment + chance.randrange(4 * SECONDS), plotter.name, plotter.address)
        elif kind == "swapped":
            self.swap(moment)
        elif kind == "gateway":
            self.claim(moment, chance.choice(STRANGERS), chance.choice((251, 0, 1)))
        else:
            self.frame(moment, CLAIM, chance.choice((plotter.address, ALL)), chance.choice((FIRST, OWN_NAME)).to_bytes(8, "little")[: chance.choice((7, 8, 8))])
        self.at(moment + chance.choice((1, 3, 5, 12)) * SECONDS + chance.randrange(SECONDS), self.claims)

    def take(self, moment, plotter):
        """A stranger takes the address of a plotter, which goes elsewhere, or says on from there what another NAME says then."""
        chance, stranger = self.chance, self.chance.choice(STRANGERS[:2])
        self.claim(moment, stranger, plotter.address)
        if chance.random() < 0.5:
            plotter.address = chance.choice(OTHER_ADDRESSES)
            self.claim(moment + chance.randrange(SECONDS), plotter.name, plotter.address)
        else:
            self.claim(moment + chance.randrange(1, 5 * SECONDS), stranger, chance.choice((NOBODY, 77)))
            self.claim(moment + 5 * SECONDS + chance.randrange(SECONDS), plotter.name, plotter.address)

    def swap(self, moment):
        one, other = self.plotters
        one.address, other.address = other.address, one.address
        self.claim(moment, one.name, one.address)
        self.claim(moment + self.chance.randrange(SECONDS), other.name, other.address)

    def others(self, moment):
        """Ticks, and frames of who never claimed, of the gateway's own address, and of an earlier moment."""
        chance, (payload, *_) = self.chance, frames_of(leg_payload(self.plotters[0].goal), 0)
        kind = chance.choice(("tick", "tick", "tick", "unclaimed", "own", "earlier"))
        if kind == "tick":
            self.at(moment, lambda now: self.events.append(Event(now)))
        else:
            source = {"unclaimed": chance.choice(UNCLAIMED), "own": chance.choice((251, 0)), "earlier": self.plotters[0].address}[kind]
            pgn, data = chance.choice(((LEG, payload), (ERROR, random_error(chance, 0))))
            back = chance.randrange(1, SECONDS) if kind == "earlier" else 0
            self.at(moment, lambda now: self.events.append(Event(now - back, identifier(pgn, source), data)))
        self.at(moment + chance.randrange(1, 2 * SECONDS), self.others)
