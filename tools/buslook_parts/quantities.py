"""What each source says of a quantity, whether it was taken or not, and how far it lay from the one that was."""

import math
from typing import Any, NamedTuple, Optional

from configuration.messages import fields, selectors
from configuration.pages import FORMATS, PageChanged

from .gathering import Point, Series
from .motion import Motion, Stood

MOST_DRAWN_SOURCES, CELLS = 4, 120
DEGREES = math.degrees(1e-4)
KNOTS, MILES = 0.01 * 3600 / 1852, 1 / 1852
# a minute of latitude
METRES_A_DEGREE = 60 * 1852


class Quantity(NamedTuple):
    """One value of a row: its words and unit, the field of the message, what a raw unit is of it, what is taken off, whether it goes round, how far it may
    move within a second where not every distance is usual, and whether it moves on any boat that isn't ashore."""

    words: str
    unit: str
    row: str
    field: str
    factor: float
    less: float = 0.0
    turns: bool = False
    step: Optional[float] = None
    moves: bool = False


# by the PGN and, where a message may be of several rows, by what it says of them
OF_HEADING = {0: (Quantity("heading, true", "degrees", "heading_true", "heading", DEGREES, turns=True, step=45, moves=True),),
              1: (Quantity("heading, magnetic", "degrees", "heading_magnetic", "heading", DEGREES, turns=True, step=45, moves=True),)}
FIRST_RUDDER = (Quantity("rudder, first", "degrees", "rudder_first", "position", DEGREES, step=45, moves=True),)
SECOND_RUDDER = (Quantity("rudder, second", "degrees", "rudder_second", "position", DEGREES, step=45, moves=True),)
COURSE = (Quantity("speed over ground", "knots", "course_speed", "speed", KNOTS, step=5, moves=True),
          Quantity("course over ground", "degrees", "course_speed", "course", DEGREES, turns=True))
SEA = "water temperature", "degrees Celsius", "water_temperature", "temperature"


def wind(words, row):
    return (Quantity(f"wind speed, {words}", "knots", row, "speed", KNOTS, step=25, moves=True),
            Quantity(f"wind angle, {words}", "degrees", row, "angle", DEGREES, turns=True, moves=True))


NORTH_WIND, TRUE_WIND = wind("by north", "wind_north"), wind("true", "wind_true")
QUANTITIES = {
    127250: OF_HEADING,
    127245: {0: FIRST_RUDDER, 255: FIRST_RUDDER, 1: SECOND_RUDDER},
    127251: {None: (Quantity("rate of turn", "degrees a minute", "rate_of_turn", "rate", math.degrees(60 / 32e6), step=3000),)},
    128259: {None: (Quantity("speed through water", "knots", "water_speed", "speed", KNOTS, step=5, moves=True),)},
    128267: {None: (Quantity("depth", "metres", "depth", "depth", 0.01, step=10, moves=True),)},
    128275: {None: (Quantity("distance log", "nautical miles", "distance_log", "log", MILES, step=0.1),)},
    129026: {0: COURSE, 1: COURSE},
    129283: {None: (Quantity("cross track error", "nautical miles", "cross_track", "distance", 0.01 * MILES),)},
    130306: {0: NORTH_WIND, 1: NORTH_WIND, 2: wind("apparent", "wind_apparent"), 3: TRUE_WIND, 4: TRUE_WIND},
    130312: {0: (Quantity(*SEA, 0.01, 273.15, step=5),)},
    130316: {0: (Quantity(*SEA, 0.001, 273.15, step=5),)},
}


class Position(NamedTuple):
    """A position of a row, of which two lie so many metres from each other: its words, and what a raw unit is of a degree."""

    words: str
    row: str
    factor: float
    unit: str = "metres"
    step: float = 100
    moves: bool = True


PLACE = "latitude", "longitude"
POSITIONS = {129025: Position("position", "position", 1e-7), 129029: Position("position of the fix", "gnss", 1e-16)}


class Moved(NamedTuple):
    """A source of a quantity whose value stood still for long, or jumped."""

    quantity: Any
    address: int
    stood: Optional[Stood]
    motion: Motion

    def stood_us(self):
        return 0 if self.stood is None else self.stood.length()


class Beside:
    """One source of a quantity: how often it spoke and was taken, how its value moved, and how far it lay from the one that was taken."""

    def __init__(self, begin, is_drawn):
        self.times, self.taken, self.compared, self.sum, self.most, self.most_at = 0, 0, 0, 0.0, 0.0, None
        self.points, self.motion = Series(begin, Point.joined, most=CELLS) if is_drawn else None, Motion()

    def note(self, moment, value):
        if self.points is not None:
            self.points.add(moment, Point(moment, moment, value, value, value, value, False))

    def lies(self, moment, distance):
        self.compared += 1
        self.sum += distance
        if distance >= self.most:
            self.most, self.most_at = distance, moment


class Compared:
    """The sources of each quantity, beside the one that was said last."""

    def __init__(self, begin, ranks):
        self.begin, self.ranks = begin, ranks
        self.fields, self.selectors = fields(), selectors()
        self._find_all()
        # by the words of a quantity: what it is, and its sources by their addresses
        self.quantities, self.sources, self.said = {}, {}, {}

    def _find_all(self):
        """Whether the page has each field that is compared, and each selector."""
        words = {(pgn, quantity.field) for pgn, by_selector in QUANTITIES.items() for quantities in by_selector.values() for quantity in quantities}
        words |= {(pgn, word) for pgn in POSITIONS for word in PLACE}
        missing = {pgn for pgn, word in words if word not in self.fields.get(pgn, ())}
        missing |= {pgn for pgn, by_selector in QUANTITIES.items() if None not in by_selector and pgn not in self.selectors}
        if missing:
            raise PageChanged(FORMATS, f"the fields of {', '.join(map(str, sorted(missing)))} aren't where they were")

    def message(self, moment, message, rows_said):
        """A whole message from the bus, and the rows that were said at it. Gives the rows that it is of and has no value of."""
        pgn, source, data = message.parts.pgn, message.parts.source, message.data
        if pgn in POSITIONS:
            return set() if self._position(moment, pgn, source, data, rows_said) else {POSITIONS[pgn].row}
        selector = self.selectors.get(pgn)
        quantities = QUANTITIES.get(pgn, {}).get(selector and selector.value(data), ())
        raws = [self.fields[pgn][quantity.field].value(data) for quantity in quantities]
        for quantity, raw in zip(quantities, raws):
            if raw is not None:
                self._value(moment, quantity, source, raw * quantity.factor - quantity.less, rows_said)
        return {quantity.row for quantity in quantities} if all(raw is None for raw in raws) else set()

    def _value(self, moment, quantity, source, value, rows_said):
        self._beside(quantity, source).note(moment, value)
        self._compare(moment, quantity, source, value, angle_between if quantity.turns else difference, rows_said)

    def _position(self, moment, pgn, source, data, rows_said):
        """Takes the position of a message, and says whether there is one."""
        position = POSITIONS[pgn]
        raw = [self.fields[pgn][word].value(data) for word in PLACE]
        if None in raw:
            return False
        self._beside(position, source).points = None
        self._compare(moment, position, source, tuple(part * position.factor for part in raw), metres_between, rows_said)
        return True

    def _beside(self, quantity, source):
        sources = self.sources.setdefault(quantity.words, {})
        if source not in sources:
            self.quantities[quantity.words] = quantity
            sources[source] = Beside(self.begin, len(sources) < MOST_DRAWN_SOURCES)
        return sources[source]

    def _compare(self, moment, quantity, source, value, distance, rows_said):
        beside = self.sources[quantity.words][source]
        beside.times += 1
        beside.motion.take(moment, value, distance, quantity.step)
        if quantity.row in rows_said:
            self.said[quantity.words] = (source, value, moment)
            beside.taken += 1
        elif quantity.words in self.said:
            other, said, at = self.said[quantity.words]
            if other != source and moment - at <= self.ranks.timeout_us(quantity.row):
                beside.lies(moment, distance(value, said))

    def of_several(self):
        """The quantities that several sources said, each with its sources."""
        return [(self.quantities[words], sources) for words, sources in sorted(self.sources.items()) if len(sources) > 1]

    def worth_a_look(self):
        """The sources whose value stood still for long or jumped."""
        for words, sources in sorted(self.sources.items()):
            quantity = self.quantities[words]
            for address, beside in sorted(sources.items()):
                longest = beside.motion.longest()
                stood = longest if quantity.moves and longest.is_long() else None
                if stood is not None or beside.motion.jumps:
                    yield Moved(quantity, address, stood, beside.motion)


def difference(first, second):
    return abs(first - second)


def angle_between(first, second):
    return abs((first - second + 180) % 360 - 180)


def metres_between(first, second):
    """How far two places near each other lie apart."""
    north, east = first[0] - second[0], (first[1] - second[1] + 180) % 360 - 180
    return METRES_A_DEGREE * math.hypot(north, east * math.cos(math.radians(first[0])))

