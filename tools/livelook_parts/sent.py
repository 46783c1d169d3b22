"""The values of the messages that the gateway sends to the bus."""

import datetime
import math

from buslook_parts.quantities import DEGREES, KNOTS, MILES
from configuration.messages import fields, sources_of_rows

from .values import Value

DEGREES_A_MINUTE = math.degrees(60 / 32e6)
ZERO_CELSIUS = 273.15
# of each PGN its values: what one is beside others, its field, its unit, what a raw unit is of it, its decimals, and what is taken off
VALUES = {
    127245: (("", "position", "degrees", DEGREES, 1, 0),),
    127250: (("", "heading", "degrees", DEGREES, 1, 0),),
    127251: (("", "rate", "degrees a minute", DEGREES_A_MINUTE, 1, 0),),
    128259: (("", "speed", "knots", KNOTS, 2, 0),),
    128267: (("", "depth", "metres", 0.01, 2, 0),),
    128275: (("in all", "log", "nautical miles", MILES, 2, 0), ("trip", "trip", "nautical miles of the trip", MILES, 2, 0)),
    129026: (("course", "course", "degrees", DEGREES, 1, 0), ("speed", "speed", "knots", KNOTS, 2, 0)),
    130306: (("angle", "angle", "degrees", DEGREES, 1, 0), ("speed", "speed", "knots", KNOTS, 2, 0)),
    130316: (("", "temperature", "degrees Celsius", 0.001, 1, ZERO_CELSIUS),),
}
# what a raw unit is of a degree, of latitude and of longitude
PLACES = {129025: 1e-7, 129029: 1e-16}
TIME, DAY_UNITS = 126992, 864_000_000
CROSS_TRACK = 129283
SIDES = ("latitude", "N", "S", 2), ("longitude", "E", "W", 3)
MINUTE_PARTS = 600_000


def place_text(degrees, positive, negative, digits):
    """A latitude or a longitude as sentences have it, in degrees and minutes."""
    parts = round(abs(degrees) * MINUTE_PARTS)
    whole, rest = divmod(parts, MINUTE_PARTS)
    return f"{whole:0{digits}d}°{rest / 10_000:07.4f}'{negative if degrees < 0 else positive}"


class Sent:
    """Says of which row a message is, and its values."""

    def __init__(self, rows_of_page):
        self.fields, self.sources = fields(), sources_of_rows(rows_of_page)

    def of(self, message):
        """The name of the message's row and its values; nothing if it is of no row."""
        pgn, data = message.parts.pgn, message.data
        name = next((name for name, sources in self.sources.items() if any(source.is_said_by(pgn, data) for source in sources)), None)
        return None if name is None else (name, self._values(pgn, data))

    def _values(self, pgn, data):
        raw = {word: field.value(data) for word, field in self.fields[pgn].items()}
        if pgn in PLACES:
            return self._place(raw, PLACES[pgn])
        if pgn == TIME:
            return self._time(raw)
        if pgn == CROSS_TRACK:
            return self._cross_track(raw["distance"])
        return [Value(words, f"{raw[word] * factor - less:.{decimals}f}", unit, raw[word] * factor - less)
                for words, word, unit, factor, decimals, less in VALUES.get(pgn, ()) if raw[word] is not None]

    @staticmethod
    def _place(raw, factor):
        if None in (raw["latitude"], raw["longitude"]):
            return []
        return [Value("", place_text(raw[word] * factor, positive, negative, digits), word, raw[word] * factor) for word, positive, negative, digits in SIDES]

    @staticmethod
    def _cross_track(raw):
        """As in the sentence, below zero where the way leads to port."""
        if raw is None:
            return []
        return [Value("steer to port" if raw >= 0 else "steer to starboard", f"{abs(0.01 * MILES * raw):.3f}", "nautical miles", -0.01 * MILES * raw)]

    @staticmethod
    def _time(raw):
        if None in (raw["date"], raw["time"]):
            return []
        moment = datetime.datetime(1970, 1, 1) + datetime.timedelta(days=raw["date"], microseconds=100 * (raw["time"] % DAY_UNITS))
        return [Value("", moment.strftime("%H:%M:%S"), "UTC", None), Value("", moment.strftime("%Y-%m-%d"), "UTC", None)]
