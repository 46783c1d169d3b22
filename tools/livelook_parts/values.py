"""The values in the sentences that the gateway says, each with its unit."""

from typing import NamedTuple, Optional


class Value(NamedTuple):
    """One value: what it is beside others of its row, as it is written, its unit, and the number, if it is one."""

    words: str
    text: str
    unit: str
    number: Optional[float]


# of the last letters of a sentence: what a value is beside others, its field, and its unit
FIELDS = {
    "HDT": (("", 1, "degrees"),), "ROT": (("", 1, "degrees a minute"),), "VHW": (("", 5, "knots"),), "DPT": (("", 1, "metres"),),
    "VLW": (("in all", 1, "nautical miles"), ("trip", 3, "nautical miles of the trip")), "MTW": (("", 1, "degrees Celsius"),),
    "HDG": (("", 1, "degrees"),), "VTG": (("course", 1, "degrees"), ("course", 3, "degrees magnetic"), ("speed", 5, "knots")),
    "MWV": (("angle", 1, "degrees"), ("speed", 3, "knots")),
    "MWD": (("direction", 1, "degrees"), ("direction", 3, "degrees magnetic"), ("speed", 5, "knots")),
    "VDR": (("set", 1, "degrees"), ("set", 3, "degrees magnetic"), ("drift", 5, "knots")),
    "VBW": (("ahead", 1, "knots ahead through the water"), ("to starboard", 2, "knots to starboard through the water"),
            ("ahead", 4, "knots ahead over ground"), ("to starboard", 5, "knots to starboard over ground"),
            ("stern", 7, "knots of the stern through the water"), ("stern", 9, "knots of the stern over ground")),
    "RPM": (("", 3, "revolutions a minute"),),
}
# where latitude and longitude stand
PLACES = {"GLL": 1, "GGA": 2}
RUDDERS = {"rudder_first": 1, "rudder_second": 3}
TRANSDUCER_UNITS = {"D": "degrees", "B": "bar", "P": "percent", "C": "degrees Celsius", "V": "volts", "A": "amperes"}
# by the name of a transducer: the further quantity, and what the value is beside others
TRANSDUCERS = {"PITCH": ("attitude", "pitch"), "ROLL": ("attitude", "roll"), "BAROMETER": ("air_pressure", ""), "HUMIDITY": ("air_humidity", ""),
               "AIR": ("air_temperature", "")}
ORDINALS = (("0", "first"), ("1", "second"))
for digit, ordinal in ORDINALS:
    for transducer, quantity in (("ENGINE", "engine_state"), ("ENGOIL", "engine_state"), ("BATTERY", "battery"), ("FUEL", "fuel")):
        TRANSDUCERS[f"{transducer}#{digit}"] = (f"{quantity}_{ordinal}", "")
TRANSDUCERS["FRESHWATER#0"] = ("water_first", "")
# an engine's number counts from the centre line: the first one is single, or the one to port
ENGINES = {"0": "engine_first", "1": "engine_second", "2": "engine_first"}
# the further quantity of a sentence that is of one alone
FURTHER = {"VDR": "set_drift", "VBW": "speed_components", "MTW": "sea_temperature"}


def value_of(words, text, unit):
    return Value(words, text, unit, float(text))


def degrees_of(text, digits, letter):
    degrees = int(text[:digits]) + float(text[digits:]) / 60
    return -degrees if letter in ("S", "W") else degrees


def place_of(fields, first):
    """Latitude and longitude, which are said together or not at all."""
    latitude, north, longitude, east = fields[first : first + 4]
    if not latitude:
        return []
    shown = ((latitude, 2, north, "degrees north"), (longitude, 3, east, "degrees east"))
    return [Value("", f"{text[:digits]}°{text[digits:]}'{letter}", unit, degrees_of(text, digits, letter)) for text, digits, letter, unit in shown]


def cross_track(fields):
    side = {"L": "steer to port", "R": "steer to starboard"}.get(fields[4], "")
    number = float(fields[3]) if fields[3] else 0.0
    return [Value(side, fields[3], "nautical miles", -number if fields[4] == "L" else number)] if fields[3] else []


def time_of(fields):
    clock, day, month, year = fields[1:5]
    texts = (f"{clock[:2]}:{clock[2:4]}:{clock[4:6]}" if clock else "", f"{year}-{month}-{day}" if year else "")
    return [Value("", text, "UTC", None) for text in texts if text]


def values_of(row, fields):
    """The values of a row's sentence by its fields, the address first; None if another sentence of the row has them."""
    formatter = fields[0][3:]
    if formatter in PLACES:
        return place_of(fields, PLACES[formatter])
    if formatter == "XTE":
        return cross_track(fields)
    if formatter == "ZDA":
        return time_of(fields)
    if formatter == "RSA":
        return [value_of("", fields[RUDDERS[row]], "degrees")] if fields[RUDDERS[row]] else []
    if formatter not in FIELDS:
        return None
    return [value_of(words, fields[place], unit) for words, place, unit in FIELDS[formatter] if fields[place]]


def transducers_of(fields):
    """The further quantities of a sentence of transducers, each with its values."""
    found = {}
    for text, unit, name in zip(fields[2::4], fields[3::4], fields[4::4]):
        if name not in TRANSDUCERS or unit not in TRANSDUCER_UNITS:
            continue
        quantity, words = TRANSDUCERS[name]
        shown = f"{TRANSDUCER_UNITS[unit]} of {words}" if words else TRANSDUCER_UNITS[unit]
        found.setdefault(quantity, []).extend([value_of(words, text, shown)] if text else [])
    return found


def further_of(fields):
    """The further quantities that a sentence says, each with its values; none of a sentence that another program says."""
    formatter = fields[0][3:]
    if formatter == "XDR":
        return transducers_of(fields)
    quantity = ENGINES.get(fields[2]) if formatter == "RPM" else FURTHER.get(formatter)
    return {} if quantity is None else {quantity: values_of(quantity, fields)}
