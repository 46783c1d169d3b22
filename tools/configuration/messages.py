"""Where the messages of the bus have their values and selectors, read off docs/formats.md: it is said there and nowhere else."""

import re
from typing import NamedTuple, Optional

from .pages import FORMATS, PageChanged, text_of

ROW = re.compile(r"^\| (\d{6}) \| (?:single|fast), \d+ \|([^|]*)\|([^|]*)\|$", re.MULTILINE)
FIELD = re.compile(r"(\w+) ([ui])(\d+)@(\d+)")
SELECTOR = re.compile(r"(?:reference|instance|source), byte (\d+)(?: bits (\d)-(\d))?:")
# further quantities: their words, and what a message says of which of them it is
QUANTITIES = re.compile(r"^\| ([a-z][^|]*) \| (\d{6})[^|]* \| (?:single|fast), \d+ \|([^|]*)\|[^|]*\|[^|]*\|$", re.MULTILINE)
SELECTS = re.compile(r"byte (\d+)(?: bits (\d)-(\d))?: (.*)")
VALUE = re.compile(r"\b(?:0x[0-9A-F]{2}|\d+)\b")
# the message that joined headings take their variation from, and where it has it
VARIATION = re.compile(r"PGN (\d{6}) \(Magnetic Variation, [^\n]* Its variation is ([ui])(\d+)@(\d+),")
# the message in which a plotter says where it goes, and its fields that are looked at
LEG = re.compile(r"PGN (\d{6}) \(Navigation Data\) comes as a fast packet of at least (\d+) bytes\.")
LEG_BEARING = re.compile(r"^\| bearing of the destination from the boat \| ([ui])(\d+)@(\d+) \|", re.MULTILINE)
LEG_REFERENCE = re.compile(r"^\| reference of both bearings \| byte (\d+) bits (\d)-(\d) \| (\d) true, (\d) magnetic;", re.MULTILINE)
LEG_GOAL = re.compile(r"^Bytes (\d+) to (\d+), [^\n]* are the goal\.", re.MULTILINE)


class Selector(NamedTuple):
    """Where a message says of which row or quantity it is: the byte, the lowest bit and how many."""

    byte: int
    low: int
    bits: int

    def value(self, data):
        """What it says there; nothing where the byte is missing."""
        return data[self.byte] >> self.low & (1 << self.bits) - 1 if self.byte < len(data) else None


class Source(NamedTuple):
    """A message that a row or a quantity is taken from: of which PGN, and where and what it says that it is of this one, unless all of them are."""

    pgn: int
    selector: Optional[Selector]
    values: tuple

    def is_said_by(self, pgn, data):
        return pgn == self.pgn and (self.selector is None or self.selector.value(data) in self.values)


class Field(NamedTuple):
    """A number in a payload: its first byte, how many, and whether it may be below zero."""

    first: int
    bytes: int
    is_signed: bool

    def value(self, data):
        """The raw value; nothing where a byte is missing, or where it is one of the three largest, which say that it isn't available."""
        piece = data[self.first : self.first + self.bytes]
        if len(piece) < self.bytes:
            return None
        value = int.from_bytes(piece, "little", signed=self.is_signed)
        return value if value < (1 << 8 * self.bytes - self.is_signed) - 3 else None


class Leg(NamedTuple):
    """The message in which a plotter says where it goes: its least bytes, the bearing with its reference, and the bytes of the goal."""

    source: Source
    least: int
    bearing: Field
    reference: Selector
    references: tuple
    goal: slice

    def is_usable(self, data):
        return self.reference.value(data) in self.references and self.bearing.value(data) is not None


def rows():
    return ROW.findall(text_of(FORMATS))


def fields():
    """The fields of each PGN by their words."""
    return {int(pgn): {word: Field(int(first), int(bits) // 8, sign == "i") for word, sign, bits, first in FIELD.findall(cells)} for pgn, cells, _ in rows()}


def variation_of_page():
    """The message that joined headings take their variation from, and the variation in it."""
    match = VARIATION.search(text_of(FORMATS))
    if match is None:
        raise PageChanged(FORMATS, "the message of the variation isn't where it was")
    pgn, sign, bits, first = match.groups()
    return Source(int(pgn), None, ()), Field(int(first), int(bits) // 8, sign == "i")


def leg_of_page():
    """The message in which a plotter says where it goes."""
    matches = [pattern.search(text_of(FORMATS)) for pattern in (LEG, LEG_BEARING, LEG_REFERENCE, LEG_GOAL)]
    if None in matches:
        raise PageChanged(FORMATS, "the message of navigation isn't where it was")
    (pgn, least), (sign, bits, first), (byte, low, high, *references), (goal, last) = (match.groups() for match in matches)
    bearing = Field(int(first), int(bits) // 8, sign == "i")
    return Leg(Source(int(pgn), None, ()), int(least), bearing, selector_of(byte, low, high), tuple(map(int, references)), slice(int(goal), int(last) + 1))


def selector_of(byte, first_bit, last_bit):
    """A selector by the digits of the page; without bits it is the whole byte."""
    low, high = int(first_bit or 0), int(last_bit or 7)
    return Selector(int(byte), low, high - low + 1)


def selectors():
    """The selector of each PGN of several rows."""
    found = ((int(pgn), SELECTOR.search(cell)) for pgn, _, cell in rows())
    return {pgn: selector_of(*match.groups()) for pgn, match in found if match}


def sources_of_rows(rows_of_page):
    """The messages that each row is taken from, by the row's name."""
    selecting = selectors()
    for row in rows_of_page:
        if row.selector and not selecting.keys() >= set(row.pgns):
            raise PageChanged(FORMATS, f"what tells the row {row.name} from others isn't where it was")
    return {row.name: [Source(pgn, selecting[pgn] if row.selector else None, tuple(row.values)) for pgn in row.pgns] for row in rows_of_page}


def sources_of_quantities(names_of_page):
    """The messages that each further quantity is taken from, by the quantity's name."""
    found = {}
    for words, pgn, selects in QUANTITIES.findall(text_of(FORMATS)):
        names, match = names_of_quantities(words), SELECTS.search(selects)
        values = [int(value, 0) for value in VALUE.findall(match.group(4))] if match else []
        for place, name in enumerate(names):
            own = tuple(values if len(names) == 1 else values[place : place + 1])
            found.setdefault(name, []).append(Source(int(pgn), selector_of(*match.groups()[:3]) if match else None, own))
    if sorted(found) != sorted(names_of_page):
        raise PageChanged(FORMATS, "the messages of further quantities aren't where they were")
    return found


def names_of_quantities(words):
    """The names of what a line of the page is of: `fuel, first and second; water, first` are three."""
    names = []
    for part in words.split("; "):
        name, _, ordinals = part.partition(", ")
        names += [f"{name} {ordinal}" for ordinal in ordinals.split(" and ")] if ordinals else [name.replace(" and ", " ")]
    return [name.replace(" ", "_") for name in names]
