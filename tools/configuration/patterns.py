"""Patterns of devices, and NAMEs, in words."""

import itertools
import re

from bus_names import CLASSES, FUNCTIONS, INDUSTRIES, MAKERS, has_known_function
from onboard.identifiers import NAME_BYTES, name_fields

from .keys import pattern_of

# the fields whose numbers have names by themselves
NAMED_FIELDS = {"manufacturer": MAKERS, "class": CLASSES, "industry": INDUSTRIES}
MOVES = {0: "can't move to another address", 1: "can move"}
UNKNOWN = "not known"
FIELD_WITH_A_WORD = re.compile(r"(\w+)=(\D[^=]*?)(?= \w+=|$)")
# so many letters of a pattern are looked at, and so many numbers are named for a word
MOST_LETTERS, MOST_MEANT = 100, 5


def fields_of(pattern):
    """What a pattern states, field by field; a whole NAME states all of them."""
    stated = pattern_of(pattern)
    return name_fields(stated["name"]) if "name" in stated else stated


def covers(pattern, other):
    """Whether each device that the other pattern is of is one that the pattern is of."""
    stated = fields_of(other)
    return all(stated.get(field) == value for field, value in fields_of(pattern).items())


def explained(pattern):
    """A pattern field by field, with what its numbers mean; of a whole NAME the fields that are 0 are left out."""
    is_name = "name" in pattern_of(pattern)
    fields = fields_of(pattern)
    words = " ".join(field_explained(field, fields) for field, value in fields.items() if value or not is_name)
    return f"{pattern} is {words}" if is_name else words


def field_explained(field, fields):
    value = fields[field]
    if field in NAMED_FIELDS:
        meaning = NAMED_FIELDS[field].get((value,), UNKNOWN)
    elif field == "function":
        meaning = FUNCTIONS.get((fields["class"], value), UNKNOWN) if "class" in fields else "another thing in each class"
    else:
        meaning = MOVES[value] if field == "arbitrary" else None
    return f"{field}={value}" + (f" ({meaning})" if meaning else "")


def numbers_meant(text):
    """The numbers of makers, classes and industries that a pattern calls by names, in words; nothing where it calls none that is known."""
    found = []
    for field, word in FIELD_WITH_A_WORD.findall(text[:MOST_LETTERS]):
        named = ((number, name) for (number,), name in NAMED_FIELDS.get(field, {}).items() if word.casefold() in name.casefold())
        found += [f"{field}={number} is {name}" for number, name in itertools.islice(named, MOST_MEANT)]
    return ", ".join(found)


def turned(name):
    """The NAME whose bytes these are as a claim has them, from the last to the first; nothing for a NAME that may be right as it is."""
    other = int.from_bytes(name.to_bytes(NAME_BYTES, "big"), "little")
    return other if is_usual(other) and not is_usual(name) else None


def is_usual(name):
    """Whether a NAME says what the device is, and that it can move to another address, as those on boats do."""
    return has_known_function(name) and name_fields(name)["arbitrary"] == 1
