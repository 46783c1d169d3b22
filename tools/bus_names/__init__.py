"""Names of makers, functions, classes, industries and messages, by the tables in this folder; what isn't in them is shown as a number."""

import os

from onboard.identifiers import name_fields

HERE = os.path.dirname(os.path.realpath(__file__))


def table_of(name, numbers):
    """The lines of a table: so many numbers, and the name."""
    found = {}
    with open(os.path.join(HERE, name), encoding="utf-8") as file:
        for line in file:
            if not line.startswith("#"):
                *key, words = line.rstrip("\n").split(" ", numbers)
                found[tuple(map(int, key))] = words
    return found


MAKERS, FUNCTIONS, PGNS = table_of("makers.txt", 1), table_of("functions.txt", 2), table_of("pgns.txt", 1)
CLASSES, INDUSTRIES = table_of("classes.txt", 1), table_of("industries.txt", 1)
# a PGN of which makers themselves say what it holds
PROPRIETARY = ((61184, 61184), (65280, 65535), (126720, 126720), (130816, 131071))


def maker_of(name):
    number = name_fields(name)["manufacturer"]
    return MAKERS.get((number,), f"maker {number}")


def function_of(name):
    fields = name_fields(name)
    pair = fields["class"], fields["function"]
    return FUNCTIONS.get(pair, f"class {pair[0]}, function {pair[1]}")


def has_known_function(name):
    fields = name_fields(name)
    return (fields["class"], fields["function"]) in FUNCTIONS


def message_of(pgn):
    """The name of a PGN, or nothing."""
    if (pgn,) in PGNS:
        return PGNS[pgn,]
    return "of a maker's own" if any(least <= pgn <= most for least, most in PROPRIETARY) else ""
