"""The parts of a 29-bit identifier (ISO 11783-3) and the fields of a NAME (ISO 11783-5)."""

from typing import NamedTuple

from .candump import Frame

# addresses: of those that can claim none, and of all
NULL_ADDRESS, ALL = 254, 255
# below this, the second byte of a PGN's number is where the message goes to
FIRST_BROADCAST_FORMAT = 240
REQUEST, ADDRESS_CLAIM, PRODUCT_INFORMATION = 59904, 60928, 126996
# the fields of a NAME by the words of the configuration, from the lowest bit on, with their widths
NAME_FIELDS = (
    ("unique", 21), ("manufacturer", 11), ("instance_lower", 3), ("instance_upper", 5), ("function", 8), ("reserved", 1), ("class", 7),
    ("system_instance", 4), ("industry", 3), ("arbitrary", 1),
)
NAME_BYTES = 8


class Parts(NamedTuple):
    """What an identifier says; the destination of what goes to all is ALL."""

    priority: int
    pgn: int
    source: int
    destination: int


def parts_of(identifier):
    priority, page_and_format, specific, source = identifier >> 26 & 7, identifier >> 16 & 0x3FF, identifier >> 8 & 0xFF, identifier & 0xFF
    if page_and_format & 0xFF < FIRST_BROADCAST_FORMAT:
        return Parts(priority, page_and_format << 8, source, specific)
    return Parts(priority, page_and_format << 8 | specific, source, ALL)


def identifier_of(parts):
    """The identifier with these parts; a PGN that goes to all has its destination in no place."""
    specific = parts.destination if parts.pgn >> 8 & 0xFF < FIRST_BROADCAST_FORMAT else 0
    return parts.priority << 26 | (parts.pgn | specific) << 8 | parts.source


def parts_of_message(priority, pgn, source, destination):
    """The parts of what a tool says of a message; what can go to all alone goes to all."""
    if pgn >> 8 & 0xFF < FIRST_BROADCAST_FORMAT:
        return Parts(priority, pgn & ~0xFF, source, destination)
    return Parts(priority, pgn, source, ALL)


def name_of(claim):
    """The NAME in the data of a claim, as a number: the eight bytes, the last of which is the highest; nothing where there are fewer."""
    return int.from_bytes(claim[:NAME_BYTES], "little") if len(claim) >= NAME_BYTES else None


def name_text(name):
    """A NAME as the configuration has it."""
    return f"{name:016X}"


def name_fields(name):
    """The fields of a NAME by their words."""
    fields = {}
    for word, width in NAME_FIELDS:
        fields[word], name = name & (1 << width) - 1, name >> width
    return fields


# who is there: to all, from nobody's address
REQUEST_FOR_CLAIMS = Frame(identifier_of(Parts(6, REQUEST, NULL_ADDRESS, ALL)), ADDRESS_CLAIM.to_bytes(3, "little"))
