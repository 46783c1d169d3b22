"""Messages of several frames, there and back: fast packets of NMEA 2000, of at most 223 bytes.

A frame begins with a byte whose three high bits are the sequence, the same in all frames of a message, and whose five low ones count its frames. The
first frame has the message's length and its first six bytes, each other one the next seven; the last one is filled with 255.
"""

import collections
from typing import NamedTuple

from .candump import MOST_DATA, Frame
from .identifiers import Parts, identifier_of, parts_of

MOST_BYTES = 223
FIRST_BYTES, NEXT_BYTES = 6, 7
SEQUENCES, COUNTER_BITS = 8, 5
# messages that may be open at a time: more than any bus has
MOST_OPEN = 1024
# The PGNs that come as fast packets, however short a message is, after canboat's tables; from the last one on all do.
FAST_PGNS = frozenset((
    126208, 126464, 126720, 126976, *range(126983, 126989), 126996, 126998, 127233, 127237, *range(127489, 127492), *range(127494, 127499), 127503, 127504,
    127506, 127507, *range(127509, 127515), 128275, 128520, 128538, 129029, *range(129038, 129042), 129044, 129045, 129284, 129285, 129301, 129302, 129538,
    *range(129540, 129543), 129545, 129547, *range(129549, 129552), 129556, *range(129792, 129811), *range(130052, 130055), 130060, 130061,
    *range(130064, 130075), *range(130320, 130325), 130330, *range(130561, 130568), *range(130569, 130575), 130577, 130578, 130580, 130581, 130583, 130584,
    130586,
))
FIRST_ALWAYS_FAST = 130816


class Message(NamedTuple):
    """A whole message."""

    parts: Parts
    data: bytes

    def frame(self):
        """The frame with these bytes as they are."""
        return Frame(identifier_of(self.parts), self.data)


def is_fast(pgn):
    """Whether messages of this PGN come as fast packets."""
    return pgn in FAST_PGNS or pgn >= FIRST_ALWAYS_FAST


def begins(byte):
    """Whether a frame of a fast packet with this first byte is the one that begins it."""
    return byte & (1 << COUNTER_BITS) - 1 == 0


class Splitter:
    """Makes frames of messages, with a sequence of its own for each source and PGN."""

    def __init__(self):
        self.sequences = collections.Counter()

    def frames_of(self, message):
        """The frames of a message of at most MOST_BYTES: one alone, unless it is longer than a frame or its PGN comes as fast packets."""
        parts, data = message
        identifier = identifier_of(parts)
        if len(data) <= MOST_DATA and not is_fast(parts.pgn):
            return [Frame(identifier, data)]
        sequence = self.sequences[parts.source, parts.pgn]
        self.sequences[parts.source, parts.pgn] = (sequence + 1) % SEQUENCES
        pieces = [bytes([len(data)]) + data[:FIRST_BYTES]]
        pieces += [data[place : place + NEXT_BYTES] for place in range(FIRST_BYTES, len(data), NEXT_BYTES)]
        heads = (bytes([sequence << COUNTER_BITS | number]) for number in range(len(pieces)))
        return [Frame(identifier, (head + piece).ljust(MOST_DATA, b"\xff")) for head, piece in zip(heads, pieces)]


class Joiner:
    """Makes messages of frames again: of each source, PGN, destination and sequence one may be open."""

    def __init__(self):
        # of each open message: its length, the number of its next frame, and its bytes so far
        self.open = collections.OrderedDict()

    def message_of(self, frame):
        """The message that this frame completes or is; nothing where frames are still to come, or where it belongs to none."""
        parts = parts_of(frame.identifier)
        if not is_fast(parts.pgn):
            return Message(parts, frame.data)
        if not frame.data:
            return None
        sequence, number = frame.data[0] >> COUNTER_BITS, frame.data[0] & (1 << COUNTER_BITS) - 1
        key = (parts, sequence)
        if number == 0:
            length, held = (frame.data[1], frame.data[2:]) if len(frame.data) > 1 else (0, b"")
        else:
            length, following, held = self.open.get(key, (0, 0, b""))
            if length == 0 or number == following - 1:
                # of no message that is open, or the last frame again
                return None
            if number != following:
                del self.open[key]
                return None
            held += frame.data[1:]
        if len(held) >= length > 0:
            self.open.pop(key, None)
            return Message(parts, held[:length])
        if length > 0:
            self._keep(key, (length, number + 1, held))
        return None

    def _keep(self, key, message):
        self.open[key] = message
        self.open.move_to_end(key)
        if len(self.open) > MOST_OPEN:
            self.open.popitem(last=False)
