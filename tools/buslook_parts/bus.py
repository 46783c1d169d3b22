"""What was on the bus, whoever it was meant for: who spoke when and how much, each message with its pace, products, errors and load."""

import collections

from onboard.bus_load import BITS_BEHIND, HEAD_BITS, SUM_BITS, bits_of
from onboard.candump import Frame
from onboard.fast_packets import Joiner, is_fast
from onboard.identifiers import PRODUCT_INFORMATION, parts_of

from .gathering import MOST_MARKS, Counts, Series

SECOND_US = 1_000_000
# a device of which more than a few frames came is silent that says nothing for so long, and for so many times as long as between two frames
SILENT_US, SILENT_TIMES, FEW_FRAMES = 5 * SECOND_US, 10, 10
# of a message so many frames are counted bit by bit, and then each of so many; of the others the mean is taken
COUNTED_BITS, COUNTED_EACH = 8, 64
MOST_MESSAGES = 3000
MOST_INTERFACES = 8
# the texts of a product, each with its first byte in PGN 126996 (after canboat's tables)
PRODUCT_TEXTS, TEXT_BYTES = (("model", 4), ("software", 36), ("version", 68), ("serial", 100)), 32


class Silence(collections.namedtuple("Silence", "begin end times")):
    """From one frame to the next one, for longer than is usual; several become one that says how many they are."""

    def joined(self, other):
        return Silence(self.begin, other.end, self.times + other.times)

    def seconds(self):
        return (self.end - self.begin) / SECOND_US


class Speaker:
    """What came from one address."""

    def __init__(self, begin, moment):
        self.frames, self.unclaimed, self.first, self.last = 0, 0, moment, moment
        self.product = None
        self.longest = None
        self.silences = Series(begin, Silence.joined, most=MOST_MARKS)

    def is_silent(self, gap):
        return gap > SILENT_US and self.frames > FEW_FRAMES and gap * (self.frames - 1) > SILENT_TIMES * (self.last - self.first)

    def fell_silent(self, until):
        """From the last frame on nothing came until this moment."""
        silence = Silence(self.last, until, 1)
        if self.longest is None or silence.seconds() > self.longest.seconds():
            self.longest = silence
        self.silences.add(self.last, silence)


class Message:
    """One PGN from one address: its frames, and the messages that begin with them, of which a fast packet has several frames."""

    __slots__ = ("is_fast", "frames", "count", "first", "last", "gap", "gap_at", "stuffed", "counted")

    def __init__(self, pgn, moment):
        self.is_fast, self.frames, self.count, self.first, self.last, self.gap, self.gap_at = is_fast(pgn), 0, 0, moment, moment, 0, moment
        self.stuffed, self.counted = 0, 0

    def take(self, moment, begins):
        """A frame, of which the time counts where it begins a message."""
        self.frames += 1
        if not begins:
            return
        if self.count == 0:
            self.first = moment
        elif moment - self.last > self.gap:
            self.gap, self.gap_at = moment - self.last, self.last
        self.count += 1
        self.last = moment

    def bits(self, identifier, data):
        """The bits of a frame on the bus: those that are stuffed as the mean of the ones that were counted."""
        plain = HEAD_BITS + 4 * len(data) + SUM_BITS + BITS_BEHIND
        if self.frames < COUNTED_BITS or self.frames % COUNTED_EACH == 0:
            self.stuffed += bits_of(Frame(identifier, bytes.fromhex(data.decode()))) - plain
            self.counted += 1
        return plain + self.stuffed / self.counted


class Bus:
    """All that was seen on the bus, frame by frame."""

    def __init__(self, begin):
        self.begin = begin
        self.speakers, self.messages, self.others = {}, {}, 0
        # how many frames of each address, claimed and not, and of errors; and how many bits all of them were
        self.strips, self.loads = Counts(begin), Counts(begin, SECOND_US)
        self.interfaces = set()
        self.joiner = Joiner()

    def frame(self, moment, frame, pgn, source, is_claimed):
        """A frame of a source that holds its address, or does not."""
        key = frame.identifier & 0x3FFFFFF if pgn & 0xFF00 >= 0xF000 else frame.identifier & 0x3FF00FF
        message = self.messages.get(key)
        if message is None:
            message = self._new_message(key, pgn, moment)
        bits = message.bits(frame.identifier, frame.data)
        message.take(moment, not message.is_fast or frame.begins_fast_packet())
        speaker = self.speakers.get(source)
        if speaker is None:
            speaker = self.speakers[source] = Speaker(self.begin, moment)
        elif moment - speaker.last > SILENT_US and speaker.is_silent(moment - speaker.last):
            speaker.fell_silent(moment)
        speaker.frames += 1
        speaker.last = moment
        if not is_claimed:
            speaker.unclaimed += 1
        self.strips.at(moment)[source, is_claimed] += 1
        self.loads.at(moment)["bits"] += bits
        if frame.interface not in self.interfaces and len(self.interfaces) < MOST_INTERFACES:
            self.interfaces.add(frame.interface)
        if pgn == PRODUCT_INFORMATION:
            self._product(frame)

    def _new_message(self, key, pgn, moment):
        """A message that is new; where there are too many, it isn't kept."""
        message = Message(pgn, moment)
        if len(self.messages) < MOST_MESSAGES:
            self.messages[key] = message
        else:
            self.others += 1
        return message

    def _product(self, frame):
        message = self.joiner.message_of(frame.read())
        if message is not None and len(message.data) >= PRODUCT_TEXTS[-1][1] + TEXT_BYTES:
            texts = {name: message.data[first : first + TEXT_BYTES] for name, first in PRODUCT_TEXTS}
            self.speakers[message.parts.source].product = {name: text_of(text) for name, text in texts.items()}

    def error(self, moment):
        """A frame that the interface itself made, of an error that it saw."""
        self.strips.at(moment)["errors"] += 1

    def end(self, moment):
        """The end of the recording: who has fallen silent by then."""
        for speaker in self.speakers.values():
            if speaker.is_silent(moment - speaker.last):
                speaker.fell_silent(moment)

    def messages_in_order(self):
        """Each message with its source and PGN, by source and PGN."""
        found = [(parts_of(key), message) for key, message in self.messages.items()]
        return sorted(((parts.source, parts.pgn, message) for parts, message in found), key=lambda one: one[:2])


def text_of(field):
    """A text of a product: up to its first byte that fills it."""
    for filling in b"\xff", b"\0":
        field = field.split(filling)[0]
    return field.decode("ascii", "backslashreplace").strip(" @")


