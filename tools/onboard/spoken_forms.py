"""What a device speaks, told by what it says first. That it isn't the form that was expected is the usual reason why nothing is understood."""

import re

from . import actisense, candump, slcan, yacht_devices
from .candump import NoFrame, OtherForm

YACHT, ACTISENSE, SLCAN, LOG, SEASMART, SENTENCES, BINARY = (
    "Yacht Devices' RAW", "Actisense's N2K ASCII", "SLCAN", "a candump log", "SeaSmart", "NMEA 0183", "the binary form of an Actisense NGT-1",
)
# what reads a line of each form
READERS = {YACHT: yacht_devices.read_line, ACTISENSE: actisense.read_line, SLCAN: slcan.read_line, LOG: candump.read_line}
# messages of the bus in sentences, and sentences of any kind
SENTENCE_FORMS = {SEASMART: re.compile(rb"\$PCDIN,[ -~]*"), SENTENCES: re.compile(rb"[$!][A-Z][A-Z0-9]{2,}(?:,[ -~]*)?")}
# DLE STX, bytes of which a DLE is doubled, and DLE ETX
BINARY_MESSAGE = re.compile(rb"\x10\x02(?:[^\x10]|\x10\x10){1,512}\x10\x03")
ADVICE = {
    YACHT: "use --yd", ACTISENSE: "use --actisense", SLCAN: "use --slcan", LOG: "use --stdio",
    SEASMART: "set the device to RAW or to N2K ASCII; else it can be listened to, through tolog and --stdio",
    SENTENCES: "it holds no frames of the bus, so set the device to RAW or to N2K ASCII",
    BINARY: "set the device to N2K ASCII; one that has no other form can be listened to by canboat's actisense-serial",
}
LINE_END_BYTES = b"\r\n\a"
LINE_ENDS = re.compile(rb"[" + LINE_END_BYTES + rb"]+")
# so much tells what is spoken
ENOUGH_BYTES = 4096
SHOWN_BYTES = 60


def form_of(line):
    """The form of a line, or nothing."""
    for name, read in READERS.items():
        try:
            read(line)
        except OtherForm:
            continue
        except NoFrame:
            # a line of this form all the same
            pass
        return name
    return next((name for name, pattern in SENTENCE_FORMS.items() if pattern.fullmatch(line)), None)


def shown(content):
    text = content[:SHOWN_BYTES].decode("ascii", "backslashreplace")
    return "".join(sign if sign.isprintable() else f"\\x{ord(sign):02x}" for sign in text) + (" .." if len(content) > SHOWN_BYTES else "")


class Spoken:
    """Hears what comes until it is clear what is spoken."""

    def __init__(self, expected, advice=ADVICE):
        self.expected, self.advice = expected, advice
        self.begin()

    def begin(self):
        """The device is there anew, and may have been set to another form."""
        self.heard, self.is_clear = b"", False

    def hear(self, piece):
        """What there is to tell of another form than the expected one; mostly nothing."""
        if self.is_clear:
            return None
        # ends of lines alone, such as the answers of an adapter, tell nothing
        self.heard = (self.heard + piece).lstrip(LINE_END_BYTES)[:ENOUGH_BYTES]
        found = self._found()
        if found is None and len(self.heard) < ENOUGH_BYTES:
            return None
        self.is_clear = True
        form, line = found or (None, self.heard)
        if form == self.expected:
            return None
        return f"this is {form}: {self.advice[form]} (it says: {shown(line)})" if form else f"this is no form that is known here (it says: {shown(line)})"

    def _found(self):
        """The first thing that has a form, with that; of lines with the expected form the first of all."""
        match = BINARY_MESSAGE.search(self.heard)
        *lines, _ = LINE_ENDS.split(self.heard)
        found = [(form_of(line), line) for line in lines if line]
        found += [(BINARY, match.group())] if match else []
        known = [pair for pair in found if pair[0] is not None]
        return next((pair for pair in known if pair[0] == self.expected), known[0] if known else None)
