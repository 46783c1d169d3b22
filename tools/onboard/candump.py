"""A line of a candump log, both ways: `(1700000000.000000) can0 09F11217#005C3DFF7FFF7FFC`, as `candump -L` writes it.

With `-x` candump says behind each frame whether it was received or sent, by ` R` and ` T`; so do the recordings of the tools here. The gateway's own
captures have two lines besides, a datagram of the network (`(..) udp0 NAVD#5564..`) and a tick.
"""

import re
from typing import NamedTuple

IDENTIFIER_BITS = 0x1FFFFFFF
# in the identifier of an error frame, which the interface itself makes (<linux/can/error.h>)
ERROR_FLAG = 0x20000000
MOST_DATA = 8
# a longer line is none, as the gateway has it
MOST_LINE = 4096
MICROSECONDS = 1_000_000
# in the lines of what has no interface
INTERFACE = "can0"
RECEIVED, SENT = "R", "T"

# why a line has no frame: each a constant, so that they can be counted
NO_FORM = "a line that isn't in the form of candump -L"
TOO_LONG = f"a line of more than {MOST_LINE} bytes"
STANDARD = "a frame with an 11-bit identifier"
WIDE = "an identifier of more than 29 bits"
REMOTE = "a remote frame"
FLEXIBLE = "a frame of CAN FD"
DATAGRAM = "a datagram of the network"
TICK = "a tick"

FRAME_LINE = re.compile(rb"\((\d{1,10})\.(\d{6})\) ([!-~]{1,16}) ([0-9A-Fa-f]{8})#((?:[0-9A-Fa-f]{2}){0,8})(?: ([^\r\n]*))?\r?\n?")
# no interface with frames has these two names
DATAGRAM_INTERFACE, TICK_INTERFACE = b"udp0", b"tick"
DATAGRAM_LINE = re.compile(rb"\(\d{1,10}\.\d{6}\) udp0 [A-Z0-9]{4}#((?:[0-9A-Fa-f]{2})*)(?: [^\r\n]*)?\r?\n?")
OTHER_LINES = (
    (re.compile(rb"\(\d{1,10}\.\d{6}\) udp0 [A-Z0-9]{4}#"), DATAGRAM),
    (re.compile(rb"\(\d{1,10}\.\d{6}\) tick(?: |\r?\n?\Z)"), TICK),
    (re.compile(rb"\(\d{1,10}\.\d{6}\) [!-~]{1,16} (?:[0-9A-Fa-f]{3}|[0-9A-Fa-f]{8})##"), FLEXIBLE),
    (re.compile(rb"\(\d{1,10}\.\d{6}\) [!-~]{1,16} (?:[0-9A-Fa-f]{3}|[0-9A-Fa-f]{8})#R"), REMOTE),
    (re.compile(rb"\(\d{1,10}\.\d{6}\) [!-~]{1,16} [0-9A-Fa-f]{3}#"), STANDARD),
)


class NoFrame(ValueError):
    """A line has no frame that can be carried; its text is one of the reasons above."""


class OtherForm(NoFrame):
    """A line hasn't the form that was looked for."""


class Frame(NamedTuple):
    """A data frame with a 29-bit identifier, or an error frame, whose identifier has ERROR_FLAG besides its kinds."""

    identifier: int
    data: bytes

    @property
    def is_error(self):
        return self.identifier & ERROR_FLAG != 0


class Line(NamedTuple):
    """What a line says: microseconds since 1970, the interface, the frame, and RECEIVED, SENT or nothing."""

    moment_us: int
    interface: str
    frame: Frame
    direction: str


def read_line(text):
    """What the line, bytes with or without its end, says; of a line without a frame NoFrame says why."""
    match = FRAME_LINE.fullmatch(text)
    if match is None or len(text) > MOST_LINE or match.group(3) in (DATAGRAM_INTERFACE, TICK_INTERFACE):
        reason = reason_against(text)
        raise OtherForm(reason) if reason == NO_FORM else NoFrame(reason)
    seconds, fraction, interface, digits, data, rest = match.groups()
    identifier = int(digits, 16)
    if identifier & ~IDENTIFIER_BITS not in (0, ERROR_FLAG):
        raise NoFrame(WIDE)
    direction = rest.decode() if rest in (b"R", b"T") else ""
    return Line(int(seconds) * MICROSECONDS + int(fraction), interface.decode(), Frame(identifier, bytes.fromhex(data.decode())), direction)


def datagram_of(text):
    """The bytes of a datagram of the network, of a line that has one; else None."""
    match = DATAGRAM_LINE.fullmatch(text)
    return None if match is None or len(text) > MOST_LINE else bytes.fromhex(match.group(1).decode())


def reason_against(text):
    """Why a line, which has no frame, has none."""
    if len(text.rstrip(b"\r\n")) > MOST_LINE:
        return TOO_LONG
    return next((reason for form, reason in OTHER_LINES if form.match(text)), NO_FORM)


def moment_text(moment_us):
    return f"({moment_us // MICROSECONDS}.{moment_us % MICROSECONDS:06d})"


def write_line(moment_us, interface, frame, direction=""):
    """The line of a frame, as bytes without a line's end: the parts of Line in their order."""
    text = f"{moment_text(moment_us)} {interface} {frame.identifier:08X}#{frame.data.hex().upper()}"
    return (f"{text} {direction}" if direction else text).encode()


def write_datagram_line(moment_us, group, datagram):
    """The line of a datagram that came for a transmission group, as bytes without a line's end."""
    return f"{moment_text(moment_us)} udp0 {group}#{datagram.hex().upper()}".encode()
