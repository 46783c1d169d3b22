"""Lines of Actisense's gateways in their form N2K ASCII, one whole message each: `A032000.050 02FF2 1F112 015C3DFF7FFF7FFC`.

They have a time of day, then source, destination and priority, the PGN, and the bytes of the message. The same goes to the device.
"""

import re

from .candump import NoFrame, OtherForm
from .clocks import MICROSECONDS, time_of_day_us
from .fast_packets import MOST_BYTES, Message
from .identifiers import parts_of_message

HEX = rb"[0-9A-Fa-f]"
LINE = re.compile(
    rb"A(\d\d)(\d\d)(\d\d)\.(\d{3}) (" + HEX + rb"{2})(" + HEX + rb"{2})([0-7]) ([0-3]" + HEX + rb"{4}) ((?:" + HEX + rb"{2})*) ?\r?\n?"
)
NO_FORM = "a line that isn't Actisense's N2K ASCII"
LONG = f"a message of more than {MOST_BYTES} bytes"


def read_line(text):
    """The time of day in microseconds, and the message; of a line that has none NoFrame says why."""
    match = LINE.fullmatch(text)
    if match is None:
        raise OtherForm(NO_FORM)
    *time, source, destination, priority, pgn, data = match.groups()
    if len(data) > 2 * MOST_BYTES:
        raise NoFrame(LONG)
    parts = parts_of_message(int(priority), int(pgn, 16), int(source, 16), int(destination, 16))
    return time_of_day_us(time), Message(parts, bytes.fromhex(data.decode()))


def write_line(message, time_us):
    """The line of a message at this time of day, with its end."""
    seconds, thousandths = time_us // MICROSECONDS % 86_400, time_us // 1000 % 1000
    time = f"{seconds // 3600:02d}{seconds // 60 % 60:02d}{seconds % 60:02d}.{thousandths:03d}"
    parts, data = message
    return f"A{time} {parts.source:02X}{parts.destination:02X}{parts.priority:X} {parts.pgn:05X} {data.hex().upper()}\r\n".encode()
