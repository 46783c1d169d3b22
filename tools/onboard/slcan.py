"""Lines of CAN adapters in the form SLCAN (LAWICEL AB, "CAN232 manual"), as CANable and CANUSB speak it: `T09F112178005C3DFF7FFF7FFC`.

A frame has the letter T, its identifier, its length and its bytes, and ends with CR. So do commands to the adapter, which it answers by CR alone, by z
or Z and CR for a frame that it sent, or by BEL if it refuses. There are adapters that answer nothing.
"""

import re

from .candump import FLEXIBLE, IDENTIFIER_BITS, REMOTE, STANDARD, WIDE, Frame, NoFrame, OtherForm

LINE = re.compile(rb"T([0-9A-Fa-f]{8})([0-8])([0-9A-Fa-f]*)")
# after the bytes, from adapters that were told to add it once
TIME_DIGITS = 4
OTHER_LINE = re.compile(rb"[trRdDbB][0-9A-Fa-f]{4,}")
OTHERS = {b"t": STANDARD, b"r": REMOTE, b"R": REMOTE, b"d": FLEXIBLE, b"D": FLEXIBLE, b"b": FLEXIBLE, b"B": FLEXIBLE}
NO_FORM = "a line that isn't SLCAN's"
FRAME, END, REFUSED = b"T", b"\r", b"\a"
# what may stand before the end of an answer to a frame that was sent
SENT = (b"z", b"Z")
# the commands, of which the rate is that of NMEA 2000: 250 kbit/s
CLOSE, RATE, NO_TIMES, OPEN = b"C", b"S5", b"Z0", b"O"


def read_line(text):
    """The frame; of a line that has none NoFrame says why."""
    if text in SENT:
        raise NoFrame("an answer to a frame that was sent")
    if OTHER_LINE.fullmatch(text):
        raise NoFrame(OTHERS[text[:1]])
    match = LINE.fullmatch(text)
    digits = match and 2 * int(match.group(2))
    if match is None or len(match.group(3)) not in (digits, digits + TIME_DIGITS):
        raise OtherForm(NO_FORM)
    identifier = int(match.group(1), 16)
    if identifier > IDENTIFIER_BITS:
        raise NoFrame(WIDE)
    return Frame(identifier, bytes.fromhex(match.group(3)[:digits].decode()))


def write_line(frame):
    """The command that sends a frame, with its end."""
    return FRAME + f"{frame.identifier:08X}{len(frame.data)}{frame.data.hex().upper()}".encode() + END
