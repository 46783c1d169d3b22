"""Lines of the gateways of Yacht Devices in their form RAW, one frame each: `03:20:00.050 R 09F11217 00 5C 3D FF 7F FF 7F FC`.

The device says a time of day, whether it received the frame from the bus (R) or sent it (T), and the frame. To the device goes the frame alone.
"""

import re

from .candump import IDENTIFIER_BITS, WIDE, Frame, NoFrame, OtherForm
from .clocks import time_of_day_us

LINE = re.compile(rb"(\d\d):(\d\d):(\d\d)\.(\d{3}) ([RT]) ([0-9A-Fa-f]{8})((?: [0-9A-Fa-f]{2}){0,8}) ?\r?\n?")
TO_DEVICE = re.compile(rb"[0-9A-Fa-f]{8}(?: [0-9A-Fa-f]{2}){0,8} ?\r?\n?")
NO_FORM = "a line that isn't Yacht Devices' RAW"
NOT_FROM_DEVICE = "a line to the device, and not from it"


def read_line(text):
    """The time of day in microseconds, RECEIVED or SENT, and the frame; of a line that has none NoFrame says why."""
    match = LINE.fullmatch(text)
    if match is None:
        raise NoFrame(NOT_FROM_DEVICE) if TO_DEVICE.fullmatch(text) else OtherForm(NO_FORM)
    *time, direction, digits, data = match.groups()
    identifier = int(digits, 16)
    if identifier > IDENTIFIER_BITS:
        raise NoFrame(WIDE)
    return time_of_day_us(time), direction.decode(), Frame(identifier, bytes.fromhex(data.decode()))


def write_line(frame):
    """The line that asks the device to send a frame, with its end."""
    return " ".join([f"{frame.identifier:08X}", *(f"{byte:02X}" for byte in frame.data)]).encode() + b"\r\n"
