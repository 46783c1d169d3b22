"""What an error frame of a CAN interface says, by the classes of <linux/can/error.h>."""

# the class in the identifier; of what the interface's controller and the protocol say the kind is in a byte of the data
CONTROLLER, PROTOCOL, PLACE = 1, 2, 3
CLASSES = {
    0x001: "sending took too long", 0x002: "arbitration lost", 0x010: "transceiver", 0x020: "no acknowledgement", 0x040: "bus off", 0x100: "restarted",
}
OF_CONTROLLER, OF_PROTOCOL = 0x004, 0x008
CONTROLLER_KINDS = {0x03: "overflow", 0x0C: "warning", 0x30: "passive", 0x40: "active again"}
PROTOCOL_KINDS = {0x19: "bit", 0x02: "form", 0x04: "stuff", 0x20: "overload"}
# where in a frame the error was
PLACES = {0x08: "checksum", 0x18: "checksum", 0x19: "no acknowledgement"}
OTHER = "of another kind"


def kinds_of(frame):
    """The kinds of error that an error frame tells, each a word or two; it may tell several at once."""
    data = frame.data.ljust(8, b"\0")
    kinds = [kind for bit, kind in CLASSES.items() if frame.identifier & bit]
    if frame.identifier & OF_CONTROLLER:
        kinds += [kind for bits, kind in CONTROLLER_KINDS.items() if data[CONTROLLER] & bits]
    if frame.identifier & OF_PROTOCOL:
        kinds += [kind for bits, kind in PROTOCOL_KINDS.items() if data[PROTOCOL] & bits]
        kinds += [PLACES[data[PLACE]]] if data[PLACE] in PLACES else []
    return list(dict.fromkeys(kinds)) or [OTHER]
