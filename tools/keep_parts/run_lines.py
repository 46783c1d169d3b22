"""The lines that `shipgate serve` writes, and those that keep adds to them.

A line of the recording is a tick, a frame on can0 or a datagram on udp0. Every other line is a report, or says why there was no run.
"""

import re

MOMENT = rb"\d{1,10}\.\d{6}"
FRONT = re.compile(rb"\((" + MOMENT + rb")\) (\S*)")
RECORDED = (b"tick", b"can0", b"udp0")
START = re.compile(rb"^\(" + MOMENT + rb"\) tick start$", re.MULTILINE)
GOES_ON = re.compile(rb"\(" + MOMENT + rb"\) tick run of (" + MOMENT + rb"), part (\d+)")
LOST = re.compile(rb"\(" + MOMENT + rb"\) tick lost (\d+)")
# stands after a claim that an earlier file has; the gateway passes over what stands there
KNOWN = b" known"


def counted(count):
    """So many lines, in words."""
    return "1 line" if count == 1 else f"{count} lines"


def moment_of(line):
    """The digits of a line's moment, or nothing if it has none."""
    front = FRONT.match(line)
    return front.group(1) if front else None


def is_recorded(line):
    """Whether a line is one of the recording."""
    front = FRONT.match(line)
    return front is not None and front.group(2) in RECORDED


def lost_line(moment, count):
    """Says that so many lines were dropped, the last of them at this moment."""
    return b"(%b) tick lost %d\n" % (moment, count)


def head_of_part(moment, start, part, claims):
    """The lines with which a part of a run begins that began at `start`: whose part it is, and the claims that the parts before it have."""
    front = b"(%b) " % moment
    head = [front + b"tick run of %b, part %d" % (start, part), *(front + claim + KNOWN for claim in claims)]
    return b"".join(line + b"\n" for line in head)
