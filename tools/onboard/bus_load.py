"""How long a frame takes on the bus, in bits: with the stuff bits, its acknowledgement and the pause behind it (ISO 11898-1)."""

import re

# the rate of NMEA 2000
BITS_A_SECOND = 250_000
# the sum of a frame: fifteen bits
POLYNOMIAL, SUM_BITS = 0x4599, 15
# behind the sum: its delimiter, the acknowledgement with its own, the end of the frame and the pause
BITS_BEHIND = 1 + 2 + 7 + 3
# from the start of the frame to its length, of which the first bit is 0
HEAD_BITS = 39
# Behind five equal bits goes an opposite one, which counts among those that follow: with four more of its kind there goes another.
STUFFED = re.compile("0{5}(?:1{4}0{4})*(?:1{4})?|1{5}(?:0{4}1{4})*(?:0{4})?")


def _sum_after(byte):
    """What a byte in front of a sum of zeros leaves in it."""
    left = byte << SUM_BITS - 8
    for _ in range(8):
        left = left << 1 ^ (POLYNOMIAL if left >> SUM_BITS - 1 & 1 else 0)
    return left & (1 << SUM_BITS) - 1


SUMS = [_sum_after(byte) for byte in range(256)]


def head_of(frame):
    """The first 39 bits: start, eleven bits of the identifier, two recessive bits, the other eighteen, three dominant bits, the length."""
    identifier = frame.identifier
    return identifier >> 18 << 27 | 0b11 << 25 | (identifier & 0x3FFFF) << 7 | len(frame.data)


def bits_of(frame):
    """The bits that a data frame takes on the bus."""
    length = HEAD_BITS + 8 * len(frame.data)
    value = head_of(frame) << 8 * len(frame.data) | int.from_bytes(frame.data, "big")
    left = 0
    for byte in value.to_bytes((length + 7) // 8, "big"):
        left = (left << 8 ^ SUMS[left >> SUM_BITS - 8 ^ byte]) & (1 << SUM_BITS) - 1
    text = f"{value << SUM_BITS | left:0{length + SUM_BITS}b}"
    others, runs = STUFFED.subn("", text)
    # a run of five bits has one stuff bit, and one more for each four that follow: a fourth of its bits but the first
    stuffed = (len(text) - len(others) - runs) // 4
    return len(text) + stuffed + BITS_BEHIND


def load_percent(bits, seconds):
    """The share of the bus that so many bits took in so many seconds, in percent."""
    return 100 * bits / (BITS_A_SECOND * seconds) if seconds > 0 else 0.0
