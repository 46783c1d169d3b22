"""A device as a word of a command."""

import argparse
import re

from .endpoints import host_and_port
from .serial_device import RATE, RATES

SERIAL = "serial"
# a path may have colons itself; the last one begins the rate if digits alone follow it
PATH_AND_RATE = re.compile(r"(.+?)(?::(\d+))?", re.ASCII)


def serial_line(text):
    """PATH or PATH:RATE, for argparse, with or without `serial:` in front."""
    match = PATH_AND_RATE.fullmatch(text[len(SERIAL) + 1 :] if text.startswith(f"{SERIAL}:") else text)
    if match is None:
        raise argparse.ArgumentTypeError(f"{text!r} isn't PATH or PATH:RATE")
    path, rate = match.group(1), int(match.group(2) or RATE)
    if rate not in RATES:
        raise argparse.ArgumentTypeError(f"{rate} isn't a rate of serial lines: these are {', '.join(map(str, sorted(RATES)))}")
    return SERIAL, path, rate


def device(text):
    """udp:HOST:PORT, tcp:HOST:PORT or serial:PATH[:RATE], for argparse: the kind, the place and the number."""
    kind, _, rest = text.partition(":")
    if kind == SERIAL:
        return serial_line(text)
    if kind not in ("udp", "tcp"):
        raise argparse.ArgumentTypeError(f"{text!r} is neither udp:HOST:PORT nor tcp:HOST:PORT nor serial:PATH")
    return (kind, *host_and_port(rest))
