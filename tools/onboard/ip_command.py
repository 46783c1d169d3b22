"""What the command `ip` does to a CAN interface, and says of it."""

import json
import subprocess

LIMIT_SECONDS = 5
RESTART_MS = "100"
# the word of `ip` for interfaces that have a bit rate
BUS = "can"


class Refused(Exception):
    """Why `ip` didn't do something, in its own words."""


def ip(*words):
    """What `ip` writes; raises Refused."""
    try:
        run = subprocess.run(
            ["ip", *words], stdin=subprocess.DEVNULL, stdout=subprocess.PIPE, stderr=subprocess.PIPE, timeout=LIMIT_SECONDS, check=False,
        )
    except subprocess.TimeoutExpired:
        raise Refused(f"ip didn't end within {LIMIT_SECONDS} seconds") from None
    except OSError as error:
        raise Refused(f"ip can't be run: {error.strerror}") from error
    if run.returncode != 0:
        said = run.stderr.decode(errors="backslashreplace").split("\n")
        raise Refused("; ".join(line.strip() for line in said if line.strip()) or f"ip ended with status {run.returncode}")
    return run.stdout


def said_of(name, *path):
    """What `ip` says of the kind of an interface, by the names that lead there; nothing if it doesn't say so."""
    try:
        found = json.loads(ip("-details", "-json", "link", "show", name))[0]["linkinfo"]
        for word in path:
            found = found[word]
        return found
    except (Refused, ValueError, LookupError, TypeError):
        return None


def set_up(name, bitrate):
    """Sets an interface up and gives what was done, or raises Refused. One that is no bus, such as a virtual one, has no bit rate."""
    words = ("link", "set", name, "up")
    kind = said_of(name, "info_kind")
    if kind != BUS:
        ip(*words)
        return f"set up without a bit rate, which it hasn't ({kind or 'of a kind that ip does not name'})"
    words += ("type", "can", "bitrate", str(bitrate))
    try:
        ip(*words, "restart-ms", RESTART_MS)
    except Refused as why:
        try:
            ip(*words)
        except Refused:
            # what is wrong without a restart is wrong with it too
            raise why from None
        return f"set up with {bitrate} bits a second; it stays off the bus once an error took it off, since a restart was refused: {why}"
    return f"set up with {bitrate} bits a second"


def bitrate_of(name):
    """At how many bits a second an interface runs; nothing if that isn't said."""
    bitrate = said_of(name, "info_data", "bittiming", "bitrate")
    return bitrate if isinstance(bitrate, int) else None
