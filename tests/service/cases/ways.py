"""The services of the ways to the bus and to plain sentences, with devices that systemd has to let them have."""

import os

from cases import wanted
from cases.system import CONFIG, done, is_active, number_of, run, until, write

# a line of the machine that says nothing
LINE = "/dev/ttyS1"
# each service, the file that has its words, and the words
SERVICES = (
    ("shipgate-bus@line.service", "bus-line", f"BUS=--yd serial:{LINE}:115200\n"),
    ("shipgate-in.service", "in", f"IN=--from serial:{LINE}:4800=GP0001\n"),
)


def has_open(unit, path):
    """Whether the main process of a service has a file open."""
    folder = f"/proc/{number_of('MainPID', unit)}/fd"
    try:
        return any(os.path.realpath(os.path.join(folder, name)) == path for name in os.listdir(folder))
    except FileNotFoundError:
        return False


def a_serial_line():
    """Each of them opens the line, as a user of its own."""
    for unit, name, words in SERVICES:
        place = os.path.join(os.path.dirname(CONFIG), name)
        write(place, words)
        try:
            done("systemctl", "start", unit)
            until(f"{LINE} at {unit}", lambda unit=unit: has_open(unit, LINE))
            wanted(f"{unit} isn't active", is_active(unit))
        finally:
            run("systemctl", "stop", unit)
            os.unlink(place)
    return f"{' and '.join(unit for unit, _, _ in SERVICES)} opened {LINE}"


CASES = (a_serial_line,)
