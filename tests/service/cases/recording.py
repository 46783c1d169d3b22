"""The drop-in that records, as the install puts it and the pages use it."""

import glob
import os
import signal

from cases import wanted
from cases.system import RECORDS, RECORDS_NOT, BusLink, alone, configuration, done, number_of, until
from cases.variants import unit_of

UNIT = unit_of("recorded")
FILES = "/var/lib/shipgate/keep-*.log"


def starts_recorded():
    """How many runs the files tell the start of."""
    count = 0
    for place in glob.glob(FILES):
        with open(place, encoding="utf-8") as file:
            count += sum(line.endswith(" tick start\n") for line in file)
    return count


def what_takes_place():
    """The gateway starts, and what it records is on the disk."""
    with configuration(RECORDS_NOT, RECORDS), alone(UNIT), BusLink() as bus:
        done("systemctl", "start", UNIT)
        bus.claim()
        until("the start of the run in a file", lambda: starts_recorded() == 1)
        return after_a_killed_keep(bus)


def after_a_killed_keep(bus):
    """It costs one restart, and the new run is recorded too."""
    with open(f"/proc/{number_of('MainPID', UNIT)}/task/{number_of('MainPID', UNIT)}/children", encoding="ascii") as file:
        keep = int(file.read().split()[0])
    bus.forget()
    os.kill(keep, signal.SIGKILL)
    bus.claim()
    until("the start of the next run in a file", lambda: starts_recorded() == 2)
    restarts = number_of("NRestarts", UNIT)
    wanted(f"a killed keep cost {restarts} restarts", restarts == 1)
    return "the run is in a file, and so is the next one after keep was killed, which cost one restart"


CASES = (what_takes_place,)
