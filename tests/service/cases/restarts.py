"""The service after each way in which the gateway can end."""

import contextlib
import os
import signal
import socket
import time

from cases import wanted
from cases.system import (BUS_LISTEN, CONFIG, GATEWAY, RECORDS, RECORDS_NOT, BusLink, alone, configuration, done, is_active, journal, number_of,
                          property_of, run, until)
from cases.variants import FULL_DISK, unit_of

COUNTED_SECONDS = 10
# An emulated processor beside other work takes seconds to start a program, so the limit is this many starts and a second. What the service adds to a start
# is what systemd says of it.
STARTS_AGAIN = 10
# what no configuration may have
NO_VALUE = "record = perhaps"


def starts_counted(unit):
    """How often systemd starts a service by itself in ten seconds."""
    before = number_of("NRestarts", unit)
    time.sleep(COUNTED_SECONDS)
    return number_of("NRestarts", unit) - before


def start_fails(unit, status):
    """`systemctl start` fails, and the journal has the status; what the journal says."""
    wanted("systemctl start tells nothing", run("systemctl", "start", unit).returncode != 0)
    told = journal(unit)
    wanted(f"no start ended with {status}:\n{told}", f"status={status}/" in told)
    return told


def after_a_crash():
    """A gateway that crashed, or was killed, is up again within a second."""
    wanted(f"a start comes {property_of('RestartUSec')} after an end", property_of("RestartUSec") == "250ms")
    said = []
    with alone(), BusLink() as bus:
        began = time.monotonic()
        done("systemctl", "start", GATEWAY)
        usual = bus.claim() - began
        for number in (signal.SIGSEGV, signal.SIGKILL):
            process = number_of("MainPID")
            bus.forget()
            ended = time.monotonic()
            os.kill(process, number)
            again = bus.claim() - ended
            wanted(f"{again:.1f} s after {number.name} it was up again, a start took {usual:.1f} s", again < 1 + STARTS_AGAIN * usual)
            said.append(f"{again:.2f} s after {number.name}")
            until("the service", is_active)
    return f"a start took {usual:.2f} s; it was up again {' and '.join(said)}"


def after_all_its_turns():
    """A run that ends with 0 is followed by the next one."""
    unit = unit_of("few_turns")
    with alone(unit), BusLink() as bus:
        run("systemctl", "start", unit)
        bus.claim()
        starts = starts_counted(unit)
        bus.forget()
        bus.claim()
        wanted("no run followed", starts > 0)
        wanted(f"a run ended with another status than 0:\n{journal(unit)}", "status=" not in journal(unit))
    return f"{starts} starts in ten seconds, of runs that took 300 turns"


@contextlib.contextmanager
def full_disk():
    os.makedirs(FULL_DISK)
    done("mount", "-t", "tmpfs", "-o", "size=64k,mode=777", "tmpfs", FULL_DISK)
    try:
        with open(f"{FULL_DISK}/rest", "wb", buffering=0) as file, contextlib.suppress(OSError):
            while True:
                file.write(bytes(4096))
        yield
    finally:
        done("umount", "--lazy", FULL_DISK)
        os.rmdir(FULL_DISK)


def after_a_failed_write():
    """Status 4: standard output is a file on a full disk, and what comes is recorded. It is up again once there is room."""
    unit = unit_of("full_disk")
    with full_disk(), configuration(RECORDS_NOT, RECORDS), alone(unit), BusLink() as bus:
        start_fails(unit, 4)
        starts = starts_counted(unit)
        wanted("it wasn't started again", starts > 0)
        os.unlink(f"{FULL_DISK}/rest")
        freed = time.monotonic()
        again = bus.claim() - freed
    return f"{starts} starts in ten seconds; up again {again:.1f} s after there was room"


def stays_failed(unit):
    starts = starts_counted(unit)
    wanted(f"{starts} starts in ten seconds, the service is {property_of('ActiveState', unit)}", starts == 0 and property_of("ActiveState", unit) == "failed")
    return f"{starts} more starts in ten seconds"


def after_a_refused_configuration():
    with configuration(RECORDS_NOT, NO_VALUE), alone():
        told = start_fails(GATEWAY, 3)
        wanted(f"configlook isn't named:\n{told}", f"configlook {CONFIG}" in told)
        return f"systemctl start failed, {stays_failed(GATEWAY)}"


def after_refused_words():
    unit = unit_of("wrong_words")
    with alone(unit):
        told = start_fails(unit, 2)
        wanted(f"what shows the words isn't named:\n{told}", "systemctl cat" in told)
        return f"systemctl start failed, {stays_failed(unit)}"


def after_a_configuration_that_was_broken_while_it_ran():
    with alone():
        done("systemctl", "start", GATEWAY)
        with configuration(RECORDS_NOT, NO_VALUE):
            os.kill(number_of("MainPID"), signal.SIGKILL)
            until("a failed service", lambda: property_of("ActiveState") == "failed" and property_of("ExecMainStatus") == "3")
            return stays_failed(GATEWAY)


def is_tried_once_a_second(unit, status):
    start_fails(unit, status)
    starts = starts_counted(unit)
    wanted(f"{starts} starts in ten seconds", 0 < starts <= COUNTED_SECONDS)
    return f"systemctl start failed, {starts} starts in ten seconds"


def before_its_address_is_there():
    with alone(), BusLink() as bus:
        with socket.socket(socket.AF_INET, socket.SOCK_DGRAM) as other:
            other.bind(BUS_LISTEN)
            said = is_tried_once_a_second(GATEWAY, 9)
        bus.claim()
    return f"{said}, and it was up once the address was free"


def before_its_configuration_is_there():
    with alone(), BusLink() as bus:
        os.rename(CONFIG, CONFIG + ".away")
        try:
            said = is_tried_once_a_second(GATEWAY, 6)
        finally:
            os.rename(CONFIG + ".away", CONFIG)
        bus.claim()
    return f"{said}, and it was up once the file was there"


def before_there_is_memory():
    unit = unit_of("little_memory")
    with alone(unit):
        return is_tried_once_a_second(unit, 7)


CASES = (
    after_a_crash, after_all_its_turns, after_a_failed_write, after_a_refused_configuration, after_refused_words,
    after_a_configuration_that_was_broken_while_it_ran, before_its_address_is_there, before_its_configuration_is_there, before_there_is_memory,
)
