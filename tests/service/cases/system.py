"""systemd, the gateway's service and its bus link, as the cases use them."""

import contextlib
import os
import socket
import subprocess
import time

from cases import wanted

GATEWAY = "shipgate.service"
CONFIG = "/etc/shipgate/shipgate.toml"
# what stands in it, and what makes the gateway record
RECORDS_NOT, RECORDS = "record = false", "record = true"
PROGRAM = "/usr/bin/shipgate"
# where the gateway hears the bus and speaks to it, if its configuration says nothing else
BUS_LISTEN, BUS_SEND = ("127.0.0.1", 60101), ("127.0.0.1", 60102)
CLAIM = b" 18EEFF"
# generous for an emulated processor beside other work
LIMIT_SECONDS = 60


def run(*words):
    return subprocess.run(words, stdin=subprocess.DEVNULL, stdout=subprocess.PIPE, stderr=subprocess.STDOUT, text=True, check=False)


def done(*words):
    """What a command said that has to end with 0."""
    ended = run(*words)
    wanted(f"{' '.join(words)} ended with {ended.returncode}: {ended.stdout}", ended.returncode == 0)
    return ended.stdout


def property_of(name, unit=GATEWAY):
    return done("systemctl", "show", "--value", "--property", name, unit).strip()


def number_of(name, unit=GATEWAY):
    return int(property_of(name, unit))


def is_active(unit=GATEWAY):
    return property_of("ActiveState", unit) == "active"


def journal(unit=GATEWAY, lines=20):
    return run("journalctl", "--no-pager", "--output", "short-monotonic", "--unit", unit, "--lines", str(lines)).stdout


def until(what, holds):
    """Waits for something to come true."""
    end = time.monotonic() + LIMIT_SECONDS
    while time.monotonic() < end:
        if holds():
            return
        time.sleep(0.1)
    wanted(f"{what} didn't come within {LIMIT_SECONDS} seconds", False)


@contextlib.contextmanager
def alone(unit=GATEWAY):
    """Nothing of the gateway runs before and after; a case starts this service."""
    done("systemctl", "stop", GATEWAY)
    try:
        yield
    finally:
        run("systemctl", "stop", unit)


@contextlib.contextmanager
def configuration(old, new):
    """The configuration with another text in place of one that stands in it once, for a while."""
    with open(CONFIG, encoding="utf-8") as file:
        text = file.read()
    wanted(f"{old!r} stands {text.count(old)} times in {CONFIG}", text.count(old) == 1)
    write(CONFIG, text.replace(old, new))
    try:
        yield
    finally:
        write(CONFIG, text)


def write(place, text):
    with open(place, "w", encoding="utf-8") as file:
        file.write(text)


class BusLink:
    """The other end of the bus link: it hears when the gateway claims its address, which it does as it starts."""

    def __enter__(self):
        self.socket = socket.socket(socket.AF_INET, socket.SOCK_DGRAM)
        self.socket.bind(BUS_SEND)
        return self

    def __exit__(self, *_):
        self.socket.close()

    def claim(self):
        """Waits for the gateway's next claim, and answers its moment by the monotonic clock."""
        end = time.monotonic() + LIMIT_SECONDS
        while (left := end - time.monotonic()) > 0:
            self.socket.settimeout(left)
            with contextlib.suppress(socket.timeout):
                if CLAIM in self.socket.recv(2048):
                    return time.monotonic()
        wanted(f"the gateway didn't claim its address within {LIMIT_SECONDS} seconds", False)
        return None

    def forget(self):
        """Passes over what came until now."""
        self.socket.setblocking(False)
        with contextlib.suppress(BlockingIOError):
            while True:
                self.socket.recv(2048)
