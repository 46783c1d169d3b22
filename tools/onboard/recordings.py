"""Recordings of a bus as a candump log, in files that follow one another: a new one each day (UTC), and where one is as long as it may be.

The day and the time at which a file begins stand in its name, before its last suffix: `bus.log` is `bus-20261128T072200Z.log`. No file is written over,
and the moments in one never go back.
"""

import os
import time

from .candump import write_datagram_line, write_line
from .clocks import MICROSECONDS, SteadyClock

FLUSH_SECONDS = 1.0
# after a failure: when another file is tried
AGAIN_SECONDS = 60.0
DAY_US = 86_400 * MICROSECONDS


def stamp(seconds):
    """A second since 1970 as it stands in the names of files: day and time (UTC)."""
    return time.strftime("%Y%m%dT%H%M%SZ", time.gmtime(seconds))


def path_at(path, moment_us, number):
    """The path of a file that begins at a moment; of several of one second the number tells them apart."""
    base, suffix = os.path.splitext(path)
    return f"{base}-{stamp(moment_us // MICROSECONDS)}{f'-{number}' if number > 1 else ''}{suffix}"


def open_new(path, moment_us):
    number = 1
    while True:
        try:
            return open(path_at(path, moment_us, number), "xb")
        except FileExistsError:
            number += 1


class Recording:
    """Writes lines to files, each second what came; a disk that is full or gone is told, and tried again later."""

    def __init__(self, path, most_bytes, teller):
        self.path, self.most_bytes, self.teller = path, most_bytes, teller
        self.file, self.again_at, self.flush_at = None, 0.0, 0.0
        self.has_failed = False

    def _begin(self, now):
        self.clock = SteadyClock()
        moment_us = self.clock.now_us()
        self.day, self.bytes, self.flush_at = moment_us // DAY_US, 0, now + FLUSH_SECONDS
        try:
            self.file = open_new(self.path, moment_us)
        except OSError as error:
            self._fail(error, now)
            return
        self.has_failed = False
        self.teller.tell(f"recording to {self.file.name}")

    def _fail(self, error, now):
        if not self.has_failed:
            self.teller.tell(f"recording failed: {error.filename or self.path}: {error.strerror}; trying again each minute")
        self.has_failed, self.again_at = True, now + AGAIN_SECONDS
        self._close()

    def _close(self):
        file, self.file = self.file, None
        try:
            if file is not None:
                file.close()
        except OSError:
            # what couldn't be written was told
            pass

    def tend(self, now):
        """Begins a file where one is due, and writes out what waits; whether a file was begun."""
        if self.file is not None and now >= self.flush_at:
            self.flush_at = now + FLUSH_SECONDS
            self._try(self.file.flush, now)
            if self.file is not None and (self.bytes >= self.most_bytes or self.clock.now_us() // DAY_US != self.day):
                self.end()
        if self.file is None and now >= self.again_at:
            self._begin(now)
            return self.file is not None
        return False

    def add(self, interface, frame, direction):
        """Writes the line of a frame, at this moment."""
        self._add(lambda moment_us: write_line(moment_us, interface, frame, direction))

    def add_datagram(self, group, datagram):
        """Writes the line of a datagram of a transmission group, at this moment."""
        self._add(lambda moment_us: write_datagram_line(moment_us, group, datagram))

    def _add(self, line_at):
        if self.file is not None:
            line = line_at(self.clock.now_us()) + b"\n"
            self.bytes += len(line)
            self._try(lambda: self.file.write(line), time.monotonic())

    def _try(self, call, now):
        try:
            call()
        except OSError as error:
            self._fail(error, now)

    def end(self):
        if self.file is not None:
            self._try(self.file.flush, time.monotonic())
        self._close()
