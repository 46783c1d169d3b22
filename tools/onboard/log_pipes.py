"""A bus as a candump log: on standard input what comes from it, on standard output what goes to it."""

import collections
import os
import sys
import time

from . import candump
from .candump import INTERFACE, NoFrame
from .echoes import Echoes
from .line_device import REST_SECONDS
from .lines import PIECE_BYTES, LineCutter
from .words import Told

MOST_FRAMES = 256
# a pause of a recording that is longer is told
LONG_PAUSE_SECONDS = 60.0


class Pace:
    """When a line of a recording goes: as long behind the line before as its time says."""

    def __init__(self, speed, teller):
        self.speed, self.teller = speed, teller
        self.begin, self.last_us = 0.0, None

    def due(self, moment_us, now):
        if self.last_us is None or moment_us < self.last_us:
            # the first one, or a clock that was set back: from here on anew
            self.begin = now - moment_us / candump.MICROSECONDS / self.speed
        due = self.begin + moment_us / candump.MICROSECONDS / self.speed
        if due - now > LONG_PAUSE_SECONDS:
            self.teller.tell(f"the recording pauses for {due - now:.0f} seconds here")
        self.last_us = moment_us
        return due


class Logs:
    """A candump log on standard input, and one on standard output."""

    name, openings, wants_to_write = INTERFACE, 0, False

    def __init__(self, pace, echo_seconds, teller, left_out):
        self.pace, self.told, self.left_out = pace, Told("standard input", teller), left_out
        self.echoes, self.cutter = Echoes(echo_seconds), LineCutter(left_out)
        self.lines, self.next_line, self.due = collections.deque(), None, 0.0
        self.is_read, self.interfaces = False, set()
        # else the lines of an hour may come in a second, and say nothing of how full the bus was
        self.is_in_time = pace is not None

    @property
    def is_open(self):
        return not self.is_read

    @property
    def is_ended(self):
        return self.is_read and not self.lines and self.next_line is None

    def fileno(self):
        return -1 if self.is_read or self.lines or self.next_line is not None else sys.stdin.fileno()

    def tend(self, now):
        self.due = now + REST_SECONDS if self.fileno() >= 0 or self.is_ended else self.due

    def receive(self, now):
        if not self.lines and self.next_line is None and not self.is_read:
            self._read()
        frames = []
        while len(frames) < MOST_FRAMES:
            line = self._next()
            if line is None:
                return frames
            if self.pace is not None and now < self._due_of(line, now):
                return frames
            self.next_line = None
            if not self.echoes.take(line.frame, now):
                frames.append(line.frame)
        self.due = now
        return frames

    def _read(self):
        try:
            piece = os.read(sys.stdin.fileno(), PIECE_BYTES)
        except OSError as error:
            raise OSError(error.errno, f"standard input: {error.strerror}") from error
        self.is_read = not piece
        self.lines.extend(self.cutter.lines_of(piece) if piece else self.cutter.end())

    def _next(self):
        """The next line with a frame, which stays the next one until it has gone."""
        while self.next_line is None and self.lines:
            text = self.lines.popleft()
            try:
                self.next_line = candump.read_line(text) if text.strip() else None
            except NoFrame as reason:
                self.left_out.add(reason)
                continue
            if self.next_line is not None:
                self.due_of_next = None
                self._note(self.next_line.interface)
        return self.next_line

    def _due_of(self, line, now):
        if self.due_of_next is None:
            self.due_of_next = self.pace.due(line.moment_us, now)
        self.due = self.due_of_next
        return self.due_of_next

    def _note(self, interface):
        if interface not in self.interfaces and len(self.interfaces) < 2:
            self.interfaces.add(interface)
            if len(self.interfaces) == 2:
                names = " and ".join(sorted(self.interfaces))
                self.told.now(f"the log has the interfaces {names}, which become one bus here: choose one, as by grep ' {interface} '")

    def send(self, frame, now):
        self.echoes.add(frame, now)
        try:
            sys.stdout.buffer.write(candump.write_line(time.time_ns() // 1000, INTERFACE, frame) + b"\n")
            sys.stdout.buffer.flush()
        except OSError as error:
            raise OSError(error.errno, f"standard output: {error.strerror}") from error

    def close(self):
        pass
