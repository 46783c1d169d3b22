"""An adapter that speaks SLCAN as a bus. It is set up each time that it is there anew, and closed at the end."""

import collections

from . import slcan
from .bus_devices import Device
from .line_device import RETRY_SECONDS
from .lines import LineCutter

# how long an answer to a command is waited for: there are adapters that give none
ANSWER_SECONDS = 0.5
# The first one is empty: it ends what another program began to say. A channel that was left open has to be closed before its rate is set.
COMMANDS = (b"", slcan.CLOSE, slcan.RATE, slcan.NO_TIMES, slcan.OPEN)
# what may be refused: to close a channel that is closed, and what an adapter doesn't know
NEEDED = {slcan.RATE: "the rate of 250 kbit/s (S5)", slcan.OPEN: "to open the bus (O)"}


class AnswerCutter(LineCutter):
    """Cuts at CR, and after BEL. An answer of CR alone is a line too, and LF says nothing."""

    def __init__(self, left_out):
        super().__init__(left_out, slcan.END)

    def lines_of(self, piece):
        piece = piece.replace(b"\n", b"").replace(slcan.REFUSED, slcan.REFUSED + slcan.END)
        return [line or slcan.END for line in super().lines_of(piece)]


class SlcanDevice(Device):
    """One line is one frame, once the adapter is set up."""

    def __init__(self, way, left_out):
        super().__init__(way, left_out)
        # what is still to be said to set it up, the first of which was said, and when its answer is no longer waited for
        self.commands, self.due_of_answer, self.is_answering = collections.deque(), 0.0, False
        self.is_set_up, self.way_openings, self.set_ups = False, 0, 0

    @property
    def is_open(self):
        return self.way.is_open and self.is_set_up

    @property
    def openings(self):
        return self.set_ups

    @property
    def due(self):
        is_setting_up = self.way.is_open and not self.is_set_up
        return min(self.way.due, self.due_of_answer) if is_setting_up else self.way.due

    def tend(self, now):
        self.way.tend(now)
        if not self.way.is_open:
            return
        if self.way.openings != self.way_openings:
            self.way_openings = self.way.openings
            self._begin(now)
        elif not self.is_set_up and now >= self.due_of_answer:
            self._go_on(now)

    def _begin(self, now):
        self.commands = collections.deque(COMMANDS)
        self.is_set_up = self.is_answering = False
        self._say(now)

    def _say(self, now):
        self.due_of_answer = now + ANSWER_SECONDS
        self.way.send(self.commands[0] + slcan.END, now)

    def _go_on(self, now):
        """Says the next command, once the one before was answered or won't be; after a refusal all of them once more."""
        if not self.commands:
            self._begin(now)
            return
        self.commands.popleft()
        if self.commands:
            self._say(now)
            return
        self.is_set_up = True
        self.set_ups += 1
        self.told.now("on the bus with 250 kbit/s" if self.is_answering else "told to go on the bus with 250 kbit/s; it answers nothing")

    def frames_of(self, line, now):
        if not self.is_set_up:
            self._answered(line, now)
        if not self.is_set_up or line == slcan.END or line in slcan.SENT:
            return []
        if line.endswith(slcan.REFUSED):
            self.left_out.add("a frame to the bus, which the adapter refused")
            return []
        return [slcan.read_line(line)]

    def _answered(self, line, now):
        """Takes a line that came before all commands were answered. A frame answers the last command; before that an adapter that was left open says it."""
        if not self.commands:
            return
        command, is_refused = self.commands[0], line.endswith(slcan.REFUSED)
        if is_refused and command in NEEDED:
            self.commands.clear()
            self.due_of_answer = now + RETRY_SECONDS
            self.told.now(f"the adapter refuses {NEEDED[command]}; trying again each second")
        elif is_refused or line == slcan.END:
            self.is_answering = True
            self._go_on(now)
        elif command == slcan.OPEN and line.startswith(slcan.FRAME):
            self._go_on(now)

    def send(self, frame, now):
        if not self.is_open:
            return "the adapter isn't set up"
        return self.way.send(slcan.write_line(frame), now)

    def close(self):
        self.way.close(slcan.END + slcan.CLOSE + slcan.END)
