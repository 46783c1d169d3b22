"""Devices as a bus: frames by the lines that they speak."""

import time

from . import actisense, yacht_devices
from .candump import INTERFACE, SENT, NoFrame
from .echoes import Echoes
from .fast_packets import Joiner, Splitter


class Device:
    """A device by the lines that it speaks, over any way that leads to it."""

    is_ended, is_in_time = False, True
    name = INTERFACE

    def __init__(self, way, left_out):
        self.way, self.told, self.fileno, self.left_out = way, way.told, way.fileno, left_out

    due = property(lambda self: self.way.due)
    is_open = property(lambda self: self.way.is_open)
    openings = property(lambda self: self.way.openings)
    wants_to_write = property(lambda self: self.way.wants_to_write)

    def tend(self, now):
        self.way.tend(now)

    def ready_to_write(self, now):
        self.way.ready_to_write(now)

    def receive(self, now):
        frames = []
        for line in self.way.receive(now):
            try:
                frames += self.frames_of(line, now)
            except NoFrame as reason:
                self.left_out.add(f"from the device, {reason}")
        return frames

    def close(self):
        self.way.close()


class EchoingDevice(Device):
    """A device that may show what was sent by it."""

    def __init__(self, way, echo_seconds, left_out):
        super().__init__(way, left_out)
        self.echoes = Echoes(echo_seconds)

    def _send(self, line, what, now):
        failure = self.way.send(line, now)
        if failure is None:
            self.echoes.add(what, now)
        return failure


class YachtDevice(EchoingDevice):
    """One line is one frame; what the device sent itself has a mark."""

    def frames_of(self, line, now):
        _, direction, frame = yacht_devices.read_line(line)
        return [] if direction == SENT and self.echoes.take(frame, now) else [frame]

    def send(self, frame, now):
        return self._send(yacht_devices.write_line(frame), frame, now)


class ActisenseDevice(EchoingDevice):
    """One line is one message, of one frame or of several."""

    def __init__(self, way, echo_seconds, left_out):
        super().__init__(way, echo_seconds, left_out)
        self.joiner, self.splitter = Joiner(), Splitter()

    def frames_of(self, line, now):
        _, message = actisense.read_line(line)
        return [] if self.echoes.take(message, now) else self.splitter.frames_of(message)

    def send(self, frame, now):
        message = self.joiner.message_of(frame)
        if message is None:
            return None
        return self._send(actisense.write_line(message, time.time_ns() // 1000), message, now)
