"""What the ways to a device over a stream of bytes have in common: what can't be written yet waits, and a loss cuts a line off."""

import errno

from .line_device import RETRY_SECONDS, LineDevice

# that nothing has come, or that nothing is taken now: no loss
NOT_NOW = (errno.EAGAIN, errno.EINTR)
CUT_OFF = "a line that was cut off by the end of the connection"


class StreamDevice(LineDevice):
    """A kind of stream reads by `_take()`, writes by `_put(content)`, and closes by `_shut()`."""

    ended = "closed by the device"

    def __init__(self, name, most_waiting_bytes, spoken, cutter, teller, left_out):
        super().__init__(name, spoken, cutter, teller, left_out)
        self.most_waiting_bytes, self.waiting = most_waiting_bytes, b""

    @property
    def wants_to_write(self):
        return bool(self.waiting)

    def _lose(self, why, now):
        """Closes what is open; a line that hasn't ended is lost with it, and what waits is too old by the time of the next one."""
        self.told.now(f"{why}; trying again each second")
        if self.cutter.end():
            self.left_out.add(CUT_OFF)
        self._shut()
        self.is_open, self.waiting, self.due = False, b"", now + RETRY_SECONDS

    def _why(self, error):
        """An error in words."""
        return error.strerror

    def ready_to_write(self, now):
        try:
            sent = self._put(self.waiting) if self.waiting else 0
        except OSError as error:
            if error.errno not in NOT_NOW:
                self._lose(self._why(error), now)
            return
        self.waiting = self.waiting[sent:]

    def receive(self, now):
        if not self.is_open:
            return []
        try:
            piece = self._take()
        except OSError as error:
            if error.errno not in NOT_NOW:
                self._lose(self._why(error), now)
            return []
        if not piece:
            self._lose(self.ended, now)
            return []
        return self._lines_of(piece)

    def send(self, line, now):
        if not self.is_open:
            return "not connected"
        if len(self.waiting) + len(line) > self.most_waiting_bytes:
            return "the device doesn't take what waits for it"
        self.waiting += line
        self.ready_to_write(now)
        return None
