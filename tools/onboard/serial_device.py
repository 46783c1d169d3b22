"""A device at a serial line, or one that USB shows as such, that speaks lines."""

import contextlib
import errno
import fcntl
import os
import re
import termios

from .line_device import REST_SECONDS
from .lines import PIECE_BYTES
from .stream_device import StreamDevice

# bits a second, of which a byte takes ten; to a USB device that is no line the rate says nothing
RATE = 115_200
RATES = {int(name[1:]): getattr(termios, name) for name in dir(termios) if re.fullmatch(r"B[1-9]\d+", name)}
# what waits longer would be too old for the bus
WAIT_SECONDS, BITS_A_BYTE = 0.5, 10
REASONS = {
    errno.ENOENT: "isn't there", errno.ENXIO: "isn't there", errno.ENODEV: "isn't there", errno.EIO: "is gone",
    errno.EACCES: "may not be opened by this user, who has to be in its group, mostly dialout",
    errno.EPERM: "may not be opened by this service, whose DeviceAllow doesn't name it",
    errno.EBUSY: "is held by another program", errno.EWOULDBLOCK: "is held by another program", errno.ENOTTY: "isn't a serial line",
}


def set_raw(opened, rate):
    """Eight bits, no parity, no flow control, and each byte as it is."""
    *_, characters = termios.tcgetattr(opened)
    characters[termios.VMIN], characters[termios.VTIME] = 1, 0
    speed = RATES[rate]
    termios.tcsetattr(opened, termios.TCSANOW, [0, 0, termios.CS8 | termios.CREAD | termios.CLOCAL, 0, speed, speed, characters])
    termios.tcflush(opened, termios.TCIOFLUSH)


def opened_line(path, rate):
    """The line at a path, for this program alone: TIOCEXCL keeps out others but the superuser, whose programs find the lock if they look for one."""
    opened = os.open(path, os.O_RDWR | os.O_NOCTTY | os.O_NONBLOCK | os.O_CLOEXEC)
    try:
        fcntl.flock(opened, fcntl.LOCK_EX | fcntl.LOCK_NB)
        set_raw(opened, rate)
        fcntl.ioctl(opened, termios.TIOCEXCL)
    except (OSError, termios.error) as error:
        os.close(opened)
        raise OSError(*error.args) from error
    return opened


class SerialDevice(StreamDevice):
    """It is opened, and again after each loss; it may be unplugged."""

    ended = "is gone"

    def __init__(self, path, rate, spoken, cutter, teller, left_out):
        super().__init__(f"serial:{path}", int(WAIT_SECONDS * rate / BITS_A_BYTE), spoken, cutter, teller, left_out)
        self.path, self.rate, self.opened = path, rate, -1

    def fileno(self):
        return self.opened

    def tend(self, now):
        if self.is_open:
            self.due = now + REST_SECONDS
        elif now >= self.due:
            self._open(now)

    def _open(self, now):
        try:
            self.opened = opened_line(self.path, self.rate)
        except OSError as error:
            self._lose(self._why(error), now)
        else:
            self._begin("open")

    def _why(self, error):
        return REASONS.get(error.errno, error.strerror)

    def _take(self):
        return os.read(self.opened, PIECE_BYTES)

    def _put(self, content):
        return os.write(self.opened, content)

    def _shut(self):
        self.close()

    def close(self, last=b""):
        """Drops what waits in the line, which the system would wait for, and says what is to be said last."""
        if self.opened < 0:
            return
        # a line that was unplugged has nothing to drop, and takes nothing
        with contextlib.suppress(OSError, termios.error):
            termios.tcflush(self.opened, termios.TCOFLUSH)
            fcntl.ioctl(self.opened, termios.TIOCNXCL)
            os.write(self.opened, last)
        os.close(self.opened)
        self.opened = -1
