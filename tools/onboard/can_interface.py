"""A SocketCAN interface of Linux, which may go down, off the bus, or away, and comes back."""

import collections
import errno
import fcntl
import os
import socket
import struct

from . import bus_load, ip_command
from .candump import ERROR_FLAG, IDENTIFIER_BITS, MOST_DATA, REMOTE, STANDARD, Frame
from .endpoints import make_room
from .line_device import RETRY_SECONDS
from .words import Told

# struct can_frame of <linux/can.h>: the identifier with its flags, the length, padding, the data
CAN_FRAME = struct.Struct("=IB3x8s")
EXTENDED_FLAG, REMOTE_FLAG = 0x80000000, 0x40000000
# options that Python has no names for: which error frames come, of <linux/can/raw.h>; how many frames found no room, of <asm/socket.h>
CAN_RAW_ERR_FILTER, ALL_ERRORS = 2, 0x1FFFFFFF
SO_RXQ_OVFL = 40
# asks for the flags of an interface: struct ifreq of <linux/if.h>
SIOCGIFFLAGS, IFF_UP = 0x8913, 1
INTERFACE_REQUEST = struct.Struct("16sH22x")
MOST_FRAMES = 256
# A queue of the interface that is full: how long a frame waits for room, how many may, and how often it is tried.
WAIT_SECONDS, MOST_WAITING, AGAIN_SECONDS = 0.5, 1024, 0.002
# what an interface that was unplugged answers
GONE = (errno.ENODEV, errno.ENXIO)
FULL = (errno.ENOBUFS, errno.EAGAIN)
NO_ROOM = "the interface's queue is full"


def is_up(opened, name):
    answer = fcntl.ioctl(opened.fileno(), SIOCGIFFLAGS, INTERFACE_REQUEST.pack(name.encode(), 0))
    return bool(INTERFACE_REQUEST.unpack(answer)[1] & IFF_UP)


def opened_on(name):
    """A raw socket on the interface: it hears error frames, and not what it sends itself."""
    opened = socket.socket(socket.AF_CAN, socket.SOCK_RAW, socket.CAN_RAW)
    try:
        opened.setsockopt(socket.SOL_CAN_RAW, socket.CAN_RAW_RECV_OWN_MSGS, 0)
        opened.setsockopt(socket.SOL_CAN_RAW, CAN_RAW_ERR_FILTER, struct.pack("=I", ALL_ERRORS))
        opened.setsockopt(socket.SOL_SOCKET, SO_RXQ_OVFL, 1)
        make_room(opened)
        opened.bind((name,))
        opened.setblocking(False)
    except OSError:
        opened.close()
        raise
    return opened


class CanInterface:
    """Frames of an interface, by the same calls as a device in the network has for lines: a bus that never ends."""

    is_ended, is_in_time = False, True

    def __init__(self, name, bitrate, teller, left_out):
        self.name, self.bitrate, self.left_out = name, bitrate, left_out
        self.told = Told(name, teller)
        self.socket, self.is_down, self.is_to_set_up, self.due, self.lost = None, False, False, 0.0, 0
        # frames for which the interface's queue had no room, each with when it is too old
        self.waiting = collections.deque()
        self.wants_to_write = False
        self.openings = 0

    @property
    def is_open(self):
        return self.socket is not None and not self.is_down

    def fileno(self):
        return -1 if self.socket is None else self.socket.fileno()

    def tend(self, now):
        if self.waiting:
            self._send_waiting(now)
        if now < self.due:
            return
        self.due = now + RETRY_SECONDS
        if self.socket is None:
            self._open()
        elif self.is_down:
            self._look()
        if self.waiting:
            self.due = now + AGAIN_SECONDS

    def _open(self):
        try:
            self.socket = opened_on(self.name)
            # a socket that was bound to an interface that is down says so once, even if that is up by then
            self.socket.getsockopt(socket.SOL_SOCKET, socket.SO_ERROR)
        except OSError as error:
            if error.errno == errno.EAFNOSUPPORT:
                raise OSError(error.errno, f"{self.name}: this system has no SocketCAN") from error
            self._lose("isn't there" if error.errno in GONE else error.strerror)
            return
        self.is_down, self.lost, self.is_to_set_up = True, 0, self.bitrate is not None
        self._look()

    def _set_up(self):
        """Sets an interface up that has come, and isn't; one that is set down later stays so."""
        try:
            self.told.now(ip_command.set_up(self.name, self.bitrate))
        except ip_command.Refused as why:
            self.told.now(f"is down, and can't be set up with {self.bitrate} bits a second: {why}; trying again each second")
        else:
            self.is_to_set_up = False

    def _look(self):
        """Whether the interface is up."""
        try:
            if self.is_to_set_up and not is_up(self.socket, self.name):
                self._set_up()
            self.is_down = not is_up(self.socket, self.name)
        except OSError as error:
            self._lose("isn't there" if error.errno in GONE else error.strerror)
            return
        if not self.is_down:
            self.is_to_set_up = False
            self.told.now("is up")
            self.openings += 1
            self._compare_bitrate()
        elif not self.is_to_set_up:
            self.told.now("is down; waiting until it is up")

    def _compare_bitrate(self):
        """At another rate than the bus has, nothing is understood, and each frame that is sent disturbs it."""
        wanted, found = self.bitrate or bus_load.BITS_A_SECOND, ip_command.bitrate_of(self.name)
        if found not in (None, wanted):
            again = f"ip link set {self.name} down, and then ip link set {self.name} up type can bitrate {wanted} restart-ms {ip_command.RESTART_MS}"
            self.told.now(f"runs at {found} bits a second, and not at {wanted}: {again}")

    def _lose(self, why):
        self.told.now(f"{why}; trying again each second")
        self.close()

    def close(self):
        if self.socket is not None:
            self.socket.close()
        self.socket = None
        self.waiting.clear()

    def _fail(self, error):
        """What a failure of the socket means: an interface that was unplugged has to be opened anew, of one that is down the socket stays."""
        if error.errno in GONE:
            self._lose("is gone")
        elif error.errno == errno.ENETDOWN:
            self.is_down = True
            self.told.now("is down; waiting until it is up")
        elif error.errno not in (errno.EAGAIN, errno.EINTR):
            self._lose(error.strerror)

    def receive(self, _now):
        frames = []
        for _ in range(MOST_FRAMES):
            if self.socket is None:
                break
            try:
                content, beside, _, _ = self.socket.recvmsg(CAN_FRAME.size, 32)
            except OSError as error:
                self._fail(error)
                break
            self._count_lost(beside)
            frame = self._frame_of(content)
            if frame is not None:
                frames.append(frame)
        return frames

    def _count_lost(self, beside):
        for level, kind, content in beside:
            if (level, kind) == (socket.SOL_SOCKET, SO_RXQ_OVFL):
                lost = int.from_bytes(content, "little")
                self.left_out.add("a frame of the bus for which there was no room in the socket", lost - self.lost)
                self.lost = lost

    def _frame_of(self, content):
        bits, length, data = CAN_FRAME.unpack(content)
        if bits & ERROR_FLAG:
            return Frame(bits & (IDENTIFIER_BITS | ERROR_FLAG), data[:length])
        if bits & REMOTE_FLAG:
            self.left_out.add(REMOTE)
        elif not bits & EXTENDED_FLAG:
            self.left_out.add(STANDARD)
        else:
            return Frame(bits & IDENTIFIER_BITS, data[:length])
        return None

    def send(self, frame, now):
        """Why the frame couldn't be sent; nothing where it was, or waits for room."""
        if self.socket is None:
            return "the interface isn't there"
        if not self.waiting:
            failure = self._hand_over(frame)
            if failure not in FULL:
                return failure and os.strerror(failure)
        if len(self.waiting) >= MOST_WAITING:
            return NO_ROOM
        self.waiting.append((now + WAIT_SECONDS, frame))
        self.due = min(self.due, now + AGAIN_SECONDS)
        return None

    def _hand_over(self, frame):
        """The number of the error by which the interface didn't take a frame, or nothing."""
        identifier, data = frame
        try:
            self.socket.send(CAN_FRAME.pack(identifier | EXTENDED_FLAG, len(data), data.ljust(MOST_DATA, b"\0")))
        except OSError as error:
            if error.errno not in FULL:
                self._fail(error)
            return error.errno
        return None

    def _send_waiting(self, now):
        """Hands over what waits, in its order; what is too old would say on the bus what isn't so any more."""
        while self.waiting:
            too_old, frame = self.waiting[0]
            failure = self._hand_over(frame)
            if failure in FULL and now < too_old:
                return
            if failure is not None:
                self.left_out.add(f"a frame to the bus: {NO_ROOM if failure in FULL else os.strerror(failure)}")
            if self.waiting:
                self.waiting.popleft()
