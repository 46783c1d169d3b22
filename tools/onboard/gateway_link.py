"""The gateway's bus link, over UDP: its frames come to a port of this machine, and those for it go to its own."""

import errno
import math
import os
import socket

from .endpoints import datagrams_of, udp_socket
from .line_device import RETRY_SECONDS
from .lookups import LOOK_SECONDS, Lookup
from .words import Told

# that nobody takes what is sent is told if it lasts so long, and so is its end
UNTAKEN_SECONDS = 2.0
# what the system says of a datagram before: that its port isn't listened on, or that its machine isn't there
UNTAKEN = (errno.ECONNREFUSED, errno.EHOSTUNREACH, errno.ENETUNREACH)


class Untaken:
    """Tells that nobody takes what is sent, and that it is taken again."""

    def __init__(self, told, left_out):
        self.told, self.left_out = told, left_out
        self.first_at = self.last_at = self.taken_since = None
        self.is_told = False

    def add(self, error, now):
        """The system said of what was sent that nobody took it."""
        self.left_out.count("a frame to the gateway, which nobody took")
        self.error, self.last_at, self.taken_since = error, now, None
        if self.first_at is None:
            self.first_at = now

    def sent(self, now):
        if self.taken_since is None:
            self.taken_since = now

    def tend(self, now):
        if self.first_at is None:
            return
        if self.taken_since is not None and now - self.taken_since >= UNTAKEN_SECONDS:
            if self.is_told:
                self.told.now("what is sent there is taken again")
            self.first_at, self.is_told = None, False
        elif not self.is_told and self.last_at - self.first_at >= UNTAKEN_SECONDS:
            self.is_told = True
            self.told.now(f"nobody takes what is sent there ({os.strerror(self.error)}): is the gateway running, and is this its bus.listen?")


class GatewayLink:
    """Both sockets of the link. The one that sends is connected, so that the system says if nobody listens."""

    def __init__(self, listen, to, teller, left_out):
        self.heard = udp_socket(listen)
        self.port, self.left_out = to[1], left_out
        self.told = Told(f"the gateway at {to[0]}:{to[1]}", teller)
        self.untaken = Untaken(self.told, left_out)
        self.lookup, self.out, self.due, self.openings = Lookup(to[0]), None, 0.0, 0

    def fileno(self):
        return self.heard.fileno()

    def tend(self, now):
        if self.out is None and now >= self.due:
            self._connect(now)
        if self.out is not None:
            failure = self.out.getsockopt(socket.SOL_SOCKET, socket.SO_ERROR)
            if failure:
                self._fail(failure, now)
            self.untaken.tend(now)

    def _connect(self, now):
        if not self.lookup.is_done:
            self.due = now + LOOK_SECONDS
            return
        failure = self.lookup.failure
        if failure is None:
            out = socket.socket(socket.AF_INET, socket.SOCK_DGRAM)
            out.setblocking(False)
            try:
                out.connect((self.lookup.address, self.port))
            except OSError as error:
                out.close()
                failure = error.strerror
            else:
                self.out, self.due, self.openings = out, math.inf, self.openings + 1
                return
        self.told.now(f"{failure}; trying again each second")
        self.lookup, self.due = Lookup(self.lookup.host), now + RETRY_SECONDS

    def frames(self):
        """The contents that came from the gateway."""
        return [content for content, _ in datagrams_of(self.heard)]

    def send(self, content, now):
        if self.out is None:
            self.left_out.add("a frame to the gateway, to which there is no way yet")
        # a datagram that nobody took is told at the one after it, which then hasn't gone yet
        elif not self._sent(content, now):
            self._sent(content, now)

    def _sent(self, content, now):
        try:
            self.out.send(content)
        except OSError as error:
            self._fail(error.errno, now)
            return error.errno not in UNTAKEN
        self.untaken.sent(now)
        return True

    def _fail(self, failure, now):
        if failure in UNTAKEN:
            self.untaken.add(failure, now)
        else:
            self.left_out.add(f"a frame to the gateway: {os.strerror(failure)}")
