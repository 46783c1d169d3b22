"""A device in the network that speaks lines over TCP."""

import os
import socket

from .line_device import REST_SECONDS
from .lines import PIECE_BYTES
from .lookups import LOOK_SECONDS, Lookup
from .stream_device import StreamDevice

CONNECT_SECONDS = 5.0
# a peer that vanished is noticed after some ten seconds, be it that nothing is sent to it
KEEP_ALIVE = ((socket.TCP_KEEPIDLE, 5), (socket.TCP_KEEPINTVL, 2), (socket.TCP_KEEPCNT, 3), (socket.TCP_USER_TIMEOUT, 10_000))
MOST_WAITING_BYTES = 65536


class TcpDevice(StreamDevice):
    """It is connected to, and again after each loss."""

    def __init__(self, host, port, spoken, cutter, teller, left_out):
        super().__init__(f"tcp:{host}:{port}", MOST_WAITING_BYTES, spoken, cutter, teller, left_out)
        self.host, self.port = host, port
        self.lookup = self.socket = None

    @property
    def wants_to_write(self):
        return self.socket is not None and (not self.is_open or bool(self.waiting))

    def fileno(self):
        return -1 if self.socket is None else self.socket.fileno()

    def tend(self, now):
        if self.is_open:
            self.due = now + REST_SECONDS
        elif now >= self.due:
            if self.socket is not None:
                self._lose("no answer", now)
            else:
                self._find(now)

    def _find(self, now):
        """The name is looked up anew for each connection, since the device may have got another address."""
        self.lookup = self.lookup or Lookup(self.host)
        if not self.lookup.is_done:
            self.due = now + LOOK_SECONDS
            return
        found, self.lookup = self.lookup, None
        if found.address is None:
            self._lose(found.failure, now)
        else:
            self._connect(found.address, now)

    def _connect(self, address, now):
        opened = socket.socket(socket.AF_INET, socket.SOCK_STREAM)
        opened.setblocking(False)
        self.socket, self.due = opened, now + CONNECT_SECONDS
        try:
            opened.setsockopt(socket.SOL_SOCKET, socket.SO_KEEPALIVE, 1)
            opened.setsockopt(socket.IPPROTO_TCP, socket.TCP_NODELAY, 1)
            for option, value in KEEP_ALIVE:
                opened.setsockopt(socket.IPPROTO_TCP, option, value)
            opened.connect((address, self.port))
        except BlockingIOError:
            return
        except OSError as error:
            self._lose(error.strerror, now)
            return
        self._begin("connected")

    def ready_to_write(self, now):
        """A connection is there, or has failed; or what waits may go on."""
        if not self.is_open:
            failure = self.socket.getsockopt(socket.SOL_SOCKET, socket.SO_ERROR)
            if failure:
                self._lose(os.strerror(failure), now)
                return
            self._begin("connected")
        super().ready_to_write(now)

    def _take(self):
        return self.socket.recv(PIECE_BYTES)

    def _put(self, content):
        return self.socket.send(content)

    def _shut(self):
        if self.socket is not None:
            self.socket.close()
        self.socket = None

    def close(self):
        self._shut()
