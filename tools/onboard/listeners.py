"""Ports of this machine to which others send lines, over UDP or TCP, by the same calls as a way to a device has (line_device.py). Nothing is sent to them."""

import math
import select
import socket

from .endpoints import datagrams_of, udp_socket
from .line_device import RETRY_SECONDS, LineDevice
from .lines import PIECE_BYTES, LineCutter
from .stream_device import CUT_OFF
from .tcp_device import KEEP_ALIVE
from .words import Told

# of one port; a further one takes the place of the one that was silent longest
MOST_CONNECTIONS = 16


class UdpPort(LineDevice):
    """A port to which anyone may send datagrams, each with whole lines."""

    def __init__(self, name, address, spoken, cutter, teller, left_out):
        super().__init__(name, spoken, cutter, teller, left_out)
        self.socket = udp_socket(address)

    def fileno(self):
        return self.socket.fileno()

    def tend(self, _now):
        if not self.is_open:
            self._begin("open")
            self.due = math.inf

    def receive(self, _now):
        # a datagram ends its last line
        return [line for content, _ in datagrams_of(self.socket) for line in self._lines_of(content + b"\n")]

    def close(self):
        self.socket.close()


class Connection:
    """Somebody who sends lines over TCP."""

    def __init__(self, opened, left_out, now):
        self.socket, self.cutter, self.heard_at = opened, LineCutter(left_out), now
        opened.setblocking(False)
        opened.setsockopt(socket.SOL_SOCKET, socket.SO_KEEPALIVE, 1)
        for option, value in KEEP_ALIVE:
            opened.setsockopt(socket.IPPROTO_TCP, option, value)


class TcpPort:
    """A port to which anyone may connect and send lines. All of them are one file to wait for, since an epoll is one."""

    wants_to_write = False

    def __init__(self, name, address, teller, left_out):
        self.told, self.left_out = Told(name, teller), left_out
        self.server = socket.create_server(address, backlog=MOST_CONNECTIONS)
        self.server.setblocking(False)
        self.all = select.epoll()
        self.connections = {}
        self.openings, self.due, self.is_accepting = 0, 0.0, False

    @property
    def is_open(self):
        """Whether anyone is connected who could say something."""
        return bool(self.connections)

    def fileno(self):
        return self.all.fileno()

    def tend(self, now):
        """Once a second: what is told of who comes and goes is bounded by it, and so is how often a system that has no room for more is asked."""
        if now < self.due:
            return
        self.due = now + RETRY_SECONDS
        if not self.is_accepting:
            self.is_accepting = True
            self.all.register(self.server, select.EPOLLIN)
        self.told.now(f"open, {len(self.connections)} connected")

    def receive(self, now):
        lines = []
        ready = [number for number, _ in self.all.poll(0)]
        for number in ready:
            if number in self.connections:
                lines += self._lines_of(number, now)
        if self.server.fileno() in ready:
            self._accept(now)
        return lines

    def _lines_of(self, number, now):
        connection = self.connections[number]
        try:
            piece = connection.socket.recv(PIECE_BYTES)
        except BlockingIOError:
            return []
        except OSError:
            piece = b""
        if not piece:
            self._drop(number)
            return []
        connection.heard_at = now
        return [line for line in connection.cutter.lines_of(piece) if line]

    def _accept(self, now):
        try:
            opened, _ = self.server.accept()
        except BlockingIOError:
            return
        except OSError as error:
            self.told.now(f"a connection can't be taken: {error.strerror}; trying again each second")
            self.all.unregister(self.server)
            self.is_accepting = False
            return
        if len(self.connections) == MOST_CONNECTIONS:
            self.left_out.add("a connection that was silent longest, in whose place another one came")
            self._drop(min(self.connections, key=lambda number: self.connections[number].heard_at))
        self.connections[opened.fileno()] = Connection(opened, self.left_out, now)
        self.all.register(opened, select.EPOLLIN)
        self.openings += 1

    def _drop(self, number):
        """A line that hasn't ended is lost with the connection."""
        connection = self.connections.pop(number)
        if connection.cutter.end():
            self.left_out.add(CUT_OFF)
        # the epoll forgets what is closed
        connection.socket.close()

    def close(self):
        for number in list(self.connections):
            self._drop(number)
        self.server.close()
        self.all.close()
