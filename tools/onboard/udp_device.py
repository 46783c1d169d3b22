"""A device in the network that speaks lines over UDP."""

import socket

from .endpoints import datagrams_of, udp_socket
from .line_device import REST_SECONDS, RETRY_SECONDS, LineDevice
from .lookups import LOOK_SECONDS, Lookup


class UdpDevice(LineDevice):
    """It is heard on a port of this machine, and spoken to at its own address."""

    def __init__(self, host, port, local, spoken, cutter, teller, left_out):
        super().__init__(f"udp:{host}:{port}", spoken, cutter, teller, left_out)
        self.host, self.port = host, port
        self.socket = udp_socket(local)
        self.socket.setsockopt(socket.SOL_SOCKET, socket.SO_BROADCAST, 1)
        self.lookup, self.address = Lookup(host), None

    def fileno(self):
        return self.socket.fileno()

    def tend(self, now):
        if self.address is None and now >= self.due:
            self._find(now)
        if self.is_open:
            self.due = now + REST_SECONDS

    def _find(self, now):
        if not self.lookup.is_done:
            self.due = now + LOOK_SECONDS
        elif self.lookup.address is None:
            self.told.now(f"{self.lookup.failure}; trying again each second")
            self.lookup, self.due = Lookup(self.host), now + RETRY_SECONDS
        else:
            self.address = self.lookup.address
            self._begin("open")

    def receive(self, _now):
        lines = []
        for content, (sender, _) in datagrams_of(self.socket):
            if sender != self.address and not self._is_broadcast():
                self.left_out.add("a datagram of another machine than the device")
                continue
            # a datagram ends its last line
            lines += self._lines_of(content + b"\n")
        return lines

    def _is_broadcast(self):
        return self.address is not None and self.address.endswith(".255")

    def send(self, line, _now):
        if self.address is None:
            return "the device's name has no address"
        try:
            self.socket.sendto(line, (self.address, self.port))
        except OSError as error:
            return error.strerror
        return None

    def close(self):
        self.socket.close()
