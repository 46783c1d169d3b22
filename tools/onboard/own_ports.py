"""UDP ports of this machine, at addresses that may come later, as DHCP gives them."""

import errno

from .endpoints import udp_socket
from .words import Told


class OwnPort:
    """A port that is listened on as soon as its address is one of this machine; OSError says why it can't be then."""

    def __init__(self, address, name, teller):
        self.address, self.name, self.socket = address, name, None
        self.told = Told(f"{address[0]}:{address[1]}, of {name}", teller)

    @property
    def is_open(self):
        return self.socket is not None

    def tend(self):
        """Whether it has just been opened."""
        if self.is_open:
            return False
        try:
            self.socket = udp_socket(self.address)
        except OSError as error:
            if error.errno != errno.EADDRNOTAVAIL:
                raise OSError(error.errno, f"{error.strerror} ({self.name})") from error
            self.told.now("isn't an address of this machine; waiting until it is")
            return False
        self.told.now("listening")
        return True
