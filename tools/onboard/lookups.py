"""Names of machines, looked up beside what goes on."""

import socket
import threading

# how soon it is looked whether an answer has come
LOOK_SECONDS = 0.05


def is_address(host):
    """Whether a host is written as its address, which needs no lookup."""
    try:
        socket.inet_pton(socket.AF_INET, host)
    except OSError:
        return False
    return True


class Lookup:
    """The IPv4 address of a host. A name may take as long as the system waits for its servers, so a thread of its own asks for it."""

    def __init__(self, host):
        self.host = host
        self.address = self.failure = None
        if is_address(host):
            self.address = host
        else:
            threading.Thread(target=self._ask, daemon=True).start()

    def _ask(self):
        try:
            self.address = socket.gethostbyname(self.host)
        except OSError as error:
            self.failure = f"no address of this name: {error.strerror}"

    @property
    def is_done(self):
        return self.address is not None or self.failure is not None
