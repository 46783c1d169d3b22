"""Programs that read sentences over TCP. None of them holds up another one."""

import os
import selectors
import socket
import time

from .lines import PIECE_BYTES

# what may wait for a client, beside what the system holds for it
MOST_WAITING_BYTES, SEND_BUFFER_BYTES = 65536, 65536
CLIENTS_AT_ONCE = 64
# where Signal K server serves its sentences, on the same machine on many boats
SIGNAL_K_PORT, OTHER_PORT = 10110, 10111


def server_on(port):
    """A TCP port of all networks of the machine; OSError says which it is, and whose it may be."""
    try:
        opened = socket.create_server(("0.0.0.0", port), backlog=CLIENTS_AT_ONCE)
    except OSError as error:
        hint = f"; Signal K server serves there too, so take another one, such as {OTHER_PORT}" if port == SIGNAL_K_PORT else ""
        raise OSError(error.errno, f"can't listen on TCP port {port}, of --tcp: {os.strerror(error.errno)}{hint}") from error
    opened.setblocking(False)
    return opened


class Client:
    """Somebody who reads sentences over TCP."""

    def __init__(self, opened, address):
        self.socket, self.name, self.waiting = opened, f"{address[0]}:{address[1]}", bytearray()
        opened.setblocking(False)
        opened.setsockopt(socket.SOL_SOCKET, socket.SO_SNDBUF, SEND_BUFFER_BYTES)
        opened.setsockopt(socket.SOL_SOCKET, socket.SO_KEEPALIVE, 1)
        opened.setsockopt(socket.IPPROTO_TCP, socket.TCP_NODELAY, 1)

    def write(self):
        """Writes what can be written; why the client is lost, or nothing."""
        try:
            sent = self.socket.send(self.waiting) if self.waiting else 0
        except BlockingIOError:
            sent = 0
        except OSError as error:
            return error.strerror
        del self.waiting[:sent]
        return "it doesn't take what waits for it" if len(self.waiting) > MOST_WAITING_BYTES else None

    def read(self):
        """Passes over what the client sends; why it is lost, or nothing."""
        try:
            return None if self.socket.recv(PIECE_BYTES) else "closed by the client"
        except BlockingIOError:
            return None
        except OSError as error:
            return error.strerror


class Clients:
    """All who read sentences over TCP, and the port on which they come."""

    def __init__(self, port, selector, teller):
        self.selector, self.teller, self.all = selector, teller, set()
        self.is_full = False
        self.socket = server_on(port)
        selector.register(self.socket, selectors.EVENT_READ, self.accept)

    def accept(self, _events):
        for _ in range(CLIENTS_AT_ONCE):
            try:
                opened, address = self.socket.accept()
            except BlockingIOError:
                return
            except OSError as error:
                # no more files may be open, or the client is gone already: the next turn tries again
                self.tell_full(error.strerror)
                return
            self.add(Client(opened, address))

    def add(self, client):
        self.all.add(client)
        self.selector.register(client.socket, selectors.EVENT_READ, lambda events: self.ready(client, events))
        self.is_full = False
        self.teller.tell(f"{client.name} reads, {len(self.all)} in all")

    def tell_full(self, why):
        if not self.is_full:
            self.teller.tell(f"a client can't be taken: {why}")
        self.is_full = True
        time.sleep(0.01)

    def ready(self, client, events):
        lost = client.read() if events & selectors.EVENT_READ else None
        if lost is None and events & selectors.EVENT_WRITE:
            lost = client.write()
        self.after(client, lost)

    def after(self, client, lost):
        """Drops a client that is lost; else waits for it only where something waits for it."""
        if lost is None:
            events = selectors.EVENT_READ | (selectors.EVENT_WRITE if client.waiting else 0)
            if self.selector.get_key(client.socket).events != events:
                self.selector.modify(client.socket, events, self.selector.get_key(client.socket).data)
            return
        self.selector.unregister(client.socket)
        self.all.discard(client)
        client.socket.close()
        self.teller.tell(f"{client.name} is left: {lost}; {len(self.all)} in all")

    def serve(self, text):
        for client in list(self.all):
            client.waiting += text
            self.after(client, client.write())
