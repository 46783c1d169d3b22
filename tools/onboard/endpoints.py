"""Addresses as words of a command, and UDP sockets of this machine."""

import argparse
import socket

DATAGRAM_BYTES = 65536
# taken at a time, so that the other side comes to its turn
MOST_DATAGRAMS = 64
RECEIVE_BUFFER_BYTES = 1 << 20
# sets a buffer beyond what the system allows others, where that is granted: an option that Python has no name for, of <asm/socket.h>
SO_RCVBUFFORCE = 33


def host_and_port(text):
    """HOST:PORT, for argparse."""
    host, _, port = text.rpartition(":")
    if not is_host(host) or not port.isascii() or not port.isdigit() or not 0 < int(port) < 65536:
        raise argparse.ArgumentTypeError(f"{text!r} isn't HOST:PORT")
    return host, int(port)


def is_host(text):
    """Whether a text is an address, or has the form of a name."""
    try:
        return bool(text.encode("idna"))
    except UnicodeError:
        return False


def looked_up(place):
    """A host and a port by the host's address; OSError says that it has none."""
    host, port = place
    try:
        return socket.gethostbyname(host), port
    except OSError as error:
        raise OSError(error.errno, f"no address of {host}: {error.strerror}") from error


def make_room(opened):
    """Gives a socket room for what comes in a second or two, while a busy machine has no processor for it."""
    try:
        opened.setsockopt(socket.SOL_SOCKET, SO_RCVBUFFORCE, RECEIVE_BUFFER_BYTES)
    except PermissionError:
        opened.setsockopt(socket.SOL_SOCKET, socket.SO_RCVBUF, RECEIVE_BUFFER_BYTES)


def udp_socket(address):
    """A socket that doesn't wait, on an address of this machine, with room for what comes in a burst; a failure names the address."""
    opened = socket.socket(socket.AF_INET, socket.SOCK_DGRAM)
    try:
        make_room(opened)
        opened.bind(address)
        opened.setblocking(False)
    except OSError as error:
        opened.close()
        raise OSError(error.errno, f"can't listen on {address[0]}:{address[1]}: {error.strerror}") from error
    return opened


def datagrams_of(opened):
    """The datagrams that wait in a socket, with who sent them: not more than a turn takes."""
    for _ in range(MOST_DATAGRAMS):
        try:
            yield opened.recvfrom(DATAGRAM_BYTES)
        except OSError:
            # none waits, or one couldn't be taken: then the next turn tries again
            return


def is_own_address(host):
    """Whether an address is one of this machine."""
    with socket.socket(socket.AF_INET, socket.SOCK_DGRAM) as probe:
        try:
            probe.bind((host, 0))
        except OSError:
            return False
    return True
