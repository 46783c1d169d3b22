"""Which interface a datagram leaves by, as the system's own routes have it (<linux/rtnetlink.h>)."""

import os
import socket
import struct

# a message: its length, kind, flags, number and sender; then of a route the family, the bits of destination and source, and what isn't asked for
HEADER, ROUTE = struct.Struct("=IHHII"), struct.Struct("=BBB5xI")
ASK, ERROR, REQUEST = 26, 2, 1
# an attribute: its length and its kind; each begins at a multiple of four bytes
ATTRIBUTE = struct.Struct("=HH")
DESTINATION, SOURCE, INTERFACE = 1, 2, 4
ADDRESS_BITS = 32
NUMBER = struct.Struct("=i")
ANSWER_BYTES, ANSWER_SECONDS = 8192, 1.0


def attribute(kind, host):
    content = socket.inet_aton(host)
    return ATTRIBUTE.pack(ATTRIBUTE.size + len(content), kind) + content


def question(host, source):
    attributes = attribute(DESTINATION, host) + (attribute(SOURCE, source) if source else b"")
    route = ROUTE.pack(socket.AF_INET, ADDRESS_BITS, ADDRESS_BITS if source else 0, 0)
    return HEADER.pack(HEADER.size + len(route) + len(attributes), ASK, REQUEST, 1, 0) + route + attributes


def attributes_of(answer):
    """The attributes of a route, by their kinds."""
    found, place = {}, HEADER.size + ROUTE.size
    while place + ATTRIBUTE.size <= len(answer):
        length, kind = ATTRIBUTE.unpack_from(answer, place)
        found[kind] = answer[place + ATTRIBUTE.size : place + length]
        place += max(-(-length // 4) * 4, ATTRIBUTE.size)
    return found


def interface_towards(host, source=None):
    """The number of the interface by which a datagram to an address leaves, from an address of this machine; OSError says why there is none."""
    with socket.socket(socket.AF_NETLINK, socket.SOCK_RAW, socket.NETLINK_ROUTE) as asked:
        asked.settimeout(ANSWER_SECONDS)
        asked.send(question(host, source))
        answer = asked.recv(ANSWER_BYTES)
    _, kind, *_ = HEADER.unpack_from(answer)
    if kind == ERROR:
        failure = -NUMBER.unpack_from(answer, HEADER.size)[0]
        raise OSError(failure, os.strerror(failure))
    return NUMBER.unpack(attributes_of(answer)[INTERFACE])[0]
