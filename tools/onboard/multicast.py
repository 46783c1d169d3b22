"""Multicast groups of the network, joined for as long as their interface is there."""

import argparse
import collections
import errno
import fcntl
import re
import socket
import struct

from .endpoints import host_and_port
from .routes import interface_towards
from .words import Told

# <linux/in.h>: whether a socket is given what others joined; <linux/sockios.h>: the address of an interface
IP_MULTICAST_ALL, SIOCGIFADDR = 49, 0x8915
MULTICAST = range(224, 240)

Group = collections.namedtuple("Group", "name address port")


def group(text):
    """GROUP=ADDR:PORT, for argparse."""
    name, _, rest = text.partition("=")
    address, port = host_and_port(rest)
    try:
        is_multicast = socket.inet_aton(address)[0] in MULTICAST and address.count(".") == 3
    except OSError:
        is_multicast = False
    if re.fullmatch("[A-Z0-9]{4}", name) is None or not is_multicast:
        raise argparse.ArgumentTypeError(f"{text!r} isn't GROUP=ADDR:PORT with four capital letters or digits and a multicast address")
    return Group(name, address, port)


class NotJoined(Exception):
    """Why a group can't be joined."""


class NamedInterface:
    """An interface by its name, which may come and go."""

    def __init__(self, name):
        self.name = name

    def index(self):
        try:
            return socket.if_nametoindex(self.name)
        except OSError:
            raise NotJoined(f"there is no interface {self.name}") from None


class RoutedInterface:
    """The interface by which datagrams to a group leave, from an address of this machine or from any."""

    def __init__(self, address, source):
        self.address, self.source = address, source

    def index(self):
        try:
            return interface_towards(self.address, self.source)
        except OSError as error:
            raise NotJoined(f"no route leads to it, so nothing is sent there either: {error.strerror}") from error


class Member:
    """A group on an interface. It hears the datagrams for it, or joins alone."""

    def __init__(self, group, interface, is_hearing, teller):
        self.group, self.interface = group, interface
        self.told = Told(f"{group.name} at {group.address}:{group.port}", teller)
        self.index = 0
        self.socket = socket.socket(socket.AF_INET, socket.SOCK_DGRAM)
        self.socket.setblocking(False)
        if is_hearing:
            self.socket.setsockopt(socket.SOL_SOCKET, socket.SO_REUSEADDR, 1)
            self.socket.setsockopt(socket.IPPROTO_IP, IP_MULTICAST_ALL, 0)
            self.bind()

    @property
    def is_open(self):
        return self.index > 0

    def bind(self):
        try:
            self.socket.bind((self.group.address, self.group.port))
        except OSError as error:
            raise OSError(error.errno, f"can't listen on {self.group.address}:{self.group.port}, for {self.group.name}: {error.strerror}") from error

    def tend(self):
        """Joins if it isn't a member; on an interface that came back under another number it joins anew."""
        try:
            index = self.interface.index()
            if index != self.index:
                self.leave()
            self.join(index)
        except NotJoined as why:
            self.told.now(f"not joined: {why}; trying again")
        else:
            self.told.now(f"joined on {self.state()}")

    def join(self, index):
        try:
            self.socket.setsockopt(socket.IPPROTO_IP, socket.IP_ADD_MEMBERSHIP, self.request(index))
        except OSError as error:
            if error.errno == errno.ENODEV:
                raise NotJoined(f"the interface {self.name_of(index)} carries no IPv4") from error
            # the system says so of a member
            if error.errno != errno.EADDRINUSE:
                raise NotJoined(error.strerror) from error
        self.index = index

    def request(self, index):
        return socket.inet_aton(self.group.address) + bytes(4) + struct.pack("=i", index)

    def leave(self):
        if self.index:
            try:
                self.socket.setsockopt(socket.IPPROTO_IP, socket.IP_DROP_MEMBERSHIP, self.request(self.index))
            except OSError:
                # with the interface the membership went
                pass
        self.index = 0

    @staticmethod
    def name_of(index):
        try:
            return socket.if_indextoname(index)
        except OSError:
            return f"number {index}"

    def state(self):
        """The interface, and what keeps anything from coming by it."""
        name = self.name_of(self.index)
        try:
            with open(f"/sys/class/net/{name}/operstate", encoding="ascii") as file:
                is_down = file.read().strip() in ("down", "lowerlayerdown", "notpresent")
        except OSError:
            is_down = False
        if is_down:
            return f"{name}; the interface is down"
        return name if self.has_address(name) else f"{name}; the interface has no address"

    def has_address(self, name):
        try:
            fcntl.ioctl(self.socket.fileno(), SIOCGIFADDR, struct.pack("16s24x", name.encode()[:15]))
        except OSError:
            return False
        return True
