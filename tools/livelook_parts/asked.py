"""What a request asks for, and the names by which browsers may call this machine."""

import contextlib
import re
from typing import NamedTuple

REQUEST = re.compile(rb"([A-Z]{1,16}) (\S{1,4096}) HTTP/1\.[01]")
FIELD = re.compile(rb"([!#$%&'*+.^_`|~0-9A-Za-z-]+):([^\r\n\0]*)")
# a target that also says which server is asked (RFC 9112, 3.2.2)
ABSOLUTE = re.compile(r"[A-Za-z][A-Za-z0-9+.-]*://([^/?#]*)([^?#]*)")
# an address in the system's table of routes, by what it says of it (Linux, net/ipv4/fib_trie.c)
LOCAL = re.compile(r"\|-- (\S+)\n(?: +/\d+ .*\n)*? +/32 host LOCAL\n")


class Request(NamedTuple):
    """The method, the path, each Host, and the server in the target, if one is there."""

    method: str
    path: str
    hosts: list
    server: list


def request_of(head):
    """A request by its head, if it has the form of HTTP/1.1."""
    first, *lines = head.split(b"\r\n")
    match, fields = REQUEST.fullmatch(first), [FIELD.fullmatch(line) for line in lines]
    if match is None or None in fields:
        return None
    target = match.group(2).decode("latin-1")
    absolute = ABSOLUTE.match(target)
    path, server = (absolute.group(2) or "/", [absolute.group(1)]) if absolute else (target.split("?")[0], [])
    hosts = [field.group(2).strip(b" \t").decode("latin-1") for field in fields if field.group(1).lower() == b"host"]
    return Request(match.group(1).decode(), path, hosts, server)


def called(text):
    """A name as browsers write it into Host; UnicodeError says that it is none."""
    return text.encode("idna").decode().lower()


def own_addresses():
    """The IPv4 addresses of this machine. A socket would tell them too, but the gateway's unit counts those of its user, who is also the page's."""
    with contextlib.suppress(OSError), open("/proc/net/fib_trie", encoding="ascii") as file:
        return set(LOCAL.findall(file.read()))
    return set()


class Names:
    """The names of the server at an address: with its port, or without any."""

    def __init__(self, address, names):
        self.port = f":{address[1]}"
        self.known = {"localhost", *map(called, (address[0], *names))}

    def allow(self, request, reached):
        """Whether a request, by a client that has reached this address, calls the server by such a name, and by no other."""
        return len(request.hosts) == 1 and all(self._has(name.lower(), reached) for name in (*request.hosts, *request.server))

    def _has(self, text, reached):
        if text in self.known:
            return True
        name = text[: -len(self.port)] if text.endswith(self.port) else text
        return name in self.known or name == reached or name in own_addresses()
