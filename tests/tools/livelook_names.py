"""By which names livelook may be called, and what it takes for a request."""

import contextlib
import socket

from livelook_boat import LIMIT_SECONDS, Look, wanted

# {} is its port
OWN = ("localhost", "localhost:{}", "LOCALHOST:{}", "127.0.0.1:{}", "127.0.0.1", "boat.local:{}", "BOAT.local", "localhost:9000", "xn--mwe-sna.local:{}")
OTHERS = ("", ":{}", "evil.example", "evil.example:{}", "localhost.evil.example:{}", "evil.localhost", "localhost:1", "127.0.0.1:1", "localhost:{}0", "localhost:",
          "user@localhost:{}", "[::1]:{}", "[::1]", "[127.0.0.1]:{}", "203.0.113.77:{}", "127.0.0.2:{}", "0.0.0.0:{}", "127.1:{}", "2130706433:{}",
          "localhost evil.example", "localhost,evil.example")
# requests without the blank line at their end
SERVED = ("GET /look.js HTTP/1.1\r\nhOST:localhost \t", "GET http://localhost:{}/look.js HTTP/1.1\r\nHost: localhost")
MISDIRECTED = ("GET /look.js HTTP/1.1", "GET /look.js HTTP/1.0", "GET /look.js HTTP/1.1\r\nHost: localhost\r\nHost: localhost",
               "GET /look.js HTTP/1.1\r\nHost: localhost\r\nhOST: a b", "GET http://localhost:{}/look.js HTTP/1.1",
               "GET http://evil.example/look.js HTTP/1.1\r\nHost: localhost", "GET http://localhost/look.js HTTP/1.1\r\nHost: evil.example",
               "GET HTTP://user@localhost:{}/look.js HTTP/1.1\r\nHost: localhost", "GET http:///look.js HTTP/1.1\r\nHost: localhost")
NO_REQUESTS = ("\x16\x03\x01", "GET /look.js", "GET /look.js HTTP/1.1\r\nHost: localhost\r\n evil.example", "GET /look.js HTTP/1.1\r\nHost : localhost",
               "GET /look.js HTTP/1.1\r\nHost: localhost\nHost: evil.example", "GET  /look.js HTTP/1.1\r\nHost: localhost")


def try_names():
    """Its own names, the machine's addresses and those of --name are served, with its port or without; all else has status 421."""
    with Look("boat.toml", "run.log", "--name", "Boat.Local", "--name", "localhost:9000", "--name", "m\u00f6we.local") as look:
        wants(look, 200, [f"GET /look.js HTTP/1.1\r\nHost: {name}" for name in (*OWN, *own_addresses())])
        wants(look, 421, [f"GET /look.js HTTP/1.1\r\nHost: {name}" for name in OTHERS])
        for due, requests in ((200, SERVED), (421, MISDIRECTED), (400, NO_REQUESTS)):
            wants(look, due, requests)


def wants(look, due, requests):
    for text in requests:
        request = text.replace("{}", str(look.port)) + "\r\n\r\n"
        status = raw(look, request.encode())[9:12]
        wanted(f"{request!r} has status {status}", status == b"%d" % due)


def own_addresses():
    """The address by which this machine would reach others, if it has one."""
    with contextlib.suppress(OSError), socket.socket(socket.AF_INET, socket.SOCK_DGRAM) as probe:
        probe.connect(("192.0.2.1", 1))
        return [probe.getsockname()[0], probe.getsockname()[0] + ":{}"]
    return []


def raw(look, text):
    with contextlib.closing(socket.create_connection(("127.0.0.1", look.port))) as opened:
        opened.settimeout(LIMIT_SECONDS)
        opened.sendall(text)
        return opened.recv(4096)


CALLED = (try_names,)
