"""What livelook makes of clients that vanish. They do so in a network of their own, whose loopback is taken down: nothing tells the server."""

import contextlib
import fcntl
import os
import socket
import struct
import subprocess
import sys

sys.dont_write_bytecode = True
from livelook_boat import LIMIT_SECONDS, Look, until, wanted
from livelook_limits import client, connections, request

OWN_NETWORKS = (["unshare", "--net"], ["unshare", "--map-root-user", "--net"])
# sets the flags of an interface: struct ifreq of <linux/if.h>
SIOCSIFFLAGS, IFF_UP, DOWN = 0x8914, 1, 0
STREAMS, SILENT = 20, 3
# each of them has ten seconds, and a busy machine takes its time
MOST_SECONDS = 40


def try_vanishing():
    for words in OWN_NETWORKS:
        with contextlib.suppress(FileNotFoundError):
            if subprocess.run([*words, "true"], stderr=subprocess.DEVNULL, check=False).returncode == 0:
                ended = subprocess.run([*words, sys.executable, os.path.abspath(__file__)], check=False)
                wanted(f"clients that vanish: status {ended.returncode}", ended.returncode == 0)
                return
    print("tests/tools/livelook: no network of its own here, so no client vanished", file=sys.stderr)


def set_loopback(flags):
    with socket.socket(socket.AF_INET, socket.SOCK_DGRAM) as any_socket:
        fcntl.ioctl(any_socket, SIOCSIFFLAGS, struct.pack("16sH22x", b"lo", flags))


def vanish():
    """Those that take events, say nothing, and stop within their request; after them there is room again, also for the system."""
    set_loopback(IFF_UP)
    with Look("boat.toml", "run.log") as look:
        streams, silent, half = ([client(look, None) for _ in range(count)] for count in (STREAMS, SILENT, SILENT))
        for one in streams:
            one.settimeout(LIMIT_SECONDS)
            one.sendall(request("/events"))
            wanted("a stream of events", one.recv(65536).startswith(b"HTTP/1.1 200"))
        for one in half:
            one.sendall(request("/status.json")[:9])
        until("all clients", lambda: connections(look) == STREAMS + 2 * SILENT)
        set_loopback(DOWN)
        until("the end of clients that vanished", lambda: connections(look) == 0, MOST_SECONDS)
        set_loopback(IFF_UP)
        wanted("an answer after them", look.get("/look.js")[0] == 200)


VANISHING = (try_vanishing,)

if __name__ == "__main__":
    vanish()
