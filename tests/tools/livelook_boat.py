"""A made-up boat that speaks to the links of a gateway, the gateway itself, and livelook."""

import contextlib
import functools
import json
import operator
import os
import re
import signal
import socket
import subprocess
import sys
import tempfile
import threading
import time
import urllib.error
import urllib.request

TOP = os.path.dirname(os.path.dirname(os.path.dirname(os.path.realpath(__file__))))
sys.path.insert(0, os.path.join(TOP, "tools"))

from onboard.candump import Frame, write_line
from onboard.fast_packets import Message, Splitter
from onboard.identifiers import ALL, Parts, identifier_of

PROGRAM = os.path.abspath(os.environ.get("PROGRAM") or os.path.join(TOP, "crates/shipgate/out/shipgate"))
LIVELOOK = os.path.join(TOP, "tools", "livelook")
SAMPLE = re.compile(r'(\w+)(?:\{(\w+="[^"]*"(?:,\w+="[^"]*")*)\})? (-?[0-9.e+-]+)')
MOST_SERIES = 500
LIMIT_SECONDS = 60
MANY_TURNS = "999999999"
COMPASS, SECOND_COMPASS, WIND, DEPTH, GPS, ENGINE, STRANGER = 23, 24, 12, 35, 40, 50, 77
# the maker, the class and the function of each
KINDS = {COMPASS: (1855, 60, 140), SECOND_COMPASS: (137, 60, 140), WIND: (135, 85, 130), DEPTH: (135, 60, 135), GPS: (229, 60, 145), ENGINE: (137, 50, 140)}


def name_of(address):
    """The NAME of a device in marine industry, with its address as its number."""
    maker, device_class, function = KINDS[address]
    return 1 << 63 | 4 << 60 | device_class << 49 | function << 40 | maker << 21 | address


NAMES = {address: name_of(address) for address in KINDS}
# a text of a device that would be something else in a page of HTML
HOSTILE = "<img src=x onerror=document.title='taken'>"[:32]
CONFIG = """[gateway]
name = "C0328200FFC00001"
address = 251
sfi = "II0001"

[row.heading_true]
sources = ["{4:016X}", "{5:016X}"]
timeout_ms = 2000

[row.water_temperature]
sources = ["C0788C00FFC000FF"]

[net]
sources = ["II0002"]
listen = "127.0.0.1:{0}"
send = "127.0.0.1:{1}"

[bus]
listen = "127.0.0.1:{2}"
send = "127.0.0.1:{3}"

[further]
group = "FURT"

[rmc]
group = "RMCD"

[report]
sources = true
address = true

[serve]
record = true
"""


def udp():
    """A socket with room for what comes while the check is elsewhere."""
    opened = socket.socket(socket.AF_INET, socket.SOCK_DGRAM)
    opened.setsockopt(socket.SOL_SOCKET, socket.SO_RCVBUF, 1 << 20)
    opened.bind(("127.0.0.1", 0))
    return opened


def free_ports(count, kind=socket.SOCK_DGRAM):
    with contextlib.ExitStack() as stack:
        probes = [stack.enter_context(socket.socket(socket.AF_INET, kind)) for _ in range(count)]
        for probe in probes:
            probe.bind(("127.0.0.1", 0))
        return [probe.getsockname()[1] for probe in probes]


def datagram(source, sentence):
    """A datagram of one line."""
    block, text = f"s:{source}", sentence[1:]
    return f"UdPbC\0\\{block}*{total(block)}\\${text}*{total(text)}\r\n".encode()


def total(text):
    """The sum of a TAG block or a sentence."""
    return f"{functools.reduce(operator.xor, text.encode()):02X}"


class Boat:
    """The devices, and what both links of the gateway gave."""

    def __init__(self, folder):
        self.to_net, self.to_bus = udp(), udp()
        net, bus = free_ports(2)
        self.net, self.bus = ("127.0.0.1", net), ("127.0.0.1", bus)
        self.config = os.path.join(folder, "boat.toml")
        with open(self.config, "w", encoding="ascii") as file:
            file.write(CONFIG.format(net, self.to_net.getsockname()[1], bus, self.to_bus.getsockname()[1], NAMES[COMPASS], NAMES[SECOND_COMPASS]))
        self.sent, self.splitter, self.heading = {}, Splitter(), 90.0
        self.datagrams, self.frames, self.opened = [], [], udp()
        for link, kept in ((self.to_net, self.datagrams), (self.to_bus, self.frames)):
            threading.Thread(target=self._receive, args=(link, kept), daemon=True).start()

    @staticmethod
    def _receive(link, kept):
        while True:
            kept.append(link.recv(65536))

    @contextlib.contextmanager
    def serving(self, out, before=()):
        """The gateway, which writes to this file, or through a command that stands before it."""
        words = [*before, PROGRAM, "serve", self.config, MANY_TURNS]
        run = subprocess.Popen(words, stdin=subprocess.DEVNULL, stdout=out, stderr=subprocess.DEVNULL)
        try:
            yield run
        finally:
            run.send_signal(signal.SIGTERM)
            run.wait(LIMIT_SECONDS)

    def send(self, source, pgn, data, destination=ALL):
        """A message of a device, in as many frames as it needs."""
        for frame in self.splitter.frames_of(Message(Parts(2, pgn, source, destination), data)):
            self.send_frame(frame)

    def send_frame(self, frame):
        self.opened.sendto(write_line(0, "can0", frame), self.bus)
        self.sent[frame.identifier & 0xFF] = self.sent.get(frame.identifier & 0xFF, 0) + 1

    def lost(self):
        """How many frames the system dropped, because the gateway had no processor for so long."""
        with open("/proc/net/udp", encoding="ascii") as file:
            rows = [line.split() for line in file][1:]
        return sum(int(row[-1]) for row in rows if row[1].endswith(f":{self.bus[1]:04X}"))

    def claim(self):
        for address, name in NAMES.items():
            self.send_frame(Frame(identifier_of(Parts(6, 60928, address, ALL)), name.to_bytes(8, "little")))

    def product(self, address, text):
        """A product information whose model is this text."""
        texts = b"".join(one.encode().ljust(32, b"\xff") for one in (text, "1", "1", "1"))
        self.send(address, 126996, b"\x34\x08\x01\x00" + texts + b"\x00\x01")

    def speak(self, silent=()):
        """What all devices say in one turn, but for those that are silent."""
        heading = round(self.heading * 31416 / 180).to_bytes(2, "little")
        said = ((COMPASS, 127250, b"\x00" + heading + b"\xff\x7f\xff\x7f\xfc"), (SECOND_COMPASS, 127250, b"\x00" + heading + b"\xff\x7f\xff\x7f\xfc"),
                (COMPASS, 127251, bytes.fromhex("00C0BDF0FFFFFFFF")), (WIND, 130306, bytes.fromhex("00E7035C3DFAFFFF")),
                (WIND, 130306, bytes.fromhex("00F4010A1EFBFFFF")), (DEPTH, 128267, bytes.fromhex("00D2040000CEFFFF")),
                (DEPTH, 128259, bytes.fromhex("009A01FFFF00FFFF")), (GPS, 129025, (571234567).to_bytes(4, "little") + (118765432).to_bytes(4, "little")),
                (GPS, 129026, bytes.fromhex("00FC5C3DB601FFFF")), (ENGINE, 127488, bytes.fromhex("00241CFFFFFFFFFF")),
                (ENGINE, 127508, bytes.fromhex("00EC04C5FFFFFFFF")), (STRANGER, 127245, bytes.fromhex("00FFFF7F64000000")))
        for source, pgn, data in said:
            if source not in silent:
                self.send(source, pgn, data)

    def speak_on_network(self):
        """A cross track error of a source that is heard, and one of another source."""
        for source in ("II0002", "GP0099"):
            self.opened.sendto(datagram(source, "$IIXTE,A,A,0.100,L,N"), self.net)


def until(what, holds, limit=LIMIT_SECONDS):
    """Waits for something to come true, and gives it."""
    end = time.monotonic() + limit
    while True:
        found = holds()
        if found:
            return found
        if time.monotonic() > end:
            print(f"tests/tools/livelook: never came: {what}", file=sys.stderr)
            sys.exit(1)
        time.sleep(0.05)


def wanted(what, is_so):
    if not is_so:
        print(f"tests/tools/livelook: {what}", file=sys.stderr)
        sys.exit(1)


class Look:
    """livelook, and what it answers."""

    def __init__(self, config, run, *words):
        self.port, self.told = free_ports(1, socket.SOCK_STREAM)[0], tempfile.TemporaryFile()
        command = [LIVELOOK, "--config", config, "--run", run, "--program", PROGRAM, "--listen", f"127.0.0.1:{self.port}", *words]
        self.run = subprocess.Popen(command, stdin=subprocess.DEVNULL, stdout=subprocess.DEVNULL, stderr=self.told)

    def __enter__(self):
        until("the page", lambda: socket.socket().connect_ex(("127.0.0.1", self.port)) == 0)
        return self

    def __exit__(self, kind, _value, _trace):
        self.run.terminate()
        status = self.run.wait(LIMIT_SECONDS)
        wanted(f"livelook ended with {status}: {self.said()}", kind is not None or status == 0)

    def get(self, path, method="GET", **headers):
        """The status, the head and the content of an answer."""
        asked = urllib.request.Request(f"http://127.0.0.1:{self.port}{path}", method=method, headers=headers)
        try:
            with urllib.request.urlopen(asked, timeout=LIMIT_SECONDS) as answer:
                return answer.status, answer.headers, answer.read().decode()
        except urllib.error.HTTPError as error:
            return error.code, error.headers, error.read().decode()

    def status(self):
        return json.loads(self.get("/status.json")[2])

    def rows(self):
        return {row["name"]: row for row in self.status().get("rows", [])}

    def metrics(self):
        """Each sample by its name and labels."""
        text = self.get("/metrics")[2]
        wanted("/metrics doesn't end with # EOF", text.endswith("\n# EOF\n"))
        found = {}
        for line in text.splitlines():
            if not line.startswith("#"):
                match = SAMPLE.fullmatch(line)
                wanted(f"no sample: {line}", match is not None and (match.group(1), match.group(2)) not in found)
                found[match.group(1), match.group(2)] = float(match.group(3))
        wanted(f"{len(found)} series", len(found) <= MOST_SERIES)
        return found

    def total(self, metric):
        """The sum of a metric's samples."""
        return sum(count for (name, _), count in self.metrics().items() if name == metric)

    def said(self):
        """What it said on standard error."""
        return os.pread(self.told.fileno(), 65536, 0).decode()

    def faults(self):
        """The warnings, but for the one of clocks: a busy machine takes a file up late."""
        return [words for words in self.status()["warnings"] if "this machine's date" not in words]

    def warns(self, words):
        return any(words in warning for warning in self.status()["warnings"])


@contextlib.contextmanager
def on_board(*words):
    """A boat, its gateway with a file of the run, and livelook."""
    with tempfile.TemporaryDirectory() as folder:
        boat, run = Boat(folder), os.path.join(folder, "run.log")
        with open(run, "wb") as out, boat.serving(out), Look(boat.config, run, *words) as look:
            until("the start of the run", lambda: look.status()["moment"])
            yield boat, look


def speak(boat, turns, silent=(), pause=0.1):
    for turn in range(turns):
        boat.speak(silent)
        if turn % 5 == 0:
            boat.speak_on_network()
        time.sleep(pause)
