"""What the checks of buslink share: a buslink between a stand-in of the gateway and one of a device, and what goes both ways through it."""

import collections
import contextlib
import os
import re
import signal
import socket
import subprocess
import sys
import threading
import time

CHECK = f"tests/tools/{os.path.basename(sys.argv[0])}"
TOP = os.path.dirname(os.path.dirname(os.path.dirname(os.path.realpath(__file__))))
TOOLS = os.path.join(TOP, "tools")
sys.path.insert(0, TOOLS)

from onboard import actisense, candump, yacht_devices
from onboard.candump import Frame, NoFrame
from onboard.endpoints import make_room
from onboard.fast_packets import Joiner, Splitter
from onboard.identifiers import REQUEST_FOR_CLAIMS

LIMIT_SECONDS = 60
# for what may have been lost
WAIT_SECONDS = 20
LINES_IN_A_DATAGRAM = 500
RATE = 1000
OWN = Frame(0x18EEFFFB, bytes.fromhex("0100C0FF008232C0"))
OTHER = Frame(0x09F11217, bytes.fromhex("005C3DFF7FFF7FFC"))
FIX = bytes.fromhex("00DB4C0008AF2F00000000000000080000000000000002E0AEBB000000000010FC096900FF7FF406000000")


def wanted(what, is_so):
    if not is_so:
        sys.exit(f"{CHECK}: {what}")


def until(is_so, seconds=LIMIT_SECONDS):
    """Whether something becomes so in time."""
    end = time.monotonic() + seconds
    while not is_so():
        if time.monotonic() > end:
            return False
        time.sleep(0.01)
    return True


def listening(seconds=LIMIT_SECONDS):
    """A socket on a port of the loopback that was free."""
    found = socket.socket(type=socket.SOCK_DGRAM)
    make_room(found)
    found.bind(("127.0.0.1", 0))
    found.settimeout(seconds)
    return found


def free_port():
    with listening() as probe:
        return probe.getsockname()[1]


def logged(frame, moment_us=1_700_000_000_000_000, direction=""):
    return candump.write_line(moment_us, "can0", frame, direction)


class Run:
    """A buslink between a gateway's stand-in and what its words say, with what it tells."""

    def __init__(self, *words, stdin=None, stdout=None, program=(os.path.join(TOOLS, "buslink"),)):
        self.gateway, self.port = listening(), free_port()
        run = [*program, "--listen", f"127.0.0.1:{self.port}", "--to", "127.0.0.1:%d" % self.gateway.getsockname()[1], *words]
        self.process = subprocess.Popen(run, stdin=stdin or subprocess.DEVNULL, stdout=stdout or subprocess.DEVNULL, stderr=subprocess.PIPE)
        self.told, self.lock = "", threading.Lock()
        self.reader = threading.Thread(target=self._read, daemon=True)
        self.reader.start()
        wanted("it doesn't listen", until(self._listens))

    def _listens(self):
        with open("/proc/net/udp", encoding="ascii") as file:
            return self.process.poll() is not None or f":{self.port:04X} " in file.read()

    def _read(self):
        for line in self.process.stderr:
            with self.lock:
                self.told += line.decode()

    def tells(self, text, count=1, seconds=LIMIT_SECONDS):
        wanted(f"it never told {text!r} ({count} times), but: {self.told}", until(lambda: self.told.count(text) >= count, seconds))

    def to_bus(self, frame):
        self.gateway.sendto(logged(frame), ("127.0.0.1", self.port))

    def from_bus(self, but=(REQUEST_FOR_CLAIMS,)):
        """The next frame that the gateway hears."""
        while True:
            try:
                frame = candump.read_line(self.gateway.recv(1500)).frame
            except socket.timeout:
                sys.exit(f"{CHECK}: no frame came to the gateway; told: {self.told}")
            if frame not in but:
                return frame

    def memory_kb(self):
        with open(f"/proc/{self.process.pid}/status", encoding="ascii") as file:
            return int(re.search(r"VmHWM:\s+(\d+)", file.read()).group(1))

    def __enter__(self):
        return self

    def __exit__(self, *_):
        self.gateway.close()
        if self.process.poll() is None:
            self.process.send_signal(signal.SIGTERM)
        try:
            status = self.process.wait(LIMIT_SECONDS)
        except subprocess.TimeoutExpired:
            self.process.kill()
            sys.exit(f"{CHECK}: it didn't end at SIGTERM")
        self.reader.join(LIMIT_SECONDS)
        self.process.stderr.close()
        if sys.exc_info()[0] is None:
            wanted(f"it ended with {status}: {self.told}", status == 0)


class Yacht:
    """What a gateway of Yacht Devices writes and reads."""

    word = "--yd"
    request = yacht_devices.write_line(REQUEST_FOR_CLAIMS)

    @staticmethod
    def lines(frame, mark="R"):
        return b"03:20:00.050 " + mark.encode() + b" " + yacht_devices.write_line(frame)

    @staticmethod
    def frames_of(line):
        return [yacht_devices.read_line(b"00:00:00.000 R " + line.rstrip(b"\r\n"))[2]]


class Actisense:
    """What one of Actisense writes and reads."""

    word = "--actisense"
    request = b"FEFF6 0EA00 00EE00\r\n"

    def __init__(self):
        self.splitter, self.joiner = Splitter(), Joiner()

    def lines(self, frame, _mark=""):
        message = self.joiner.message_of(frame)
        return b"" if message is None else actisense.write_line(message, 12_000_050_000)

    def frames_of(self, line):
        return self.splitter.frames_of(actisense.read_line(line)[1])


class UdpStandIn:
    """A device that speaks over UDP."""

    def __init__(self, form):
        self.form, self.socket, self.port = form, listening(), free_port()
        self.words = [form.word, "udp:127.0.0.1:%d" % self.socket.getsockname()[1], "--local", f"127.0.0.1:{self.port}"]

    def meet(self):
        wanted("the device wasn't asked for claims", self.socket.recv(1500).endswith(self.form.request))

    def send(self, content):
        lines = content.splitlines(keepends=True)
        for place in range(0, len(lines), LINES_IN_A_DATAGRAM):
            self.socket.sendto(b"".join(lines[place : place + LINES_IN_A_DATAGRAM]), ("127.0.0.1", self.port))

    def receive_line(self):
        return self.socket.recv(1500)

    def close(self):
        self.socket.close()


class TcpStandIn:
    """A device that is connected to."""

    def __init__(self, form):
        self.form, self.server, self.socket, self.rest = form, socket.create_server(("127.0.0.1", 0)), None, b""
        self.server.settimeout(LIMIT_SECONDS)
        self.words = [form.word, "tcp:127.0.0.1:%d" % self.server.getsockname()[1]]

    def meet(self):
        self.rest = b""
        self.socket, _ = self.server.accept()
        self.socket.settimeout(LIMIT_SECONDS)
        wanted("the device wasn't asked for claims", self.receive_line().endswith(self.form.request))

    def send(self, content):
        self.socket.sendall(content)

    def receive_line(self):
        while b"\n" not in self.rest:
            piece = self.socket.recv(65536)
            wanted("the connection was closed", bool(piece))
            self.rest += piece
        line, _, self.rest = self.rest.partition(b"\n")
        return line + b"\n"

    def close(self):
        self.server.close()
        if self.socket is not None:
            self.socket.close()


STAND_INS = [(kind, form) for kind in (UdpStandIn, TcpStandIn) for form in (Yacht, Actisense)]


@contextlib.contextmanager
def meeting(kind, form, *words):
    """A stand-in of this kind, with a buslink that has met it."""
    stand_in = kind(form())
    with contextlib.closing(stand_in), Run(*stand_in.words, *words) as run:
        stand_in.meet()
        yield stand_in, run


def paced(send, rate, seconds):
    """Calls with how many are due, evenly, until as many went as the rate and the time say; how many these were."""
    begin, sent, all_of_them = time.monotonic(), 0, int(rate * seconds)
    while sent < all_of_them:
        due = min(int((time.monotonic() - begin) * rate), all_of_them)
        if due > sent:
            send(due - sent)
            sent = due
        time.sleep(0.002)
    return sent


@contextlib.contextmanager
def draining(gateway):
    """The frames that come to the gateway meanwhile, each with how often."""
    heard, is_over = collections.Counter(), threading.Event()
    gateway.settimeout(0.1)

    def drain():
        while not is_over.is_set():
            with contextlib.suppress(socket.timeout):
                heard[candump.read_line(gateway.recv(1500)).frame] += 1

    thread = threading.Thread(target=drain)
    thread.start()
    try:
        yield heard
    finally:
        is_over.set()
        thread.join()
        gateway.settimeout(LIMIT_SECONDS)


def numbered(source, number):
    """A frame of its own for each number."""
    return Frame(0x09F11200 | source, number.to_bytes(8, "big"))


def numbers_of(frames, source, first):
    """The numbers of the frames of a source, from this one on."""
    numbers = [int.from_bytes(frame.data, "big") for frame in list(frames) if frame.identifier & 0xFF == source]
    return [number for number in numbers if number >= first]


def both_ways(run, send, arrived, seconds, first):
    """What was lost of 1,000 frames a second both ways, whose numbers begin here: to the bus, where arrived gets them, and from it."""
    counts, due = {"to": first, "from": first}, RATE * seconds

    def to_bus(count):
        for _ in range(count):
            run.to_bus(numbered(0xFB, counts["to"]))
            counts["to"] += 1

    def from_bus(count):
        for _ in range(count):
            send(numbered(0x17, counts["from"]))
            counts["from"] += 1

    with draining(run.gateway) as heard:
        threads = [threading.Thread(target=paced, args=(call, RATE, seconds)) for call in (to_bus, from_bus)]
        for thread in threads:
            thread.start()
        for thread in threads:
            thread.join()
        lost = lambda: (due - len(numbers_of(arrived, 0xFB, first)), due - len(numbers_of(heard, 0x17, first)))
        until(lambda: lost() == (0, 0), WAIT_SECONDS)
        wanted("a frame came twice", max(heard.values()) == 1)
    return lost()


def loses_nothing(name, run, seconds, send, receive):
    """Tries it up to three times: on a machine that has no processor for it the system itself drops datagrams."""
    arrived = set()

    def take():
        with contextlib.suppress(OSError, SystemExit, ValueError, NoFrame):
            while True:
                arrived.update(receive())

    threading.Thread(target=take, daemon=True).start()
    for attempt in range(3):
        begin = processor_seconds(run)
        lost = both_ways(run, send, arrived, seconds, attempt * RATE * seconds)
        share = 100 * (processor_seconds(run) - begin) / seconds
        what = f"lost {lost[0]} to the bus and {lost[1]} from it of {RATE * seconds} each way, {share:.0f} % of a processor"
        print(f"{CHECK}: {name}: {what}", flush=True)
        if lost == (0, 0):
            return
    wanted(f"{name} loses frames; told: {run.told}", False)


def processor_seconds(run):
    with open(f"/proc/{run.process.pid}/stat", encoding="ascii") as file:
        user, system = map(int, file.read().rsplit(")", 1)[1].split()[11:13])
    return (user + system) / os.sysconf("SC_CLK_TCK")
