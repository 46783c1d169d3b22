"""What livelook gives out at most, the clients that it bears, and the colours of its page."""

import contextlib
import os
import re
import socket
import subprocess
import sys
import time

from livelook_boat import LIMIT_SECONDS, LIVELOOK, TOP, on_board, speak, until, wanted

from buslook_parts.rules import known_rules
from livelook_parts.following import Follower
from livelook_parts.gathered import Gathered, Speaker
from livelook_parts.holders import SOURCE, Change
from livelook_parts.looking import Looking
from livelook_parts.server import MOST_WAITING_BYTES
from livelook_parts.status import Status
from livelook_parts.values import value_of
from onboard.words import Teller

PARTS = os.path.join(TOP, "tools", "livelook_parts")
MOST_SERIES = 500
# the longest text that JSON makes of 32 bytes of a device
LONG_TEXT = "\x01" * 32
MOMENT = 1_700_000_000_000_000
# of each pair of colours the least contrast: of text (WCAG 2.1, 1.4.3), and of what is drawn (1.4.11)
TEXT, DRAWN = 4.5, 3.0
PAIRS = (("ink", "paper", TEXT), ("ink", "card", TEXT), ("soft", "paper", TEXT), ("soft", "card", TEXT), ("alarm", "paper", TEXT), ("alarm", "card", TEXT),
         ("alarm-ink", "alarm-paper", TEXT), ("bar", "card", DRAWN), ("bar", "track", DRAWN), ("alarm", "track", DRAWN))
BRIGHTEST_AT_NIGHT, ALARMS = 0xB0, ("alarm", "alarm-paper", "alarm-ink")


def full_looking():
    """A run of which everything is known that can be."""
    config = {"gateway": {"name": "C0328200FFC00001", "address": 251}}
    looking = Looking(Follower("run.log", Teller("livelook")), "shipgate", "boat.toml", Teller("livelook"))
    looking.gathered = gathered = Gathered(config)
    gathered.reach(MOMENT)
    names = [1 << 63 | 4 << 60 | 140 << 40 | number for number in range(256)]
    for address in range(252):
        gathered.addresses.claim(MOMENT, address, names[address])
    for address in range(256):
        gathered.speakers[address] = Speaker()
        gathered.speakers[address].moment, gathered.speakers[address].product = MOMENT, LONG_TEXT
    for rule in known_rules():
        gathered.rules[rule] = 4_000_000_000
        for number in range(10):
            gathered.refuse(rule, f"{number}{LONG_TEXT}"[:15])
    for number in range(100):
        gathered.count_group(f"G{number:03d}")
        gathered.changes.add(MOMENT, Change(SOURCE, "heading_true", number, names[number]))
    for said in [*gathered.rows.values(), *gathered.further.values()]:
        for cell in range(60):
            values = [value_of(f"value {number}", "-123.456", f"unit {number} of a row") for number in range(6 if said.name == "speed_components" else 2)]
            said.say(MOMENT + cell * 10_000_000, values, 23)
    looking.gaps = ["keep dropped 1000000 lines there, since the disk was too slow"] * 5
    return looking


def try_limits():
    """However much there is: at most 500 series, and no more for a client than may wait."""
    status = Status(full_looking())
    series = [line for line in status.metrics().decode().splitlines() if not line.startswith("#")]
    wanted(f"{len(series)} series", len(series) <= MOST_SERIES and len(set(line.rpartition(" ")[0] for line in series)) == len(series))
    size = len(status.json(MOST_WAITING_BYTES))
    wanted(f"{size} bytes for a page", size <= MOST_WAITING_BYTES)
    wanted("all rows of a full page", status.json(MOST_WAITING_BYTES).count(b'"timeout"') >= 30)


def try_clients():
    """Clients that ask slowly, take nothing, or have ended their half of a connection, beside one that goes on as ever."""
    with on_board() as (boat, look):
        boat.claim()
        begun = time.monotonic()
        slow, deaf, half = (client(look, buffer) for buffer in (None, 2048, None))
        deaf.sendall(request("/events"))
        half.sendall(request("/status.json"))
        half.shutdown(socket.SHUT_WR)
        half.settimeout(LIMIT_SECONDS)
        wanted("an answer to a client that has ended its half", b"".join(iter(lambda: half.recv(65536), b"")).startswith(b"HTTP/1.1 200"))
        for byte in request("/")[:15]:
            speak(boat, 2, pause=0.4)
            with contextlib.suppress(OSError):
                slow.send(bytes([byte]))
        wanted("a client that asks slowly", is_closed(slow))
        until("a client that takes nothing", lambda: (speak(boat, 1), connections(look) == 0)[1], 120)
        wanted("what the page has meanwhile", look.rows()["heading_true"]["count"] > 20)
        wanted(f"it took {time.monotonic() - begun:.0f} seconds", connections(look) == 0)
        for one in (slow, deaf, half):
            one.close()


def client(look, buffer):
    """A connection, with little room for what comes."""
    opened = socket.socket()
    if buffer:
        opened.setsockopt(socket.SOL_SOCKET, socket.SO_RCVBUF, buffer)
    opened.connect(("127.0.0.1", look.port))
    return opened


def request(path):
    return f"GET {path} HTTP/1.1\r\nHost: localhost\r\n\r\n".encode()


def is_closed(opened):
    opened.settimeout(LIMIT_SECONDS)
    try:
        return opened.recv(1) == b""
    except ConnectionResetError:
        return True


def connections(look):
    """How many clients the server has."""
    folder = f"/proc/{look.run.pid}/fd"
    with open("/proc/net/tcp", encoding="ascii") as file:
        lines = [line.split() for line in file][1:]
    listening = "0A"
    own = set()
    for name in os.listdir(folder):
        # it may be closed meanwhile
        with contextlib.suppress(FileNotFoundError):
            own.add(os.readlink(os.path.join(folder, name)))
    return sum(f"socket:[{fields[9]}]" in own and fields[3] != listening for fields in lines)


def try_listening():
    """Where it can't listen it says so, and ends."""
    of_version_six = "it listens over IPv4 alone"
    for place, status, said in (("[::1]:8450", 2, of_version_six), ("::1:8450", 2, of_version_six), ("8450", 2, "isn't HOST:PORT"), ("192.0.2.1:8450", 1, "192.0.2.1:8450: ")):
        command = [sys.executable, LIVELOOK, "--config", "boat.toml", "--run", "run.log", "--listen", place]
        ended = subprocess.run(command, stdin=subprocess.DEVNULL, stderr=subprocess.PIPE, text=True, timeout=LIMIT_SECONDS, check=False)
        wanted(f"{place}: {ended.returncode} {ended.stderr}", ended.returncode == status and said in ended.stderr)


def palettes():
    """The colours of each palette by their names."""
    with open(os.path.join(PARTS, "look.css"), encoding="ascii") as file:
        found = re.findall(r"(:root(?:\.night)?)\{(color-scheme:(\w+)[^}]*)\}", file.read())
    return [(selector, scheme, dict(re.findall(r"--([a-z-]+):(#[0-9a-f]+)", text))) for selector, text, scheme in found]


def light_of(colour):
    """The red, green and blue of a colour, from 0 to 255."""
    digits = colour[1:] if len(colour) == 7 else "".join(2 * digit for digit in colour[1:])
    return [int(digits[place : place + 2], 16) for place in (0, 2, 4)]


def luminance(colour):
    """The relative luminance of WCAG 2.1."""
    shares = [value / 255 for value in light_of(colour)]
    linear = [share / 12.92 if share <= 0.03928 else ((share + 0.055) / 1.055) ** 2.4 for share in shares]
    return 0.2126 * linear[0] + 0.7152 * linear[1] + 0.0722 * linear[2]


def contrast(one, two):
    darker, lighter = sorted((luminance(one), luminance(two)))
    return (lighter + 0.05) / (darker + 0.05)


def try_colours():
    """Each palette has the contrasts of WCAG AA, and at night nothing is brighter than an alarm may be."""
    found = palettes()
    wanted(f"palettes: {found}", [(selector, scheme) for selector, scheme, _ in found] == [(":root", "light"), (":root", "dark"), (":root.night", "dark")])
    wanted("two palettes of the night", found[1][2] == found[2][2])
    for _, scheme, colours in found:
        for one, two, least in PAIRS:
            ratio = contrast(colours[one], colours[two])
            wanted(f"{scheme}: {one} on {two} has a contrast of {ratio:.2f}", ratio >= least)
        if scheme == "dark":
            bright = {name for name, colour in colours.items() if max(light_of(colour)) > BRIGHTEST_AT_NIGHT and name not in ALARMS}
            wanted(f"too bright at night: {bright}", not bright)


LIMITS = (try_limits, try_clients, try_listening, try_colours)
