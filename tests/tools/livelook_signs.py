"""What livelook makes of rows under watch, of the gateway's sign of life, of a heading that the gateway computes, and of plotters."""

import time

from livelook_boat import wanted

from buslook_parts.program import REPLAYED, Frame
from livelook_parts.following import Follower
from livelook_parts.gathered import COMPUTED, Gathered, beat_seconds_of
from livelook_parts.looking import Looking
from livelook_parts.status import Status
from onboard.fast_packets import Message, Splitter
from onboard.identifiers import ALL, Parts
from onboard.sentences import HEADER
from onboard.words import Teller

MOMENT, SECOND = 1_700_000_000_000_000, 1_000_000
CONFIG = {"gateway": {"name": "C0328200FFC00001", "address": 251}, "row": {"depth": {"watch_ms": 3000}, "position": {"sources": ["unique=1"]}},
          "heartbeat": {"group": "BEAT", "bus_every_s": 5}}


def try_signs():
    """A row that the gateway misses is silent until it is back; a gateway without its sign of life has ended, and one that has none never ends."""
    looking = Looking(Follower("run.log", Teller("livelook")), "shipgate", "boat.toml", Teller("livelook"))
    looking.gathered, status = Gathered(CONFIG), Status(looking)

    def event(second, *reports):
        text = [b"(%d.000000) %s\n" % (MOMENT // SECOND + second, report) for report in reports]
        looking.gathered.event(MOMENT + second * SECOND, None, None, [REPLAYED.fullmatch(line) for line in text])
        looking.last_line_at = time.monotonic()
        return status.health()

    wanted("a row that isn't missed yet", event(0) == (True, "ok"))
    wanted("a row that is missed", event(3, b"rule 29 row=depth said=no") == (False, "silent: depth"))
    wanted("a missed row on the page", [row["missed"] for row in status.values()["rows"]] == [True])
    wanted("a row that is back", event(4, b"rule 29 row=depth said=yes") == (True, "ok"))
    wanted("what changed", [(one["what"], one["row"]) for one in status.values()["changes"]][:2] == [("back", "depth"), ("missed", "depth")])
    wanted("no report is a refusal", status.values()["refused"] == [])
    looking.last_line_at -= 9
    wanted("a sign of life that isn't late yet", status.health()[1] == "silent: depth" and status.values()["heard"] is None)
    looking.last_line_at -= 2
    wanted("a sign of life that is missing", "the gateway has ended" in status.health()[1])
    found = [beat_seconds_of(keys) for keys in ({}, {"every_s": 5}, {"group": "BEAT"}, {"group": "BEAT", "every_s": 7}, {"bus_every_s": 9})]
    wanted(f"signs of life: {found}", found == [None, None, 60, 7, 9])


def try_joined():
    """A true heading of the heading group is none of a row; the magnetic one is said by its row, and counts once."""
    gathered = Gathered({"gateway": CONFIG["gateway"], "heading": {"group": "HEAD"}})
    said = (("NAVD", b"$HCHDG,90.0,,,,*7B"), ("HEAD", b"$HCHDG,90.0,,,2.0,E*12", b"$HCHDM,90.0,M*11", b"$HCHDT,92.0,T*12"))
    for second, headings in enumerate((said, said[:1], (said[0], ("HEAD", b"$HCHDG,90.0,,,,*7B", b"$HCHDT,,T*07")))):
        datagrams = ((group, HEADER + b"".join(b"\\s:II0001,n:1*01\\%b\r\n" % sentence for sentence in sentences)) for group, *sentences in headings)
        lines = [b"(%d.000000) udp0 %b#%b\n" % (MOMENT // SECOND + second, group.encode(), datagram.hex().upper().encode()) for group, datagram in datagrams]
        gathered.event(MOMENT + second * SECOND, Frame(b"can0", 0x09F11217, b"FF5C3DFF7FFF7FFD"), None, [REPLAYED.fullmatch(line) for line in lines])
        computed = gathered.others[COMPUTED]
        wanted(f"{second}: computed is {computed.values}", [value.text for value in computed.values] == ([] if second == 2 else ["92.0"]) and computed.source == 23)
    wanted("a row is said by the heading group", gathered.rows["heading_true"].moment is None and gathered.rows["heading_magnetic"].count == 3)
    wanted(f"the heading group is said {computed.count} times", computed.count == 2)


def leg(source, bearing="B93E"):
    """The frames of a message in which a plotter says where it goes."""
    payload = bytes.fromhex(f"FF38DF220000FFFFFFFFFFFF5C3D{bearing}0300000004000000CE175C22EF0597080202")
    frames = Splitter().frames_of(Message(Parts(3, 129284, source, ALL), payload))
    return [Frame(b"can0", frame.identifier, frame.data.hex().upper().encode()) for frame in frames]


APB, XTE, RMB = b"$GPAPB,A,A,0.100,L,N,V,V,90.0,T,4,92.0,T,92.0,T,A*73", b"$GPXTE,A,A,0.100,L,N,A*32", b"$GPRMB,A,0.100,L,3,4,5738.7645,N,01424.6911,E,12.3,92.0,9.99,V,A*5A"
WITHOUT_ERROR = b"$GPAPB,V,V,,,N,V,V,90.0,T,4,92.0,T,92.0,T,N*1F", b"$GPXTE,V,V,,,N,N*5E"


def try_plotters():
    """Where a plotter leads, or why nothing is said of it; its XTE is none of the row."""
    looking = Looking(Follower("run.log", Teller("livelook")), "shipgate", "boat.toml", Teller("livelook"))
    looking.gathered, status = Gathered({"gateway": CONFIG["gateway"], "nav": {"group": "NAVG", "timeout_ms": 2000}}), Status(looking)
    gathered = looking.gathered
    gathered.event(MOMENT, Frame(b"can0", 0x18EEFF17, b"0500C0FF008C78C0"), None, [])
    gathered.event(MOMENT, Frame(b"can0", 0x18EEFF18, b"0600C0FF008C78C0"), None, [])
    looking.last_line_at = time.monotonic()

    def heard(second, frames, *sentences):
        datagram = HEADER + b"".join(b"\\s:II0001,n:1*01\\%b\r\n" % sentence for sentence in sentences)
        line = b"(%d.000000) udp0 NAVG#%b\n" % (MOMENT // SECOND + second, datagram.hex().upper().encode())
        for place, frame in enumerate(frames, 1):
            is_last = place == len(frames) and sentences
            gathered.event(MOMENT + second * SECOND, frame, None, [REPLAYED.fullmatch(line)] if is_last else [])
        return [(one["address"], one["what"], one["leads"]) for one in status.values()["plotters"]]

    once = "named the destination for the first time"
    wanted("no plotter is heard", status.values()["plotters"] == [])
    wanted("a destination that is named once", heard(1, leg(23)) == [(23, once, False)])
    wanted("a plotter that leads", heard(2, leg(23), RMB, APB, XTE) == [(23, "leads to 4", True)])
    row, = status.values()["others"]
    values = [["steer to port", "0.100", "nautical miles"], ["to go", "92.0", "degrees"], ["to go", "12.3", "nautical miles"]]
    wanted(f"what a pilot is told is {row}", (row["words"], row["values"], row["timeout"], row["source"]["address"]) == ("navigation", values, 2.0, 23))
    wanted("the row has the XTE of a plotter", gathered.rows["cross_track"].moment is None)
    found = heard(3, leg(24)), heard(4, leg(24)), heard(5, leg(24, bearing="FFFF")), heard(6, leg(25))
    whys = [[what for address, what, _ in one if address != 23] for one in found]
    beside = ["said it beside a better plotter"], ["had no bearing, beside another plotter"], ["had no bearing, beside another plotter", "never claimed"]
    wanted(f"another plotter is told as {whys}", whys == [[once], *beside])
    found = heard(7, leg(23), *WITHOUT_ERROR)[0]
    wanted(f"a plotter without an error is told as {found}", found == (23, "leads to 4, and no pilot can follow: no fresh error of its own", True))
    wanted("what no pilot follows is shown", status.values()["others"][0]["values"] == [] and status.values()["others"][0]["count"] == 2)


SIGNS = (try_signs, try_joined, try_plotters)
