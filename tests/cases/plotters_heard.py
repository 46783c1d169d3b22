"""What a gateway hears of plotters: who holds each address, which messages of legs complete (PGN 129284), and the errors (PGN 129283).

Claims are those of ISO 11783-5, fast packets those of NMEA 2000, as docs/behaviour.md says it of the gateway. What it makes of both stands in
plotters_model.py.
"""

from typing import NamedTuple, Optional

OWN_NAME, FIRST_OWN = 0xC0328200FFC00001, 251
CLAIM, ERROR, LEG = 60928, 129283, 129284
NOBODY, ALL = 254, 255
# a gateway that has to move looks for an address below this one
MOVES_BELOW = 252
LATEST_US = 750_000
LEAST_LEG, LEAST_ERROR, LEAST_CLAIM = 34, 6, 8
MOST_LENGTH, FIRST_BYTES, NEXT_BYTES, FRAME_BYTES = 223, 6, 7, 8


class Event(NamedTuple):
    """A frame, or a tick, which has no identifier."""

    moment: int
    identifier: Optional[int] = None
    data: bytes = b""

    @property
    def source(self):
        return self.identifier & 0xFF

    @property
    def pgn(self):
        """What it says, of what the buses here have: claims to all, and messages to all."""
        pgn = self.identifier >> 8 & 0x3FFFF
        return pgn & 0x3FF00 if pgn >> 8 & 0xFF < 240 else pgn

    def line(self):
        what = "tick" if self.identifier is None else f"can0 {self.identifier:08X}#{self.data.hex().upper()}"
        return f"({self.moment // 10**6}.{self.moment % 10**6:06d}) {what}"


class Changed(NamedTuple):
    """What a claim changes: the address that its NAME left, the one that it took from another, and the address that the gateway then claims."""

    left: Optional[int] = None
    won: Optional[int] = None
    claimed: Optional[int] = None


class Claims:
    """Who holds each address since which event; of two NAMEs the smaller one has it."""

    def __init__(self, presets):
        self.holders = {address: (name, 0) for address, name in presets}
        self.own = FIRST_OWN

    def take(self, index, address, name):
        """What a claim of this NAME, other than the gateway's own, changes."""
        left = next((other for other, (held, _) in self.holders.items() if held == name and other != address), None)
        if left is not None:
            del self.holders[left]
        if address == NOBODY:
            return Changed(left)
        if address == self.own:
            return Changed(left, claimed=address if name > OWN_NAME else self._moved(index, address, name))
        holder, _ = self.holders.get(address, (None, None))
        if holder is not None and holder <= name:
            return Changed(left)
        self.holders[address] = (name, index)
        return Changed(left, None if holder is None else address)

    def _moved(self, index, address, name):
        """The next address of the gateway, whose own goes to a smaller NAME."""
        self.holders[address] = (name, index)
        others = ((address + step) % MOVES_BELOW for step in range(1, MOVES_BELOW + 1))
        self.own = next((other for other in others if other not in self.holders), None)
        return NOBODY if self.own is None else self.own

    def name(self, address):
        return self.holders.get(address, (None, None))[0]

    def since(self, address):
        """The event from which on the holder has its address without a break; none if nobody has it."""
        return self.holders.get(address, (None, None))[1]


class Assembly(NamedTuple):
    """A fast packet that isn't whole: what it says of itself, its bytes, how many frames it has, and when and which frame was the last one."""

    sequence: int
    length: int
    held: bytes
    frames: int
    moment: int
    last: Optional[bytes]


class FastPackets:
    """The open fast packets of one PGN, one for each source."""

    def __init__(self, slots):
        self.slots, self.open = slots, {}

    def expired(self, moment):
        """The sources whose next frame is late, each of which is told once."""
        late = sorted(source for source, one in self.open.items() if moment - one.moment > LATEST_US)
        for source in late:
            del self.open[source]
        return late

    def take(self, moment, source, data):
        """The rules that a frame breaks, and the message that it completes."""
        before = self.open.pop(source, None)
        if not data:
            return [13], None
        sequence, counter = data[0] >> 5, data[0] & 31
        if counter == 0:
            return self._opened(moment, source, data, before)
        if before is None:
            return [12], None
        if data == before.last and len(data) == FRAME_BYTES:
            self.open[source] = before
            return [], None
        if (sequence, counter) != (before.sequence, before.frames):
            return [11], None
        owed = min(NEXT_BYTES, before.length - len(before.held))
        if len(data) < 1 + owed:
            return [13], None
        return [], self._kept(source, before._replace(held=before.held + data[1 : 1 + owed], frames=counter + 1, moment=moment, last=data))

    def _opened(self, moment, source, data, before):
        length = data[1] if len(data) > 1 else 0
        owed = min(FIRST_BYTES, length)
        if not 0 < length <= MOST_LENGTH or len(data) < 2 + owed:
            return [13], None
        restarted = [14] if before is not None else []
        if len(self.open) >= self.slots:
            return [*restarted, 15], None
        return restarted, self._kept(source, Assembly(data[0] >> 5, length, data[2 : 2 + owed], 1, moment, None))

    def _kept(self, source, one):
        if len(one.held) == one.length:
            return one.held
        self.open[source] = one
        return None


class Message(NamedTuple):
    """A leg or an error: at which event it was complete, when, and of which address and NAME."""

    index: int
    moment: int
    source: int
    name: int
    payload: bytes


class Heard:
    """All that came: legs and errors, in their order."""

    def __init__(self, settings):
        self.claims, self.packets = Claims(settings.presets), FastPackets(settings.slots)
        self.legs, self.errors = [], []
        self.index, self.now = 0, None

    def message(self, event, payload):
        return Message(self.index, event.moment, event.source, self.claims.name(event.source), payload)

    def holds(self, message):
        """Whether who said it still has its address, without a break."""
        since = self.claims.since(message.source)
        return since is not None and since <= message.index

    def legs_of(self, source):
        """The legs of who has this address now, in order."""
        return [leg for leg in self.legs if leg.source == source and self.holds(leg)]

    def error(self, event):
        """Keeps a frame that may be an error; whether it is long enough for one."""
        is_long = len(event.data) >= LEAST_ERROR
        if is_long:
            self.errors.append(self.message(event, event.data))
        return is_long

    def leg(self, event):
        """The rules that a frame breaks, and the leg that it completes."""
        rules, payload = self.packets.take(event.moment, event.source, event.data)
        if payload is None:
            return rules, None
        if len(payload) < LEAST_LEG:
            return [*rules, 22], None
        leg = self.message(event, payload)
        self.legs.append(leg)
        return rules, leg
