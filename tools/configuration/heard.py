"""What a recording holds for a configuration: who held which address, who said what is taken from devices, how often, and which sentences the sources of
the network said."""

from onboard.candump import NoFrame, datagram_of, read_line
from onboard.fast_packets import Joiner
from onboard.identifiers import ADDRESS_CLAIM, ALL, NULL_ADDRESS, name_of, parts_of
from onboard.sentences import said_by

from .accepted import NAVIGATION, VARIATION
from .messages import fields, sources_of_quantities, sources_of_rows, variation_of_page
from .paces import Paces
from .plotters import Plotters

MAGNETIC = ("row", "heading_magnetic")

# as many devices at an address each are kept: more than any bus has, whatever its claims say
MOST_SPEAKERS = 4096
# as many different formatters of a source of the network: more than the gateway reads
MOST_FORMATTERS = 256


class Heard:
    """Who held which address, and what was sent from it. A device that didn't claim has no NAME, unless a preset gives it one."""

    def __init__(self, accepted):
        self.accepted, self.joiner = accepted, Joiner()
        self.own_name = int(accepted.root["gateway"]["name"], 16)
        self.presets = {preset["address"]: int(preset["name"], 16) for preset in accepted.root.get("preset", [])}
        self.holders = dict(self.presets)
        # who spoke, by address and NAME, and who said what is taken from devices
        self.spoke, self.said = set(), set()
        self.tables = dict(accepted.chosen())
        self.paces = Paces({path: 1000 * int(table.get("timeout_ms", self.default_of(path))) for path, table in self.tables.items()})
        self.watched = Paces({path: 1000 * int(table["watch_ms"]) for path, table in self.tables.items() if "watch_ms" in table})
        # who said a variation, and who said a magnetic heading without one
        self.variations, self.without_variation = set(), set()
        self.plotters = Plotters()
        self.variation_of_heading = fields()[next(row.pgns[0] for row in accepted.page.rows if row.name == MAGNETIC[1])]["variation"]
        # of each source that the gateway hears on the network the formatters that it said
        self.formatters = {identifier: set() for identifier in accepted.root.get("net", {}).get("sources", [])}
        self.sources = self.sources_by_pgn()
        self.frames = self.error_frames = self.other_lines = 0

    def default_of(self, path):
        """The timeout of what has none: rows and further quantities have a table for each of theirs."""
        table = {"row": "row.R", "further": "further.Q"}.get(path[0], path[0])
        return self.accepted.page.default(table, "timeout_ms")

    def sources_by_pgn(self):
        """The messages that something is taken from, each with the path of what that is."""
        by_path = {("row", name): sources for name, sources in sources_of_rows(self.accepted.page.rows).items()}
        by_path.update({("further", name): sources for name, sources in sources_of_quantities(self.accepted.page.quantities).items()})
        variation, self.variation = variation_of_page()
        by_path.update({VARIATION: [variation], NAVIGATION: [self.plotters.leg.source]})
        found = {}
        for path in self.tables:
            for source in by_path[path]:
                found.setdefault(source.pgn, []).append((path, source))
        return found

    def take(self, line):
        try:
            moment_us, _, frame, _ = read_line(line)
        except NoFrame:
            self.other_lines += 1
            self.sentences(line)
            return
        if frame.is_error:
            self.error_frames += 1
            return
        self.frames += 1
        parts = parts_of(frame.identifier)
        if parts.pgn == ADDRESS_CLAIM and name_of(frame.data) is not None and parts.source != ALL:
            self.claim(parts.source, name_of(frame.data))
        elif parts.source < NULL_ADDRESS:
            self.frame(moment_us, frame, (parts.source, self.holders.get(parts.source)))

    def sentences(self, line):
        """Of a line with a datagram what the sources of the network say in it."""
        datagram = datagram_of(line) if self.formatters else None
        for identifier, sentence in said_by(datagram or b""):
            if identifier in self.formatters and len(self.formatters[identifier]) < MOST_FORMATTERS:
                self.formatters[identifier].add(sentence.kind)

    def claim(self, address, name):
        """Of two NAMEs the smaller one has the address (ISO 11783-5)."""
        for left in [left for left, holder in self.holders.items() if holder == name and left != address]:
            del self.holders[left]
        if address != NULL_ADDRESS and name <= self.holders.get(address, name):
            self.holders[address] = name

    def frame(self, moment_us, frame, who):
        """A frame of a device, by its address and NAME, and the message that is whole with it, if one is."""
        if who not in self.spoke and len(self.spoke) >= MOST_SPEAKERS:
            return
        self.spoke.add(who)
        message = self.joiner.message_of(frame)
        if message is None:
            return
        for path, source in self.sources.get(message.parts.pgn, ()):
            if source.is_said_by(message.parts.pgn, message.data):
                self.said.add((path, *who))
                self.variation_in(path, who, message.data)
                if path == NAVIGATION:
                    self.plotters.take(who, message.data)
                self.paces.take(path, *who, moment_us)
                if path in self.watched.timeouts_us:
                    self.watched.take(path, *who, moment_us)

    def variation_in(self, path, who, data):
        if path == VARIATION and self.variation.value(data) is not None:
            self.variations.add(who)
        elif path == MAGNETIC and self.variation_of_heading.value(data) is None:
            self.without_variation.add(who)

    def pairs(self):
        """Who said something, or claimed."""
        return sorted((pair for pair in self.spoke | set(self.holders.items()) if pair[1] != self.own_name), key=lambda pair: (pair[0], pair[1] or 0))

    def sayers(self, row):
        """Who said what a row is taken from."""
        return self.sayers_of(("row", row.name))

    def sayers_of(self, path):
        return [pair for pair in self.pairs() if (path, *pair) in self.said]
