"""The devices of a recording beside a configuration: which each pattern is of, which rows would have no source, who never claimed, and what fails in
silence among them."""

from bus_names import function_of, maker_of
from onboard.identifiers import name_fields, name_text

from .accepted import NAVIGATION, VARIATION, Warned
from .heard import MAGNETIC
from .keys import is_matched
from .paces import MICROSECONDS

# greater than every NAME of a device, so that a claim takes the address from it
MADE_UP_NAME = 0xFFFFFFFFFFFFFF00
# the class and the function of what joins the bus with a network, as this gateway does
GATEWAY = 25, 130
# the row of what PGN 129283 says
CROSS_TRACK = ("row", "cross_track")
# sentences of the network that say a position, and are read without a key
POSITIONS = {"GGA", "GLL"}


class Devices:
    """Those that were heard."""

    def __init__(self, accepted, heard):
        self.accepted, self.heard = accepted, heard
        self.own_address = accepted.root["gateway"]["address"]
        self.ignored = accepted.root.get("bus", {}).get("ignore", [])

    def who(self, address, name):
        named = "never claimed" if name is None else f"{name_text(name)}  {maker_of(name)}, {function_of(name)}"
        return f"address {address}  {named}" + (" (a preset)" if name is not None and self.heard.presets.get(address) == name else "")

    # ---- what is warned of

    def warnings(self):
        yield from self.timeouts_below_the_pace()
        yield from self.watches_below_the_pace()
        yield from self.watched_rows_of_nobody()
        yield from self.gateways_that_are_heard()
        yield from self.engines_that_are_two()
        yield from self.headings_of_nobody()
        yield from self.plotters_of_nobody()
        yield from self.plotters_that_are_two()
        yield from self.depths_said_twice()
        yield from self.fixes_in_rmc_alone()

    def timeouts_below_the_pace(self):
        for path, who, pace, seconds in self.too_slow(self.heard.paces):
            why = f"{named(*who)} says it each {pace.usual_seconds():.3g} s, and counts as silent {seconds:g} s after each message"
            yield Warned(".".join((*path, "timeout_ms")), self.accepted.place(*path, "timeout_ms"), why)

    def watches_below_the_pace(self):
        for path, who, pace, seconds in self.too_slow(self.heard.watched):
            why = f"{named(*who)} says it each {pace.usual_seconds():.3g} s, and {seconds:g} s after each message it is told that the row isn't said"
            yield Warned(".".join((*path, "watch_ms")), self.accepted.place(*path, "watch_ms"), why)

    def too_slow(self, paces):
        """What is taken from a device that says it too seldom: its path, the device, its pace, and the seconds that it has."""
        for path, address, name, pace in paces.too_slow():
            if (address, name) in self.heard.pairs() and (name is None or self.is_taken(name, self.heard.tables[path])):
                yield path, (address, name), pace, paces.timeouts_us[path] / MICROSECONDS

    def watched_rows_of_nobody(self):
        for row in self.accepted.page.rows:
            path, sayers = ("row", row.name), self.heard.sayers(row)
            if path in self.heard.watched.timeouts_us and not any(self.is_taken(name, self.heard.tables[path]) for _, name in sayers):
                why = "nobody in the recording says this row" if not sayers else "those that say this row in the recording aren't taken"
                yield Warned(f"row.{row.name}.watch_ms", self.accepted.place(*path, "watch_ms"), f"{why}: it would be told as missing all the time")

    def gateways_that_are_heard(self):
        """Other gateways that rows are taken from: what one of them puts on the bus may be what this one said on the network."""
        others = {name: address for address, name in self.heard.pairs() if name is not None and is_gateway(name) and not self.is_ignored(name)}
        for name, address in others.items():
            why = f"{named(address, name)} is another gateway. Two that hear each other are a loop: add \"{name_text(name)}\", unless it hears no network"
            yield Warned("bus.ignore", self.accepted.place("bus", "ignore"), why)

    def engines_that_are_two(self):
        """Two engines, where the configuration doesn't say how many there are."""
        heard = {path[1] for path, _, _ in self.heard.said if path[0] == "further"}
        if "twin_engines" not in self.accepted.root.get("further", {}) and any({f"{kind}_first", f"{kind}_second"} <= heard for kind in ("engine", "engine_state")):
            why = "engines of the instances 0 and 1 are said, the first as a single one, number 0. With true it is the one to port, number 2"
            yield Warned("further.twin_engines", self.accepted.place("further", "group"), why)

    def headings_of_nobody(self):
        """Joined headings where nobody says what they are joined of."""
        if VARIATION not in self.heard.tables:
            return
        compasses, sayers = self.heard.sayers_of(MAGNETIC), [who for who in self.heard.pairs() if who in self.heard.variations]
        taken = {who for who in compasses if self.is_taken(who[1], self.heard.tables[MAGNETIC])}
        if not taken:
            why = "those that say a magnetic heading in the recording aren't taken" if compasses else "nobody in the recording says a magnetic heading (PGN 127250)"
            why += ": no heading is joined, and none computed"
        elif taken & self.heard.without_variation and not any(self.is_taken(name, self.heard.tables[VARIATION]) for _, name in sayers):
            why = "those that say the variation in the recording aren't taken" if sayers else "nobody in the recording says the variation (PGN 127258)"
            why += ", and the compass says none: HDT would be empty"
        else:
            return
        yield Warned("heading.group", self.accepted.place("heading", "group"), why)

    def plotters_of_nobody(self):
        """Navigation where no plotter says one that a pilot follows."""
        if NAVIGATION not in self.heard.tables:
            return
        sayers, taken = self.heard.sayers_of(NAVIGATION), self.plotters_that_are_taken()
        usable, followed = (list(filter(said.__contains__, taken)) for said in (self.heard.plotters.usable(), self.heard.plotters.followed()))
        if not taken:
            why = "those that say where they go in the recording aren't taken" if sayers else "nobody in the recording says where it goes (PGN 129284)"
            why += ": there is no RMB and no APB"
        elif not usable:
            why = f"{all_of(taken)} had no route in the recording, so no bearing of a destination: RMB and APB have status V"
        elif not followed:
            why = f"{all_of(usable)} named no destination twice in a row, and a destination that is named once isn't said"
        elif not any((CROSS_TRACK, *who) in self.heard.said for who in followed):
            why = f"{all_of(followed)} said no cross track error (PGN 129283), and that of another device isn't taken: RMB and APB have status V"
        else:
            return
        yield Warned("nav.group", self.accepted.place("nav", "group"), why)

    def plotters_that_are_two(self):
        """Several plotters, where nobody says which one the pilot follows."""
        taken = self.plotters_that_are_taken() if NAVIGATION in self.heard.tables else []
        if len({name for _, name in taken}) > 1 and not self.heard.tables[NAVIGATION].get("sources"):
            why = f"{all_of(taken)} say where they go. The pilot follows the smaller NAME of those that have a route. List the one that may steer"
            yield Warned("nav.sources", self.accepted.place("nav", "sources") or self.accepted.place("nav", "group"), why)

    def plotters_that_are_taken(self):
        return [who for who in self.heard.sayers_of(NAVIGATION) if self.is_taken(who[1], self.heard.tables[NAVIGATION])]

    def depths_said_twice(self):
        """Sounders that say DPT and DBT of each depth, if the configuration doesn't say what becomes of DBT."""
        both = self.sayers_on_the_network(lambda said: {"DPT", "DBT"} <= said)
        if both and "dbt" not in self.accepted.root["net"]:
            why = f"{' and '.join(both)} said DPT and DBT. Both go to the bus as depth, and DBT has no offset of the transducer. With false DPT alone goes there"
            yield Warned("net.dbt", self.accepted.place("net", "sources"), why)

    def fixes_in_rmc_alone(self):
        """Receivers whose position or course stands in RMC alone, if the configuration doesn't say whether RMC is read."""
        alone = self.sayers_on_the_network(lambda said: "RMC" in said and not ("VTG" in said and POSITIONS & said))
        if alone and "rmc" not in self.accepted.root["net"]:
            why = f"{' and '.join(alone)} said RMC, and not both VTG and GGA or GLL. RMC isn't read: a position or a course that it alone says doesn't go to the bus. With true both do"
            yield Warned("net.rmc", self.accepted.place("net", "sources"), why)

    def sayers_on_the_network(self, is_meant):
        """The sources that the gateway hears on the network whose formatters are meant."""
        return [identifier for identifier, said in self.heard.formatters.items() if is_meant(said)]

    # ---- what is told

    def lines(self):
        """All that is told of the recording."""
        yield f"{self.heard.frames} frames, {self.heard.error_frames} error frames, {self.heard.other_lines} other lines"
        yield ""
        yield "who spoke:"
        for address, name in self.heard.pairs():
            yield f"  {self.who(address, name)}"
        yield from self.of_patterns()
        yield from self.of_rows()
        yield from self.of_presets()

    def of_patterns(self):
        yield from self.of_list("bus.ignore", self.ignored, self.heard.pairs())
        for row in self.accepted.page.rows:
            yield from self.of_list(f"row.{row.name}.sources", self.accepted.row(row.name).get("sources", []), self.heard.sayers(row))
        variation = self.heard.tables.get(VARIATION, {}).get("sources", [])
        yield from self.of_list("heading.sources", variation, self.heard.sayers_of(VARIATION), "no variation")
        plotters = self.heard.tables.get(NAVIGATION, {}).get("sources", [])
        yield from self.of_list("nav.sources", plotters, self.heard.sayers_of(NAVIGATION), "not where it goes")

    def of_list(self, path, patterns, sayers, lacks="nothing of this row"):
        """The devices that each pattern of a list is of; of those that aren't among the sayers it is told besides."""
        if patterns:
            yield ""
            yield f"{path}:"
        for place, pattern in enumerate(patterns, 1):
            found = [pair for pair in self.heard.pairs() if pair[1] is not None and is_matched(pattern, pair[1])]
            yield f"  {place}, {pattern}:" + ("" if found else " no device of the recording")
            for pair in found:
                yield f"    {self.who(*pair)}" + ("" if pair in sayers else f", which said {lacks}")

    def of_rows(self):
        silent = []
        yield ""
        yield "rows without a source:"
        for row in self.accepted.page.rows:
            sayers, table = self.heard.sayers(row), self.accepted.row(row.name)
            if not sayers:
                silent.append(row.name)
            elif not any(self.is_taken(name, table) for _, name in sayers):
                yield f"  row.{row.name}, though these said it:"
                for address, name in sayers:
                    yield f"    {self.who(address, name)}" + self.why_not_taken(name)
        yield f"  said by nobody: {', '.join(silent)}" if silent else "  each row was said"

    def is_ignored(self, name):
        return any(is_matched(pattern, name) for pattern in self.ignored)

    def why_not_taken(self, name):
        return "" if name is None else ", which is ignored" if self.is_ignored(name) else ", which isn't listed, and others aren't taken"

    def is_taken(self, name, table):
        return name is not None and not self.is_ignored(name) and (table.get("others", True) or any(is_matched(pattern, name) for pattern in table.get("sources", [])))

    def of_presets(self):
        """Presets that make each device known from the first frame on; those that the configuration has are left out."""
        claimed = {address: name for address, name in self.heard.holders.items() if name not in (self.heard.own_name, *self.heard.presets.values())}
        unclaimed = sorted({address for address, name in self.heard.pairs() if name is None} - set(self.heard.holders))
        for address in [address for address in claimed if address in self.heard.presets]:
            del claimed[address]
            yield f"  preset of address {address}: in the recording {self.who(address, self.heard.holders[address])} has it"
        wanted = [(address, claimed.get(address)) for address in sorted([*claimed, *unclaimed]) if address != self.own_address]
        yield ""
        yield "presets to add, by which each device is known from its first frame on:" if wanted else "no preset has to be added"
        for address, name in wanted:
            yield ""
            yield "[[preset]]"
            yield f"# {maker_of(name)}, {function_of(name)}" if name is not None else "# a NAME made up: this device never claimed in the recording"
            yield f"address = {address}"
            yield f'name = "{name_text(MADE_UP_NAME | address if name is None else name)}"'


def named(address, name):
    """A device in a sentence."""
    return f"address {address}" + (", which never claimed," if name is None else f" ({name_text(name)}, {maker_of(name)}, {function_of(name)})")


def all_of(devices):
    """Several devices in a sentence."""
    return " and ".join(named(*who) for who in devices)


def is_gateway(name):
    fields = name_fields(name)
    return (fields["class"], fields["function"]) == GATEWAY
