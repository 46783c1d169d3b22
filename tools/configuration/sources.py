"""What the NAMEs and patterns of an accepted configuration do that nobody would want, and that no report tells."""

from bus_names import function_of, maker_of
from onboard.identifiers import name_fields, name_text

from .accepted import Warned
from .patterns import covers, fields_of, turned

# what nearly all devices of boats have in these fields
OF_NEARLY_ALL = {"instance_lower": 0, "instance_upper": 0, "reserved": 0, "system_instance": 0, "industry": 4, "arbitrary": 1}
TOP_BIT = 1 << 63
# what is taken from devices, by the first word of its table
TAKEN = {"row": "row", "further": "quantity", "heading": "variation", "nav": "navigation"}


class Sources:
    """Which devices are taken and which aren't, and who the gateway is."""

    def __init__(self, accepted):
        self.accepted = accepted
        patterns = list(accepted.patterns())
        self.ignored = [stated for stated in patterns if stated.path == "bus.ignore"]
        self.listed = [stated for stated in patterns if stated.path != "bus.ignore"]

    def warnings(self):
        yield from self.names_turned_round()
        yield from self.gateway_that_stays()
        yield from self.taken_from_nobody()
        yield from self.sources_that_are_ignored()
        yield from self.ignoring_all()

    def names_turned_round(self):
        for stated in self.accepted.names():
            name = turned(int(stated.text, 16))
            if name is not None:
                why = f"{stated.text} is a NAME in the order of a claim's bytes. Turned round it is {name_text(name)}, {maker_of(name)}, {function_of(name)}"
                yield Warned(stated.path, stated.place, why)

    def gateway_that_stays(self):
        stated = next(iter(self.accepted.names()))
        name = int(stated.text, 16)
        if name_fields(name)["arbitrary"] == 0 and turned(name) is None:
            why = "the top bit is 0, so the gateway can't move: a device with a smaller NAME that claims its address takes it, and nothing goes to the bus then"
            yield Warned(stated.path, stated.place, f"{why}. {name_text(name | TOP_BIT)} has the bit")

    def taken_from_nobody(self):
        for path, table in self.accepted.chosen():
            if table.get("others") is False and not table.get("sources"):
                what = TAKEN[path[0]]
                path = (*path, "others")
                yield Warned(".".join(path), self.accepted.place(*path), f"with false and no sources the {what} is taken from no device")

    def sources_that_are_ignored(self):
        for stated in self.listed:
            ignored = next((one.text for one in self.ignored if covers(one.text, stated.text)), None)
            if ignored is not None:
                yield Warned(stated.path, stated.place, f"{stated.text} is never taken: bus.ignore has {ignored}")

    def ignoring_all(self):
        for stated in self.ignored:
            if fields_of(stated.text).items() <= OF_NEARLY_ALL.items():
                yield Warned(stated.path, stated.place, f"{stated.text} is of nearly every device on boats: no row is taken from any of these")
