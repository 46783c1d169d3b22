"""What an accepted configuration says, with the defaults of the page, and where it stands."""

import re
from typing import NamedTuple, Optional

from .faults import PARTS

# the paths of the tables that say whom the variation of joined headings is taken from, and which plotter is followed
VARIATION, NAVIGATION = ("heading",), ("nav",)


class Warned(NamedTuple):
    """A key that the program accepts and that fails in silence, where it or what it depends on stands, and why."""

    path: str
    place: Optional[tuple]
    why: str


class Stated(NamedTuple):
    """A NAME or a pattern as it is written, the path of its key, and where it stands."""

    path: str
    place: Optional[tuple]
    text: str

    def is_name(self):
        return re.fullmatch("[0-9A-Fa-f]{16}", self.text) is not None


class Accepted:
    """An accepted document, its defaults as the page has them."""

    def __init__(self, document, page):
        self.document, self.page, self.root = document, page, document.root

    def value(self, table, name):
        return self.root.get(table, {}).get(name, self.page.default(table, name))

    def row(self, name):
        return self.root.get("row", {}).get(name, {})

    def quantity(self, name):
        return self.root.get("further", {}).get(name, {})

    def place(self, *path):
        """Where the last key of a path stands; nowhere where it is left to its default."""
        table = self.root
        for name in path[:-1]:
            table = table[name] if isinstance(name, int) else table.get(name, {})
        spans = getattr(table, "places", {}).get(path[-1])
        return None if spans is None else self.document.place(spans[0][0])

    def chosen(self):
        """What is taken from devices: each row, each further quantity that is asked for, the variation of joined headings if these are, and navigation if it
        is, as the path of its table and its table."""
        rows = [(("row", row.name), self.row(row.name)) for row in self.page.rows]
        is_asked_for = "group" in self.root.get("further", {})
        quantities = [(("further", name), self.quantity(name)) for name in self.page.quantities if is_asked_for]
        parts = [(path, self.root.get(path[0], {})) for path in (VARIATION, NAVIGATION)]
        return rows + quantities + [(path, table) for path, table in parts if "group" in table]

    def patterns(self):
        """Each pattern of a device."""
        lists = [(("bus", "ignore"), self.root.get("bus", {}))] + [((*path, "sources"), table) for path, table in self.chosen()]
        for path, table in lists:
            patterns = table.get(path[-1], [])
            for place, text in enumerate(patterns):
                yield Stated(".".join(path), self.document.place(patterns.places[place][0]), text)

    def names(self):
        """Each NAME that stands alone, and then those of the patterns."""
        yield Stated("gateway.name", self.place("gateway", "name"), self.root["gateway"]["name"])
        for number, preset in enumerate(self.root.get("preset", []), 1):
            yield Stated(f"preset.{number}.name", self.place("preset", number - 1, "name"), preset["name"])
        yield from (stated for stated in self.patterns() if stated.is_name())

    def groups(self):
        """The groups that datagrams are sent to; plain sentences have another one."""
        groups = {self.row(row.name).get("group", self.value("gateway", "group")) for row in self.page.rows}
        return groups | {self.root[part]["group"] for part in PARTS if part != "plain" and "group" in self.root.get(part, {})}

    def routes(self):
        """The routes, counted from 1."""
        return list(enumerate(self.root.get("route", []), 1))
