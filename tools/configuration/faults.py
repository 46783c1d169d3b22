"""Everything that is wrong with a document, in the order in which the program looks for the first thing."""

import difflib
import re
from typing import NamedTuple, Optional

from .document import Array, Table
from .keys import pattern_of
from .patterns import numbers_meant

# as much of a path as the program shows, in bytes
MOST_PATH = 128
MOST_STOOD = 70
# of so many keys that aren't known it is looked for the ones that may be meant
MOST_NEAREST = 200
# of a key's name so many of the parts between its underlines, each of so many letters, are looked for in other names
MOST_NAME_PARTS, LEAST_PART = 8, 2
# how alike two such parts have to be, of 1
ALIKE = 0.8
# parts with a transmission group of their own
PARTS = ("rmc", "ais", "further", "plain", "heading", "nav", "watch", "heartbeat")
# keys of these that ask for no group
OF_NO_GROUP = frozenset(("bus_every_s",))


class Fault(NamedTuple):
    """One thing that is wrong: its kind and key as the program has them, where, what stood there, and what is allowed."""

    kind: str
    path: str
    place: Optional[tuple]
    stood: str
    allowed: str
    # the numbers that words in it may mean
    numbers: str = ""

    def line(self):
        """The program's line for it, were it the first."""
        return b"config: " + self.kind.encode() + b" " + self.path.encode()[:MOST_PATH]


class Looking:
    """Goes over the keys of a document, table by table."""

    def __init__(self, document, page):
        self.document, self.page, self.faults = document, page, []
        # what is known of values that others may not repeat
        self.own, self.group_of = {}, {}
        self.unknown_keys = 0

    def add(self, kind, path, spans, allowed, item=None, numbers=""):
        """A fault at the spans of a key and of its value, or nowhere."""
        place = stood = None
        if spans is not None:
            place, written = self.document.place(spans[0][0]), self.document.written(spans[1])
            stood = written.split("\n")[0].strip("\r")
            stood = stood if stood == written and len(stood) <= MOST_STOOD else stood[:MOST_STOOD] + " ..."
        self.faults.append(Fault(kind, path, place, stood if item is None else f"{stood}, the item {item} of the list", allowed, numbers))

    def all(self):
        """The faults of all tables, in the order of the page; those of keys that aren't known come last."""
        several = {"preset.N": self.presets, "row.R": self.rows, "route.N": self.routes, "further.Q": self.quantities}
        for name, keys in self.page.runs:
            if name == "row.R" and keys[0] != self.page.tables[name][0]:
                self.rows_again(keys)
            elif name in several:
                several[name]()
            else:
                self.once(name, keys)
        return self.faults + sorted(self.unknown(), key=lambda fault: fault.path.encode())

    def once(self, name, keys):
        """Keys of a table that stands once. That it is of another type is told at its first key."""
        is_told = not isinstance(self.document.root.get(name, Table("path")), Table) and keys[0] != self.page.tables[name][0]
        table = None if is_told else self.table(self.document.root, name, f"{name}.")
        values = {} if table is None else self.values(table, name, keys, f"{name}.")
        if name == "gateway":
            self.own = values

    # ---- tables

    def table(self, parent, name, prefix):
        """The table at a key; one that isn't there is empty, one of another type is None."""
        if name not in parent:
            return Table("path")
        if isinstance(parent[name], Table):
            return parent[name]
        self.add("kind", prefix[:-1], parent.places[name], f"a table: [{prefix[:-1]}]")
        return None

    def tables(self, name):
        """The numbered tables of an array; none where it is of another type."""
        root = self.document.root
        found, most = root.get(name, Array()), self.page.most_tables()[name]
        if not isinstance(found, Array) or not all(isinstance(table, Table) for table in found):
            self.add("kind", name, root.places[name], f"an array of tables: [[{name}]]")
            return []
        if len(found) > most:
            self.add("range", name, root.places[name], f"at most {most} of them; here are {len(found)}")
        return list(enumerate(found, 1))

    def values(self, table, name, keys, prefix):
        """The values of these keys of a table that are as they have to be."""
        values = {}
        for key in keys:
            path = prefix + key.name
            if key.name in table:
                if self.is_fit(table, key, path) and self.is_once(table, key, path, name):
                    values[key.name] = table[key.name]
            elif key.is_required or self.is_asked_for(table, key.name, name):
                self.missing(table, key, path)
        return values

    def missing(self, table, key, path):
        first = min(table.places.values(), default=None)
        self.add("missing", path, None if first is None else (first[0], (0, 0)), key.form.allowed)

    def is_asked_for(self, table, key, name):
        """Whether the group of a part is missing, which its other key asks for, or a quantity by one of its keys or by what is no table."""
        if key != "group" or name not in PARTS:
            return False
        quantities = [table[quantity] for quantity in self.page.quantities if quantity in table] if name == "further" else []
        asks = any(not isinstance(quantity, Table) or any(key.name in quantity for key in self.page.tables["further.Q"]) for quantity in quantities)
        return asks or any(other.name in table and other.name not in OF_NO_GROUP for other in self.page.tables[name])

    def presets(self):
        taken = {"address": {self.own.get("address")}, "name": {number(self.own.get("name"))}}
        for place, table in self.tables("preset"):
            self.numbered("preset", place, table, taken)

    def routes(self):
        taken = {"group": set()}
        for place, table in self.tables("route"):
            self.numbered("route", place, table, taken)

    def numbered(self, name, place, table, taken):
        """One preset or route; what one of them has that may stand once is taken for those behind it."""
        for key in self.page.tables[f"{name}.N"]:
            path = f"{name}.{place}.{key.name}"
            if key.name not in table:
                self.missing(table, key, path)
            elif self.is_fit(table, key, path) and key.name in taken:
                value = number(table[key.name]) if key.name == "name" else table[key.name]
                if value in taken[key.name]:
                    self.add("twice", path, table.places[key.name], "a value that stands in none above and isn't the gateway's own")
                taken[key.name].add(value)

    def rows(self):
        """Each row, and the group that it is sent to; a group that isn't one is compared with none."""
        rows = self.table(self.document.root, "row", "row.")
        is_default = "group" not in self.named("gateway")
        own_group = self.page.default("gateway", "group") if is_default else self.own.get("group")
        for row in self.page.rows:
            self.group_of[row.name] = own_group
            table = None if rows is None else self.table(rows, row.name, f"row.{row.name}.")
            if table is not None:
                values = self.values(table, "row.R", self.keys_of_rows(), f"row.{row.name}.")
                self.group_of[row.name] = values.get("group") if "group" in table else own_group

    def keys_of_rows(self):
        """The keys of rows that are checked with the group of each; others come behind those of other tables."""
        return next(keys for name, keys in self.page.runs if name == "row.R")

    def rows_again(self, keys):
        """These other keys of each row. That its table is of another type is told at its first keys."""
        for row in self.page.rows:
            table = self.named("row").get(row.name)
            if isinstance(table, Table):
                self.values(table, "row.R", keys, f"row.{row.name}.")

    def quantities(self):
        """Each further quantity. That their table is of another type is told at its own keys."""
        for quantity in self.page.quantities:
            table = self.table(self.named("further"), quantity, f"further.{quantity}.")
            if table is not None:
                self.values(table, "further.Q", self.page.tables["further.Q"], f"further.{quantity}.")

    def named(self, name):
        table = self.document.root.get(name)
        return table if isinstance(table, Table) else {}

    # ---- values

    def is_fit(self, table, key, path):
        """Whether a value has the type and the range that its key asks for; else that is told."""
        value, spans, form = table[key.name], table.places[key.name], key.form
        if form.kind is list:
            return self.is_fit_list(value, spans, form, path)
        if type(value) is not form.kind:
            self.add("kind", path, spans, form.allowed)
        elif form.is_allowed is not None and not form.is_allowed(value):
            self.add("range", path, spans, form.allowed)
        else:
            return True
        return False

    def is_fit_list(self, value, spans, form, path):
        if not isinstance(value, Array):
            self.add("kind", path, spans, form.allowed)
            return False
        before = len(self.faults)
        items = list(zip(range(1, len(value) + 1), value, value.places))
        for kind, is_wrong in (("kind", lambda item: type(item) is not str), ("range", lambda item: type(item) is str and not form.is_allowed(item))):
            for place, item, span in items:
                if is_wrong(item):
                    self.add(kind, path, (span, span), form.allowed, place, numbers_meant(item) if kind == "range" else "")
        if len(value) > form.most:
            self.add("range", path, spans, f"at most {form.most} items; here are {len(value)}")
        return len(self.faults) == before

    def is_once(self, table, key, path, name):
        """Whether a value that may stand once doesn't stand a second time; else that is told."""
        value, before = table[key.name], len(self.faults)
        if key.form.kind is list:
            seen = [self.own.get("sfi")] if name == "net" else []
            for place, item in enumerate(value):
                same = item if name == "net" else pattern_of(item)
                if same in seen:
                    span = value.places[place]
                    self.add("twice", path, (span, span), "an item that stands once" + (" and isn't the gateway's own" if name == "net" else ""), place + 1)
                seen.append(same)
        elif key.name == "group" and name in PARTS:
            if value in self.group_of.values():
                others = ", ".join(sorted({group for group in self.group_of.values() if group}))
                self.add("twice", path, table.places["group"], f"a group of its own, other than {others}")
            self.group_of[name] = value
        return len(self.faults) == before

    # ---- keys that aren't known

    def unknown(self):
        root, known = self.document.root, {}
        for name, keys in self.page.tables.items():
            known[name] = [key.name for key in keys]
        top = list(dict.fromkeys(name.split(".")[0] for name in known))
        yield from self.unknown_in(root, top, "")
        for name in top:
            if name in known:
                inner = self.page.quantities if name == "further" else []
                yield from self.unknown_in(root.get(name), known[name] + inner, f"{name}.")
        for name in ("preset", "route"):
            for place, table in enumerate(root.get(name) if isinstance(root.get(name), Array) else (), 1):
                yield from self.unknown_in(table, known[f"{name}.N"], f"{name}.{place}.")
        rows = [row.name for row in self.page.rows]
        yield from self.unknown_in(root.get("row"), rows, "row.")
        for name, each, names in (("row", "row.R", rows), ("further", "further.Q", self.page.quantities)):
            for inner in names:
                yield from self.unknown_in(self.named(name).get(inner), known[each], f"{name}.{inner}.")

    def unknown_in(self, table, known, prefix):
        if not isinstance(table, Table):
            return
        for name in table:
            if name not in known:
                self.unknown_keys += 1
                place = self.document.place(table.places[name][0][0])
                meant = self.nearest(prefix, name, known) if self.unknown_keys <= MOST_NEAREST else f"one of {', '.join(known)}"
                yield Fault("unknown", prefix + name, place, None, meant)

    def nearest(self, prefix, name, known):
        """The keys that may be meant: the same name in another table, or one that is spelled like it."""
        elsewhere = [f"{table}.{key.name}" for table, keys in self.page.tables.items() for key in keys if key.name == name]
        elsewhere += [f"row.{row.name}" for row in self.page.rows if row.name == name]
        elsewhere += [f"further.{quantity}" for quantity in self.page.quantities if quantity == name]
        near = difflib.get_close_matches(name, known, 3, 0.5) + [word for word in known if shares_a_part(name, word)]
        meant = list(dict.fromkeys([prefix + word for word in near] + elsewhere))
        return " or ".join(meant) if meant else f"{'these' if prefix else 'these tables'}: {', '.join(known)}"


def shares_a_part(name, word):
    """Whether a part of a name begins a part of a word, or is spelled like it: wind is so of all three winds."""
    others = word.split("_")
    parts = [part for part in name.split("_", MOST_NAME_PARTS)[:MOST_NAME_PARTS] if len(part) >= LEAST_PART]
    return any(difflib.get_close_matches(part, others, 1, ALIKE) or any(other.startswith(part) for other in others) for part in parts)


def number(text):
    """A NAME as its number, of whatever case its digits are."""
    return int(text, 16) if isinstance(text, str) and re.fullmatch("[0-9A-Fa-f]{16}", text) else None
