"""Who holds which address, and what changed last."""

import collections
from typing import NamedTuple, Optional

from buslook_parts.recording import Addresses

MOST_CHANGES = 20
# what is no news: a device answers a request, or a preset of the configuration
NO_NEWS = ("claimed again", "known before its claim")
OWN, SOURCE, MISSED, BACK = "own", "source", "missed", "back"


class Change(NamedTuple):
    """What changed: of which row, if it is a source, the address, and the NAME of the device."""

    what: str
    row: str
    address: Optional[int]
    name: Optional[int]


class Changes:
    """The last changes, each with the moment when it last came, and how often."""

    def __init__(self):
        self.kept = collections.OrderedDict()

    def add(self, moment, change):
        _, times = self.kept.pop(change, (0, 0))
        self.kept[change] = moment, times + 1
        if len(self.kept) > MOST_CHANGES:
            self.kept.popitem(last=False)

    def newest(self):
        """Each change with its moment and its times, the last one first."""
        return [(change, *about) for change, about in reversed(self.kept.items())]


class Holders(Addresses):
    """Tells what changed, and keeps nothing else of before."""

    def __init__(self, config, changes):
        self.changes = changes
        super().__init__(config)

    def tell(self, moment, address, what, name):
        if what in NO_NEWS:
            return
        own = name == self.own_name and what in ("claimed", "can't claim")
        self.changes.add(moment, Change(OWN, "", self.own, None) if own else Change(what, "", address, name))
