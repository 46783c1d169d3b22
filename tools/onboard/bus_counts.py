"""What happened between bus and gateway, counted and told."""

import collections

from . import bus_load, error_frames
from .words import LeftOut


class Counts:
    """What happened: frames and bits each way, error frames by kind, and what was left out."""

    def __init__(self, teller, now):
        self.teller, self.begin = teller, now
        self.left_out = LeftOut(teller)
        self.has_load = True
        self.numbers, self.errors = collections.Counter(), collections.Counter()
        self.told = (now, self._copies())

    def _copies(self):
        return tuple(counts.copy() for counts in (self.numbers, self.errors, self.left_out.counts))

    def carried(self, way, frame):
        self.numbers[way] += 1
        self.numbers["bits"] += bus_load.bits_of(frame)

    def error(self, frame):
        self.numbers["errors"] += 1
        for kind in error_frames.kinds_of(frame):
            if kind not in self.errors:
                self.teller.tell(f"the interface tells an error of the bus: {kind}")
            self.errors[kind] += 1

    def tell_minute(self, now):
        since, earlier = self.told
        self.told = (now, self._copies())
        self._tell(f"in {now - since:.0f} seconds", now - since, *earlier)

    def tell_all(self, now):
        self._tell(f"in all, in {now - self.begin:.0f} seconds", now - self.begin, *(collections.Counter() for _ in range(3)))

    def _tell(self, when, seconds, numbers, errors, left_out):
        if self._copies() == (numbers, errors, left_out):
            return
        since = {key: self.numbers[key] - numbers[key] for key in ("from", "to", "bits", "errors")}
        load = f", {bus_load.load_percent(since['bits'], seconds):.1f} % of its 250 kbit/s" if self.has_load else ""
        self.teller.tell(f"{when} {since['from']} frames from the bus and {since['to']} to it{load}")
        if since["errors"]:
            kinds = ", ".join(f"{kind} {self.errors[kind] - errors[kind]}" for kind in sorted(self.errors) if self.errors[kind] > errors[kind])
            self.teller.tell(f"{since['errors']} error frames: {kinds}")
        for text in self.left_out.since(left_out):
            self.teller.tell(text)
