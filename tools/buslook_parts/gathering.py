"""What is kept of values over time: never more than can be seen."""

import collections

MOST_CELLS = 400
# of strips that stand in many rows
MOST_STRIP_CELLS = 240
# marks are wider than points
MOST_MARKS = 60
MOST_SPANS = 40
MOST_KEYS = 1000
MANY = "changes too quick to draw"


class Series:
    """Cells over time, at most so many as can be seen: where the time outgrows them, two become one."""

    def __init__(self, begin, join, width_us=1000, most=MOST_CELLS):
        self.begin, self.join, self.width, self.most, self.cells = begin, join, width_us, most, {}

    def add(self, moment, cell):
        place = (moment - self.begin) // self.width
        while place >= self.most:
            self.widen()
            place = (moment - self.begin) // self.width
        self.cells[place] = self.join(self.cells[place], cell) if place in self.cells else cell

    def widen(self):
        self.width *= 2
        before, self.cells = self.cells, {}
        for place, cell in before.items():
            half = place // 2
            self.cells[half] = self.join(self.cells[half], cell) if half in self.cells else cell

    def in_order(self):
        return [self.cells[place] for place in sorted(self.cells)]

    def moment_of(self, place):
        return self.begin + place * self.width


class Counts:
    """How often each of several things came over time, in cells that all of them share: where the time outgrows these, two become one."""

    def __init__(self, begin, width_us=1000, most=MOST_STRIP_CELLS):
        self.begin, self.width, self.most, self.cells = begin, width_us, most, {}
        self.now, self.end = self.cells.setdefault(0, collections.Counter()), begin + width_us

    def at(self, moment):
        """The counts of the cell of a moment, which doesn't go back."""
        if moment >= self.end:
            while (moment - self.begin) // self.width >= self.most:
                self._widen()
            place = (moment - self.begin) // self.width
            self.now, self.end = self.cells.setdefault(place, collections.Counter()), self.begin + (place + 1) * self.width
        return self.now

    def _widen(self):
        self.width *= 2
        before, self.cells = self.cells, {}
        for place, counts in before.items():
            self.cells.setdefault(place // 2, collections.Counter()).update(counts)

    def series(self, key):
        """The counts of one thing alone."""
        found = Series(self.begin, sum_of, self.width, self.most)
        found.cells = {place: counts[key] for place, counts in sorted(self.cells.items()) if counts[key]}
        return found


def sum_of(first, second):
    return first + second


def first_of(first, _):
    return first


class Mark(collections.namedtuple("Mark", "moment name times")):
    """What happened at an address, the first time and how often."""

    def joined(self, other):
        return Mark(self.moment, self.name, self.times + other.times)


class Point(collections.namedtuple("Point", "begin end first last least most is_apart")):
    """Values from one moment to another; apart from those before where something was said without a value between."""

    def joined(self, other):
        return Point(self.begin, other.end, self.first, other.last, min(self.least, other.least), max(self.most, other.most), self.is_apart)


class Tally:
    """How often each key came, the first thousand keys by name."""

    def __init__(self):
        self.counts = collections.Counter()

    def add(self, key):
        self.counts[key if key in self.counts or len(self.counts) < MOST_KEYS else "others"] += 1

    def all(self):
        """Each key with how often it came, the most frequent first."""
        return sorted(self.counts.items(), key=lambda pair: (-pair[1], str(pair[0])))

    def most(self, number):
        return self.all()[:number]


class Span:
    """From a moment to another something held. One that goes on has no end."""

    def __init__(self, begin, end, value):
        self.begin, self.end, self.value = begin, end, value


class Spans:
    """What held when. Where there are more spans than can be seen, short neighbours become one that says so."""

    def __init__(self):
        self.list = []

    def begin(self, moment, value):
        self.list.append(Span(moment, None, value))
        if len(self.list) > 2 * MOST_SPANS:
            self.gather((moment - self.list[0].begin) // MOST_SPANS)

    def end(self, moment):
        if self.list and self.list[-1].end is None:
            self.list[-1].end = moment

    def change(self, moment, value):
        """From now on the value holds, or nothing where it is None."""
        if self.list and self.list[-1].end is None and self.list[-1].value == value:
            return
        self.end(moment)
        if value is not None:
            self.begin(moment, value)

    def value(self):
        return self.list[-1].value if self.list and self.list[-1].end is None else None

    def gather(self, least):
        """Joins what is shorter, and more of it where that isn't enough."""
        least = max(1, least)
        while len(self.list) > MOST_SPANS:
            self.list, least = joined_spans(self.list, least), 2 * least


def is_joined(before, span, least):
    """Whether two neighbours become one: no longer together, or both of changes too quick to draw, with no longer a gap between them."""
    if before is None or span.end is None:
        return False
    return span.end - before.begin <= least or before.value == span.value == MANY and span.begin - before.end <= least


def joined_spans(spans, least):
    """The spans, where neighbours are one as far as they can't be told apart."""
    kept = []
    for span in spans:
        before = kept[-1] if kept else None
        if is_joined(before, span, least):
            before.end, before.value = span.end, before.value if before.value == span.value else MANY
        else:
            kept.append(span)
    return kept


class Strip:
    """Which device was said in a row, and where a better one had fallen silent."""

    def __init__(self, begin, timeout_us):
        self.spans, self.timeout_us = Spans(), timeout_us
        self.worse = Series(begin, first_of, most=MOST_SPANS)

    def say(self, moment, device):
        last = self.spans.list[-1] if self.spans.list else None
        if last is not None and last.value == device and moment - last.end <= self.timeout_us:
            last.end = moment
            return
        if last is not None and last.value != MANY and last.value.rank is not None and device.rank is not None and last.value.rank < device.rank:
            self.worse.add(moment, (moment, last.value.label, last.end))
        self.spans.begin(moment, device)
        self.spans.end(moment)
