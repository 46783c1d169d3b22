"""How often each source of a recording says what is taken from it, beside the time after which it counts as silent."""

# of the times between two messages one in so many, and at least so many of them, are longer than the timeout: then it isn't a silence now and then
LATE_SHARE, LEAST_LATE = 10, 3
MICROSECONDS = 1_000_000


class Pace:
    """The messages of one source, and how often more than the timeout lay between two."""

    __slots__ = ("count", "first", "last", "late", "longest")

    def __init__(self, moment_us):
        self.count, self.first, self.last, self.late, self.longest = 1, moment_us, moment_us, 0, 0

    def take(self, moment_us, timeout_us):
        between = moment_us - self.last
        self.count += 1
        self.late += between > timeout_us
        self.longest = max(self.longest, between)
        self.last = moment_us

    def is_too_slow(self):
        return self.late >= LEAST_LATE and self.late * LATE_SHARE >= self.count - 1

    def usual_seconds(self):
        """The mean time between two messages, without the longest one, which may be a silence."""
        return (self.last - self.first - self.longest) / max(1, self.count - 2) / MICROSECONDS


class Paces:
    """The paces of all sources, each by what it says, its address and its NAME."""

    def __init__(self, timeouts_us):
        self.timeouts_us, self.paces = timeouts_us, {}

    def take(self, path, address, name, moment_us):
        pace = self.paces.get((path, address, name))
        if pace is None:
            self.paces[path, address, name] = Pace(moment_us)
        else:
            pace.take(moment_us, self.timeouts_us[path])

    def too_slow(self):
        """What is said too seldom, by whom, and its pace, in their order."""
        found = [(*key, pace) for key, pace in self.paces.items() if pace.is_too_slow()]
        return sorted(found, key=lambda one: (one[0], one[1], one[2] or 0))
