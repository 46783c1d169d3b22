"""How the value of one source moves: where it stood still for long, and where it jumped."""

from typing import Any, NamedTuple

# further apart than this two messages say nothing of how the value moved between them
BESIDE_US = 10_000_000
# a value that is the same for so long is worth a look
STILL_US = 300_000_000


class Stood(NamedTuple):
    """A value that stayed the same from one moment to another, and in how many messages."""

    value: Any
    begin: int
    end: int
    messages: int

    def length(self):
        return self.end - self.begin

    def is_long(self):
        return self.length() >= STILL_US


class Motion:
    """The values of one source, message by message: where it stood longest, how often it jumped, how far at most and when."""

    __slots__ = ("value", "begin", "end", "messages", "longest_before", "jumps", "farthest", "farthest_at")

    def __init__(self):
        self.value = self.begin = self.end = self.longest_before = self.farthest_at = None
        self.messages, self.jumps, self.farthest = 0, 0, 0.0

    def take(self, moment, value, distance, step):
        """The next value; step is how far it may move within a second, or nothing where any distance is usual."""
        is_beside = self.messages > 0 and moment - self.end <= BESIDE_US
        if is_beside and value == self.value:
            self.end = moment
            self.messages += 1
            return
        if is_beside and step is not None:
            self._moved(moment, distance(value, self.value), step * max(1, (moment - self.end) / 1_000_000))
        self.longest_before = self.longest()
        self.value, self.begin, self.end, self.messages = value, moment, moment, 1

    def _moved(self, moment, far, most):
        if far > most:
            self.jumps += 1
            if far > self.farthest:
                self.farthest, self.farthest_at = far, moment

    def longest(self):
        """Where the value stood longest so far."""
        before = self.longest_before
        if self.messages == 0 or before is not None and before.length() >= self.end - self.begin:
            return before
        return Stood(self.value, self.begin, self.end, self.messages)
