"""What was put on the bus and may come back from it."""

import collections

MOST_ECHOES = 65536


class Echoes:
    """What was sent within so many seconds, each frame or message as often as it was."""

    def __init__(self, seconds):
        self.seconds = seconds
        self.order = collections.deque()
        self.moments = {}

    def _forget(self, now):
        while self.order and (now - self.order[0][0] > self.seconds or len(self.order) > MOST_ECHOES):
            moment, what = self.order.popleft()
            if self.moments.get(what, [None])[0] == moment:
                self._take_first(what)

    def _take_first(self, what):
        self.moments[what].popleft()
        if not self.moments[what]:
            del self.moments[what]

    def add(self, what, now):
        self._forget(now)
        self.order.append((now, what))
        self.moments.setdefault(what, collections.deque()).append(now)

    def take(self, what, now):
        """Whether it is one of those that were sent; each counts once."""
        self._forget(now)
        if what not in self.moments:
            return False
        self._take_first(what)
        return True
