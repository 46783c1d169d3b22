"""Compares the reports in a run's file with those that `shipgate replay` gives for the same events."""

import collections

MOST_TOLD_CHARACTERS = 120


class Comparing:
    """Both are in the order of their events: in the file a report stands after the line of its event, and before the next one."""

    def __init__(self):
        # those of the file, and those of `replay` with the number of their event
        self.told, self.computed = collections.deque(), collections.deque()
        self.events, self.differences, self.first = 0, 0, ""

    def event(self):
        """The next event, to which the reports belong that `compute` takes from now on."""
        self.events += 1

    def tell(self, report):
        """A report of the file."""
        self.told.append(report)

    def compute(self, report):
        """A report of `replay`."""
        self.computed.append((report, self.events))

    def settle(self):
        """All events that stand in the file so far have been given to `replay`. The reports of the last one may still come."""
        while self.told:
            told = self.told.popleft()
            while self.computed and self.computed[0][0] != told and any(told == report for report, _ in self.computed):
                self._differ("the run lacks", self.computed.popleft()[0])
            if self.computed and self.computed[0][0] == told:
                self.computed.popleft()
            else:
                self._differ("the run alone has", told)
        while self.computed and self.computed[0][1] < self.events:
            self._differ("the run lacks", self.computed.popleft()[0])

    def _differ(self, words, report):
        self.differences += 1
        self.first = self.first or f"{words} {report.decode('ascii', 'backslashreplace')[:MOST_TOLD_CHARACTERS]}"
