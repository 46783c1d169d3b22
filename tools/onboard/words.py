"""The words on standard error: one line each, with the tool's name, at once; and counts of what was left out, each reason told when it first comes."""

import collections
import sys


class Teller:
    """Tells in the name of a tool."""

    def __init__(self, tool):
        self.tool = tool

    def tell(self, text):
        try:
            print(f"{self.tool}: {text}", file=sys.stderr, flush=True)
        except (OSError, ValueError):
            # nobody reads it any more, and the work goes on
            pass


class LeftOut:
    """How much was left out, by its reason; the first of each reason is told at once."""

    def __init__(self, teller):
        self.teller = teller
        self.counts = collections.Counter()

    def add(self, reason, count=1, example=None):
        """Counts what was left out for a reason, a text or an exception that says it; the first one is shown by its example, where there is one."""
        reason = str(reason)
        if count > 0:
            if reason not in self.counts:
                self.teller.tell(f"left out: {reason}" + (f" ({example})" if example else ""))
            self.count(reason, count)

    def count(self, reason, count=1):
        """Counts what is told in another way, or in the counts alone."""
        self.counts[reason] += count

    def since(self, earlier):
        """What came to the counts since these were a copy of them, as words."""
        return [f"left out {count - earlier[reason]}: {reason}" for reason, count in sorted(self.counts.items()) if count > earlier[reason]]


class Told:
    """Tells what became of a way, once each time that it changes."""

    def __init__(self, name, teller):
        self.name, self.teller, self.last = name, teller, None

    def now(self, text):
        if text != self.last:
            self.last = text
            self.teller.tell(f"{self.name}: {text}")
