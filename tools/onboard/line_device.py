"""What the ways to a device that speaks lines have in common. They open again by themselves, never wait, and tell when they are lost and found.

Each has: `fileno()`, below 0 while it is closed; `tend(now)`, to be called before each wait, which opens what is due; `due`, when that is the next time;
`wants_to_write`, and `ready_to_write(now)` for when it may; `receive(now)`, the lines that came; `send(line, now)`, which says why a line couldn't be
sent, or nothing; `is_open`, and `openings`, how often it was opened; `told`, by which it tells.
"""

from .words import Told

RETRY_SECONDS = 1.0
# an open way is tended again after so long, if nothing comes before
REST_SECONDS = 10.0


class LineDevice:
    """A device that speaks lines."""

    is_open = wants_to_write = False

    def __init__(self, name, spoken, cutter, teller, left_out):
        self.told, self.spoken, self.cutter, self.left_out = Told(name, teller), spoken, cutter, left_out
        self.due, self.openings = 0.0, 0

    def _begin(self, text):
        """The device is there."""
        self.is_open = True
        self.openings += 1
        self.told.now(text)
        self.spoken.begin()

    def _lines_of(self, piece):
        hint = self.spoken.hear(piece)
        if hint is not None:
            self.told.now(hint)
        return [line for line in self.cutter.lines_of(piece) if line]
