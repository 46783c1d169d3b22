"""Ways out that hold up nobody."""

import os
import select
import threading
import time

from onboard.words import Teller

from .run_lines import counted

PIECE_BYTES, WORDS_BYTES = 65536, 65536


class Outlet:
    """Hands lines on to a descriptor, by a thread of its own: whoever takes them slowly, or not at all, holds up nobody else.

    What waits has a limit. Lines that find no room are dropped and counted, until half of the room is free again. Where `mark` is given, its line then
    stands in their place.
    """

    def __init__(self, name, descriptor, most_bytes, teller=None, mark=None):
        self.name, self.descriptor, self.most_bytes, self.teller, self.mark = name, descriptor, most_bytes, teller, mark
        self.waiting, self.changed = bytearray(), threading.Condition()
        self.failure, self.is_told = None, False
        self.dropped, self.moment = 0, b""
        threading.Thread(target=self._hand_on, daemon=True).start()

    def _hand_on(self):
        while self.failure is None:
            with self.changed:
                self.changed.wait_for(lambda: self.waiting)
                piece = bytes(self.waiting[:PIECE_BYTES])
            count = self._write(piece)
            with self.changed:
                del self.waiting[:count]
                self.changed.notify_all()

    def _write(self, piece):
        try:
            return os.write(self.descriptor, piece)
        except BlockingIOError:
            # whoever started keep has set this descriptor not to block
            select.select([], [self.descriptor], [])
            return 0
        except OSError as error:
            self.failure = error
            return len(self.waiting)

    def _add(self, text, room):
        with self.changed:
            is_taken = len(self.waiting) + len(text) <= room
            if is_taken:
                self.waiting += text
                self.changed.notify_all()
        return is_taken

    def put(self, lines, moment=b""):
        """Takes lines without their ends, of which the last is of this moment."""
        self.tend()
        is_open = self.failure is None and not self.dropped
        if is_open and not self._add(b"".join(line + b"\n" for line in lines), self.most_bytes):
            self._tell("what waits has no more room: lines are dropped")
            self.dropped, self.moment = len(lines), moment
        elif self.dropped:
            self.dropped, self.moment = self.dropped + len(lines), moment

    def tend(self):
        """Notices that there is room again, or that nothing goes out any more."""
        if self.failure is not None:
            if not self.is_told:
                self._tell(f"{self.failure.strerror}: nothing more goes there")
            self.is_told = True
        elif self.dropped:
            self._mark(self.most_bytes // 2)

    def _mark(self, room):
        if self._add(self.mark(self.moment, self.dropped) if self.mark else b"", room):
            self._tell(f"there is room again; dropped: {counted(self.dropped)}")
            self.dropped = 0

    def _tell(self, text):
        if self.teller is not None:
            self.teller.tell(f"{self.name}: {text}")

    def end(self, deadline):
        """Waits until all has gone out, at most to this time."""
        if self.dropped:
            self._mark(self.most_bytes)
        with self.changed:
            self.changed.wait_for(lambda: not self.waiting or self.failure, max(0.0, deadline - time.monotonic()))
            left = self.dropped + self.waiting.count(b"\n")
        if left and self.failure is None:
            self._tell(f"not out in time at the end: {counted(left)}")


class OutletTeller(Teller):
    """Tells by an outlet, so that words that nobody reads stop nothing."""

    def __init__(self, tool, outlet):
        super().__init__(tool)
        self.outlet = outlet

    def tell(self, text):
        self.outlet.put([f"{self.tool}: {text}".encode()])
