"""Gives a run's events to `shipgate replay`, and gathers what that makes of them."""

import contextlib
import re
import threading
import time

from buslook_parts.program import FRAME, LINES_AT_ONCE, MICROSECONDS, Failure, Frame, Replay, checked
from configuration.pages import PageChanged
from onboard.candump import MOST_LINE

from .comparing import Comparing
from .following import Begin, Gap
from .gathered import ROW_WATCHED, SOURCE_CHANGED, Gathered

# an event that isn't surely a frame, and a report
OTHER_EVENT = re.compile(rb"\((\d{1,10})\.(\d{6})\) (?:tick(?: [^\r\n]*)?|udp0 [A-Z0-9]{4}#((?:[0-9A-F]{2})*))")
REPORT = re.compile(rb"\((\d{1,10})\.(\d{6})\) rule (\d+)(?: (.*))?")
PAUSE_SECONDS, AGAIN_SECONDS, LET_SECONDS = 0.1, 5.0, 0.001
# it is behind if more than this is left to read
BEHIND_BYTES = 1 << 18
# of the two links, whose reports `replay` has none of
OF_LINKS = re.compile(rb" rule \d{1,2} (?:.* )?link=(?:bus|net)(?: |$)")
# the longest timeout of a row
SETTLING_US = 60 * MICROSECONDS


class Looking:
    """What is known of the run that is looked at; others read it by `asked`."""

    def __init__(self, follower, program, config_path, teller):
        self.follower, self.program, self.config_path, self.teller = follower, program, config_path, teller
        # how many wait for the lock who have a page open: they come before what is read
        self.lock, self.asking = threading.Lock(), 0
        self.gathered, self.replay, self.comparing = None, None, None
        self.since, self.lacks, self.gaps, self.trouble, self.no_events = "", "", [], "", 0
        self.last_line_at, self.changes, self.told = time.monotonic(), 0, ""
        # from a later part on it isn't known who was the source before, nor what had begun: only this long after it, reports are compared
        self.is_part, self.compared_from = False, None
        # how much is left to read, in percent of what there was when it began; None once it has caught up
        self.percent, self.all_bytes, self.missing_keys = None, 0, []

    @contextlib.contextmanager
    def asked(self):
        """What is known doesn't change meanwhile."""
        self.asking += 1
        try:
            with self.lock:
                yield
        finally:
            self.asking -= 1

    def run(self):
        """Follows for ever."""
        while True:
            try:
                while True:
                    self._turn()
            except (Failure, PageChanged, OSError) as failure:
                self._stop(str(failure))
            time.sleep(AGAIN_SECONDS)
            self.follower.anew()

    def _stop(self, why):
        if why != self.told:
            self.teller.tell(f"{why}; it is tried again")
        self.told = why
        with self.lock:
            self.trouble, self.changes = why, self.changes + 1
            self._end_replay()
            self.gathered, self.percent, self.all_bytes = None, None, 0

    def end(self):
        """Ends the program that runs along."""
        with self.lock:
            self._end_replay()

    def _end_replay(self):
        if self.replay is not None:
            self.replay.stop()
            for pipe in self.replay.run.stdin, self.replay.run.stdout:
                # what it didn't take can't be given any more
                with contextlib.suppress(OSError):
                    pipe.close()
        self.replay = None

    def _turn(self):
        items = self.follower.turn()
        while self.asking:
            time.sleep(LET_SECONDS)
        with self.lock:
            self.trouble = self.follower.trouble
            for item in items:
                self._take(item)
            self._measure()
        if self.percent is None:
            # what comes meanwhile is taken at once, which costs less than line by line
            time.sleep(PAUSE_SECONDS)

    def _measure(self):
        left = self.follower.left_bytes()
        self.all_bytes = 0 if left < BEHIND_BYTES else max(self.all_bytes, left)
        self.percent = None if self.all_bytes == 0 else 100 - 100 * left // self.all_bytes

    def _take(self, item):
        self.changes += 1
        if isinstance(item, Begin):
            self._begin(item)
        elif isinstance(item, Gap):
            self.gaps = [*self.gaps[:4], item.words]
        elif self.gathered is not None:
            for first in range(0, len(item.lines), LINES_AT_ONCE):
                self._take_lines(item.lines[first : first + LINES_AT_ONCE])

    def _begin(self, item):
        """A run begins, or what is known of it: all of before is forgotten, and the configuration is read again."""
        self._end_replay()
        config = checked(self.program, self.config_path)
        self.gathered, self.comparing = Gathered(config), Comparing()
        self.replay = Replay(self.program, self.config_path)
        self.since, self.lacks, self.gaps, self.no_events, self.told = item.words, item.lacks, [], 0, ""
        self.is_part, self.compared_from = not item.is_start, None
        self.missing_keys = missing_keys(config)

    def _take_lines(self, lines):
        events, moments, parsed = [], [], []
        links = []
        for line in lines:
            match = FRAME.fullmatch(line) if len(line) <= MOST_LINE else None
            frame = datagram = None
            if match is not None and match.group(3) == b"can0":
                frame = Frame(match.group(3), int(match.group(4), 16), match.group(5))
            else:
                match = OTHER_EVENT.fullmatch(line)
                if match is None:
                    self._other_line(line, links)
                    continue
                datagram = match.group(3)
            events.append(line)
            moments.append(int(match.group(1)) * MICROSECONDS + int(match.group(2)))
            parsed.append((frame, None if datagram is None else bytes.fromhex(datagram.decode())))
        if lines:
            self.last_line_at = time.monotonic()
        if events:
            for (frame, datagram), (moment, emits) in zip(parsed, self.replay.ask(moments, events)):
                self.comparing.event()
                for match in emits:
                    if match.group(3) is not None:
                        self._compute(match)
                self.gathered.event(moment, frame, datagram, emits)
        for rule, detail in links:
            self.gathered.link_report(rule, detail)
        self.comparing.settle()

    def _other_line(self, line, links):
        """A report, or a line that is none of the recording."""
        match = REPORT.fullmatch(line)
        if match is None:
            self.no_events += line not in (b"", b"\r")
            return
        rule, detail = int(match.group(3)), (match.group(4) or b"").decode("ascii", "backslashreplace")
        if OF_LINKS.search(line):
            links.append((rule, detail))
        elif self._is_compared(match, rule):
            self.comparing.tell(line)

    def _compute(self, match):
        if self._is_compared(match, int(match.group(3))):
            self.comparing.compute(match.group(0)[:-1])

    def _is_compared(self, match, rule):
        """Whether a report has to be the same in the file and in what `replay` gives."""
        if self.lacks:
            return False
        if not self.is_part:
            return True
        moment = int(match.group(1)) * MICROSECONDS + int(match.group(2))
        self.compared_from = self.compared_from or moment + SETTLING_US
        return moment >= self.compared_from and rule not in (SOURCE_CHANGED, ROW_WATCHED)


def missing_keys(config):
    """The lines of the configuration without which something can't be shown."""
    found = []
    if not config.get("serve", {}).get("record", False):
        found.append(("record = true", "[serve]", "the run writes nothing that could be followed"))
    if not config.get("report", {}).get("sources", False):
        found.append(("sources = true", "[report]", "changes of sources aren't listed"))
    return found
