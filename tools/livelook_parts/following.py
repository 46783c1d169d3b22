"""Follows what a run writes: a file that grows, or the folder of `keep`."""

import contextlib
import errno
import os
import re
import stat
from typing import NamedTuple

from keep_parts.files import files_of
from keep_parts.run_lines import GOES_ON, KNOWN, LOST, MOMENT, START, counted, moment_of
from onboard.lines import LineCutter
from onboard.words import LeftOut

# how far back it looks for the start of a run, and where it begins in a file if there is none
MOST_BACK_BYTES, MIDDLE_BYTES = 200_000_000, 20_000_000
PIECE_BYTES, SEARCHED_BYTES, MOST_START_BYTES = 1 << 15, 1 << 20, 64
# the start of a run, also where the run before it ended in half a line
ANY_START = re.compile(rb"\(" + MOMENT + rb"\) tick start$", re.MULTILINE)


class Begin(NamedTuple):
    """From here on it is looked at anew: whether that is the start of the run, words for it, and why what is shown isn't what took place, if it isn't."""

    is_start: bool
    words: str
    lacks: str


class Gap(NamedTuple):
    """Lines are missing here."""

    words: str


class Lines(NamedTuple):
    """Lines as they stand in the file."""

    lines: list


def last_start(opened, size):
    """Where the last start of a run stands in a file, as far as it is looked for."""
    low, end = max(0, size - MOST_BACK_BYTES), size
    while end > low:
        begin = max(low, end - SEARCHED_BYTES)
        found = list(ANY_START.finditer(os.pread(opened, end - begin + MOST_START_BYTES, begin)))
        if found:
            return begin + found[-1].start()
        end = begin
    return None


def without_half(line):
    """A start of a run without what stands before it: the half line in which another run ended."""
    match = ANY_START.search(line)
    return match.group(0) if match else line


class Follower:
    """Gives what a run writes, piece by piece, from the start of the run on if that isn't too far back."""

    def __init__(self, path, teller):
        self.path, self.left_out = path, LeftOut(teller)
        self.opened, self.opened_path, self.number, self.offset, self.known = None, path, None, 0, None
        self.cutter = None
        # the run whose parts are read, the last of these, and whether the claims at its head are known
        self.run, self.part, self.skips_head = None, 0, False
        self.begin, self.trouble = None, f"{path}: nothing is there yet"

    def turn(self):
        """What came since the last turn: pieces in their order, or nothing."""
        try:
            if self.opened is None:
                self._open()
            return self._read() if self.opened is not None else []
        except OSError as error:
            self.close()
            self.trouble = f"{error.filename or self.path}: {error.strerror}"
            return []

    def anew(self):
        """Begins again as at the start."""
        self.close()
        self.run, self.part, self.number = None, 0, None

    def close(self):
        if self.opened is not None:
            os.close(self.opened)
        self.opened = None

    def left_bytes(self):
        """How much stands in the files that isn't read yet."""
        if self.opened is None:
            return 0
        with contextlib.suppress(OSError):
            newer = [file for file in files_of(self.path) if file.number > self.number] if self.number is not None else []
            return max(0, os.fstat(self.opened).st_size - self.offset) + sum(file.bytes for file in newer)
        return 0

    def _open(self):
        if os.path.isdir(self.path):
            self._open_of_folder()
        else:
            self._open_of_file()

    def _open_of_file(self):
        self._take_file(self.path)
        size = os.fstat(self.opened).st_size
        start = last_start(self.opened, size)
        self.offset = start if start is not None else max(0, size - MIDDLE_BYTES)
        # where it begins in the middle, the first line may be a half one
        self.cutter.is_skipping = start is None and self.offset > 0

    def _open_of_folder(self):
        files = files_of(self.path)
        if not files:
            self.trouble = f"{self.path}: keep has no file there yet"
            return
        back, chosen = 0, files[-1]
        for file in reversed(files):
            back += file.bytes
            if back > MOST_BACK_BYTES:
                break
            with open(file.path, "rb") as opened:
                if START.match(opened.readline()):
                    chosen = file
                    break
        self._take_file(chosen.path)
        self.number = chosen.number

    def _take_file(self, path):
        # a pipe isn't even opened: its writer would wait for what is read here
        if not stat.S_ISREG(os.stat(path).st_mode):
            raise OSError(errno.ESPIPE, "it is neither a file nor the folder of keep", path)
        self.opened, self.opened_path, self.offset = os.open(path, os.O_RDONLY | os.O_CLOEXEC), path, 0
        self.known, self.cutter, self.trouble = os.fstat(self.opened), LineCutter(self.left_out), ""
        self.begin = Begin(False, "since the middle of a run", "the start of the run isn't in what is read: devices that claimed before it aren't known")

    def _read(self):
        piece = os.pread(self.opened, PIECE_BYTES, self.offset)
        if not piece:
            self._look_for_another()
            return []
        self.offset += len(piece)
        return self._sorted(self.cutter.lines_of(piece))

    def _look_for_another(self):
        """At the end of a file: whether it was replaced or cut, and whether keep has begun the next one."""
        if self.number is not None:
            newer = next((file for file in files_of(self.path) if file.number > self.number), None)
            about = os.fstat(self.opened)
            # what was written meanwhile is read first
            if newer is not None and about.st_size <= self.offset:
                self.close()
                self._take_file(newer.path)
                self.number = newer.number
            elif about.st_nlink == 0 or about.st_size < self.offset:
                self.anew()
            return
        about = os.stat(self.path)
        if (about.st_dev, about.st_ino) != (self.known.st_dev, self.known.st_ino) or about.st_size < self.offset:
            self.anew()

    def _sorted(self, lines):
        """Lines in pieces, parted where a run or a part begins and where lines are missing. Claims that are known by an earlier part are left out."""
        items, kept = [], []
        for line in lines:
            if b") tick " in line:
                line = without_half(line)
                begins = self._begins(line)
                lost = LOST.fullmatch(line)
                if begins or lost:
                    items += [Lines(kept), begins or Gap(f"keep dropped {counted(int(lost.group(1)))} there, since the disk was too slow")]
                    kept = []
            elif self.skips_head and line.endswith(KNOWN):
                continue
            elif self.begin is not None:
                items += [Lines(kept), self.begin]
                self.begin, kept = None, []
            else:
                self.skips_head = False
            kept.append(line)
        return [item for item in [*items, Lines(kept)] if item != Lines([])]

    def _begins(self, line):
        """Whether a run is looked at anew from this line on."""
        start, part = START.match(line), GOES_ON.fullmatch(line)
        if start:
            self.run, self.part, self.begin, self.skips_head = moment_of(line), 1, None, False
            return Begin(True, "since its start", "")
        if part is None:
            return None
        run, number = part.group(1), int(part.group(2))
        is_next = run == self.run and number == self.part + 1
        self.run, self.part, self.begin, self.skips_head = run, number, None, is_next
        return None if is_next else Begin(False, f"since part {number} of its recording", "")
