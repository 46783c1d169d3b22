"""Puts the parts of a run together: to the lines of its recording as they would stand in one file, without those that keep added."""

import collections

from onboard.lines import PIECE_BYTES, LineCutter
from onboard.words import LeftOut

from .run_lines import GOES_ON, KNOWN, LOST, START, counted, is_recorded, moment_of

Part = collections.namedtuple("Part", "start number path")


class NoRun(ValueError):
    """The files aren't the parts of one run; the text says why."""


class Joining:
    """The parts of a run on their way into one text."""

    def __init__(self, paths, teller):
        self.teller, self.left_out, self.is_whole = teller, LeftOut(teller), True
        self.parts = sorted(part for part in map(self._part_of, paths) if part)
        for before, part in zip(self.parts, self.parts[1:]):
            if before.start != part.start:
                runs = f"{before.path} is of the run of {before.start.decode()}, and {part.path} of that of {part.start.decode()}"
                raise NoRun(f"{runs}: name the parts of one run")
            if before.number == part.number:
                raise NoRun(f"{before.path} and {part.path} are both part {part.number} of the run: name one of them")

    def _part_of(self, path):
        """Which part of which run a file is, as its first line says; None if it has no line, as after a loss of power."""
        first = next(self._lines_of(path), None)
        if first is None:
            self._lacks(f"{path} has no whole line")
            return None
        goes_on = GOES_ON.fullmatch(first)
        if goes_on:
            return Part(goes_on.group(1), int(goes_on.group(2)), path)
        if START.fullmatch(first):
            return Part(moment_of(first), 1, path)
        raise NoRun(f"{path}: its first line is neither the start of a run nor of a part of one")

    def _lacks(self, what):
        self.teller.tell(what)
        self.is_whole = False

    def _lines_of(self, path):
        """The lines of a file. What has no end is none: a full disk or a loss of power has cut it."""
        cutter = LineCutter(self.left_out)
        with open(path, "rb") as file:
            for piece in iter(lambda: file.read(PIECE_BYTES), b""):
                yield from cutter.lines_of(piece)

    def write(self, out):
        """Writes the recording, and tells what it lacks."""
        before = 0
        for part in self.parts:
            if part.number != before + 1:
                missing = f"part {before + 1}" if part.number == before + 2 else f"parts {before + 1} to {part.number - 1}"
                self._lacks(f"not among the files: {missing} of the run of {part.start.decode()}; {part.path} begins with the claims of before")
            self._write_part(part, part.number == before + 1, out)
            before = part.number

    def _write_part(self, part, is_next, out):
        """Writes the recorded lines of a part, without its head if it comes next."""
        is_head, dropped = is_next, 0
        for line in self._lines_of(part.path):
            is_head = is_head and (GOES_ON.fullmatch(line) is not None or line.endswith(KNOWN))
            if is_recorded(line) and not is_head:
                out.write(line + b"\n")
            lost = LOST.fullmatch(line)
            dropped += int(lost.group(1)) if lost else 0
        if dropped:
            self._lacks(f"{part.path}: missing, as `tick lost` says there: {counted(dropped)}")
