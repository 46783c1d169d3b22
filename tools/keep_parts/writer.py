"""The process that writes the files: a disk that doesn't answer stops it, and neither keep nor the command."""

import os
import select
import signal
import time
import traceback

from .files import Files
from .outlets import PIECE_BYTES, WORDS_BYTES, Outlet, OutletTeller

# how long its last words may take
END_SECONDS = 0.5


def begin_writer(tool, signals, folder, most_bytes, all_bytes):
    """Begins the process, which these signals don't end: its number, and the descriptor by which it takes lines until that is closed."""
    reading, writing = os.pipe()
    number = os.fork()
    if number == 0:
        os.close(writing)
        for one in signals:
            signal.signal(one, signal.SIG_IGN)
        os._exit(run_writer(tool, reading, folder, most_bytes, all_bytes))
    os.close(reading)
    return number, writing


def run_writer(tool, reading, folder, most_bytes, all_bytes):
    """What the process does; its status."""
    nowhere = os.open(os.devnull, os.O_RDWR)
    os.dup2(nowhere, 0)
    os.dup2(nowhere, 1)
    words = Outlet("standard error", 2, WORDS_BYTES)
    files = Files(folder, most_bytes, all_bytes, OutletTeller(tool, words))
    status = 0
    try:
        Handover(reading, files).run()
    except Exception:
        words.put(traceback.format_exc().encode().splitlines())
        status = 1
    words.end(time.monotonic() + END_SECONDS)
    return status


class Handover:
    """Takes lines from a pipe, and hands them to the files. While the disk doesn't take what is left, nothing more is read, until keep has ended."""

    def __init__(self, reading, files):
        self.reading, self.files, self.rest = reading, files, b""
        self.comes, self.ends = select.poll(), select.poll()
        self.comes.register(reading, select.POLLIN)
        self.ends.register(reading, 0)

    def run(self):
        is_open = True
        while is_open:
            now = time.monotonic()
            self.files.tend(now)
            seconds = self.files.seconds_to_next(now)
            timeout_ms = None if seconds is None else seconds * 1000
            if self.files.left:
                is_open = not self.ends.poll(timeout_ms)
            elif self.comes.poll(timeout_ms):
                is_open = self._take()
        while self._take():
            pass
        self.files.end(time.monotonic())

    def _take(self):
        """Takes a piece, and says whether there was one: at the end there is none. What has no line's end waits for it."""
        piece = os.read(self.reading, PIECE_BYTES)
        text = self.rest + piece
        end = text.rfind(b"\n") + 1
        self.files.put(text[:end])
        self.rest = text[end:]
        return bool(piece)
