"""The files of a folder in which runs stand: a new one at each start of a run and when one is as long as it may be; the oldest go.

A file is called `keep-000042-20261128T072200Z-2.log`: the 42nd of the folder, of the run that began then, its second part. The number tells which is
older, whatever the clock said.
"""

import collections
import contextlib
import errno
import os
import re
import time

from onboard.recordings import stamp

from .claims import Claims
from .run_lines import START, counted, head_of_part, moment_of

# a line is on the disk a second after it came: this, and what the disk takes
SYNC_SECONDS = 0.8
AGAIN_SECONDS = 1.0
NAME = re.compile(r"keep-(\d{6,})-\d{8}T\d{6}Z-\d+\.log")
# what the system counts in st_blocks
BLOCK_BYTES = 512

File = collections.namedtuple("File", "number path bytes")


def files_of(folder):
    """The files in the folder, the oldest first, each with the bytes of the disk that it takes."""
    found = []
    with os.scandir(folder) as entries:
        for entry in entries:
            match = NAME.fullmatch(entry.name)
            with contextlib.suppress(FileNotFoundError):
                if match:
                    about = entry.stat()
                    found.append(File(int(match.group(1)), entry.path, max(about.st_size, about.st_blocks * BLOCK_BYTES)))
    return sorted(found)


def sync_folder(folder):
    """Puts the name of a new file on the disk, if the kind of the disk can do it."""
    with contextlib.suppress(OSError):
        opened = os.open(folder, os.O_RDONLY | os.O_DIRECTORY)
        try:
            os.fsync(opened)
        finally:
            os.close(opened)


class Run:
    """A run as far as it stands in files: when it began, how many parts it has, and who claimed which address."""

    def __init__(self, moment):
        self.start = self.moment = moment
        self.parts, self.claims = 0, Claims()

    def take(self, lines):
        """Takes lines that stand in a file now."""
        self.claims.take(lines)
        last = lines[lines.rfind(b"\n", 0, -1) + 1 :]
        self.moment = moment_of(last) or self.moment

    def head(self, line):
        """What stands in front of this line if a file begins with it."""
        return head_of_part(moment_of(line) or self.moment, self.start, self.parts + 1, self.claims) if self.parts else b""

    def file_name(self, number):
        seconds, _, _ = self.start.partition(b".")
        return f"keep-{number:06d}-{stamp(int(seconds))}-{self.parts + 1}.log"


class Files:
    """Writes lines to files. What the disk doesn't take is left, and tried again each second."""

    def __init__(self, folder, most_bytes, all_bytes, teller):
        self.folder, self.most_bytes, self.all_bytes, self.teller = folder, most_bytes, all_bytes, teller
        self.left, self.run = b"", None
        # the open file, and whether it has no line but its head
        self.file, self.path, self.size, self.is_new = None, folder, 0, False
        self.older, self.older_bytes = collections.deque(), 0
        self.again_at, self.sync_at, self.has_failed = 0.0, None, False

    def put(self, lines):
        """Takes lines with their ends."""
        self.left += lines

    def seconds_to_next(self, now):
        """For how long nothing is due, or None if nothing is due until lines come."""
        due = self.again_at if self.left else self.sync_at
        return None if due is None else max(0.0, due - now)

    def tend(self, now):
        """Does what is due. A failure is told once, until a file has taken lines again."""
        try:
            if self.left and now >= self.again_at:
                self._write_out(now)
            if self.sync_at is not None and now >= self.sync_at:
                self._sync()
        except OSError as error:
            self._fail(error, now)

    def end(self, now):
        """Tries for the last time to write what is left, and tells how much of it isn't written."""
        self.again_at = now
        self.tend(now)
        try:
            self._close()
        except OSError as error:
            self._fail(error, now)
        if self.left:
            left = counted(self.left.count(b"\n"))
            self.teller.tell(f"{self.folder}: not written at the end: {left}")

    def _write_out(self, now):
        while self.left:
            count = self._count_for_file()
            if count:
                self._append(self.left[:count])
                self.sync_at = self.sync_at or now + SYNC_SECONDS
            else:
                self._close()
                self._begin()

    def _count_for_file(self):
        """How many bytes of what is left go to the open file: up to the next start of a run, and whole lines as far as there is room."""
        if self.file is None:
            return 0
        start = START.search(self.left, 1 if self.is_new else 0)
        count = start.start() if start else len(self.left)
        if self.size + count <= self.most_bytes:
            return count
        count = self.left.rfind(b"\n", 0, max(0, self.most_bytes - self.size)) + 1
        return count or (self.left.index(b"\n") + 1 if self.is_new else 0)

    def _begin(self):
        """Makes a file for what is left."""
        line = self.left[: self.left.index(b"\n")]
        if self.run is None or START.match(line):
            self.run = Run(moment_of(line))
        self.older = collections.deque(files_of(self.folder))
        self.older_bytes = sum(file.bytes for file in self.older)
        self.path = os.path.join(self.folder, self.run.file_name(self.older[-1].number + 1 if self.older else 1))
        self.file = os.open(self.path, os.O_WRONLY | os.O_CREAT | os.O_EXCL | os.O_CLOEXEC, 0o644)
        self.size, self.is_new = 0, True
        sync_folder(self.folder)
        self._write(self.run.head(line))

    def _append(self, lines):
        """Appends lines. Those that the disk took are no longer left."""
        begun = self.size
        try:
            self._write(lines)
        finally:
            taken = lines[: self.size - begun]
            self.left = self.left[len(taken) :]
            if taken:
                self._took(taken)

    def _write(self, lines):
        """Writes lines; if the disk doesn't take all of them, no piece of one stays in the file."""
        done = 0
        try:
            while done < len(lines):
                done += os.write(self.file, lines[done:])
        finally:
            whole = lines.rfind(b"\n", 0, done) + 1
            self.size += whole
            if whole < done:
                os.ftruncate(self.file, self.size)

    def _took(self, lines):
        self.run.take(lines)
        if self.is_new:
            self.is_new, self.has_failed = False, False
            self.run.parts += 1
            self.teller.tell(f"recording to {self.path}")

    def _sync(self):
        self.sync_at = None
        os.fsync(self.file)
        if os.fstat(self.file).st_nlink == 0:
            raise FileNotFoundError(errno.ENOENT, "somebody removed it", self.path)
        while self.older and self.older_bytes + self.size > self.all_bytes:
            self._remove(self.older.popleft())

    def _remove(self, file):
        self.older_bytes -= file.bytes
        try:
            os.unlink(file.path)
        except OSError as error:
            self.teller.tell(f"{file.path} can't be removed: {error.strerror}")

    def _close(self):
        file, self.file, self.sync_at = self.file, None, None
        if file is not None:
            try:
                os.fsync(file)
            finally:
                os.close(file)

    def _fail(self, error, now):
        """Leaves the file: the next try makes another one. A file that took no line goes."""
        if not self.has_failed:
            self.teller.tell(f"{error.filename or self.path}: {error.strerror}; what comes waits, and is tried again each second")
        self.has_failed, self.again_at = True, now + AGAIN_SECONDS
        with contextlib.suppress(OSError):
            self._close()
        if self.is_new:
            self.is_new = False
            with contextlib.suppress(OSError):
                os.unlink(self.path)
