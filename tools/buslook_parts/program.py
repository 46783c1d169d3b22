"""The program, and how its answers are read."""

import re
import subprocess
import threading
from typing import NamedTuple

from configuration.document import Document, NotToml
from onboard import candump
from onboard.candump import MOST_LINE
from onboard.fast_packets import begins

# longer than every line that can say something, so that of such a line the rest needn't be kept
MOST_BYTES = 8192
LINES_AT_ONCE = 4000
MICROSECONDS = 1_000_000

ANSWER_OF_SHOW = re.compile(rb"line=\d+ (.*)", re.DOTALL)
SHOWN_FRAME = re.compile(rb"prio=\d+ pgn=(\d+) src=(\d+) dst=\d+ len=(\d+)")
# a destination may hold anything; a sentence holds neither of its beginnings a second time
ITEM = re.compile(rb"at=(\d+) s=(\S+) d=(.*) g=\S+ n=\S+ ([$!][^$!]*)", re.DOTALL)
# a line that is surely a frame; of the others the program is asked
FRAME = re.compile(rb"\((\d{1,10})\.(\d{6})\) ([!-~]{1,16}) ([01][0-9A-Fa-f]{7})#((?:[0-9A-Fa-f]{2}){0,8})(?: [^\r]*)?\r?", re.DOTALL)
NO_BUS = (b"udp0", b"tick")
# what `replay` writes: a report, a frame, or a datagram
REPLAYED = re.compile(rb"\((\d+)\.(\d{6})\) (?:rule (\d+)(?: (.*))?|can0 ([0-9A-F]{8})#([0-9A-F]*)|udp0 ([A-Z0-9]{4})#([0-9A-F]*))\n")
MOMENT = re.compile(rb"\((\d{1,10})\.(\d{6})\) ")
NO_LINE = b"-"


class Failure(Exception):
    """What ends the command, and its exit status."""

    def __init__(self, status, why):
        super().__init__(why)
        self.status = status


class Frame(NamedTuple):
    """A frame on the bus: the interface it was seen on, its identifier and its data in hexadecimal digits."""

    interface: bytes
    identifier: int
    data: bytes

    def begins_fast_packet(self):
        """Whether a message begins with it that comes as a fast packet."""
        return self.data != b"" and begins(int(self.data[:2], 16))

    def read(self):
        """The frame with the bytes of its data."""
        return candump.Frame(self.identifier, bytes.fromhex(self.data.decode()))


def read_frame(text):
    """The moment in microseconds and the frame of a line that surely has one; else nothing."""
    match = FRAME.fullmatch(text)
    if match is None or len(text) > MOST_LINE:
        return None
    seconds, fraction, interface, identifier, data = match.groups()
    if interface in NO_BUS:
        return None
    return int(seconds) * MICROSECONDS + int(fraction), Frame(interface, int(identifier, 16), data)


def moment_of(match):
    return int(match.group(1)) * MICROSECONDS + int(match.group(2))


class Dialogue:
    """A command of the program that is given lines, and what it answers."""

    def __init__(self, program, words):
        self.word, self.given = words[0], 0
        try:
            self.run = subprocess.Popen([program, *words], stdin=subprocess.PIPE, stdout=subprocess.PIPE)
        except OSError as error:
            raise Failure(4, f"{program} can't be run: {error.strerror}") from error

    def give(self, lines):
        """Gives lines in the background, since the program may write before it has read all."""
        self.given += len(lines)
        giver = threading.Thread(target=self._write, args=(b"\n".join(lines) + b"\n",))
        giver.start()
        return giver

    def _write(self, text):
        try:
            self.run.stdin.write(text)
            self.run.stdin.flush()
        except OSError:
            pass  # it has ended, which its answers tell

    def answer(self):
        """The next line that the program writes."""
        text = self.run.stdout.readline()
        if not text.endswith(b"\n"):
            self.run.stdout.close()
            raise Failure(4, f"`shipgate {self.word}` ended with status {self.run.wait()} before it had read all")
        return text

    def end(self):
        self.run.stdin.close()
        self.run.stdout.read(1)
        status = self.run.wait()
        if status != 0:
            raise Failure(4, f"`shipgate {self.word}` ended with status {status}")

    def stop(self):
        if self.run.poll() is None:
            self.run.kill()
            self.run.wait()


class Show(Dialogue):
    """What `show` says of lines."""

    def __init__(self, program):
        super().__init__(program, ["show"])

    def ask(self, lines):
        """What was answered to each line, without its number: behind each stands one of no form, which it answers by rule 1 and nothing else."""
        if not lines:
            return []
        first = self.given
        giver = self.give([text for line in lines for text in (line, NO_LINE)])
        answers = [self._items(b"line=%d rule 1\n" % (first + 2 * place)) for place in range(1, len(lines) + 1)]
        giver.join()
        return answers

    def _items(self, end):
        items = []
        while (text := self.answer()) != end:
            items.append(ANSWER_OF_SHOW.fullmatch(text[:-1]).group(1))
        return items


class Replay(Dialogue):
    """What `replay` gives at each line.

    What it writes has the moment of the line that it comes of. So lines that are each later than all before them need no parting, and of the other
    ones each stands between two of no form, which are answered by rule 1 alone, with the moment that was reached.
    """

    def __init__(self, program, config):
        super().__init__(program, ["replay", config])
        self.reached = -1

    def ask(self, moments, lines):
        """For each line, whose moment is known or not, the moment that is reached with it and what was written, as matches of REPLAYED."""
        parts = self._parts(moments, lines)
        texts, ends = [], []
        for part in parts:
            texts += [lines[place] for place in part]
            texts.append(NO_LINE)
            ends.append(b"line=%d" % (self.given + len(texts)))
        giver = self.give(texts)
        answers = [(moment, []) for moment in moments]
        for part, end in zip(parts, ends):
            self._take(part, end, answers)
        giver.join()
        return answers

    def _parts(self, moments, lines):
        """The places of the lines in parts: each line in a part of its own, or behind others that are earlier."""
        parts, most = [[]], self.reached
        for place, moment in enumerate(moments):
            if moment is not None and moment > most:
                parts[-1].append(place)
                most = moment
                continue
            # a line of another form may have any moment up to the one that stands at its beginning
            found = MOMENT.match(lines[place])
            most = max(most, moment_of(found) if found else 0)
            parts += [[place], []]
        return [part for part in parts if part]

    def _take(self, part, end, answers):
        """What was written at the lines of one part, up to the report of the one of no form behind it."""
        place = 0
        while True:
            match = REPLAYED.fullmatch(self.answer())
            if match.group(3) == b"1" and match.group(4) == end:
                break
            moment = moment_of(match)
            while place + 1 < len(part) and answers[part[place]][0] < moment:
                place += 1
            answers[part[place]][1].append(match)
        self.reached = moment_of(match)
        if len(part) == 1:
            answers[part[0]] = (self.reached, answers[part[0]][1])


def checked(program, path):
    """The configuration as its keys and values, once the program accepts it."""
    with open(path, "rb") as file:
        raw = file.read()
    try:
        check = subprocess.run([program, "check", path], stdin=subprocess.DEVNULL, stdout=subprocess.PIPE, check=False)
    except OSError as error:
        raise Failure(4, f"{program} can't be run: {error.strerror}") from error
    if check.returncode == 3:
        raise Failure(3, f"{path} is refused: {check.stdout.decode('utf-8', 'backslashreplace').strip()}")
    if check.returncode != 0:
        raise Failure(4, f"`shipgate check` ended with status {check.returncode}")
    try:
        return Document(raw).root
    except NotToml as error:
        raise Failure(1, f"{path} is accepted, but can't be read here: line {error.place[0]}: {error}") from error


def lines_of(file):
    """The lines of a capture; of one that is too long in any case a part that is too long too."""
    while line := file.readline(MOST_BYTES):
        rest = line
        while rest and not rest.endswith(b"\n"):
            rest = file.readline(MOST_BYTES)
        yield line[:-1] if line.endswith(b"\n") else line


def pieces_of(file):
    piece = []
    for line in lines_of(file):
        piece.append(line)
        if len(piece) == LINES_AT_ONCE:
            yield piece
            piece = []
    if piece:
        yield piece
