"""Sentences of NMEA 0183 (IEC 61162-1), and the datagrams of IEC 61162-450 that carry them. docs/formats.md has the grammar of both."""

import contextlib
import functools
import operator
import re
from typing import NamedTuple

HEADER = b"UdPbC\0"
MOST_DATAGRAM_BYTES, MOST_LINES = 1472, 64
# of a sentence, with the CR and LF that it ends with
MOST_SENTENCE_BYTES = 120
END = b"\r\n"
# the count of a line has three digits, and begins anew after this one
MOST_COUNT = 999
# the start, the address with its fields, and the sum
SENTENCE = re.compile(rb"([$!])([A-Z0-9]{3,12}(?:,[^\x00-\x1f\x7f-\xff$!\\*]*)?)(?:\*([0-9A-Fa-f]{2}))?")
# TAG blocks, a sentence, and what it ends with
SENTENCE_LINE = rb"([$!][ -~]{1,%d}\r\n)" % (MOST_SENTENCE_BYTES - len(b"$") - len(END))
TAGGED_LINE = re.compile(rb"((?:\\[^\\\r\n]*\\)+)" + SENTENCE_LINE)
# the parameter of a TAG block that names the source
SOURCE = re.compile(rb"[\\,][sS]:([A-Z]{2}[0-9]{4})(?=[,*])")
LINE, PLAIN_LINE = re.compile(rb"(?:\\[^\\\r\n]*\\)*" + SENTENCE_LINE), re.compile(SENTENCE_LINE)

# why a line has no sentence: each a constant, so that they can be counted
NO_FORM = "a line that is no sentence"
TOO_LONG = f"a sentence of more than {MOST_SENTENCE_BYTES} bytes"
NO_SUM = "a sentence without a sum"
WRONG_SUM = "a sentence with a wrong sum"


class NoSentence(ValueError):
    """A line has no sentence that can be passed on; its text is one of the reasons above."""


def sum_of(content):
    """The sum of a sentence or a TAG block, of the bytes between its ends."""
    return b"%02X" % functools.reduce(operator.xor, content, 0)


class Sentence(NamedTuple):
    """A sentence by its start, `$` or `!`, and what stands between that and the sum."""

    start: bytes
    content: bytes

    @property
    def text(self):
        return b"%b%b*%b%b" % (self.start, self.content, sum_of(self.content), END)

    @property
    def kind(self):
        """Its formatter; of a maker's own sentence the whole address. Encapsulated data have `!` before it."""
        address = self.content.partition(b",")[0].decode()
        is_makers_own = address.startswith("P") or len(address) != len("GPGLL")
        return self.start.decode().strip("$") + (address if is_makers_own else address[len("GP") :])


def read_line(text, needs_sum=True):
    """The sentence of a line, with or without its end; NoSentence says why there is none.

    What stands before the last start is passed over: TAG blocks, noise of a serial line, and a sentence that another one broke off."""
    begin = max(text.rfind(b"$"), text.rfind(b"!"), 0)
    match = SENTENCE.fullmatch(text[begin:].rstrip())
    if match is None:
        raise NoSentence(NO_FORM)
    start, content, digits = match.groups()
    sentence = Sentence(start, content)
    if len(sentence.text) > MOST_SENTENCE_BYTES:
        raise NoSentence(TOO_LONG)
    if digits is None and needs_sum:
        raise NoSentence(NO_SUM)
    if digits is not None and digits.upper() != sum_of(content):
        raise NoSentence(WRONG_SUM)
    return sentence


def is_plain(datagram):
    """Whether it has no header of IEC 61162-450, and so sentences alone at most, as the gateway sends them to plain.group."""
    return not datagram.startswith(HEADER)


def sentences_of(datagram):
    """The sentences of a datagram, without its header and their TAG blocks, or of one that has sentences alone; lines of another form are left out."""
    form, lines = (PLAIN_LINE, datagram) if is_plain(datagram) else (LINE, datagram[len(HEADER) :])
    found = map(form.fullmatch, lines.splitlines(keepends=True))
    return [match.group(1) for match in found if match is not None]


def said_by(datagram):
    """The sentences of a datagram, each behind the source that its TAG blocks name, the last one where there are several; lines without one, or of another
    form, are left out."""
    if is_plain(datagram):
        return
    for match in map(TAGGED_LINE.fullmatch, datagram[len(HEADER) :].splitlines(keepends=True)):
        sources = [] if match is None else SOURCE.findall(match.group(1))
        if sources:
            with contextlib.suppress(NoSentence):
                yield sources[-1].decode(), read_line(match.group(2))


class Wrapper:
    """Puts the sentences of a source into datagrams. The TAG block of each line names the source and counts its lines."""

    def __init__(self, identifier):
        self.identifier, self.count = identifier.encode(), 0

    def _line_of(self, sentence):
        self.count = self.count % MOST_COUNT + 1
        parameters = b"s:%b,n:%d" % (self.identifier, self.count)
        return b"\\%b*%b\\%b" % (parameters, sum_of(parameters), sentence.text)

    def datagrams_of(self, sentences):
        """The datagrams of these sentences in their order, each as full as may be."""
        lines, length = [], len(HEADER)
        for line in map(self._line_of, sentences):
            if len(lines) == MOST_LINES or length + len(line) > MOST_DATAGRAM_BYTES:
                yield HEADER + b"".join(lines)
                lines, length = [], len(HEADER)
            lines.append(line)
            length += len(line)
        if lines:
            yield HEADER + b"".join(lines)
