"""A document of TOML 1.1 with the place of each of its keys and values.

The program reads TOML 1.1. The standard library's reader, which is there from Python 3.11 on, reads 1.0 alone and tells no places, so a text
is read here. Values are str, bool, int, float, Array, Table and Moment.
"""

import bisect
import math
import re

# arrays and inline tables in one another, and parts of a key: as many as the program takes
MOST_DEEP = 80
LEAST_INTEGER, MOST_INTEGER = -(2**63), 2**63 - 1

CONTROL = "\x00-\x08\x0a-\x1f\x7f"
BLANK = re.compile(r"[ \t]*")
LINE_END = re.compile(r"\r?\n")
GAP = re.compile(rf"(?:[ \t]|\r?\n|#[^{CONTROL}]*)*")
BARE_KEY = re.compile(r"[A-Za-z0-9_-]+")
WORD = re.compile(r"[A-Za-z0-9_+.:-]+(?: [0-9][A-Za-z0-9_+.:-]*)?")
INTEGER = re.compile(r"[+-]?(?:0|[1-9](?:_?[0-9])*)")
PREFIXED = {"0x": (re.compile("0x[0-9A-Fa-f](?:_?[0-9A-Fa-f])*"), 16), "0o": (re.compile("0o[0-7](?:_?[0-7])*"), 8), "0b": (re.compile("0b[01](?:_?[01])*"), 2)}
FLOAT = re.compile(r"[+-]?(?:0|[1-9](?:_?[0-9])*)(?:\.[0-9](?:_?[0-9])*)?(?:[eE][+-]?[0-9](?:_?[0-9])*)?")
NAMED_FLOAT = re.compile(r"[+-]?(?:inf|nan)")
MOMENT = re.compile(
    r"(?:(\d{4})-(\d\d)-(\d\d))?(?:(?<=\d)[Tt ](?=\d)|(?<!\d)|$)(?:(\d\d):(\d\d)(?::(\d\d)(?:\.\d+)?)?(?:[Zz]|[+-](\d\d):(\d\d))?)?", re.ASCII)
# what stands for itself in a text, by its quote and by whether it may go over several lines
PLAIN = {
    ('"', False): re.compile(rf'[^"\\{CONTROL}]+'), ('"', True): re.compile(r'(?:[^"\\\x00-\x08\x0b-\x1f\x7f]|\r(?=\n))+'),
    ("'", False): re.compile(rf"[^'{CONTROL}]+"), ("'", True): re.compile(r"(?:[^'\x00-\x08\x0b-\x1f\x7f]|\r(?=\n))+"),
}
ESCAPE = re.compile(r'[btnfre"\\]|x[0-9A-Fa-f]{2}|u[0-9A-Fa-f]{4}|U[0-9A-Fa-f]{8}')
ESCAPED = {"b": "\b", "t": "\t", "n": "\n", "f": "\f", "r": "\r", "e": "\x1b", '"': '"', "\\": "\\"}
LINES_JOINED = re.compile(r"[ \t]*\r?\n(?:[ \t]|\r?\n)*")


class NotToml(Exception):
    """Why the text isn't TOML, and the place (counted from 0) in it."""

    def __init__(self, place, why):
        super().__init__(why)
        self.place = place


class Moment(str):
    """A date, a time or both, as written."""


class Array(list):
    """Values in brackets, and where each of them stands."""

    def __init__(self):
        super().__init__()
        self.places = []


class Table(dict):
    """Values by their names, where each stands, and what made the table: a header's path, dots, its own header, or braces."""

    def __init__(self, origin):
        super().__init__()
        self.origin, self.places = origin, {}


class TablesOfHeaders(Array):
    """The tables of headers in double brackets: only these grow."""


class Document:
    """A text as its table, with what needs TOML 1.1 in it."""

    def __init__(self, raw):
        """Reads the bytes of a file; raises NotToml."""
        self.starts = [0]
        self.newer = []
        try:
            self.text = raw.decode()
        except UnicodeDecodeError as error:
            self.text = raw[: error.start].decode()
            self.count_lines()
            raise NotToml(self.place(len(self.text)), f"the byte {raw[error.start]:#04x} isn't UTF-8") from error
        self.count_lines()
        self.root = Table("header")
        try:
            Reader(self).lines()
        except Stop as stop:
            raise NotToml(self.place(stop.at), str(stop)) from stop

    def count_lines(self):
        self.starts += [match.end() for match in re.finditer("\n", self.text)]

    def place(self, at):
        """Line and column, both counted from 1."""
        line = bisect.bisect_right(self.starts, at)
        return line, at - self.starts[line - 1] + 1

    def written(self, span):
        """What stands there."""
        return self.text[span[0] : span[1]]


class Stop(Exception):
    """Why reading ended at a place of the text."""

    def __init__(self, at, why):
        super().__init__(why)
        self.at = at


class Reader:
    """Goes over the text once."""

    def __init__(self, document):
        self.document, self.text, self.section = document, document.text, []
        self.at = 1 if self.text.startswith("\ufeff") else 0

    # ---- steps

    def skip(self, pattern):
        self.at = pattern.match(self.text, self.at).end()

    def sees(self, words):
        return self.text.startswith(words, self.at)

    def stop(self, why, at=None):
        raise Stop(self.at if at is None else at, why)

    def here(self):
        """What stands at this place, in words."""
        if self.at >= len(self.text):
            return "the file ends here"
        found = self.text[self.at]
        return "the line ends here" if found in "\r\n" else f"here stands {found!r}"

    def need(self, words, why):
        if not self.sees(words):
            self.stop(f"{why}; {self.here()}")
        self.at += len(words)

    def is_newer(self, at, what):
        self.document.newer.append((self.document.place(at), what))

    # ---- lines

    def lines(self):
        self.skip(GAP)
        while self.at < len(self.text):
            if self.sees("["):
                self.header()
            else:
                self.pair(self.document.root, self.section)
            self.line_end()
            self.skip(GAP)

    def line_end(self):
        self.skip(BLANK)
        if self.at < len(self.text) and not self.sees("#") and not LINE_END.match(self.text, self.at):
            self.stop(f"the line should end; {self.here()}")

    def header(self):
        start, is_list = self.at, self.sees("[[")
        self.at += 2 if is_list else 1
        self.skip(BLANK)
        key = self.key()
        self.need("]]" if is_list else "]", "the header isn't closed")
        table = self.through_headers(self.document.root, key[:-1], start)
        self.define_header(table, key[-1], is_list, (start, self.at))
        self.section = key

    def define_header(self, table, name, is_list, span):
        found = table.get(name)
        if is_list and (found is None or isinstance(found, TablesOfHeaders)):
            if found is None:
                found = table[name] = TablesOfHeaders()
                table.places[name] = (span, span)
            found.append(Table("header"))
            found.places.append(span)
        elif not is_list and found is None:
            table[name] = Table("header")
            table.places[name] = (span, span)
        elif not is_list and isinstance(found, Table) and found.origin == "path":
            found.origin = "header"
            table.places[name] = (span, span)
        else:
            self.stop(f"{name!r} stands above already", span[0])

    def through_headers(self, table, path, at):
        """The table to which headers lead: on the way through an array of them its last one."""
        for name in path:
            found = table.get(name)
            if found is None:
                found = table[name] = Table("path")
                table.places[name] = ((at, self.at), (at, self.at))
            if isinstance(found, TablesOfHeaders):
                found = found[-1]
            if not isinstance(found, Table) or found.origin == "braces":
                self.stop(f"{name!r} isn't a table that can be added to", at)
            table = found
        return table

    def through_dots(self, table, path, at):
        """The table to which the dots of a key lead: none that has a header of its own."""
        for name in path:
            found = table.get(name)
            if found is None:
                found = table[name] = Table("dots")
                table.places[name] = ((at, self.at), (at, self.at))
            if not isinstance(found, Table) or found.origin in ("header", "braces"):
                self.stop(f"{name!r} stands above already, and can't be added to", at)
            found.origin = "dots"
            table = found
        return table

    def pair(self, table, section, depth=MOST_DEEP):
        start = self.at
        key = self.key()
        written = self.text[start : self.at].rstrip(" \t")
        self.need("=", "a key and = are wanted" if not table.origin == "braces" else "= is wanted behind a key")
        self.skip(BLANK)
        begin = self.at
        value = self.value(depth)
        table = self.through_dots(self.through_headers(table, section, start), key[:-1], start)
        if key[-1] in table:
            self.stop(f"{key[-1]!r} stands above already in the same table", start)
        table[key[-1]] = value
        table.places[key[-1]] = ((start, start + len(written)), (begin, self.at))

    def key(self):
        """The parts of a key between dots."""
        parts = []
        while len(parts) < MOST_DEEP:
            bare = BARE_KEY.match(self.text, self.at)
            if self.sees('"') or self.sees("'"):
                parts.append(self.quoted(self.text[self.at], False))
            elif bare is None:
                self.stop(f"a key is wanted; {self.here()}")
            else:
                parts.append(bare.group())
                self.at = bare.end()
            self.skip(BLANK)
            if not self.sees("."):
                return parts
            self.at += 1
            self.skip(BLANK)
        return self.stop(f"a key has more than {MOST_DEEP} parts")

    # ---- values

    def value(self, depth):
        if self.sees("[") or self.sees("{"):
            if depth == 0:
                self.stop(f"arrays and tables stand more than {MOST_DEEP} deep in one another")
            return self.array(depth - 1) if self.sees("[") else self.braces(depth - 1)
        for quote in '"', "'":
            if self.sees(quote):
                return self.quoted(quote, self.sees(3 * quote))
        return self.word()

    def array(self, depth):
        found, start = Array(), self.at
        self.at += 1
        while True:
            self.skip(GAP)
            if self.sees("]"):
                self.at += 1
                return found
            begin = self.at
            found.append(self.value(depth))
            found.places.append((begin, self.at))
            self.skip(GAP)
            if not self.sees("]"):
                self.after_element(",", "]", start)

    def after_element(self, comma, closing, start):
        if not self.sees(comma):
            line, _ = self.document.place(start)
            self.stop(f"a comma or {closing} is wanted, for what began in line {line}; {self.here()}")
        self.at += 1

    def braces(self, depth):
        found, start = Table("open"), self.at
        self.at += 1
        while True:
            begin = self.at
            self.skip(GAP)
            self.note_gap(begin)
            if self.sees("}"):
                self.at += 1
                return closed(found)
            self.pair(found, [], depth)
            begin = self.at
            self.skip(GAP)
            self.note_gap(begin)
            if not self.sees("}"):
                self.after_element(",", "}", start)
                comma = self.at - 1
                if self.text[GAP.match(self.text, self.at).end() :].startswith("}"):
                    self.is_newer(comma, "a comma before } of a table in braces")

    def note_gap(self, begin):
        if "\n" in self.text[begin : self.at]:
            self.is_newer(begin, "a line's end in a table in braces")

    def quoted(self, quote, is_long):
        start = self.at
        self.at += 3 if is_long else 1
        if is_long and LINE_END.match(self.text, self.at):
            self.skip(LINE_END)
        parts = []
        while True:
            plain = PLAIN[quote, is_long].match(self.text, self.at)
            if plain is not None:
                parts.append(plain.group())
                self.at = plain.end()
            if self.sees(quote):
                quotes = re.match(quote + "+", self.text[self.at : self.at + 6]).end() if is_long else 1
                if not is_long or quotes in (3, 4, 5):
                    self.at += quotes
                    parts.append(quote * (quotes - 3))
                    return "".join(parts)
                if quotes == 6:
                    self.stop("six quotes in a row end no text")
                parts.append(quote * quotes)
                self.at += quotes
            elif quote == '"' and self.sees("\\"):
                parts.append(self.escape(is_long))
            else:
                line, _ = self.document.place(start)
                self.stop(f"the text in quotes that began in line {line} isn't closed; {self.here()}")

    def escape(self, is_long):
        self.at += 1
        joined = LINES_JOINED.match(self.text, self.at) if is_long else None
        if joined is not None:
            self.at = joined.end()
            return ""
        match = ESCAPE.match(self.text, self.at)
        if match is None:
            self.stop("behind a backslash stands none of b e f n r t \" \\ x u U: write \\\\, or put the text in '", self.at - 1)
        written = match.group()
        if written[0] in "ex":
            self.is_newer(self.at - 1, f"\\{written}")
        self.at = match.end()
        if written in ESCAPED:
            return ESCAPED[written]
        number = int(written[1:], 16)
        if number > 0x10FFFF or 0xD800 <= number < 0xE000:
            self.stop(f"\\{written} is no character", match.start() - 1)
        return chr(number)

    def word(self):
        match = WORD.match(self.text, self.at)
        if match is None:
            self.stop(f"a value is wanted; {self.here()}")
        try:
            value = value_of(match.group(), lambda what: self.is_newer(match.start(), what))
        except ValueError as error:
            self.stop(str(error))
        self.at = match.end()
        return value


def closed(table):
    """A table in braces can't be added to, and neither can those that its dots made."""
    table.origin = "braces"
    for value in table.values():
        if isinstance(value, Table) and value.origin == "dots":
            closed(value)
    return table


def value_of(word, is_newer):
    """What a word without quotes says; raises ValueError."""
    if word in ("true", "false"):
        return word == "true"
    if re.match(r"[0-9]+[-:]", word):
        return moment_of(word, is_newer)
    if word[:2] in PREFIXED:
        pattern, base = PREFIXED[word[:2]]
        return integer_of(word, pattern.fullmatch(word) and int(word[2:].replace("_", ""), base))
    if INTEGER.fullmatch(word):
        return integer_of(word, int(word.replace("_", "")) if len(word) < 40 else MOST_INTEGER + 1)
    if NAMED_FLOAT.fullmatch(word):
        return float(word)
    if FLOAT.fullmatch(word) is None:
        raise ValueError(f"{word[:40]} is no number, and a text needs quotes")
    value = float(word.replace("_", ""))
    if math.isinf(value):
        raise ValueError(f"{word[:40]} is too great for a number")
    return value


def integer_of(word, value):
    if value is None:
        raise ValueError(f"{word[:40]} is no number, and a text needs quotes")
    if not LEAST_INTEGER <= value <= MOST_INTEGER:
        raise ValueError(f"{word[:40]} is outside the whole numbers of 64 bits")
    return value


def moment_of(word, is_newer):
    match = MOMENT.fullmatch(word)
    year, month, day, hour, minute, second, *offset = (None, ) * 8 if match is None else (part and int(part) for part in match.groups())
    is_date = year is not None and 1 <= month <= 12 and 1 <= day <= days_of(year, month)
    is_time = hour is not None and hour < 24 and minute < 60 and (second is None or second <= 60) and (offset[0] is None or (offset[0] < 24 and offset[1] < 60))
    is_local = match is not None and re.search(r"[Zz]$|[+-]\d\d:\d\d$", word) is None
    if match is None or not (is_date or year is None) or not (is_time or hour is None) or (year is None and not is_local):
        raise ValueError(f"{word[:40]} is no date and no time, and a text needs quotes")
    if hour is not None and second is None:
        is_newer("a time without seconds")
    return Moment(word)


def days_of(year, month):
    if month == 2:
        return 29 if year % 4 == 0 and (year % 100 != 0 or year % 400 == 0) else 28
    return 30 if month in (4, 6, 9, 11) else 31
