"""The keys of a configuration with what each allows, read off docs/configuration.md: it is said there and nowhere else."""

import collections
import re

from onboard.identifiers import NAME_FIELDS, name_fields

from .pages import CONFIGURATION, PageChanged, text_of


class Form:
    """What a value has to be: its type, the test of its range, and the words of the page for it."""

    def __init__(self, allowed, kind, is_allowed=None, most=None):
        self.allowed, self.kind, self.is_allowed, self.most = allowed, kind, is_allowed, most


Key = collections.namedtuple("Key", "name form default is_required")
Row = collections.namedtuple("Row", "name words pgns selector values sentences talker heard sent_pgn")


def text_form(pattern):
    compiled = re.compile(pattern, re.ASCII)
    return lambda text: compiled.fullmatch(text) is not None


def is_endpoint(text):
    """An address and a port in decimal, without zeros in front."""
    match = re.fullmatch(r"(\d+)\.(\d+)\.(\d+)\.(\d+):(\d+)", text, re.ASCII)
    if match is None or any(len(part) > 1 and part[0] == "0" or len(part) > 5 for part in match.groups()):
        return False
    *parts, port = map(int, match.groups())
    return all(part < 256 for part in parts) and 0 < port < 65536


def pattern_of(text):
    """A pattern as its fields; None where it is none. A whole NAME is the field of all its bits."""
    if re.fullmatch("[0-9A-Fa-f]{16}", text):
        return {"name": int(text, 16)}
    stated, widths = {}, list(NAME_FIELDS)
    for part in text.split(" "):
        match = re.fullmatch(r"(\w+)=(\d{1,7})", part, re.ASCII)
        place = next((place for place, (field, width) in enumerate(widths) if match and match.group(1) == field and not int(match.group(2)) >> width), None)
        if place is None:
            return None
        stated[match.group(1)] = int(match.group(2))
        del widths[: place + 1]
    return stated


def is_matched(pattern, name):
    """Whether a NAME is one of those that a pattern is of."""
    stated = pattern_of(pattern)
    fields = {"name": name, **name_fields(name)}
    return all(fields[field] == value for field, value in stated.items())


def cells_of(line):
    """The cells of a row of a table."""
    return [cell.strip() for cell in line.strip("|").split(" | ")]


class Page:
    """docs/configuration.md as tables and paragraphs."""

    def __init__(self):
        self.text = text_of(CONFIGURATION)
        self.runs = self.runs_of_keys()
        self.tables = self.tables_of_keys()
        self.rows = self.rows_of_page()
        self.quantities = [cells[0].strip("`") for cells in self.table("Q")]

    def found(self, pattern, what):
        match = re.search(pattern, self.text, re.MULTILINE)
        if match is None:
            raise PageChanged(CONFIGURATION, f"{what} isn't where it was")
        return match

    def paragraph(self, beginning):
        """A point of a list, as plain words."""
        return self.found(rf"^- ({beginning}.*)$", f"the point that begins with {beginning!r}").group(1).replace("`", "")

    def table(self, head):
        """The rows below a table's head, each as its cells."""
        found = self.found(rf"^(\| {head} \|.*)\n\|[-|]*\n", f"the table of {head!r}")
        columns, rows = len(cells_of(found.group(1))), []
        for line in self.text[found.end() :].splitlines():
            if not line.startswith("|"):
                break
            rows.append(cells_of(line))
            if len(rows[-1]) != columns:
                raise PageChanged(CONFIGURATION, f"in the table of {head!r} this row hasn't {columns} cells: {line}")
        return rows

    def form_of(self, words):
        """The form that the table's words for a value mean."""
        number = re.fullmatch(r"(\d+) to (\d+)", words)
        listed = re.fullmatch(r"a list of at most (\d+) (patterns|identifiers)", words)
        identifier = "two capital letters and four digits"
        if number is not None:
            least, most = map(int, number.groups())
            return Form(f"{words}, a whole number without quotes and without a point", int, lambda value: least <= value <= most)
        if listed is not None and listed.group(2) == "patterns":
            return Form(f"{words}. {self.paragraph('A pattern is')}", list, lambda text: pattern_of(text) is not None, int(listed.group(1)))
        if listed is not None:
            return Form(f"{words}, each of {identifier}", list, text_form("[A-Z]{2}[0-9]{4}"), int(listed.group(1)))
        forms = {
            "16 hexadecimal digits": Form(f"{words} in quotes, of either case", str, text_form("[0-9A-Fa-f]{16}")),
            identifier: Form(f"{words}, in quotes", str, text_form("[A-Z]{2}[0-9]{4}")),
            "two capital letters": Form(f"{words}, in quotes", str, text_form("[A-Z]{2}")),
            "four capital letters or digits": Form(f"{words}, in quotes", str, text_form("[A-Z0-9]{4}")),
            "a transmission group": Form("four capital letters or digits, in quotes", str, text_form("[A-Z0-9]{4}")),
            "an address": Form(self.paragraph("An address is"), str, is_endpoint),
            "true or false": Form(f"{words}, without quotes", bool),
            "a text": Form(self.paragraph("A text of"), str, text_form("[ -~]{0,32}")),
        }
        if words not in forms:
            raise PageChanged(CONFIGURATION, f"no form is known for {words!r}")
        return forms[words]

    def runs_of_keys(self):
        """The keys in the order of the page: each table with those that stand one after the other. `preset.N` and `row.R` stand for each of them."""
        runs = []
        for cells in self.table("Key"):
            for path in re.findall("`([^`]+)`", cells[0]):
                table, name = path.rsplit(".", 1)
                if not runs or runs[-1][0] != table:
                    runs.append((table, []))
                runs[-1][1].append(Key(name, self.form_of(cells[1]), cells[2].strip("`"), cells[2].startswith("required")))
        return runs

    def tables_of_keys(self):
        """All keys of each table, tables and keys in the order of the page."""
        tables = {}
        for table, keys in self.runs:
            tables.setdefault(table, []).extend(keys)
        return tables

    def rows_of_page(self):
        """The rows: their words; the PGNs, selectors and selectors' values that they are taken from; their sentences, each with the letter or the
        number of the field that tells it from another row's; their talker; the formatters that are heard, and the PGN that is sent to the bus."""
        rows = []
        for name, words, taken, said, talker, heard, sent in self.table("R"):
            pgns = [int(pgn) for pgn in re.findall(r"\b\d{6}\b", taken)]
            selector = re.search(r"(reference|instance|source) (\d+(?: or \d+)*)", taken)
            values = [] if selector is None else [int(value) for value in selector.group(2).split(" or ")]
            told = re.findall(r"\b([A-Z]{3})\b(?: with (?:field (\d)|([A-Z])\b))?", said)
            sentences = [(formatter, int(field) if field else letter or None) for formatter, field, letter in told]
            formatters = re.findall(r"\b[A-Z]{3}\b", heard)
            if re.fullmatch(r"\d{6}", sent) is None:
                raise PageChanged(CONFIGURATION, f"the row {name} isn't sent as {sent!r}")
            rows.append(Row(name.strip("`"), words, pgns, selector and selector.group(1), values, sentences, talker, formatters, int(sent)))
        return rows

    def most_tables(self):
        """How many presets and routes there may be."""
        match = self.found(r"`preset` and `route` are arrays of tables, at most (\d+) and (\d+)", "how many presets and routes there may be")
        return {"preset": int(match.group(1)), "route": int(match.group(2))}

    def default(self, table, name):
        return next(key.default for key in self.tables[table] if key.name == name)
