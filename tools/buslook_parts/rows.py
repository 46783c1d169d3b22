"""The rows in words, and which of them a sentence or a message says."""

import collections


class Rows:
    """What is said of the rows on docs/configuration.md, and nowhere else."""

    def __init__(self, page):
        self.words = {row.name: row.words for row in page.rows}
        # by the last letters of a sentence the rows that it says, each with the letter or the number of the field that tells it from others
        self.said = collections.defaultdict(list)
        for row in page.rows:
            for formatter, told in row.sentences:
                self.said[formatter].append((row.name, told))
        # the sentences that say one message each; RMC joins several
        self.formatters = {*self.said, "VDM"}
        # what goes to the bus of the network's sentences: what its PGN tells, and the rows that it may be of
        sent = collections.defaultdict(list)
        for row in page.rows:
            sent[row.sent_pgn].append(row.name)
        self.to_bus = {pgn: (self.common_words(names), tuple(names)) for pgn, names in sent.items()}

    def common_words(self, names):
        """The words for rows of one message: those of the only row, or what stands before the comma in all."""
        return self.words[names[0]] if len(names) == 1 else self.words[names[0]].split(",")[0]

    def said_by(self, fields):
        """The row that a sentence says, or None where its text alone doesn't tell."""
        for name, told in self.said.get(fields[0][3:], ()):
            if told is None or (fields[told] if isinstance(told, int) else told in fields):
                return name
        return None
