"""Lines out of pieces of a stream."""

from .candump import MOST_LINE, TOO_LONG

# how much is read of a stream at a time
PIECE_BYTES = 65536


class LineCutter:
    """Cuts what comes in pieces into lines; a line that is too long costs no memory and is counted once."""

    def __init__(self, left_out, line_end=b"\n"):
        self.left_out, self.line_end = left_out, line_end
        self.rest, self.is_skipping = b"", False

    def lines_of(self, piece):
        *lines, rest = (self.rest + piece).split(self.line_end)
        if lines and self.is_skipping:
            self.is_skipping = False
            del lines[0]
        if not self.is_skipping and len(rest) > MOST_LINE:
            self.is_skipping = True
            self.left_out.add(TOO_LONG)
        self.rest = b"" if self.is_skipping else rest
        return lines

    def end(self):
        """The end of what comes: the line that has no end yet."""
        rest, self.rest, self.is_skipping = self.rest, b"", False
        return [rest] if rest else []
