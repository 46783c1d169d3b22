"""Silence of a way on which something should come."""

# a way on which nothing comes for so long is told
SILENT_SECONDS = 10.0


class Silence:
    """Tells that nothing comes any more, and when something comes again."""

    def __init__(self, told, whence, what="frames"):
        self.told, self.whence, self.what = told, whence, what
        self.since, self.is_told = None, False

    def begin(self, now):
        """From here on something should come."""
        self.since, self.is_told = now, False

    def pause(self):
        """Nothing can come: that the way is closed is told by itself."""
        self.since, self.is_told = None, False

    def heard(self, now):
        if self.is_told:
            self.told.now(f"{self.what} come {self.whence} again, after {now - self.since:.0f} seconds")
        self.begin(now)

    def tend(self, now):
        if self.since is not None and not self.is_told and now - self.since >= SILENT_SECONDS:
            self.is_told = True
            self.told.now(f"nothing came {self.whence} for {SILENT_SECONDS:.0f} seconds")
