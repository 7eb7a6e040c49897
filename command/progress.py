"""How far a long run or playing is: a line on standard error, where that is a terminal, and nothing elsewhere."""
import sys
import time

SECONDS_BEFORE = 0.5
# to the line's beginning, and all of it away
AGAIN = "\r\x1b[K"


class Progress:
    """The line of one run."""

    def __init__(self, most, called):
        self.most, self.called, self.shown, self.began = most, called, False, time.monotonic()

    def show(self, done):
        """Says how much is done, how much a second, and how long the rest would take; what is soon over says nothing."""
        spent = time.monotonic() - self.began
        if not sys.stderr.isatty() or spent < SECONDS_BEFORE or not done:
            return
        speed = done / spent
        left = max(self.most - done, 0) / speed
        sys.stderr.write(f"{AGAIN}{done:,.0f} of {self.most:,} {self.called}, {speed:,.0f} a second, {left:,.0f} s left at most")
        sys.stderr.flush()
        self.shown = True

    def __enter__(self):
        return self

    def __exit__(self, *ending):
        """Takes the line away, also where the run is interrupted."""
        if self.shown:
            sys.stderr.write(AGAIN)
            sys.stderr.flush()
