"""How far long work is, on a terminal."""
import sys
import time

PAUSE = 0.2  # seconds between two lines


class Progress:
    """On a terminal, and only once the work has taken a second: a line on standard error, written over and over."""

    def __init__(self, is_wanted=True):
        self.next, self.is_shown = time.monotonic() + 1, False
        self.is_wanted = is_wanted and sys.stderr is not None and sys.stderr.isatty()

    def show(self, text):
        if self.is_wanted and time.monotonic() > self.next:
            print(f"\r\033[K{text}", end="", file=sys.stderr, flush=True)
            self.next, self.is_shown = time.monotonic() + PAUSE, True

    def end(self):
        if self.is_shown:
            print("\r\033[K", end="", file=sys.stderr, flush=True)
            self.is_shown = False
