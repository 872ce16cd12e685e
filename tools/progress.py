"""What a tool is at while it works, on one line of standard error that is written over and over; nothing, if standard error is no terminal."""
import shutil
import sys

CLEAR = "\r\x1b[K"


class Progress:
    """A line on a terminal."""

    def __init__(self):
        self.is_shown, self.is_written = sys.stderr.isatty(), False

    def say(self, words):
        """Writes these words over the last ones, as far as the terminal is wide."""
        if self.is_shown:
            width = max(shutil.get_terminal_size().columns - 1, 1)
            print(CLEAR + words[:width], end="", file=sys.stderr, flush=True)
            self.is_written = True

    def clear(self):
        """Takes the line away, before something else is printed."""
        if self.is_written:
            print(CLEAR, end="", file=sys.stderr, flush=True)
            self.is_written = False
