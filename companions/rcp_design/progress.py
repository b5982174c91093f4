"""A line on standard error that says how far long work is."""
from __future__ import annotations

import sys
import time

FIRST_AFTER = 1.0
EVERY = 0.5


class Progress:
    """Shows nothing for the first second, and then a line at most twice a second; on a terminal one line is rewritten."""

    def __init__(self) -> None:
        self._begun = time.monotonic()
        self._next = self._begun + FIRST_AFTER
        self._shown = False

    @property
    def seconds(self) -> float:
        """The time since the work began."""
        return time.monotonic() - self._begun

    def show(self, text: str) -> None:
        """Shows the text, where it is time to."""
        now = time.monotonic()
        if now < self._next:
            return
        self._next = now + (EVERY if sys.stderr.isatty() else 10 * EVERY)
        self._shown = True
        line = f"design: {text}, {self.seconds:.0f} s"
        sys.stderr.write(f"\r\033[K{line}" if sys.stderr.isatty() else f"{line}\n")
        sys.stderr.flush()

    def end(self) -> None:
        """Takes the line away."""
        if self._shown and sys.stderr.isatty():
            sys.stderr.write("\r\033[K")
            sys.stderr.flush()
