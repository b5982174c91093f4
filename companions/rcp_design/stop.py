"""Why a command ends before its answer, with the exit status that it ends with."""
from __future__ import annotations

NOT_FOUND = 1
USAGE = 2
REFUSED = 3
UNREADABLE = 6
UNWRITABLE = 7
NO_PROGRAM = 13
NO_PACKAGE = 14
INTERRUPTED = 130


class Stop(Exception):
    """A message for standard error, and an exit status."""

    def __init__(self, message: str, status: int) -> None:
        super().__init__(message)
        self.status = status


class Refused(Stop):
    """`rcp` refused its words or a file; the message is its one line."""


def missing(package: str) -> Stop:
    """The stop for a package of Debian that this Python does not have."""
    return Stop(f"this needs the package {package}: apt-get install {package}", NO_PACKAGE)
