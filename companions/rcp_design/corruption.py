"""Faults that overwrite a replica's state at the end of a frame, and how long it takes to recover from them."""
from __future__ import annotations

import random
from collections.abc import Iterable
from dataclasses import dataclass, replace

from .answers import GREATEST, LEAST, Frame, IdealFrame
from .program import STDIN, Rcp

HEADER = "frame,kind,a,b,c,d"
# Frames that a journal goes on after the recovery length.
AFTER = 2
# The kinds of `wrong_values`.
STYLES = 4


@dataclass(frozen=True)
class Fault:
    """Rows `cell` and `slot` of one replica in one frame. `slot` is None where the slot number is left alone."""

    frame: int
    replica: int
    cells: tuple[tuple[str, int], ...]
    slot: int | None = None

    def rows(self) -> list[tuple[int, str]]:
        """The rows, each with its frame."""
        rows = [f"{self.frame},cell,{self.replica},{cell},{value}," for cell, value in self.cells]
        rows += [] if self.slot is None else [f"{self.frame},slot,{self.replica},{self.slot},,"]
        return [(self.frame, row) for row in rows]

    def lighter(self) -> Iterable[Fault]:
        """The same with one row less."""
        if self.slot is not None:
            yield replace(self, slot=None)
        for cell in self.cells:
            yield replace(self, cells=tuple(other for other in self.cells if other != cell))


@dataclass(frozen=True)
class Flight:
    """A file, its sensors' rows by frame, the recovery length and the single processor's run."""

    path: str
    sensors: list[tuple[int, str]]
    recovery: int
    ideal: list[IdealFrame]

    def journal(self, fault: Fault) -> str:
        """The journal that has the fault, and ends some frames after the recovery length."""
        frames = fault.frame + self.recovery + AFTER
        rows = sorted(row for row in self.sensors if row[0] < frames) + fault.rows()
        rows.sort(key=lambda row: row[0])
        return "\n".join([HEADER, *(text for _, text in rows), f"{frames},end,,,,"]) + "\n"

    def frames_to_recover(self, rcp: Rcp, fault: Fault) -> int:
        """For how many frames after the fault the replica's state is not right; 0 where it never is wrong."""
        frames = rcp.replay(self.path, STDIN, stdin=self.journal(fault))
        wrong = [frame.number for frame, ideal in zip(frames, self.ideal) if _is_wrong(frame, ideal, fault.replica)]
        return wrong[-1] + 1 - fault.frame if wrong else 0


def _is_wrong(frame: Frame, ideal: IdealFrame, replica: int) -> bool:
    state = frame.replicas[replica]
    return (state.slot, state.cells) != (ideal.slot, ideal.cells)


def wrong_values(right: tuple[int, ...], style: int, draw: random.Random) -> list[int]:
    """Values for all cells: near the right ones, far from them, of any size, or at the ends of 64 bits."""
    if style == 0:
        values = [value + draw.choice((-1, 1)) for value in right]
    elif style == 1:
        values = [value + draw.choice((-1, 1)) * draw.randrange(100, 10_000) for value in right]
    elif style == 2:
        values = [draw.randrange(-(2**31), 2**31) for _ in right]
    else:
        values = [draw.choice((LEAST, GREATEST, 0)) for _ in right]
    return [min(max(value, LEAST), GREATEST) for value in values]
