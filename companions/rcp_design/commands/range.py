"""Prints the least and the greatest value of each cell and each command in the single processor's run, with their frames.

A value at an end of 64 bits is marked: there an operation saturated, or a task set just that. What saturates within a body
and doesn't reach a cell or a command isn't seen."""
from __future__ import annotations

import argparse
from dataclasses import dataclass

from ..answers import GREATEST, LEAST
from ..program import Rcp
from ..taskfile import TaskFile

EXAMPLE = "range examples/motor.toml examples/motor_faults.csv"


@dataclass
class Range:
    """The least and the greatest value so far, each with the first frame that has it."""

    least: int
    greatest: int
    at_least: int
    at_greatest: int

    def take(self, value: int, frame: int) -> None:
        """Takes in a value."""
        if value < self.least:
            self.least, self.at_least = value, frame
        if value > self.greatest:
            self.greatest, self.at_greatest = value, frame

    @property
    def saturated(self) -> list[int]:
        """The frames at which it first stood at an end of 64 bits."""
        return sorted({frame for value, frame, end in ((self.least, self.at_least, LEAST),
                                                       (self.greatest, self.at_greatest, GREATEST)) if value == end})


def add_arguments(parser: argparse.ArgumentParser) -> None:
    """The words of this command."""
    parser.add_argument("file", metavar="FILE", help="a task file")
    parser.add_argument("journal", metavar="JOURNAL", help="a journal of it")


def run(arguments: argparse.Namespace, rcp: Rcp) -> int:
    """Prints a row for each cell and each command."""
    cells = TaskFile.read(arguments.file).cells
    ranges: dict[str, Range] = {}
    for frame in rcp.ideal(arguments.file, arguments.journal):
        values = dict(zip((f"cell {cell}" for cell in cells), frame.cells))
        values.update((f"command {name}", value) for name, value in frame.commands.items())
        for name, value in values.items():
            ranges.setdefault(name, Range(value, value, frame.number, frame.number)).take(value, frame.number)
    width = max(map(len, ranges))
    print(f"{'':<{width}}  {'least':>20} {'frame':>6}  {'greatest':>20} {'frame':>6}")
    for name, seen in ranges.items():
        mark = f"  saturated in frame {', '.join(map(str, seen.saturated))}" if seen.saturated else ""
        print(f"{name:<{width}}  {seen.least:>20} {seen.at_least:>6}  {seen.greatest:>20} {seen.at_greatest:>6}{mark}")
    return 0
