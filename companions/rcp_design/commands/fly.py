"""Flies a closed loop: the drone of examples/drone.toml, held by the single processor, as CSV.

In each frame the sensors of the plant (rcp_design/plant.py, ten lines) become rows of the journal, and `ideal` runs it from
the start through /dev/stdin; its last commands drive the plant. Copy the plant to fly a file of your own."""
from __future__ import annotations

import argparse
import csv
import sys
from collections.abc import Iterator

from ..corruption import HEADER
from ..plant import Drone
from ..program import STDIN, Rcp
from ..progress import Progress

EXAMPLE = "fly examples/drone.toml --frames 400 --journal /tmp/flight.csv"


def add_arguments(parser: argparse.ArgumentParser) -> None:
    """The words of this command."""
    parser.add_argument("file", metavar="FILE", help="a task file with the sensors and the actuators of the plant")
    parser.add_argument("--frames", metavar="N", type=int, default=400, help="how long to fly (400)")
    parser.add_argument("--journal", metavar="OUT", help="write the sensors of the flight as a journal")


def run(arguments: argparse.Namespace, rcp: Rcp) -> int:
    """Flies, and prints a row for each frame."""
    out = csv.writer(sys.stdout, lineterminator="\n")
    out.writerow(["frame", "pitch", "rate", "height", "speed", "elevator", "motor"])
    plant = Drone()
    rows = [HEADER]
    for frame, commands in fly(rcp, arguments.file, plant, arguments.frames, rows):
        state = [round(value) for value in (plant.pitch, plant.rate, plant.height, plant.speed)]
        out.writerow([frame, *state, *commands.values()])
    if arguments.journal:
        with open(arguments.journal, "w", encoding="utf-8") as file:
            file.write("\n".join([*rows, f"{arguments.frames},end,,,,"]) + "\n")
    return 0


def fly(rcp: Rcp, path: str, plant: Drone, frames: int, rows: list[str]) -> Iterator[tuple[int, dict[str, int]]]:
    """Each frame with its commands; the rows of the sensors that changed are put to the journal's rows."""
    progress = Progress()
    seen: dict[str, int] = {}
    for frame in range(frames):
        progress.show(f"frame {frame} of {frames}")
        for name, value in plant.sensors().items():
            if seen.get(name) != value:
                rows.append(f"{frame},sensor,{name},{value},,")
                seen[name] = value
        journal = "\n".join([*rows, f"{frame + 1},end,,,,"]) + "\n"
        commands = rcp.ideal(path, STDIN, stdin=journal)[-1].commands
        plant.step(commands)
        yield frame, commands
    progress.end()
