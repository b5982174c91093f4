"""Draws slots by cells: what a task sets, what is voted, and the walk (or the cycle) with its steps numbered.

The steps are also printed, each with the task that makes it; a step without one is a cell that the slot keeps."""
from __future__ import annotations

import argparse

from ..answers import Node, Verdict
from ..bodies import read_bodies, setters
from ..grid import draw_grid
from ..program import Rcp
from ..taskfile import TaskFile

EXAMPLE = "grid examples/pitch.toml --svg /tmp/pitch.svg --tick-us 0.1"


def add_arguments(parser: argparse.ArgumentParser) -> None:
    """The words of this command."""
    parser.add_argument("file", metavar="FILE", help="a task file")
    parser.add_argument("--svg", metavar="OUT", help="where the picture goes")
    parser.add_argument("--title", metavar="TEXT", help="the picture's title (the file's name)")
    parser.add_argument("--tick-us", metavar="US", type=float, help="the length of a tick in microseconds, to tell times")


def run(arguments: argparse.Namespace, rcp: Rcp) -> int:
    """Draws and prints."""
    verdict = rcp.check_file(arguments.file)
    task_file = TaskFile.read(arguments.file)
    by_slot = setters(task_file, read_bodies(rcp, task_file))
    if arguments.svg:
        draw_grid(task_file, by_slot, verdict, arguments.title or arguments.file, arguments.svg)
    print(_recovery(verdict, task_file, arguments.tick_us))
    for number, node in enumerate(verdict.nodes, 1):
        print(f"  {number:>3}  {str(node):<20}  {_made_by(node, by_slot)}")
    return 0


def _made_by(node: Node, by_slot: list[dict[str, str]]) -> str:
    task = by_slot[node.slot].get(node.cell)
    return f"set by {task}" if task else "kept"


def _recovery(verdict: Verdict, task_file: TaskFile, tick_us: float | None) -> str:
    """The recovery length in frames, in ticks and, where the length of a tick is known, in milliseconds."""
    if verdict.recovery is None:
        return "refused: an unvoted cycle"
    ticks = verdict.recovery * task_file.frame_ticks
    time = "" if tick_us is None else f", {ticks * tick_us / 1000:g} ms"
    return f"recovery {verdict.recovery} frames, {ticks} ticks{time}; the walk:"
