"""Finds the fewest votes for each recovery length, from the longest that saves a vote down to one frame.

Each row is a pattern that is worth having: no other one has both fewer votes and no longer recovery, where the row says
`least`; with `at least N` the search of that row was stopped."""
from __future__ import annotations

import argparse
from dataclasses import dataclass

from ..answers import print_nodes
from ..chart import draw_steps
from ..prices import add_price_arguments, read_prices
from ..program import Rcp
from ..progress import Progress
from ..search import Found, Goal, Search
from ..stop import INTERRUPTED, NOT_FOUND
from ..taskfile import TaskFile

EXAMPLE = "pareto examples/pitch.toml --svg /tmp/pitch.svg"


@dataclass(frozen=True)
class Point:
    """A recovery length in frames, with the cheapest pattern that was found for it."""

    recovery: int
    found: Found


def add_arguments(parser: argparse.ArgumentParser) -> None:
    """The words of this command."""
    parser.add_argument("file", metavar="FILE", help="a task file; its own votes count for nothing")
    parser.add_argument("--from", metavar="K", type=int, dest="least", default=1, help="the shortest recovery length (1)")
    parser.add_argument("--to", metavar="K", type=int, dest="greatest", help="the longest recovery length")
    parser.add_argument("--patterns", action="store_true", help="print the votes of each row")
    parser.add_argument("--svg", metavar="OUT", help="draw the table")
    add_price_arguments(parser)


def run(arguments: argparse.Namespace, rcp: Rcp) -> int:
    """Searches goal by goal, and prints each row as soon as it stands."""
    rcp.check_file(arguments.file)
    task_file = TaskFile.read(arguments.file)
    unit = "weight" if arguments.weights else "votes"
    print(f"recovery  {unit}")
    points = _points(arguments, rcp, task_file)
    if arguments.svg and points:
        draw_steps([(point.recovery, point.found.price) for point in points], unit, arguments.svg,
                   f"fewest {unit} against recovery length")
    if points and points[-1].found.was_interrupted:
        return INTERRUPTED
    return 0 if points else NOT_FOUND


def _points(arguments: argparse.Namespace, rcp: Rcp, task_file: TaskFile) -> list[Point]:
    progress = Progress()
    search = Search(rcp, task_file, progress, arguments.seconds)
    prices = read_prices(arguments.weights, task_file)
    points: list[Point] = []
    frames = arguments.greatest or len(task_file.nodes) + 1
    last: Point | None = None
    while frames >= arguments.least:
        # What a longer recovery needs, a shorter one needs too.
        found = search.fewest(Goal(frames, prices, arguments.per_slot), last.found.bound if last else 0)
        if found.votes is None:
            break
        point = Point(rcp.check(task_file.with_votes(found.votes)).recovery, found)
        if last is not None and found.price > last.found.price:
            points.append(last)
            _print(last, arguments.patterns, progress)
        last = point
        if found.was_interrupted:
            break
        frames = point.recovery - 1
    if last is not None:
        points.append(last)
        _print(last, arguments.patterns, progress)
    return points


def _print(point: Point, with_pattern: bool, progress: Progress) -> None:
    progress.end()
    told = "least" if point.found.is_least else f"at least {point.found.bound}"
    votes = f"  {print_nodes(sorted(point.found.votes))}" if with_pattern else ""
    print(f"{point.recovery:>8}  {point.found.price:>5}  {told}{votes}", flush=True)
