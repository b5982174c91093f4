"""Finds the fewest votes with which a file's recovery length is at most K frames.

Each walk that `rcp check` shows is a set of nodes of which one must be voted. A solver (CBC) gives the fewest nodes that
meet all sets so far, `rcp check` shows what they leave open, and so on until nothing is. Then no pattern has fewer votes.
Where the time is over, or at Ctrl-C, the best pattern so far is printed with the bound that stands."""
from __future__ import annotations

import argparse
import sys

from ..prices import add_price_arguments, read_prices
from ..program import Rcp
from ..progress import Progress
from ..search import Found, Goal, Search
from ..stop import INTERRUPTED, NOT_FOUND, Stop
from ..taskfile import TaskFile, pattern_lines, write_text

EXAMPLE = "fewest examples/pitch.toml --recovery 6"


def add_arguments(parser: argparse.ArgumentParser) -> None:
    """The words of this command."""
    parser.add_argument("file", metavar="FILE", help="a task file; its own votes count for nothing")
    parser.add_argument("--recovery", metavar="K", type=int, required=True, help="the most frames of the recovery length")
    parser.add_argument("--out", metavar="FILE", help="write the file with the votes found, all comments kept")
    add_price_arguments(parser)


def run(arguments: argparse.Namespace, rcp: Rcp) -> int:
    """Searches, prints and writes."""
    if arguments.recovery < 1:
        raise Stop("K is at least 1", 2)
    rcp.check_file(arguments.file)
    task_file = TaskFile.read(arguments.file)
    goal = Goal(arguments.recovery, read_prices(arguments.weights, task_file), arguments.per_slot)
    progress = Progress()
    found = Search(rcp, task_file, progress, arguments.seconds).fewest(goal)
    progress.end()
    if found.votes is None:
        return _none(found)
    text = task_file.with_votes(found.votes)
    _print(found, task_file, rcp.check(text).recovery)
    if arguments.out:
        write_text(arguments.out, text)
    return INTERRUPTED if found.was_stopped else 0


def _none(found: Found) -> int:
    if found.is_impossible:
        print(f"none: no pattern with at most {found.goal.per_slot} votes in each slot keeps {found.goal.frames} frames; "
              f"{found.walks} walks show it")
        return NOT_FOUND
    print("design: stopped before a pattern was found", file=sys.stderr)
    return INTERRUPTED


def _print(found: Found, task_file: TaskFile, recovery: int | None) -> None:
    """Prints the pattern, with the recovery length that `rcp` tells of it."""
    if recovery is None or recovery > found.goal.frames:
        raise Stop(f"rcp does not confirm the pattern: recovery {recovery}; this is a fault of design", NOT_FOUND)
    print("\n".join(pattern_lines(task_file, found.votes)))
    print(f"votes {len(found.votes)}")
    price, unit = found.price, "votes"
    if price != len(found.votes):
        unit = "weight"
        print(f"weight {price}")
    print(f"recovery {recovery}")
    shown = f"{found.walks} walks of {found.goal.frames} nodes, or cycles, of steps that rcp showed"
    if found.is_least:
        print(f"least: no pattern has less than {unit} {price}; {shown}")
    else:
        print(f"bound: stopped; each pattern has at least {unit} {found.bound}; {shown}")
