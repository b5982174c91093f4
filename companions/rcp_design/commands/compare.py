"""Compares the patterns of two files: votes, the fullest slot, the recovery length in frames and in ticks, and the walk."""
from __future__ import annotations

import argparse
from collections import Counter

from ..answers import Verdict, print_nodes
from ..program import Rcp
from ..taskfile import TaskFile

EXAMPLE = "compare examples/motor.toml examples/motor_all_votes.toml"


def add_arguments(parser: argparse.ArgumentParser) -> None:
    """The words of this command."""
    parser.add_argument("first", metavar="A", help="a task file")
    parser.add_argument("second", metavar="B", help="another one")


def run(arguments: argparse.Namespace, rcp: Rcp) -> int:
    """Prints both, row by row."""
    columns = [_facts(rcp, path) for path in (arguments.first, arguments.second)]
    width = max(len(value) for value in [*columns[0].values(), arguments.first])
    print(f"{'':<13}  {arguments.first:<{width}}  {arguments.second}")
    for key, value in columns[0].items():
        print(f"{key:<13}  {value:<{width}}  {columns[1][key]}".rstrip())
    _print_differences(*(TaskFile.read(path) for path in (arguments.first, arguments.second)))
    return 0


def _facts(rcp: Rcp, path: str) -> dict[str, str]:
    verdict = rcp.check_file(path)
    task_file = TaskFile.read(path)
    slot, fullest = max(Counter(node.slot for node in task_file.votes).items(), key=lambda item: (item[1], -item[0]),
                        default=(None, 0))
    return {
        "votes": str(len(task_file.votes)),
        "fullest slot": "-" if slot is None else f"slot {slot} with {fullest}",
        "recovery": _recovery(verdict, task_file),
        "walk or cycle": print_nodes(verdict.nodes),
    }


def _recovery(verdict: Verdict, task_file: TaskFile) -> str:
    if verdict.recovery is None:
        return "none, the pattern is refused"
    return f"{verdict.recovery} frames, {verdict.recovery * task_file.frame_ticks} ticks"


def _print_differences(first: TaskFile, second: TaskFile) -> None:
    """The votes that only one of the files has."""
    print(f"only in A      {print_nodes(sorted(first.votes - second.votes))}")
    print(f"only in B      {print_nodes(sorted(second.votes - first.votes))}")
