"""Tells what each vote of a file is worth, and what each further one would gain.

First come the cells that must be voted in some slot: with all else voted there is still a cycle. Then each vote with what
comes without it: a cycle, or another recovery length. Then each node without a vote whose vote would make it shorter."""
from __future__ import annotations

import argparse

from ..answers import Node, Verdict, print_nodes
from ..program import Rcp
from ..progress import Progress
from ..taskfile import TaskFile

EXAMPLE = "whatif examples/pitch.toml"


def add_arguments(parser: argparse.ArgumentParser) -> None:
    """The words of this command."""
    parser.add_argument("file", metavar="FILE", help="a task file")


def run(arguments: argparse.Namespace, rcp: Rcp) -> int:
    """Asks about each cell and each node."""
    base = rcp.check_file(arguments.file)
    task_file = TaskFile.read(arguments.file)
    progress = Progress()
    print(f"votes {len(task_file.votes)}, {_told(base)}")
    print(f"must be voted in some slot: {' '.join(_needed(rcp, task_file, progress)) or '-'}")
    if base.recovery is not None:
        _print_losses(rcp, task_file, base.recovery, progress)
    _print_gains(rcp, task_file, base, progress)
    progress.end()
    return 0


def _told(verdict: Verdict) -> str:
    if verdict.recovery is None:
        return f"cycle {print_nodes(verdict.nodes)}"
    return f"recovery {verdict.recovery}"


def _needed(rcp: Rcp, task_file: TaskFile, progress: Progress) -> list[str]:
    """The cells without whose votes there is a cycle, whatever else is voted."""
    cells = []
    for cell in task_file.cells:
        progress.show(f"cell {cell}")
        others = {node for node in task_file.nodes if node.cell != cell}
        if rcp.check(task_file.with_votes(others)).recovery is None:
            cells.append(cell)
    return cells


def _print_losses(rcp: Rcp, task_file: TaskFile, recovery: int, progress: Progress) -> None:
    print("without a vote:")
    for node in sorted(task_file.votes, key=task_file.nodes.index):
        progress.show(f"without {node}")
        verdict = rcp.check(task_file.with_votes(task_file.votes - {node}))
        spared = " (it can be spared)" if verdict.recovery == recovery else ""
        print(f"  {node}  {_told(verdict)}{spared}")


def _print_gains(rcp: Rcp, task_file: TaskFile, base: Verdict, progress: Progress) -> None:
    others = [node for node in task_file.nodes if node not in task_file.votes]
    gains: list[tuple[int, Node]] = []
    for node in others:
        progress.show(f"with {node}")
        verdict = rcp.check(task_file.with_votes(task_file.votes | {node}))
        if verdict.recovery is not None and verdict.recovery != base.recovery:
            gains.append((verdict.recovery, node))
    print("with one vote more:")
    for recovery, node in sorted(gains, key=lambda gain: gain[0]):
        less = f" ({base.recovery - recovery} less)" if base.recovery is not None else ""
        print(f"  {node}  recovery {recovery}{less}")
    what = "leave a cycle" if base.recovery is None else "gain nothing"
    print(f"  the other {len(others) - len(gains)} {what}")
