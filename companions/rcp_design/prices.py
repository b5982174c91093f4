"""What a vote costs: the words `--weights`, `--per-slot` and `--seconds` of the searches."""
from __future__ import annotations

import argparse

from .answers import Node
from .near import near
from .stop import USAGE, Stop
from .taskfile import TaskFile


def add_price_arguments(parser: argparse.ArgumentParser) -> None:
    """The words that all searches share."""
    parser.add_argument("--per-slot", metavar="V", type=int, help="at most V votes in each slot")
    parser.add_argument("--weights", metavar="CELL=W", nargs="+", default=[],
                        help="what a vote on this cell counts for, a whole number from 1 on; 1 where nothing is said")
    parser.add_argument("--seconds", metavar="S", type=float, default=60.0,
                        help="stop after S seconds, with the best so far (60)")


def read_prices(words: list[str], task_file: TaskFile) -> dict[Node, int]:
    """The price of each node."""
    weight = dict.fromkeys(task_file.cells, 1)
    for word in words:
        cell, _, number = word.partition("=")
        if cell not in weight:
            raise Stop(f"--weights: {cell} is no cell{near(cell, weight)}", USAGE)
        if not number.isdecimal() or int(number) < 1:
            raise Stop(f"--weights: {word} is not CELL=W with a whole number W from 1 on", USAGE)
        weight[cell] = int(number)
    return {node: weight[node.cell] for node in task_file.nodes}
