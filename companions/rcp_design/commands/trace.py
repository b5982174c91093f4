"""Prints a run as CSV, for any plotting tool: a column for each command and each cell, a row for each frame.

The run is that of the single processor or, with --replica P, that of a replica; its votes are then those of the replay, and
a vote without a majority is an empty field."""
from __future__ import annotations

import argparse
import csv
import sys

from ..program import Rcp
from ..stop import USAGE, Stop
from ..taskfile import TaskFile

EXAMPLE = "trace examples/motor.toml examples/motor_faults.csv --replica 2"


def add_arguments(parser: argparse.ArgumentParser) -> None:
    """The words of this command."""
    parser.add_argument("file", metavar="FILE", help="a task file")
    parser.add_argument("journal", metavar="JOURNAL", help="a journal of it")
    parser.add_argument("--replica", metavar="P", type=int, help="the states of replica P")


def run(arguments: argparse.Namespace, rcp: Rcp) -> int:
    """Prints the columns and the rows."""
    cells = TaskFile.read(arguments.file).cells
    out = csv.writer(sys.stdout, lineterminator="\n")
    if arguments.replica is None:
        run_of_one = rcp.ideal(arguments.file, arguments.journal)
        out.writerow(["frame", *(f"vote_{name}" for name in run_of_one[0].commands), "slot", *cells])
        for frame in run_of_one:
            out.writerow([frame.number, *frame.commands.values(), frame.slot, *frame.cells])
        return 0
    frames = rcp.replay(arguments.file, arguments.journal)
    if not 0 <= arguments.replica < len(frames[0].replicas):
        raise Stop(f"the file has the replicas 0 to {len(frames[0].replicas) - 1}", USAGE)
    votes = [f"vote_{name}" for name in frames[0].votes]
    out.writerow(["frame", "guard", *votes, "up", "working", "slot", *cells])
    for frame in frames:
        replica = frame.replicas[arguments.replica]
        out.writerow([frame.number, int(frame.has_guard), *frame.votes.values(), int(replica.is_up), int(replica.is_working),
                      replica.slot, *replica.cells])
    return 0
