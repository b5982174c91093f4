"""Prints or writes a file with other votes; comments and all else stay as they are.

VOTES is all, none, file (the file's own), or nodes in one word, as "0:a 3:b". With --add and --drop some are changed."""
from __future__ import annotations

import argparse
import sys

from ..program import Rcp
from ..taskfile import TaskFile, read_pattern, write_text

EXAMPLE = 'votes examples/motor.toml "0:sum 0:err 1:pos"'


def add_arguments(parser: argparse.ArgumentParser) -> None:
    """The words of this command."""
    parser.add_argument("file", metavar="FILE", help="a task file")
    parser.add_argument("votes", metavar="VOTES", nargs="?", default="file", help="all, none, file, or nodes")
    parser.add_argument("--add", metavar="NODES", default="", help="votes to add")
    parser.add_argument("--drop", metavar="NODES", default="", help="votes to take away")
    parser.add_argument("--out", metavar="FILE", help="where to write, in place of standard output; it may be FILE itself")


def run(arguments: argparse.Namespace, rcp: Rcp) -> int:
    """Changes the votes."""
    rcp.check_file(arguments.file)
    task_file = TaskFile.read(arguments.file)
    votes = read_pattern(arguments.votes, task_file)
    votes = votes | read_pattern(arguments.add or "none", task_file)
    votes = votes - read_pattern(arguments.drop or "none", task_file)
    text = task_file.with_votes(votes)
    rcp.check(text)
    if arguments.out:
        write_text(arguments.out, text)
    else:
        sys.stdout.write(text)
    return 0
