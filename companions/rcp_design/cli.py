"""The command `design`: its subcommands, their words, and how they end."""
from __future__ import annotations

import argparse
import importlib
import os
import sys
from types import ModuleType

from .near import near
from .program import Rcp
from .stop import INTERRUPTED, UNWRITABLE, USAGE, Refused, Stop

COMMANDS = {
    "fewest": "the fewest votes with a recovery length of at most K frames",
    "pareto": "the fewest votes for each recovery length, as a table and a picture",
    "compare": "two files side by side: votes, fullest slot, recovery length, walk",
    "whatif": "what each vote is worth, and what each further one would gain",
    "votes": "the file with other votes, its comments kept",
    "grid": "a picture of slots by cells: what is set, what is voted, the walk",
    "timeline": "a picture of a replay, or of one frame's events",
    "trace": "a run as CSV, with a column for each cell",
    "range": "the least and the greatest value of each cell and command in a run",
    "where": "the place of a fault in a refused file, with line and column",
    "lint": "names that nothing uses, and cells that nothing sets",
    "timing": "both sides of each timing rule, and the slack",
    "worst": "a fault from which a replica takes longest to recover",
    "fly": "a closed loop: a plant of ten lines, flown by the single processor",
}
STATUSES = """Exit status: 0 done, 1 nothing found or something to mend, 2 wrong words, 13 rcp can't be run, 14 a package is missing,
130 stopped, with the best so far. Where rcp refuses a file, its line and its status are passed on."""


def main(words: list[str]) -> int:
    """Runs the words of the command line, and gives the exit status."""
    if not words or words[0] in ("-h", "--help", "help"):
        print(_overview())
        return 0 if words else USAGE
    try:
        return _run(words[0], words[1:])
    except Refused as refused:
        print(refused, file=sys.stderr)
        return refused.status
    except Stop as stop:
        print(f"design: {stop}", file=sys.stderr)
        return stop.status
    except KeyboardInterrupt:
        print("design: stopped", file=sys.stderr)
        return INTERRUPTED
    except BrokenPipeError:
        os.dup2(os.open(os.devnull, os.O_WRONLY), sys.stdout.fileno())
        return UNWRITABLE


def _run(name: str, words: list[str]) -> int:
    if name not in COMMANDS:
        raise Stop(f"{name} is no command{near(name, COMMANDS)}; `design --help` lists them", USAGE)
    command = importlib.import_module(f".commands.{name}", __package__)
    arguments = _parser(name, command).parse_args(words)
    status = command.run(arguments, Rcp(arguments.rcp))
    sys.stdout.flush()
    return status


def _parser(name: str, command: ModuleType) -> argparse.ArgumentParser:
    parser = argparse.ArgumentParser(
        prog=f"design {name}", description=command.__doc__, epilog=f"example:\n  companions/design {command.EXAMPLE}",
        formatter_class=argparse.RawDescriptionHelpFormatter)
    parser.add_argument("--rcp", metavar="PATH", default=os.environ.get("RCP"),
                        help="the program to ask, in place of the script rcp at the top of the repository")
    command.add_arguments(parser)
    return parser


def _overview() -> str:
    width = max(map(len, COMMANDS))
    lines = [f"  {name:<{width}}  {told}" for name, told in COMMANDS.items()]
    return "usage: design COMMAND ..\n\n" + "\n".join(lines) + "\n\n`design COMMAND --help` tells a command's words.\n\n" + STATUSES
