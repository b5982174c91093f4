"""What the bodies that `check` prints set and read, by their names. The printed form is `let NAME = EXPR;` and `CELL := EXPR;`."""
from __future__ import annotations

import re
from dataclasses import dataclass

from .program import Rcp
from .taskfile import TaskFile

STATEMENT = re.compile(r"(let )?([a-z][a-z0-9_]*) :?= ([^;]*);")
WORD = re.compile(r"[a-z][a-z0-9_]*")
RESERVED = {"let", "and", "or", "not", "abs", "min", "max", "clamp", "if"}


@dataclass(frozen=True)
class Body:
    """The lets and the sets of a task, each with the names that stand in its expression."""

    lets: dict[str, set[str]]
    sets: dict[str, set[str]]

    @property
    def reads(self) -> set[str]:
        """All names in its expressions."""
        return set().union(*self.lets.values(), *self.sets.values())


def names_in(expression: str) -> set[str]:
    """The names in an expression."""
    return set(WORD.findall(expression)) - RESERVED


def read_body(text: str) -> Body:
    """Reads a printed body."""
    lets: dict[str, set[str]] = {}
    sets: dict[str, set[str]] = {}
    for let, name, expression in STATEMENT.findall(text):
        (lets if let else sets)[name] = names_in(expression)
    return Body(lets, sets)


def read_bodies(rcp: Rcp, task_file: TaskFile) -> dict[str, Body]:
    """The bodies of all tasks. `check` prints them of a good pattern, as that of all votes is."""
    verdict = rcp.check(task_file.with_votes(task_file.nodes))
    return {name: read_body(text) for name, text in verdict.bodies.items()}


def setters(task_file: TaskFile, bodies: dict[str, Body]) -> list[dict[str, str]]:
    """For each slot, the task that sets each cell."""
    return [{cell: task for task in tasks for cell in bodies[task].sets} for tasks in task_file.tasks_of]
