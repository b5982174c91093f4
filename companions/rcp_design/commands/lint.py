"""Lists what a file has and doesn't use: a task in no slot, a sensor, a let or a cell that nothing reads, a cell that nothing
sets. None of this is a fault to rcp. The exit status is 1 where something is listed."""
from __future__ import annotations

import argparse
from collections.abc import Iterator

from ..bodies import Body, names_in, read_bodies
from ..places import offset_to_line, value_span
from ..program import Rcp
from ..taskfile import TaskFile

EXAMPLE = "lint examples/pitch.toml"


def add_arguments(parser: argparse.ArgumentParser) -> None:
    """The words of this command."""
    parser.add_argument("file", metavar="FILE", help="a task file")


def run(arguments: argparse.Namespace, rcp: Rcp) -> int:
    """Prints a line for each name."""
    rcp.check_file(arguments.file)
    task_file = TaskFile.read(arguments.file)
    found = list(_findings(task_file, read_bodies(rcp, task_file)))
    for section, number, key, message in found:
        span = value_span(task_file.text, [section, number, key])
        line = f":{offset_to_line(task_file.text, span.start)[0]}" if span else ""
        print(f"{arguments.file}{line}: {message}")
    return 1 if found else 0


def _findings(task_file: TaskFile, bodies: dict[str, Body]) -> Iterator[tuple[str, int, str, str]]:
    """The section, the number and the key of each finding, with what to say."""
    run_tasks = {task for tasks in task_file.tasks_of for task in tasks}
    running = {name: body for name, body in bodies.items() if name in run_tasks}
    values = [str(actuator["value"]) for actuator in task_file.document.get("actuator", [])]
    read = set().union(*map(names_in, values), *(body.reads for body in running.values()))
    is_set = set().union(*(body.sets for body in running.values()))
    for number, name in enumerate(bodies):
        if name not in run_tasks:
            yield "task", number, "name", f"the task `{name}` is in no slot"
        for let in bodies[name].lets:
            if let not in bodies[name].reads:
                yield "task", number, "body", f"nothing reads the let `{let}` of the task `{name}`"
    for number, sensor in enumerate(task_file.document.get("sensor", [])):
        if sensor["name"] not in read:
            yield "sensor", number, "name", f"nothing that runs reads the sensor `{sensor['name']}`"
    for number, cell in enumerate(task_file.cells):
        if cell not in is_set:
            yield "cell", number, "name", f"nothing that runs sets the cell `{cell}`; it must be voted in some slot all the same"
        if cell not in read:
            yield "cell", number, "name", f"nothing that runs reads the cell `{cell}`"
