"""Searches for a fault from which a replica takes longest to recover, and prints its journal.

A fault overwrites all cells of one replica at the end of a frame, and its slot number or not; each frame of the table, each
slot number and several kinds of wrong values are tried by `replay`, in an order that is drawn. Of the worst one those rows
are left that it needs. The recovery length is for the worst value and the worst sensors: what is found is at most that."""
from __future__ import annotations

import argparse
import random
import sys
from dataclasses import dataclass, replace
from itertools import product
from pathlib import Path

from ..corruption import AFTER, STYLES, Fault, Flight, wrong_values
from ..journalplaces import read_rows
from ..program import STDIN, Rcp
from ..progress import Progress
from ..stop import INTERRUPTED, NOT_FOUND, Stop
from ..taskfile import TaskFile, write_text

EXAMPLE = "worst examples/motor.toml --out /tmp/worst.csv"
FEWEST_REPLICAS = 3
# Drawn sensors lie within so much of 0: tasks may go other ways at small values than at large ones.
SPANS = (3, 60, 1000, 100_000)


@dataclass(frozen=True)
class Found:
    """The worst fault that was found, with its flight and the frames that it takes; or the worst so far, at Ctrl-C."""

    took: int
    flight: Flight
    fault: Fault | None
    was_stopped: bool


def add_arguments(parser: argparse.ArgumentParser) -> None:
    """The words of this command."""
    parser.add_argument("file", metavar="FILE", help="a task file")
    parser.add_argument("--journal", metavar="JOURNAL", help="take the sensors from this journal, in place of drawn ones")
    parser.add_argument("--tries", metavar="N", type=int, default=400, help="the most faults to try (400)")
    parser.add_argument("--seed", metavar="N", type=int, default=1, help="where the drawn numbers begin (1)")
    parser.add_argument("--out", metavar="FILE", help="write the journal here, in place of standard output")


def run(arguments: argparse.Namespace, rcp: Rcp) -> int:
    """Searches, lightens what it found, and prints."""
    recovery = int(rcp.ask("check", arguments.file).split("recovery ", 1)[1].split("\n", 1)[0])
    task_file = TaskFile.read(arguments.file)
    if task_file.document["replicas"] < FEWEST_REPLICAS:
        raise Stop("with fewer than three replicas no fault leaves a majority", NOT_FOUND)
    draw = random.Random(arguments.seed)
    progress = Progress()
    found = _search(rcp, _flights(arguments, rcp, task_file, recovery, draw), task_file, arguments.tries, draw, progress)
    progress.end()
    if found.fault is None:
        raise Stop("stopped before a fault was tried", INTERRUPTED)
    told = "the recovery length" if found.took == recovery else "the recovery length is for the worst values and sensors"
    print(f"recovery {recovery}; the worst fault that was found takes {found.took} frames, {told}", file=sys.stderr)
    if arguments.out:
        write_text(arguments.out, found.flight.journal(found.fault))
    else:
        sys.stdout.write(found.flight.journal(found.fault))
    return INTERRUPTED if found.was_stopped else 0


def _flights(arguments: argparse.Namespace, rcp: Rcp, task_file: TaskFile, recovery: int, draw: random.Random) -> list[Flight]:
    """The single processor's runs with the journal's sensors, or with drawn ones. Faults come in the second turn of the table."""
    frames = 2 * task_file.slots + recovery + AFTER
    if arguments.journal:
        rcp.ask("ideal", arguments.file, arguments.journal)
        rows = read_rows(Path(arguments.journal).read_bytes())[1:]
        return [_flown(arguments.file, rcp, recovery, frames, [(int(row.fields[0]), ",".join(row.fields)) for row in rows
                                                               if row.fields[1] == "sensor"])]
    names = [str(sensor["name"]) for sensor in task_file.document.get("sensor", [])]
    return [_flown(arguments.file, rcp, recovery, frames,
                   [(frame, f"{frame},sensor,{name},{draw.randint(-span, span)},,") for frame in range(frames) for name in names])
            for span in SPANS]


def _flown(path: str, rcp: Rcp, recovery: int, frames: int, sensors: list[tuple[int, str]]) -> Flight:
    flight = Flight(path, sensors, recovery, [])
    none = Fault(frames - recovery - AFTER, 0, ())
    return replace(flight, ideal=rcp.ideal(path, STDIN, stdin=flight.journal(none)))


def _search(rcp: Rcp, flights: list[Flight], task_file: TaskFile, tries: int, draw: random.Random,
            progress: Progress) -> Found:
    """Tries faults, and lightens the worst."""
    slots, last = task_file.slots, task_file.document["replicas"] - 1
    kinds = list(product(flights, range(slots, 2 * slots), [None, *range(slots)], range(STYLES)))
    draw.shuffle(kinds)
    took, at, worst = -1, flights[0], None
    try:
        for number, (flight, frame, slot, style) in enumerate(kinds[:tries]):
            progress.show(f"{number} faults tried, the worst takes {took} of {flight.recovery} frames")
            values = wrong_values(flight.ideal[frame].cells, style, draw)
            fault = Fault(frame, last, tuple(zip(task_file.cells, values)), slot)
            takes = flight.frames_to_recover(rcp, fault)
            if takes > took:
                took, at, worst = takes, flight, fault
            if took == flight.recovery:
                break
        return Found(took, at, _lightened(rcp, at, worst, took), was_stopped=False)
    except KeyboardInterrupt:
        return Found(took, at, worst, was_stopped=True)


def _lightened(rcp: Rcp, flight: Flight, fault: Fault, takes: int) -> Fault:
    """The fault with no row that can be spared: without any of them it takes less long."""
    while True:
        lighter = next((less for less in fault.lighter() if flight.frames_to_recover(rcp, less) == takes), None)
        if lighter is None:
            return fault
        fault = lighter
