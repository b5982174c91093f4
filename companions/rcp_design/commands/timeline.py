"""Draws a replay: for each frame and replica whether it is working, right, wrong or down, and the guard and the votes.

Wrong is a state that is not the single processor's. With --sequence T the events of frame T are drawn as a sequence chart,
where this rcp has the form `events`."""
from __future__ import annotations

import argparse
from collections import defaultdict
from pathlib import Path

from ..journalplaces import read_rows
from ..program import Rcp
from ..stop import NOT_FOUND, USAGE, Stop
from ..timeline import Replay, draw_sequence, draw_timeline

EXAMPLE = "timeline examples/motor.toml examples/motor_faults.csv --svg /tmp/motor.svg"
ON_A_REPLICA = {"down", "cell", "slot", "act", "skew", "rate", "lie", "lieslot", "drop", "delay"}
MOST_FRAMES = 400


def add_arguments(parser: argparse.ArgumentParser) -> None:
    """The words of this command."""
    parser.add_argument("file", metavar="FILE", help="a task file")
    parser.add_argument("journal", metavar="JOURNAL", help="a journal of it")
    parser.add_argument("--svg", metavar="OUT", required=True, help="where the picture goes")
    parser.add_argument("--frames", metavar="A-B", help=f"only these frames; at most {MOST_FRAMES} are drawn")
    parser.add_argument("--sequence", metavar="T", type=int, help="the events of frame T, in place of the replay")
    parser.add_argument("--title", metavar="TEXT", help="the picture's title (the files' names)")


def run(arguments: argparse.Namespace, rcp: Rcp) -> int:
    """Draws the replay, or one frame."""
    title = arguments.title or f"{Path(arguments.file).name}, {Path(arguments.journal).name}"
    if arguments.sequence is not None:
        return _draw_frame(arguments, rcp, title)
    frames = rcp.replay(arguments.file, arguments.journal)
    first, last = _span(arguments.frames, len(frames))
    replay = Replay(frames[first:last + 1], rcp.ideal(arguments.file, arguments.journal)[first:last + 1],
                    rows_by_replica(Path(arguments.journal).read_bytes()))
    draw_timeline(replay, title, arguments.svg)
    guarded = sum(frame.has_guard for frame in replay.frames)
    print(f"frames {first} to {last} of {len(frames)}; the guard holds in {guarded}")
    return 0


def _draw_frame(arguments: argparse.Namespace, rcp: Rcp, title: str) -> int:
    events = rcp.events(arguments.file, arguments.journal)
    if events is None:
        print("skipped: this rcp does not have the form `events`")
        return NOT_FOUND
    block = [event for event in events if event.block == arguments.sequence]
    if not block:
        raise Stop(f"frame {arguments.sequence} has no events", USAGE)
    replicas = len(rcp.replay(arguments.file, arguments.journal)[0].replicas)
    draw_sequence(block, replicas, f"{title}, frame {arguments.sequence}", arguments.svg)
    return 0


def _span(words: str | None, frames: int) -> tuple[int, int]:
    """The first and the last frame to draw."""
    first, last = 0, frames - 1
    if words is not None:
        try:
            first, last = (int(word) for word in words.split("-"))
        except ValueError:
            raise Stop("--frames wants two frames, as 0-20", USAGE) from None
    last = min(last, frames - 1, first + MOST_FRAMES - 1)
    if first > last:
        raise Stop(f"the journal has the frames 0 to {frames - 1}", USAGE)
    return first, last


def rows_by_replica(data: bytes) -> dict[tuple[int, int], list[str]]:
    """The rows of an accepted journal by frame and replica, each as its text; those of messages stand at the sender."""
    rows: dict[tuple[int, int], list[str]] = defaultdict(list)
    for row in read_rows(data)[1:]:
        frame, kind, replica = row.fields[:3]
        if kind in ON_A_REPLICA:
            rows[int(frame), int(replica)].append(" ".join(row.fields[1:]).strip())
    return rows
