"""The picture of a replay: replica by frame, and beside it the guard and the votes; and that of one frame's events."""
from __future__ import annotations

from collections.abc import Mapping
from dataclasses import dataclass

from .answers import Event, Frame, IdealFrame, ReplicaState
from .svg import Picture

COLUMN, ROW, EDGE, HEAD = 26, 26, 18, 84
LETTER = 7.0
INK, LINE = "#1a202c", "#cbd5e0"
COLORS = {"working": "#9ae6b4", "right": "#fefcbf", "wrong": "#fc8181", "down": "#a0aec0", "wrong and down": "#718096",
          "wrong and working": "#c53030"}
MEANING = {"working": "working", "right": "right, not yet working", "wrong": "wrong state", "down": "down",
           "wrong and down": "down, wrong state", "wrong and working": "wrong without a guard"}
GUARD = {True: "#c6f6d5", False: "#fed7d7"}


def state_word(replica: ReplicaState, ideal: IdealFrame) -> str:
    """How a replica stands after a frame, against the single processor's state."""
    is_right = (replica.slot, replica.cells) == (ideal.slot, ideal.cells)
    if not replica.is_up:
        return "down" if is_right else "wrong and down"
    if replica.is_working:
        return "working" if is_right else "wrong and working"
    return "right" if is_right else "wrong"


@dataclass(frozen=True)
class Replay:
    """A replay with the single processor's run, and the kinds of the journal's rows by frame and replica."""

    frames: list[Frame]
    ideal: list[IdealFrame]
    rows: Mapping[tuple[int, int], list[str]]

    @property
    def replicas(self) -> int:
        """The number of replicas."""
        return len(self.frames[0].replicas)

    @property
    def actuators(self) -> list[str]:
        """The names of the actuators."""
        return list(self.frames[0].votes)


def draw_timeline(replay: Replay, title: str, path: str) -> None:
    """Draws a replay, a column for each frame."""
    names = [f"replica {number}" for number in range(replay.replicas)] + ["guard", *replay.actuators]
    votes = [str(vote) for frame in replay.frames for vote in frame.votes.values()]
    column = max(COLUMN, 10 + LETTER * 0.85 * max(map(len, votes), default=0))
    left = EDGE + 10 + LETTER * max(map(len, names))
    width = max(left + column * len(replay.frames) + EDGE, 700)
    picture = Picture(width, HEAD + ROW * len(names) + 70, title)
    picture.text((EDGE, 26), title, 15, weight="bold", fill=INK)
    picture.text((EDGE, 48), "frames from left to right; a mark is a row of the journal on that replica", 12, fill=INK)
    for row, name in enumerate(names):
        picture.text((left - 8, HEAD + ROW * row + 17), name, 12, anchor="end", fill=INK)
    for at, (frame, ideal) in enumerate(zip(replay.frames, replay.ideal)):
        _draw_frame(picture, replay, frame, ideal, left + column * at, column)
    _draw_legend(picture, HEAD + ROW * len(names) + 34)
    picture.write(path)


def _draw_frame(picture: Picture, replay: Replay, frame: Frame, ideal: IdealFrame, x: float, column: float) -> None:
    picture.text((x + column / 2, HEAD - 8), str(frame.number), 10, anchor="middle", fill=INK)
    for replica in frame.replicas:
        y = HEAD + ROW * replica.number
        word = state_word(replica, ideal)
        kinds = replay.rows.get((frame.number, replica.number), [])
        tip = f"frame {frame.number}, replica {replica.number}: {word}, slot {replica.slot}, cells {replica.cells}"
        picture.rectangle((x, y), (column, ROW), ", ".join([tip, *kinds]), fill=COLORS[word], stroke="#ffffff",
                          tag=word.replace(" ", "-"))
        if kinds:
            picture.circle((x + column / 2, y + ROW / 2), 4, fill=INK, tag="row")
    y = HEAD + ROW * replay.replicas
    picture.rectangle((x, y), (column, ROW), fill=GUARD[frame.has_guard], stroke="#ffffff", tag="guard")
    picture.text((x + column / 2, y + 17), "yes" if frame.has_guard else "no", 10, anchor="middle", fill=INK)
    for row, (name, vote) in enumerate(frame.votes.items(), 1):
        is_right = vote == ideal.commands[name]
        picture.text((x + column / 2, y + ROW * row + 17), "none" if vote is None else str(vote), 10, anchor="middle",
                     fill=INK if is_right else "#c53030", weight="normal" if is_right else "bold", tag="vote")


def _draw_legend(picture: Picture, y: float) -> None:
    x: float = EDGE
    for word, meaning in MEANING.items():
        picture.rectangle((x, y - 11), (16, 14), fill=COLORS[word])
        picture.text((x + 22, y), meaning, 11, fill=INK)
        x += 38 + 6.2 * len(meaning)
    picture.text((EDGE, y + 20), "a vote in red is not the single processor's", 11, fill="#c53030")


LANE, STEP = 150, 26
EVENT_COLORS = {"begin": "#2b6cb0", "send": "#2f855a", "deliver": "#2f855a", "vote": "#b7791f", "sync": "#6b46c1"}


def draw_sequence(events: list[Event], replicas: int, title: str, path: str) -> None:
    """Draws one frame's events as a sequence chart: a lane for each replica, and time downwards, not to scale.

    Each tick that has events is one row. A message begins where it was sent, or above the picture, from a frame before."""
    ticks = sorted({event.tick for event in events})
    row = {tick: HEAD + 30 + STEP * at for at, tick in enumerate(ticks)}
    picture = Picture(110 + LANE * replicas, HEAD + 60 + STEP * len(ticks), title)
    picture.text((EDGE, 26), title, 15, weight="bold", fill=INK)
    for number in range(replicas):
        picture.text((_lane(number), HEAD - 12), f"replica {number}", 12, anchor="middle", fill=INK, weight="bold")
        picture.line((_lane(number), HEAD), (_lane(number), HEAD + 36 + STEP * len(ticks)), stroke=LINE, width_of_line=2)
    for tick in ticks:
        picture.text((EDGE, row[tick] + 4), str(tick), 10, fill=INK)
    sent = {(event.replica, event.block): row[event.tick] for event in events if event.kind == "send"}
    for event in events:
        if event.kind == "deliver":
            start = (_lane(event.sender), sent.get((event.sender, event.sent), HEAD))
            picture.line(start, (_lane(event.replica), row[event.tick]), stroke=EVENT_COLORS["deliver"], tag="deliver")
            picture.circle((_lane(event.replica), row[event.tick]), 3, fill=EVENT_COLORS["deliver"])
    for event in events:
        if event.kind != "deliver":
            x, y = _lane(event.replica), row[event.tick]
            picture.circle((x, y), 5, fill=EVENT_COLORS[event.kind], tag=event.kind)
            picture.text((x + 7, y - 5), event.kind, 10, fill=EVENT_COLORS[event.kind])
    picture.write(path)


def _lane(replica: int) -> float:
    return 110 + LANE * replica
