"""The printed texts of `rcp`, read into values."""
from __future__ import annotations

from collections.abc import Iterator
from dataclasses import dataclass, field
from typing import NamedTuple


# The ends of the numbers that `rcp` reads and computes.
LEAST, GREATEST = -(2**63), 2**63 - 1


class Node(NamedTuple):
    """A cell at the end of a slot."""

    slot: int
    cell: str

    def __str__(self) -> str:
        return f"{self.slot}:{self.cell}"


def read_node(word: str) -> Node:
    """A node as `rcp` prints it."""
    slot, cell = word.split(":", 1)
    return Node(int(slot), cell)


def print_nodes(nodes: tuple[Node, ...] | list[Node]) -> str:
    """Nodes as `rcp` prints them."""
    return " ".join(map(str, nodes)) or "-"


@dataclass(frozen=True)
class Verdict:
    """What `check` says. `recovery` is in frames; it is None where `nodes` are a cycle, and else they are the walk."""

    recovery: int | None
    nodes: tuple[Node, ...]
    votes: frozenset[Node] = frozenset()
    bodies: dict[str, str] = field(default_factory=dict)

    def keeps(self, frames: int) -> bool:
        """Whether the recovery length is at most so many frames."""
        return self.recovery is not None and self.recovery <= frames


@dataclass(frozen=True)
class Thinned:
    """What `thin` leaves."""

    votes: frozenset[Node]
    spared: int
    recovery: int


@dataclass(frozen=True)
class IdealFrame:
    """One frame of the single processor: the commands, and the state after it."""

    number: int
    commands: dict[str, int]
    slot: int
    cells: tuple[int, ...]


@dataclass(frozen=True)
class ReplicaState:
    """One replica after a frame."""

    number: int
    is_up: bool
    slot: int
    cells: tuple[int, ...]
    is_working: bool


@dataclass(frozen=True)
class Frame:
    """One frame of a replay. A vote is None where no value has the majority."""

    number: int
    has_guard: bool
    votes: dict[str, int | None]
    replicas: list[ReplicaState]


@dataclass(frozen=True)
class Event:
    """One timed event of a frame's block. `replica` is the receiver of a delivery, `sender` who sent it, in frame `sent`."""

    block: int
    tick: int
    kind: str
    replica: int
    sender: int | None = None
    sent: int | None = None


def _words(text: str) -> Iterator[list[str]]:
    for line in text.splitlines():
        yield line.split(" ")


def _names(words: list[str]) -> list[str]:
    return [] if words == ["-"] else words


def _voted(words: list[str]) -> list[Node]:
    """The nodes of a line `slot S votes NAME NAME ..`."""
    return [Node(int(words[1]), name) for name in _names(words[3:])]


def read_verdict(text: str) -> Verdict:
    """The text of `check`, or its refusal of a cycle."""
    bodies: dict[str, str] = {}
    votes: list[Node] = []
    recovery, nodes = None, ()
    for words in _words(text):
        if words[0] == "task":
            bodies[words[1]] = " ".join(words[2:])
        elif words[0] == "slot":
            votes += _voted(words)
        elif words[0] == "recovery":
            recovery = int(words[1])
        elif words[0] == "walk":
            nodes = tuple(map(read_node, _names(words[1:])))
        elif words[:3] == ["pattern", "refused:", "cycle"]:
            nodes = tuple(map(read_node, words[3:]))
    return Verdict(recovery, nodes, frozenset(votes), bodies)


def read_thinned(text: str) -> Thinned:
    """The text of `thin`."""
    votes: list[Node] = []
    numbers = {"spared": 0, "recovery": 0}
    for words in _words(text):
        if words[0] == "slot":
            votes += _voted(words)
        elif words[0] in numbers:
            numbers[words[0]] = int(words[1])
    return Thinned(frozenset(votes), numbers["spared"], numbers["recovery"])


def read_ideal(text: str) -> list[IdealFrame]:
    """The text of `ideal`."""
    frames: list[IdealFrame] = []
    number, commands = 0, {}
    for words in _words(text):
        if words[0] == "frame":
            number, commands = int(words[1]), {}
        elif words[0] == "vote":
            commands[words[1]] = int(words[2])
        elif words[0] == "ideal":
            frames.append(IdealFrame(number, commands, int(words[2]), tuple(map(int, words[4:]))))
    return frames


def _replica(words: list[str]) -> ReplicaState:
    """A line `replica P up slot S cells V V .. working G`."""
    cells = tuple(map(int, words[6:-2]))
    return ReplicaState(int(words[1]), words[2] == "up", int(words[4]), cells, words[-1] == "yes")


def read_replay(text: str) -> list[Frame]:
    """The text of `replay`."""
    frames: list[Frame] = []
    for words in _words(text):
        if words[0] == "frame":
            frames.append(Frame(int(words[1]), words[3] == "yes", {}, []))
        elif words[0] == "vote":
            frames[-1].votes[words[1]] = None if words[2] == "none" else int(words[2])
        elif words[0] == "replica":
            frames[-1].replicas.append(_replica(words))
    return frames


def read_events(text: str) -> list[Event]:
    """The text of `events`."""
    events: list[Event] = []
    block = 0
    for words in _words(text):
        if words[0] == "frame":
            block = int(words[1])
        elif words[0] == "end":
            break
        elif words[1] == "deliver":
            sender, receiver, sent = int(words[2]), int(words[4]), int(words[6])
            events.append(Event(block, int(words[0]), "deliver", receiver, sender, sent))
        else:
            events.append(Event(block, int(words[0]), words[1], int(words[2])))
    return events
