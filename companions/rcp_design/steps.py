"""The steps between nodes that `rcp` has shown so far, and the walks that they make up.

A step from one node to the next does not depend on the votes: it is unvoted under each pattern that votes neither node."""
from __future__ import annotations

from collections.abc import Callable, Collection, Mapping
from graphlib import CycleError, TopologicalSorter

from .answers import Node, Verdict

Votes = frozenset[Node]
Window = frozenset[Node]


class Steps:
    """What was shown, as the nodes before and after each node."""

    def __init__(self) -> None:
        self.before: dict[Node, dict[Node, None]] = {}
        self.after: dict[Node, dict[Node, None]] = {}

    def learn(self, verdict: Verdict) -> None:
        """Takes in the steps of a walk or a cycle."""
        nodes = verdict.nodes
        for node in nodes:
            self.before.setdefault(node, {})
            self.after.setdefault(node, {})
        closing = nodes[:1] if verdict.recovery is None else ()
        for first, second in zip(nodes, nodes[1:] + closing):
            self.after[first][second] = None
            self.before[second][first] = None

    def verdict(self, votes: Collection[Node]) -> Verdict:
        """A cycle of steps between nodes that are not voted, or else a longest walk."""
        left = {node: [first for first in before if first not in votes]
                for node, before in self.before.items() if node not in votes}
        try:
            order = tuple(TopologicalSorter(left).static_order())
        except CycleError as error:
            return Verdict(None, tuple(error.args[1][:-1]))
        walk = _longest(order, left)
        return Verdict(len(walk) + 1, walk)


def _longest(order: tuple[Node, ...], before: Mapping[Node, list[Node]]) -> tuple[Node, ...]:
    """A longest walk, where the nodes before each node come earlier in the order."""
    length: dict[Node, int] = {}
    back: dict[Node, Node | None] = {}
    for node in order:
        back[node] = max(before[node], key=length.__getitem__, default=None)
        length[node] = 1 + length.get(back[node], 0)
    at = max(order, key=length.__getitem__, default=None)
    walk: list[Node] = []
    while at is not None:
        walk.append(at)
        at = back[at]
    return tuple(reversed(walk))


def windows(verdict: Verdict, frames: int) -> list[Window]:
    """Sets of nodes of which each must have a vote where the recovery length is to be at most so many frames.

    So many nodes in a row are a walk that is too long, wherever they stand in a walk; round a cycle they go on from its start,
    and a cycle of fewer nodes goes round more than once."""
    nodes = verdict.nodes
    if verdict.recovery is not None:
        last = len(nodes) - frames
        starts = sorted({*range(0, last, frames), last}) if last >= 0 else []
        return [frozenset(nodes[start:start + frames]) for start in starts]
    if len(nodes) <= frames:
        return [frozenset(nodes)]
    return [frozenset((nodes + nodes)[start:start + frames]) for start in range(0, len(nodes), frames)]


def open_windows(ask: Callable[[Votes], Verdict], votes: Votes, frames: int) -> tuple[list[Window], Votes]:
    """Asks for walks that are too long, with all nodes of those before voted, until none is left.

    Gives their windows, and the votes with which none was left."""
    found: list[Window] = []
    verdict = ask(votes)
    while not verdict.keeps(frames):
        found += windows(verdict, frames)
        votes = votes | frozenset(verdict.nodes)
        verdict = ask(votes)
    return found, votes
