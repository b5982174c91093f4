"""The search for the fewest votes, by sets of nodes of which one must be voted.

Each walk that is too long is such a set, and walks are made of steps that `rcp` has shown. A least choice that meets all
sets so far is a lower bound; where `rcp` says that it keeps the goal, it is the answer."""
from __future__ import annotations

import time
from collections.abc import Mapping
from dataclasses import dataclass

from .answers import Node, Verdict
from .program import Rcp
from .progress import Progress
from .solver import Cover
from .steps import Steps, Votes, open_windows
from .taskfile import TaskFile


class OutOfTime(Exception):
    """The time that was given is over."""


@dataclass(frozen=True)
class Goal:
    """A recovery length in frames, the price of a vote on each node, and the most votes of a slot."""

    frames: int
    prices: Mapping[Node, int]
    per_slot: int | None = None

    def price(self, votes: Votes) -> int:
        """The price of a pattern."""
        return sum(self.prices[node] for node in votes)

    def allows(self, votes: Votes) -> bool:
        """Whether no slot has too many votes."""
        slots = [node.slot for node in votes]
        return self.per_slot is None or all(slots.count(slot) <= self.per_slot for slot in set(slots))


@dataclass
class Found:
    """The cheapest pattern so far, that no pattern is cheaper than `bound`, and how many walks show that."""

    goal: Goal
    votes: Votes | None = None
    bound: int = 0
    walks: int = 0
    is_impossible: bool = False
    was_stopped: bool = False
    was_interrupted: bool = False

    @property
    def price(self) -> int | None:
        """The price of the pattern."""
        return None if self.votes is None else self.goal.price(self.votes)

    @property
    def is_least(self) -> bool:
        """Whether no pattern is cheaper."""
        return self.price is not None and self.price <= self.bound


class Search:
    """One file's search. What `rcp` has shown serves all goals."""

    def __init__(self, rcp: Rcp, task_file: TaskFile, progress: Progress, seconds: float) -> None:
        self._rcp = rcp
        self._file = task_file
        self._progress = progress
        self._seconds = seconds
        self._end = 0.0
        self._steps = Steps()

    def fewest(self, goal: Goal, known_bound: int = 0) -> Found:
        """The cheapest pattern that keeps the goal, or the best so far where the time is over or Ctrl-C was pressed."""
        found = Found(goal, bound=known_bound)
        self._end = time.monotonic() + self._seconds
        cover = Cover(goal.prices, goal.per_slot)
        try:
            self._begin(found, cover)
            while not (found.is_least or found.is_impossible):
                self._go_on(found, cover)
        except KeyboardInterrupt:
            found.was_stopped = found.was_interrupted = True
        except OutOfTime:
            found.was_stopped = True
        found.walks = len(cover)
        return found

    def _begin(self, found: Found, cover: Cover) -> None:
        every = frozenset(self._file.nodes)
        self._offer(found, every)
        self._offer_thinned(found, every)
        known, votes = open_windows(self._steps.verdict, frozenset(), found.goal.frames)
        cover.add(known)
        self._ask_about(found, cover, votes)

    def _go_on(self, found: Found, cover: Cover) -> None:
        """One round: the least choice for the sets so far, and what `rcp` shows of it."""
        chosen = self._choose(found, cover)
        if chosen is not None and not found.is_least:
            self._ask_about(found, cover, chosen)

    def _choose(self, found: Found, cover: Cover) -> Votes | None:
        """The least choice that leaves no walk of known steps too long; None where there is none."""
        while True:
            self._say(found, len(cover))
            choice = cover.solve(self._left())
            if choice is None:
                found.is_impossible = True
                return None
            if choice.is_least:
                found.bound = max(found.bound, found.goal.price(choice.nodes))
            known, votes = open_windows(self._steps.verdict, choice.nodes, found.goal.frames)
            if not known or found.is_least:
                return choice.nodes
            cover.add(known)
            self._offer_thinned(found, votes)

    def _ask_about(self, found: Found, cover: Cover, votes: Votes) -> None:
        """Takes in the walks that `rcp` shows with these votes, and the pattern that they lead to."""
        def ask(pattern: Votes) -> Verdict:
            self._say(found, len(cover))
            self._left()
            verdict = self._rcp.check(self._file.with_votes(pattern))
            self._steps.learn(verdict)
            return verdict

        shown, enough = open_windows(ask, votes, found.goal.frames)
        cover.add(shown)
        if shown:
            self._offer_thinned(found, enough)
        else:
            self._offer(found, votes)

    def _offer_thinned(self, found: Found, votes: Votes) -> None:
        """Offers what `thin` leaves of a pattern, where that keeps the goal."""
        thinned = self._rcp.thin(self._file.limited(votes, found.goal.frames))
        if thinned is not None and thinned.recovery <= found.goal.frames:
            self._offer(found, thinned.votes)

    @staticmethod
    def _offer(found: Found, votes: Votes) -> None:
        if found.goal.allows(votes) and (found.price is None or found.goal.price(votes) < found.price):
            found.votes = votes

    def _left(self) -> float:
        """The seconds that are left."""
        left = self._end - time.monotonic()
        if left <= 0:
            raise OutOfTime
        return left

    def _say(self, found: Found, walks: int) -> None:
        best = "none yet" if found.price is None else found.price
        self._progress.show(f"recovery {found.goal.frames}: at least {found.bound}, best {best}, {walks} walks")
