"""The fewest nodes that meet each of some sets, by CBC."""
from __future__ import annotations

from collections.abc import Iterable, Mapping
from dataclasses import dataclass

from .answers import Node
from .steps import Window
from .stop import NOT_FOUND, Stop, missing

try:
    import pulp
except ImportError:
    raise missing("python3-pulp") from None


@dataclass(frozen=True)
class Choice:
    """Nodes that meet all sets; `is_least` where no cheaper ones do."""

    nodes: frozenset[Node]
    is_least: bool


class Cover:
    """Sets that must be met, with a price for each node and, where `per_slot` is given, at most so many nodes of a slot."""

    def __init__(self, prices: Mapping[Node, int], per_slot: int | None = None) -> None:
        self._prices = prices
        self._per_slot = per_slot
        self._sets: dict[Window, None] = {}

    def __len__(self) -> int:
        return len(self._sets)

    def add(self, sets: Iterable[Window]) -> None:
        """Takes in sets."""
        self._sets.update(dict.fromkeys(sets))

    def solve(self, seconds: float) -> Choice | None:
        """The cheapest nodes that meet all sets, or the best within so many seconds; None where no nodes do."""
        nodes = sorted(set().union(*self._sets))
        problem = pulp.LpProblem("votes", pulp.LpMinimize)
        of = {node: pulp.LpVariable(f"v{i}", 0, 1, pulp.LpInteger) for i, node in enumerate(nodes)}
        problem.setObjective(pulp.LpAffineExpression([(of[node], self._prices[node]) for node in nodes]))
        for window in self._sets:
            problem.addConstraint(pulp.LpAffineExpression([(of[node], 1) for node in sorted(window)]) >= 1)
        self._limit_slots(problem, of)
        if _run(problem, seconds) == pulp.LpStatusInfeasible:
            return None
        if problem.sol_status not in (pulp.LpSolutionOptimal, pulp.LpSolutionIntegerFeasible):
            return Choice(frozenset(nodes), is_least=False)
        chosen = frozenset(node for node, variable in of.items() if (variable.value() or 0) > 0.5)
        return Choice(chosen, problem.sol_status == pulp.LpSolutionOptimal)

    def _limit_slots(self, problem: pulp.LpProblem, of: dict[Node, pulp.LpVariable]) -> None:
        if self._per_slot is None:
            return
        for slot in sorted({node.slot for node in of}):
            votes = [(variable, 1) for node, variable in of.items() if node.slot == slot]
            problem.addConstraint(pulp.LpAffineExpression(votes) <= self._per_slot)


def _run(problem: pulp.LpProblem, seconds: float) -> int:
    solver = pulp.COIN_CMD(path="cbc", msg=False, timeLimit=max(1, int(seconds)))
    if not solver.available():
        raise missing("coinor-cbc")
    try:
        return problem.solve(solver)
    except pulp.PulpSolverError as error:
        raise Stop(f"cbc failed: {error}", NOT_FOUND) from None
