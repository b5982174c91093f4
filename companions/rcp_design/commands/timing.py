"""Prints both sides of each timing rule of a file and the slack, in ticks: how much the left side may still grow.

A slack below 0 is a rule that fails. Drifts are rounded up, as rcp rounds them."""
from __future__ import annotations

import argparse
from collections.abc import Mapping
from dataclasses import dataclass

from ..program import Rcp
from ..stop import NOT_FOUND, REFUSED, Refused, Stop
from ..taskfile import TaskFile
from ..taskplaces import KEYS, read_fault

EXAMPLE = "timing examples/motor.toml --tick-us 0.1"
GREATEST_DRIFT_PPM = 1000


@dataclass(frozen=True)
class Side:
    """One comparison of a rule, in ticks or in parts per million."""

    rule: int
    text: str
    left: int
    right: int
    is_strict: bool = False

    @property
    def slack(self) -> int:
        """How much the left side may still grow."""
        return self.right - self.left - self.is_strict


def drift(ticks: int, ppm: int) -> int:
    """What a clock gains or loses in so many ticks, rounded up."""
    return -(-ticks * ppm // 1_000_000)


def sides(t: Mapping[str, int]) -> list[Side]:
    """The comparisons of the five rules, in the order in which rcp tests them."""
    computed, sent = t["compute"], t["compute"] + t["broadcast"]
    frame = sent + t["vote"] + t["sync"]
    limit = t["drift_limit_ppm"]
    delay_limit = frame - 2 * t["skew_limit"] - 2 * drift(computed, limit) - 1
    phases = [Side(1, f"1 <= {phase}", 1, t[phase]) for phase in ("compute", "broadcast", "vote", "sync")]
    begun = t["skew"] + drift(computed, t["drift_ppm"])
    return phases + [
        Side(2, "skew + drift(compute) + drift(compute + broadcast) + delay_max <= broadcast",
             begun + drift(sent, t["drift_ppm"]) + t["delay_max"], t["broadcast"]),
        Side(3, "skew + drift(compute) <= compute + delay_min", begun, computed + t["delay_min"]),
        Side(4, "2 * skew_limit + widest(compute + broadcast + vote) < sync",
             2 * t["skew_limit"] + drift(sent + t["vote"], limit), t["sync"], is_strict=True),
        Side(5, "skew <= skew_limit", t["skew"], t["skew_limit"]),
        Side(5, "drift_ppm <= drift_limit_ppm", t["drift_ppm"], limit),
        Side(5, "drift_limit_ppm <= 1000", limit, GREATEST_DRIFT_PPM),
        Side(5, "delay_min <= delay_max", t["delay_min"], t["delay_max"]),
        Side(5, "delay_max <= delay_limit", t["delay_max"], delay_limit),
    ]


def add_arguments(parser: argparse.ArgumentParser) -> None:
    """The words of this command."""
    parser.add_argument("file", metavar="FILE", help="a task file; it may be refused for a timing rule")
    parser.add_argument("--tick-us", metavar="US", type=float, help="the length of a tick in microseconds, to tell times")


def run(arguments: argparse.Namespace, rcp: Rcp) -> int:
    """Prints a row for each comparison."""
    answer = rcp.run("check", arguments.file)
    fault = read_fault(answer.text)
    if answer.status not in (0, 4) and (fault is None or fault.rule is None):
        raise Refused(answer.text.strip(), answer.status)
    task_file = TaskFile.read(arguments.file)
    rows = sides({key: int(task_file.document["timing"][key]) for key in KEYS["timing"]})
    failed = next((row.rule for row in rows if row.slack < 0), None)
    if failed != (fault.rule if fault else None):
        raise Stop(f"rcp says otherwise: {answer.text.strip()}; this is a fault of design", NOT_FOUND)
    print(_frame(task_file.frame_ticks, arguments.tick_us))
    width = max(len(row.text) for row in rows)
    for row in rows:
        sign = "<" if row.is_strict else "<="
        print(f"rule {row.rule}  {row.text:<{width}}  {row.left:>10} {sign:<2} {row.right:>10}  slack {row.slack}")
    return REFUSED if failed else 0


def _frame(ticks: int, tick_us: float | None) -> str:
    if tick_us is None:
        return f"frame {ticks} ticks"
    return f"frame {ticks} ticks, {ticks * tick_us / 1000:g} ms, {1e6 / (ticks * tick_us):g} frames a second"
