"""The fewest votes, against a search through all patterns."""
from __future__ import annotations

import os
import random
import re
import signal
import subprocess
import time
from itertools import combinations

from rcp_design.answers import Node
from rcp_design.program import Rcp
from rcp_design.taskfile import TaskFile

from .support import DESIGN, EXAMPLES, TASK_FILES, TOP, DesignTest, design, environment, example

HEAD = "replicas = 3\n" + example("motor.toml").split("replicas = 3\n")[1].split("[[sensor]]")[0]


def task_file(cells: str, bodies: list[str], slots: list[list[int]]) -> str:
    """A file with cells of one letter and tasks `t0`, `t1` and so on, without votes."""
    lines = [HEAD]
    lines += [f'[[cell]]\nname = "{cell}"\ninitial = 0' for cell in cells]
    lines += [f'[[task]]\nname = "t{number}"\nbody = "{body}"' for number, body in enumerate(bodies)]
    names = [", ".join(f'"t{task}"' for task in tasks) for tasks in slots]
    return "\n".join(lines + [f"[[slot]]\ntasks = [{tasks}]\nvotes = []" for tasks in names]) + "\n"


SMALL = {
    "shift": task_file("abc", ["a := 0; b := a; c := b;"], [[0], [], []]),
    "ring": task_file("abc", ["a := c; b := a;", "c := b + c;"], [[0], [1]]),
    "mixed": task_file("ab", ["a := a + b;", "b := a;", "b := b - 1;"], [[0], [1], [0], [2]]),
    "one slot": task_file("abcd", ["a := d; b := a; c := b; d := c;"], [[0]]),
    "constant": task_file("ab", ["a := b;"], [[0], []]),
}


class FullSearch:
    """What `rcp` says of each pattern of a file."""

    def __init__(self, text: str) -> None:
        self.file = TaskFile(text)
        rcp = Rcp(os.environ.get("RCP"))
        every = [frozenset(some) for size in range(len(self.file.nodes) + 1) for some in combinations(self.file.nodes, size)]
        self.recovery = {votes: rcp.check(self.file.with_votes(votes)).recovery for votes in every}

    def least(self, frames: int, weight: dict[str, int] | None = None, per_slot: int | None = None) -> int | None:
        """The least weight of a pattern that keeps so many frames; None where none does."""
        weights = [sum((weight or {}).get(node.cell, 1) for node in votes) for votes, recovery in self.recovery.items()
                   if recovery is not None and recovery <= frames and _fits(votes, per_slot)]
        return min(weights, default=None)


def _fits(votes: frozenset[Node], per_slot: int | None) -> bool:
    slots = [node.slot for node in votes]
    return per_slot is None or all(slots.count(slot) <= per_slot for slot in slots)


def told(text: str, key: str) -> int:
    """The number after a key at the start of a line."""
    return int(re.search(rf"(?m)^{key} (\d+)$", text)[1])


class FewestTest(DesignTest):
    """`fewest` and `pareto`."""

    def check_all_goals(self, text: str, words: tuple[str, ...] = (), **limits: object) -> None:
        """Compares each goal with the full search."""
        search = FullSearch(text)
        path = self.write("file.toml", text)
        for frames in range(1, len(search.file.nodes) + 2):
            ran = design("fewest", path, "--recovery", str(frames), *words)
            least = search.least(frames, **limits)
            with self.subTest(frames=frames, words=words):
                self.assertEqual(ran.status, 1 if least is None else 0, ran.err)
                if least is not None:
                    self.assertEqual(told(ran.out, "weight" if "weight " in ran.out.split("least")[0] else "votes"), least)
                    self.assertLessEqual(told(ran.out, "recovery"), frames)
                    self.assertIn("\nleast: ", ran.out)

    def test_small_files_are_searched_to_the_end(self) -> None:
        for name, text in SMALL.items():
            with self.subTest(name):
                self.check_all_goals(text)

    def test_motor_is_searched_to_the_end(self) -> None:
        self.check_all_goals(example("motor.toml"))

    def test_weights_are_counted(self) -> None:
        self.check_all_goals(SMALL["ring"], ("--weights", "a=3", "b=2"), weight={"a": 3, "b": 2})

    def test_slots_are_not_overfilled(self) -> None:
        self.check_all_goals(SMALL["mixed"], ("--per-slot", "1"), per_slot=1)

    def test_pitch_needs_two_votes_for_six_frames(self) -> None:
        # q and trim feed themselves in each slot, so each must be voted once.
        out = self.done("fewest", "examples/pitch.toml", "--recovery", "6")
        self.assertEqual(told(out, "votes"), 2)
        self.assertEqual(told(out, "recovery"), 6)

    def test_any_number_of_frames_will_do(self) -> None:
        # pos and sum feed themselves; err does not.
        self.assertEqual(told(self.done("fewest", "examples/motor_limit.toml", "--recovery", "5000"), "votes"), 2)

    def test_the_file_is_written_with_its_comments(self) -> None:
        path = str(self.folder / "out.toml")
        self.done("fewest", "examples/motor.toml", "--recovery", "2", "--out", path)
        written = TaskFile.read(path)
        self.assertTrue(Rcp(os.environ.get("RCP")).check(written.text).keeps(2))
        self.assertEqual(len(written.votes), 3)
        self.assertTrue(written.text.startswith(example("motor.toml").split("[[slot]]")[0]))

    def test_pareto_of_each_example(self) -> None:
        for name in TASK_FILES:
            with self.subTest(name):
                rows = [line.split() for line in self.done("pareto", f"examples/{name}").splitlines()[1:]]
                recoveries, votes = [int(row[0]) for row in rows], [int(row[1]) for row in rows]
                self.assertEqual(recoveries, sorted(set(recoveries), reverse=True))
                self.assertEqual(votes, sorted(set(votes)))
                self.assertTrue(all(row[2] == "least" for row in rows))
                # With one frame nothing may be left unvoted.
                self.assertEqual((recoveries[-1], votes[-1]), (1, len(TaskFile.read(str(EXAMPLES / name)).nodes)))

    def test_pareto_of_the_motor_is_that_of_the_full_search(self) -> None:
        search = FullSearch(example("motor.toml"))
        rows = [tuple(map(int, line.split()[:2])) for line in self.done("pareto", "examples/motor.toml").splitlines()[1:]]
        least = {frames: search.least(frames) for frames in range(1, 8)}
        self.assertEqual(sorted(rows), [(frames, votes) for frames, votes in least.items()
                                        if frames == 1 or votes < least[frames - 1]])

    def test_stopped_search_tells_a_bound(self) -> None:
        path = self.write("large.toml", large())
        search = subprocess.Popen([str(DESIGN), "fewest", path, "--recovery", "16"], cwd=TOP, env=environment(), text=True,
                                  stdout=subprocess.PIPE, stderr=subprocess.PIPE, start_new_session=True)
        time.sleep(6)
        os.killpg(search.pid, signal.SIGINT)
        out, err = search.communicate(timeout=30)
        self.assertEqual(search.returncode, 130, err)
        self.assertNotIn("Traceback", err)
        self.check_bound(path, out, 16)

    def test_time_that_is_over_ends_the_search(self) -> None:
        path = self.write("large.toml", large())
        ran = design("fewest", path, "--recovery", "16", "--seconds", "3", "--out", str(self.folder / "out.toml"))
        self.assertEqual(ran.status, 130, ran.err)
        self.check_bound(path, ran.out, 16)
        verdict = Rcp(os.environ.get("RCP")).check_file(str(self.folder / "out.toml"))
        self.assertTrue(verdict.keeps(16))
        self.assertEqual(len(verdict.votes), told(ran.out, "votes"))

    def check_bound(self, path: str, out: str, frames: int) -> None:
        """The pattern that is printed is as good as it says, and has no fewer votes than the bound."""
        bound = int(re.search(r"(?m)^bound: stopped; each pattern has at least votes (\d+)", out)[1])
        self.assertLess(bound, told(out, "votes"))
        self.assertLessEqual(told(out, "recovery"), frames)


def large() -> str:
    """A file of the largest size, each of whose slots runs four tasks of one or two sets: its search is long."""
    draw = random.Random(1)
    names = [f"c{number}" for number in range(64)]
    targets = [draw.sample(names, draw.randint(1, 2)) for _ in range(128)]
    lines = [HEAD, *(f'[[cell]]\nname = "{name}"\ninitial = 0' for name in names)]
    for number, cells in enumerate(targets):
        body = " ".join(f"{cell} := {' + '.join(draw.sample(names, draw.randint(1, 3)))};" for cell in cells)
        lines.append(f'[[task]]\nname = "t{number}"\nbody = "{body}"')
    for _ in range(32):
        tasks: list[int] = []
        for task in draw.sample(range(128), 128):
            if len(tasks) < 4 and not any(set(targets[task]) & set(targets[other]) for other in tasks):
                tasks.append(task)
        lines.append("[[slot]]\ntasks = [" + ", ".join(f'"t{task}"' for task in tasks) + "]\nvotes = []")
    return "\n".join(lines) + "\n"
