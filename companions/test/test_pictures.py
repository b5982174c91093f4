"""The pictures: they parse, and hold what they must."""
from __future__ import annotations

import xml.etree.ElementTree as ET
from collections import Counter
from pathlib import Path

from rcp_design.answers import read_events
from rcp_design.timeline import draw_sequence

from .support import TASK_FILES, DesignTest, design

SVG = "{http://www.w3.org/2000/svg}"
# One frame of three replicas, as the formats page orders events; replica 2 is 50 ticks late.
EVENTS = """frame 0
0 begin 0
0 begin 1
50 begin 2
30000 send 0
30000 send 1
30053 send 2
30100 deliver 1 to 0 of 0
30100 deliver 0 to 1 of 0
30100 deliver 0 to 2 of 0
30100 deliver 1 to 2 of 0
30153 deliver 2 to 1 of 0
32053 deliver 2 to 0 of 0
40000 vote 0
40000 vote 1
40054 vote 2
44000 sync 0
44000 sync 1
44054 sync 2
end 1
"""


class Shapes:
    """The shapes of a picture."""

    def __init__(self, path: str) -> None:
        self.root = ET.parse(path).getroot()

    def count(self, tag: str) -> Counter[str]:
        """How many shapes of a kind there are of each class."""
        return Counter(shape.get("class", "") for shape in self.root.iter(SVG + tag))

    @property
    def words(self) -> list[str]:
        """All texts."""
        return [shape.text or "" for shape in self.root.iter(SVG + "text")]


class PictureTest(DesignTest):
    """`grid`, `timeline` and the picture of `pareto`."""

    def draw(self, *words: str) -> Shapes:
        """Runs a command that draws."""
        path = str(self.folder / "out.svg")
        self.done(*words, "--svg", path)
        return Shapes(path)

    def test_grid_of_pitch_has_its_votes_and_its_walk(self) -> None:
        shapes = self.draw("grid", "examples/pitch.toml")
        # Four slots of five cells, two of them voted; the walk of a recovery length of ten has nine nodes.
        self.assertEqual(shapes.count("rect")["voted"], 2)
        self.assertEqual(shapes.count("rect")["node"], 18)
        self.assertEqual(shapes.count("circle")["walk"], 9)
        self.assertEqual(sorted(word for word in shapes.words if word.isdecimal()), [str(number) for number in range(1, 10)])
        for word in ("q", "ref", "trim", "mode", "out", "slot 0", "slot 3", "filter", "trimmer", "2 votes, recovery 10 frames"):
            self.assertIn(word, shapes.words)

    def test_grid_tells_steps_and_time(self) -> None:
        out = self.done("grid", "examples/motor.toml", "--tick-us", "0.1")
        self.assertEqual(out.splitlines()[0], "recovery 3 frames, 150000 ticks, 15 ms; the walk:")
        self.assertEqual([line.split() for line in out.splitlines()[1:]],
                         [["1", "0:err", "set", "by", "sense"], ["2", "1:err", "kept"]])

    def test_grid_of_a_refused_pattern_has_its_cycle(self) -> None:
        path = self.write("none.toml", self.done("votes", "examples/motor.toml", "none"))
        shapes = self.draw("grid", path)
        self.assertEqual((shapes.count("rect")["voted"], shapes.count("circle")["walk"]), (0, 2))

    def test_grid_of_each_example_parses(self) -> None:
        for name in TASK_FILES:
            with self.subTest(name):
                self.draw("grid", f"examples/{name}")

    def test_timeline_of_the_motor(self) -> None:
        shapes = self.draw("timeline", "examples/motor.toml", "examples/motor_corrupt.csv")
        # Replica 2 is wrong after frames 0 and 1, right after frame 2, and working again after frame 3.
        rects = shapes.count("rect")
        self.assertEqual((rects["working"], rects["wrong"], rects["right"], rects["guard"]), (9, 2, 1, 4))
        self.assertEqual(shapes.count("circle")["row"], 1)
        self.assertEqual(shapes.count("text")["vote"], 4)

    def test_timeline_marks_the_rows_of_a_journal(self) -> None:
        shapes = self.draw("timeline", "examples/motor.toml", "examples/motor_faults.csv")
        # Replica 1 has a row in each of the frames 1 to 10, and replica 2 two in frame 15.
        self.assertEqual(shapes.count("circle")["row"], 11)
        rects = shapes.count("rect")
        self.assertEqual(rects["down"] + rects["wrong-and-down"], 2)
        self.assertEqual(sum(rects[word] for word in ("working", "right", "wrong", "down", "wrong-and-down")), 60)

    def test_timeline_of_some_frames(self) -> None:
        shapes = self.draw("timeline", "examples/motor.toml", "examples/motor_faults.csv", "--frames", "14-16")
        self.assertEqual(shapes.count("rect")["guard"], 3)

    def test_pareto_has_a_point_for_each_row(self) -> None:
        path = str(self.folder / "out.svg")
        rows = self.done("pareto", "examples/motor.toml", "--svg", path).splitlines()[1:]
        self.assertEqual(Shapes(path).count("circle")["point"], len(rows))

    def test_events_become_a_sequence_chart(self) -> None:
        path = str(self.folder / "out.svg")
        draw_sequence(read_events(EVENTS), 3, "frame 0", path)
        shapes = Shapes(path)
        self.assertEqual(shapes.count("line")["deliver"], 6)
        circles = shapes.count("circle")
        self.assertEqual([circles[kind] for kind in ("begin", "send", "vote", "sync")], [3, 3, 3, 3])
        for word in ("replica 2", "30153", "44054"):
            self.assertIn(word, shapes.words)

    def test_a_program_without_events_is_said_to_have_none(self) -> None:
        path = str(self.folder / "out.svg")
        ran = design("timeline", "examples/motor.toml", "examples/motor.csv", "--sequence", "0", "--svg", path)
        if ran.status == 0:
            self.assertEqual(Shapes(path).count("line")["deliver"], 6)
        else:
            self.assertEqual((ran.status, ran.out), (1, "skipped: this rcp does not have the form `events`\n"))
            self.assertFalse(Path(path).exists())
