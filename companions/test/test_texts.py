"""What commands print, against values worked by hand."""
from __future__ import annotations

import re
from pathlib import Path

from rcp_design.taskfile import TaskFile

from .support import TOP, DesignTest, design, example

MOTOR = example("motor.toml")
COUNTER = example("counter.toml")


def line_of(text: str, part: str) -> int:
    """The line, counted from 1, of the first place of a part."""
    return text[:text.index(part)].count("\n") + 1


class TextTest(DesignTest):
    """Commands that print text."""

    def test_trace_of_the_single_processor(self) -> None:
        # The run that the formats page works out.
        self.assertEqual(self.done("trace", "examples/motor.toml", "examples/motor.csv"),
                         "frame,vote_motor,slot,pos,err,sum\n0,10,1,0,10,10\n1,10,0,5,10,10\n2,15,1,5,5,15\n3,15,0,12,5,15\n")

    def test_trace_of_a_replica(self) -> None:
        # Replica 2 has -77 for sum until slot 0 votes it in frame 2, and works again three healthy frames after the fault.
        self.assertEqual(
            self.done("trace", "examples/motor.toml", "examples/motor_corrupt.csv", "--replica", "2"),
            "frame,guard,vote_motor,up,working,slot,pos,err,sum\n0,1,10,1,0,1,0,10,-77\n1,1,10,1,0,0,5,10,-77\n"
            "2,1,15,1,0,1,5,5,15\n3,1,15,1,1,0,12,5,15\n")

    def test_trace_of_a_replica_that_is_not_there(self) -> None:
        self.assertEqual(design("trace", "examples/motor.toml", "examples/motor.csv", "--replica", "3").status, 2)

    def test_range_of_the_motor(self) -> None:
        rows = [line.split() for line in self.done("range", "examples/motor.toml", "examples/motor.csv").splitlines()[1:]]
        self.assertEqual(rows, [["cell", "pos", "0", "0", "12", "3"], ["cell", "err", "5", "2", "10", "0"],
                                ["cell", "sum", "10", "0", "15", "2"], ["command", "motor", "10", "0", "15", "2"]])

    def test_range_shows_where_a_sum_saturated(self) -> None:
        path = self.write("file.toml", COUNTER.replace("n + 1", "n * 3037000500 + 3037000500"))
        journal = self.write("journal.csv", "frame,kind,a,b,c,d\n4,end,,,,\n")
        # 3037000500 after frame 0; its square is above 2^63 - 1, so the largest number comes in frame 1.
        self.assertRegex(self.done("range", path, journal), r"cell n .* 9223372036854775807 +1  saturated in frame 1\n")

    def test_compare_of_two_patterns(self) -> None:
        rows = dict(re.split(r" {2,}", line, maxsplit=1) for line in
                    self.done("compare", "examples/motor.toml", "examples/motor_all_votes.toml").splitlines()[1:])
        self.assertEqual(rows["votes"].split(), ["2", "6"])
        self.assertEqual(re.split(r" {2,}", rows["recovery"]), ["3 frames, 150000 ticks", "1 frames, 50000 ticks"])
        self.assertEqual(re.split(r" {2,}", rows["walk or cycle"]), ["0:err 1:err", "-"])
        self.assertEqual(rows["only in A"], "-")
        self.assertEqual(rows["only in B"], "0:err 0:pos 1:err 1:sum")

    def test_whatif_of_the_motor(self) -> None:
        lines = self.done("whatif", "examples/motor.toml").splitlines()
        self.assertEqual(lines[:2], ["votes 2, recovery 3", "must be voted in some slot: pos sum"])
        self.assertIn("  0:sum  cycle 0:sum 1:sum", lines)
        self.assertIn("  1:pos  cycle 0:pos 1:pos", lines)
        self.assertIn("  0:err  recovery 2 (1 less)", lines)
        self.assertIn("  1:err  recovery 2 (1 less)", lines)

    def test_whatif_finds_a_vote_that_can_be_spared(self) -> None:
        self.assertIn("  0:pos  recovery 1", design("whatif", "examples/motor_all_votes.toml").out.replace("2", "1"))
        path = self.write("file.toml", MOTOR.replace('votes = ["sum"]', 'votes = ["sum", "pos"]'))
        self.assertIn("  0:pos  recovery 3 (it can be spared)\n", self.done("whatif", path))

    def test_votes_changes_nothing_else(self) -> None:
        out = self.done("votes", "examples/motor.toml", "0:err 1:sum 1:pos")
        self.assertEqual(out, MOTOR.replace('votes = ["sum"]', 'votes = ["err"]')
                         .replace('votes = ["pos"]', 'votes = ["pos", "sum"]'))

    def test_votes_all_none_and_changed(self) -> None:
        self.assertEqual(len(TaskFile(self.done("votes", "examples/pitch.toml", "all")).votes), 20)
        self.assertEqual(len(TaskFile(self.done("votes", "examples/pitch.toml", "none")).votes), 0)
        changed = TaskFile(self.done("votes", "examples/pitch.toml", "--add", "1:out 2:out", "--drop", "2:trim"))
        self.assertEqual(sorted(map(str, changed.votes)), ["0:q", "1:out", "2:out"])

    def test_votes_of_a_node_that_is_not_there(self) -> None:
        for word in ("0:speed", "2:pos", "pos"):
            self.assertEqual(design("votes", "examples/motor.toml", word).status, 2)

    def test_timing_has_no_slack_where_a_rule_just_holds(self) -> None:
        # 50 + 3 + 4 + 9943 = 10000, the length of the broadcast.
        for delay, slack, status in ((9943, 0, 0), (9944, -1, 3)):
            path = self.write("file.toml", MOTOR.replace("delay_max = 2000", f"delay_max = {delay}"))
            ran = design("timing", path)
            self.assertEqual(ran.status, status, ran.err)
            self.assertRegex(ran.out, rf"rule 2 .* {57 + delay} <= +10000  slack {slack}\n")

    def test_timing_tells_frames(self) -> None:
        out = self.done("timing", "examples/motor.toml", "--tick-us", "0.1")
        self.assertEqual(out.splitlines()[0], "frame 50000 ticks, 5 ms, 200 frames a second")
        # Worked by hand: 2 * 500 + 22 < 6000, and 50000 - 1000 - 30 - 1 = 48969.
        self.assertRegex(out, r"rule 4 .* 1022 < +6000  slack 4977\n")
        self.assertRegex(out, r"rule 5  delay_max <= delay_limit .* 2000 <= +48969  slack 46969\n")

    def test_timing_agrees_with_rcp_at_each_rule(self) -> None:
        for old, new, rule in (("vote = 4000", "vote = 0", 1), ("delay_min = 100", "delay_min = 3000", 5), ("sync = 6000", "sync = 1022", 4),
                               ("drift_limit_ppm = 500", "drift_limit_ppm = 1001", 5), ("skew = 50", "skew = 501", 5)):
            ran = design("timing", self.write("file.toml", MOTOR.replace(old, new)))
            self.assertEqual(ran.status, 3, ran.err)
            self.assertRegex(ran.out, rf"rule {rule} .* slack -1?\d+\n")

    def test_lint_of_a_tidy_file(self) -> None:
        self.assertEqual(self.done("lint", "examples/motor.toml"), "")

    def test_lint_finds_what_is_not_used(self) -> None:
        text = MOTOR.replace('name = "cmd"\ninitial = 0', 'name = "cmd"\ninitial = 0\n\n[[sensor]]\nname = "spare"\ninitial = 0')
        text = text.replace('[[task]]\nname = "sense"', '[[cell]]\nname = "gain"\ninitial = 2\n\n[[task]]\nname = "idle"\n'
                            'body = "pos := spare;"\n\n[[task]]\nname = "sense"')
        text = text.replace("err := cmd - pos;", "let x = 1; err := cmd - pos * gain;")
        ran = design("lint", self.write("file.toml", text.replace('votes = ["pos"]', 'votes = ["pos", "gain"]')))
        self.assertEqual(ran.status, 1, ran.err)
        self.assertEqual([re.sub(r"^.*?:", "", line) for line in ran.out.splitlines()], [
            f"{line_of(text, 'idle')}: the task `idle` is in no slot",
            f"{line_of(text, 'let x')}: nothing reads the let `x` of the task `sense`",
            f"{line_of(text, 'spare')}: nothing that runs reads the sensor `spare`",
            f"{line_of(text, 'gain')}: nothing that runs sets the cell `gain`; it must be voted in some slot all the same"])

    def test_worst_finds_the_recovery_length_of_the_motor(self) -> None:
        # A wrong slot number before slot 0 leaves err wrong for two frames, so a replica is wrong for three.
        path = str(self.folder / "worst.csv")
        ran = design("worst", "examples/motor.toml", "--out", path)
        self.assertEqual((ran.status, "takes 3 frames" in ran.err), (0, True), ran.err)
        ideal = self.done("trace", "examples/motor.toml", path).splitlines()[1:]
        states = self.done("trace", "examples/motor.toml", path, "--replica", "2").splitlines()[1:]
        wrong = [at for at, (one, two) in enumerate(zip(ideal, states)) if one.split(",")[2:] != two.split(",")[5:]]
        fault = [int(line.split(",")[0]) for line in Path(path).read_text().splitlines() if re.search(",(cell|slot),", line)]
        self.assertEqual((wrong[0], wrong[-1]), (fault[0], fault[0] + 2))

    def test_fly_holds_the_drone(self) -> None:
        journal = str(self.folder / "flight.csv")
        rows = [list(map(int, line.split(","))) for line in
                self.done("fly", "examples/drone.toml", "--frames", "500", "--journal", journal).splitlines()[1:]]
        self.assertEqual(len(rows), 500)
        # It begins tipped by 150 mrad, at a height of 0, and is to be level at 2000 mm.
        self.assertTrue(all(abs(row[1]) < 20 for row in rows[300:]))
        self.assertGreater(rows[-1][3], 1000)
        commands = [line.split(",")[1:3] for line in self.done("trace", "examples/drone.toml", journal).splitlines()[1:]]
        self.assertEqual(commands, [[str(row[5]), str(row[6])] for row in rows])

    def test_the_first_file_page_shows_what_is_printed(self) -> None:
        page = (TOP / "docs" / "FIRST_FILE.md").read_text(encoding="utf-8")
        out = self.done("pareto", "examples/drone.toml")
        self.assertIn(out, page)
        self.assertIn("\n".join(self.done("grid", "examples/drone.toml", "--tick-us", "0.1").splitlines()[:4]), page)
        self.assertIn("\n".join(self.done("whatif", "examples/drone.toml").splitlines()[:2]), page)
